// A bench loop over a recorded drive, in C++17: bench_loop TABLE RECORDING [LAG [LATE]]
//
// It gives the monitor each record as it arrives, and a tick if the clock of the drive passes a deadline by LAG before the next record
// arrives. LAG is the longest time from a stamp to its arrival: a tick says that every earlier event has been given. A record arrives LATE
// after its stamp. Both are 0 if they are not given. The loop prints each row when the row breaks.
#include "delkuthi.hpp"
#include <charconv>
#include <cstdio>
#include <cstring>
#include <fstream>
#include <iterator>
#include <optional>
#include <vector>

namespace {

using bytes = std::vector<std::uint8_t>;

std::optional<bytes> file(const char *name)
{
    std::ifstream stream(name, std::ios::binary);
    if (!stream)
        return std::nullopt;
    return bytes(std::istreambuf_iterator<char>(stream), {});
}

// A record: an event, one with a colour, or a tick.
struct record {
    std::optional<std::uint8_t> kind;
    std::optional<std::uint8_t> colour;
    std::uint64_t time;
};

// A recording, record by record. Version 1 has no colours; 255 is not a colour.
class drive {
public:
    explicit drive(bytes recording) : recording_(std::move(recording)) {}

    bool over() const { return place_ == recording_.size(); }

    // The next record, if it is whole.
    std::optional<record> next() const
    {
        const std::size_t left = recording_.size() - place_, size = length();
        if (size < 8 || size > 10 || left < 2 + size)
            return std::nullopt;
        record found{std::nullopt, std::nullopt, 0};
        for (std::size_t i = size - 8; i < size; i++)
            found.time = found.time << 8 | recording_[place_ + 2 + i];
        if (size > 8)
            found.kind = recording_[place_ + 2];
        if (size > 9)
            found.colour = recording_[0] == 1 ? std::uint8_t{255} : recording_[place_ + 3];
        return found;
    }

    void pass() { place_ += 2 + length(); }

private:
    std::size_t length() const
    {
        return recording_.size() - place_ >= 2 && recording_[place_] == 0 ? recording_[place_ + 1] : 0;
    }

    bytes recording_;
    std::size_t place_ = 1;
};

delkuthi::answer take(delkuthi::monitor &monitor, const record &step)
{
    if (!step.kind)
        return monitor.tick(step.time);
    return step.colour ? monitor.event(*step.kind, *step.colour, step.time) : monitor.event(*step.kind, step.time);
}

// Prints each row that has broken since; returns all that are broken now.
std::uint32_t say(const delkuthi::monitor &monitor, std::uint32_t before)
{
    const std::uint32_t now = monitor.broken_rows();
    for (unsigned row = 0; row < DELKUTHI_ROW_LIMIT; row++)
        if ((now & ~before) >> row & 1)
            std::printf("%llu: row %u broken\n", static_cast<unsigned long long>(monitor.clock()), row);
    return now;
}

// Times in the drive.
struct delays {
    std::uint64_t lag = 0;
    std::uint64_t late = 0;
};

// Does the bench's clock pass a time by the lag before a record arrives?
bool passes(const delays &given, std::uint64_t until, std::uint64_t stamp)
{
    const std::uint64_t never = DELKUTHI_NO_LIMIT;
    const std::uint64_t wake = given.lag < never - until ? until + given.lag : never;

    return wake != never && (wake < given.late || stamp > wake - given.late);
}

int bench(const bytes &table, drive steps, const delays &given)
{
    static delkuthi::monitor monitor;
    const delkuthi::answer made = monitor.fresh(table.data(), table.size());
    if (!made) {
        std::printf("table refused with %d at byte %llu\n", static_cast<int>(made.number()), static_cast<unsigned long long>(made.place()));
        return 2;
    }
    std::uint32_t broken = 0;
    for (bool closed = false; !closed;) {
        closed = steps.over();
        const std::optional<record> next = closed ? record{} : steps.next();
        if (!next)
            return 4;
        const std::optional<std::uint64_t> deadline = monitor.deadline();
        const bool silent = !closed && deadline && passes(given, *deadline + 1, next->time);
        const delkuthi::answer answer = closed ? monitor.close() : silent ? monitor.tick(*deadline + 1) : take(monitor, *next);
        if (!silent && !closed)
            steps.pass();
        broken = say(monitor, broken);
        if (!answer) {
            std::printf("step refused with %d\n", static_cast<int>(answer.number()));
            return 2;
        }
    }
    if (!broken)
        std::printf("every row kept\n");
    return broken ? 1 : 0;
}

// Reads a whole number. Returns false if the text is not one.
bool read_number(const char *text, std::uint64_t &number)
{
    const char *end = text + std::strlen(text);
    const auto [stopped, error] = std::from_chars(text, end, number);

    return error == std::errc() && stopped == end;
}

} // namespace

int main(int argc, char **argv)
{
    delays given;
    const bool well = argc >= 3 && argc <= 5 && (argc < 4 || read_number(argv[3], given.lag)) && (argc < 5 || read_number(argv[4], given.late));
    const std::optional<bytes> table = well ? file(argv[1]) : std::nullopt;
    const std::optional<bytes> recording = well ? file(argv[2]) : std::nullopt;
    if (!delkuthi::matches())
        return 3;
    if (!table || !recording || recording->empty() || recording->front() < 1 || recording->front() > 2) {
        std::fprintf(stderr, "usage: bench_loop TABLE RECORDING [LAG [LATE]]\n");
        return 4;
    }
    return bench(*table, drive(*recording), given);
}
