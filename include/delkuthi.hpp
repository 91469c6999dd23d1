// delkuthi.hpp: the calls of delkuthi.h for C++17
//
// Values and enumerations take the place of numbers. Nothing is allocated and
// nothing is thrown: every call is noexcept, and a result that may be a refusal
// is [[nodiscard]]. delkuthi.h is the manual. Every call takes tables of both
// editions.
#ifndef DELKUTHI_HPP
#define DELKUTHI_HPP

#if defined(_MSVC_LANG) ? _MSVC_LANG < 201703L : __cplusplus < 201703L
#error "delkuthi.hpp needs C++17; before C++17 include delkuthi.h"
#endif

#include "delkuthi.h"
#include <array>
#include <cstddef>
#include <cstdint>
#include <initializer_list>
#include <optional>
#include <string_view>
#include <utility>

namespace delkuthi {

// The number of a refusal, as delkuthi.h lists them; `taken` is not a refusal.
enum class number : std::uint8_t {
    taken = DELKUTHI_TAKEN,
    table_version = DELKUTHI_TABLE_VERSION,
    row_cut = DELKUTHI_ROW_CUT,
    row_too_many = DELKUTHI_ROW_TOO_MANY,
    row_shape = DELKUTHI_ROW_SHAPE,
    row_kinds = DELKUTHI_ROW_KINDS,
    row_range = DELKUTHI_ROW_RANGE,
    row_bounds = DELKUTHI_ROW_BOUNDS,
    closed = DELKUTHI_CLOSED,
    kind = DELKUTHI_KIND,
    time_range = DELKUTHI_TIME_RANGE,
    time_order = DELKUTHI_TIME_ORDER,
    crowded = DELKUTHI_CROWDED,
    recording_version = DELKUTHI_RECORDING_VERSION,
    record = DELKUTHI_RECORD,
    no_row = DELKUTHI_NO_ROW,
    table_room = DELKUTHI_TABLE_ROOM,
    row_sort = DELKUTHI_ROW_SORT,
    form = DELKUTHI_FORM,
    common_kind = DELKUTHI_COMMON_KIND,
    nothing_to_withdraw = DELKUTHI_NOTHING_TO_WITHDRAW,
    too_many_records = DELKUTHI_TOO_MANY_RECORDS,
    no_stretch = DELKUTHI_NO_STRETCH,
    count_full = DELKUTHI_COUNT_FULL,
    not_repeat = DELKUTHI_NOT_REPEAT,
    other_step = DELKUTHI_OTHER_STEP,
};

// Returns a line of text for the number of a refusal.
inline std::string_view text(number refusal) noexcept
{
    return delkuthi_refusal_text(static_cast<std::uint8_t>(refusal));
}

// Returns the name of a row type.
inline std::string_view type_text(std::uint8_t type) noexcept
{
    return delkuthi_type_text(type);
}

// An answer: taken, or a refusal with its number and its place or row.
class [[nodiscard]] answer {
public:
    constexpr explicit answer(std::uint64_t given) noexcept : answer_(given) {}

    constexpr bool taken() const noexcept
    {
        return DELKUTHI_NUMBER(answer_) == DELKUTHI_TAKEN;
    }

    constexpr explicit operator bool() const noexcept { return taken(); }

    constexpr delkuthi::number number() const noexcept
    {
        return static_cast<delkuthi::number>(DELKUTHI_NUMBER(answer_));
    }

    // Where the refusal is: in the table or recording, or in a list of rows.
    constexpr std::uint64_t place() const noexcept
    {
        return DELKUTHI_PLACE(answer_);
    }

    constexpr std::uint64_t row() const noexcept
    {
        return DELKUTHI_ROW(answer_);
    }

    std::string_view text() const noexcept { return delkuthi::text(number()); }

protected:
    std::uint64_t answer_;
};

// What a row reads.
enum class verdict : std::uint8_t {
    open = DELKUTHI_OPEN,
    kept = DELKUTHI_KEPT,
    broken = DELKUTHI_BROKEN,
};

// Why a row broke.
enum class cause : std::uint8_t {
    none = 0,
    overdue = DELKUTHI_OVERDUE,
    by_event = DELKUTHI_BY_EVENT,
    at_close = DELKUTHI_AT_CLOSE,
};

// Does the linked library have the interface of this header?
inline bool matches() noexcept
{
    return DELKUTHI_MATCHES();
}

// Bytes that a call reads: a pointer and a length, or anything contiguous that
// has data() and size(). A null pointer stands for no bytes.
class input {
public:
    constexpr input(const std::uint8_t *bytes, std::size_t size) noexcept
        : data_(bytes ? bytes : &none_), size_(bytes ? size : 0)
    {
    }

    template <class Bytes,
              class = decltype(std::declval<const Bytes &>().data())>
    constexpr input(const Bytes &bytes) noexcept
        : input(bytes.data(), bytes.size())
    {
    }

    constexpr const std::uint8_t *data() const noexcept { return data_; }
    constexpr std::size_t size() const noexcept { return size_; }

private:
    static constexpr std::uint8_t none_ = 0;

    const std::uint8_t *data_;
    std::size_t size_;
};

// Memory that a call writes; the same forms as an input.
class output {
public:
    output(std::uint8_t *bytes, std::size_t size) noexcept
        : data_(bytes ? bytes : &none_), size_(bytes ? size : 0)
    {
    }

    template <class Bytes, class = decltype(std::declval<Bytes &>().data())>
    output(Bytes &bytes) noexcept : output(bytes.data(), bytes.size())
    {
    }

    std::uint8_t *data() const noexcept { return data_; }
    std::size_t size() const noexcept { return size_; }

private:
    static inline std::uint8_t none_ = 0; // never written, as its size is 0

    std::uint8_t *data_;
    std::size_t size_;
};

// A table of rows, which the functions of delkuthi.h make from their fields, in
// the lowest edition that has them all. It is empty if the rows are refused.
class table {
public:
    table(std::initializer_list<delkuthi_row> rows) noexcept
        : table(rows.begin(), rows.size())
    {
    }

    table(const delkuthi_row *rows, std::size_t count) noexcept
    {
        const delkuthi_row none{};
        const delkuthi_row *given = count ? rows : &none;
        const std::uint64_t made = delkuthi_make_any_table(
            given, count, bytes_.data(), bytes_.size());

        answer_ = delkuthi::answer(made);
        if (answer_)
            size_ = DELKUTHI_LENGTH(made);
    }

    // Adds a row of any length behind the others. A refusal leaves the table as
    // it was.
    delkuthi::answer add(const delkuthi_long_row &row) noexcept
    {
        const delkuthi::answer added(delkuthi_add_row(
            bytes_.data(), bytes_.size(), size_, row.body, row.length));

        if (added)
            size_ += 2 + row.length;
        return added;
    }

    // The row of a number, of length 0 if there is none.
    delkuthi_long_row row(std::uint64_t number) const noexcept
    {
        delkuthi_long_row found{};
        const std::uint64_t answer = delkuthi_table_row(
            bytes_.data(), size_, number, found.body, sizeof found.body);

        if (delkuthi::answer(answer))
            found.length = DELKUTHI_LENGTH(answer);
        return found;
    }

    // Puts a row of any length behind the others. A monitor asks about it in
    // `fresh`. Returns false if there is no room.
    [[nodiscard]] bool put(const delkuthi_long_row &row) noexcept
    {
        const std::size_t length = answer_
            ? delkuthi_put_row(bytes_.data(), bytes_.size(), size_, &row)
            : 0;

        size_ = length != 0 ? length : size_;
        return length != 0;
    }

    // Whether the rows were taken; or the number of the refusal and the row.
    delkuthi::answer answer() const noexcept { return answer_; }
    const std::uint8_t *data() const noexcept { return bytes_.data(); }
    std::size_t size() const noexcept { return size_; }

private:
    std::array<std::uint8_t, DELKUTHI_TABLE_LIMIT> bytes_{};
    std::size_t size_ = 0;
    delkuthi::answer answer_{DELKUTHI_TABLE_ROOM};
};

// The number of bytes that were written; nothing if that is 0.
inline std::optional<std::size_t> written(std::size_t bytes) noexcept
{
    return bytes == 0 ? std::nullopt : std::optional(bytes);
}

// A recording in memory, which grows by one record with each call. A refused
// call leaves the memory as it was.
class recording {
public:
    // The first `size` bytes of the memory are a recording already.
    explicit recording(output memory, std::size_t size = 0) noexcept
        : memory_(memory), size_(size)
    {
    }

    delkuthi::answer event(std::uint8_t kind, std::uint64_t time) noexcept
    {
        return grown(delkuthi_put_event(memory_.data(), memory_.size(), size_,
                                        kind, time));
    }

    delkuthi::answer event(std::uint8_t kind, std::uint8_t colour,
                           std::uint64_t time) noexcept
    {
        return grown(delkuthi_put_coloured_event(
            memory_.data(), memory_.size(), size_, kind, colour, time));
    }

    delkuthi::answer tick(std::uint64_t time) noexcept
    {
        return grown(
            delkuthi_put_tick(memory_.data(), memory_.size(), size_, time));
    }

    const std::uint8_t *data() const noexcept { return memory_.data(); }
    std::size_t size() const noexcept { return size_; }

private:
    delkuthi::answer grown(std::uint64_t put) noexcept
    {
        const delkuthi::answer answer(put);

        if (answer)
            size_ = DELKUTHI_LENGTH(put);
        return answer;
    }

    output memory_;
    std::size_t size_;
};

// A monitor. It holds its memory and nothing else: a copy is an independent
// monitor, and nothing has to be released. Before `fresh` it is closed and has
// no rows.
class monitor {
public:
    monitor() noexcept = default;

    delkuthi::answer fresh(input bytes) noexcept
    {
        return delkuthi::answer(
            delkuthi_fresh_2(&words_, bytes.data(), bytes.size()));
    }

    delkuthi::answer fresh(const std::uint8_t *bytes, std::size_t size) noexcept
    {
        return fresh(input(bytes, size));
    }

    delkuthi::answer fresh(const table &rows) noexcept
    {
        return rows.answer() ? fresh(rows.data(), rows.size()) : rows.answer();
    }

    delkuthi::answer event(std::uint8_t kind, std::uint64_t time) noexcept
    {
        return delkuthi::answer(delkuthi_event(&words_, kind, time));
    }

    delkuthi::answer event(std::uint8_t kind, std::uint8_t colour,
                           std::uint64_t time) noexcept
    {
        return delkuthi::answer(
            delkuthi_coloured_event(&words_, kind, colour, time));
    }

    // Says that every event stamped before the time has been given.
    delkuthi::answer tick(std::uint64_t time) noexcept
    {
        return delkuthi::answer(delkuthi_tick(&words_, time));
    }

    delkuthi::answer close() noexcept
    {
        return delkuthi::answer(delkuthi_close(&words_));
    }

    // Withdraws the last step, whichever that is.
    delkuthi::answer withdraw() noexcept
    {
        return delkuthi::answer(delkuthi_withdraw(&words_));
    }

    // Withdraws the last step if it has this number: what steps() returned
    // right after it.
    delkuthi::answer withdraw(std::uint64_t step) noexcept
    {
        return delkuthi::answer(delkuthi_withdraw_step(&words_, step));
    }

    // Takes the records of a recording, without a close, up to the first one
    // that is refused.
    delkuthi::answer take(input recording) noexcept
    {
        return delkuthi::answer(
            delkuthi_take(&words_, recording.data(), recording.size()));
    }

    std::uint64_t rows() const noexcept { return delkuthi_rows(&words_); }
    std::uint64_t clock() const noexcept { return delkuthi_clock(&words_); }
    std::uint64_t steps() const noexcept { return delkuthi_steps(&words_); }
    bool closed() const noexcept { return delkuthi_closed(&words_) != 0; }

    // Bit i is 1 if row i reads broken.
    std::uint32_t broken_rows() const noexcept
    {
        return delkuthi_broken_rows(&words_);
    }

    // What a row reads; nothing if there is no such row.
    std::optional<delkuthi::verdict> verdict(std::uint64_t row) const noexcept
    {
        const std::uint8_t word = delkuthi_row_verdict(&words_, row);

        return word == DELKUTHI_NO_ROW
            ? std::nullopt
            : std::optional(static_cast<delkuthi::verdict>(word));
    }

    // The step that broke a row, or 0.
    std::uint64_t broken_at(std::uint64_t row) const noexcept
    {
        return delkuthi_row_step(&words_, row);
    }

    // The row of a number of the monitor's table, of length 0 if there is none.
    delkuthi_long_row row(std::uint64_t number) const noexcept
    {
        delkuthi_long_row found{};
        const std::uint64_t answer = delkuthi_monitor_row(
            &words_, number, found.body, sizeof found.body);

        if (delkuthi::answer(answer))
            found.length = DELKUTHI_LENGTH(answer);
        return found;
    }

    // Why a row broke; `none` if it is not broken.
    delkuthi::cause cause(std::uint64_t row) const noexcept
    {
        return static_cast<delkuthi::cause>(delkuthi_row_cause(&words_, row));
    }

    // When it broke: the deadline that passed, or the time of the event or of
    // the close; nothing if it is not broken.
    std::optional<std::uint64_t> moment(std::uint64_t row) const noexcept
    {
        return limit(delkuthi_row_moment(&words_, row));
    }

    // How many wait in a row that is open.
    std::uint64_t waiting(std::uint64_t row) const noexcept
    {
        return delkuthi_row_waiting(&words_, row);
    }

    // The time of the oldest that waits in a row that is open, and its stream;
    // nothing if nothing waits.
    std::optional<std::uint64_t> oldest(std::uint64_t row) const noexcept
    {
        return limit(delkuthi_row_oldest(&words_, row));
    }

    std::optional<std::uint8_t> oldest_stream(std::uint64_t row) const noexcept
    {
        const std::uint8_t stream = delkuthi_row_oldest_stream(&words_, row);

        return stream == DELKUTHI_NO_STREAM ? std::nullopt
                                            : std::optional(stream);
    }

    // The first row for which an event of a plain kind would be refused with
    // 12; nothing if it would not be refused with 12.
    std::optional<std::uint8_t> crowded_row(std::uint8_t kind,
                                            std::uint64_t time) const noexcept
    {
        const std::uint8_t row = delkuthi_crowded_row(&words_, kind, time);

        return row == DELKUTHI_ROW_LIMIT ? std::nullopt : std::optional(row);
    }

    // The last time to which a tick leaves the row open; nothing if no tick
    // breaks it. Without a row: the earliest of all rows.
    std::optional<std::uint64_t> deadline(std::uint64_t row) const noexcept
    {
        return limit(delkuthi_row_deadline(&words_, row));
    }

    std::optional<std::uint64_t> deadline() const noexcept
    {
        return limit(delkuthi_deadline(&words_));
    }

    // Writes the page. Returns its length; nothing if the memory is too short.
    [[nodiscard]] std::optional<std::size_t> page(output out) const noexcept
    {
        return written(delkuthi_page(&words_, out.data(), out.size()));
    }

    // Writes the report of a closed monitor. Returns its length; nothing if
    // the monitor is not closed or the memory is too short.
    [[nodiscard]] std::optional<std::size_t> report(output out) const noexcept
    {
        return written(delkuthi_report_of(&words_, out.data(), out.size()));
    }

    // Makes the monitor fresh over a table, gives it a recording, and writes
    // the report. Returns its length; nothing if the memory is too short.
    [[nodiscard]] std::optional<std::size_t>
    report_on(input table, input recording, output out) noexcept
    {
        return written(delkuthi_report_on_2(
            &words_, table.data(), table.size(), recording.data(),
            recording.size(), out.data(), out.size()));
    }

    // The memory, for the calls of delkuthi.h.
    const delkuthi_monitor &words() const noexcept { return words_; }
    delkuthi_monitor &words() noexcept { return words_; }

private:
    static std::optional<std::uint64_t> limit(std::uint64_t time) noexcept
    {
        return time == DELKUTHI_NO_LIMIT ? std::nullopt : std::optional(time);
    }

    delkuthi_monitor words_{};
};

// Writes the report on a recording under a table, with a monitor on the stack.
// Returns its length; nothing if the memory is too short.
[[nodiscard]] inline std::optional<std::size_t>
report(input table, input recording, output out) noexcept
{
    return written(delkuthi_report_2(table.data(), table.size(),
                                     recording.data(), recording.size(),
                                     out.data(), out.size()));
}

// What a row reads if stamps may be late.
enum class stamped : std::uint8_t {
    kept = DELKUTHI_KEPT,
    broken = DELKUTHI_BROKEN,
    unsure = DELKUTHI_UNSURE,
};

// The answer of `stamps`.
class [[nodiscard]] stamps_answer : public answer {
public:
    using answer::answer;

    // What the row reads; nothing if the call was refused.
    constexpr std::optional<stamped> word() const noexcept
    {
        return taken()
            ? std::optional(static_cast<stamped>(DELKUTHI_WORD(answer_)))
            : std::nullopt;
    }
};

// Says what a Repeat row of span 1 reads at the close of a recording whose
// stamps may be late by up to `late`.
inline stamps_answer stamps(input table, input recording, std::uint64_t row,
                            std::uint64_t late) noexcept
{
    return stamps_answer(delkuthi_stamps_2(table.data(), table.size(),
                                           recording.data(), recording.size(),
                                           row, late));
}

// The answer of `join`.
class [[nodiscard]] join_answer : public answer {
public:
    using answer::answer;

    // The number of bytes written; nothing if the call was refused.
    constexpr std::optional<std::size_t> length() const noexcept
    {
        return taken() ? std::optional(DELKUTHI_LENGTH(answer_)) : std::nullopt;
    }

    // Is it the second recording that is refused?
    constexpr bool second() const noexcept
    {
        return DELKUTHI_JOIN_SECOND(answer_) != 0;
    }
};

// Joins two recordings that have no kind in common.
inline join_answer join(input first, input second, output joined) noexcept
{
    return join_answer(delkuthi_join(first.data(), first.size(), second.data(),
                                     second.size(), joined.data(),
                                     joined.size()));
}

// A stretch of consecutive records: the first, from 0; how many; and how many
// stretches were tried, including this one.
struct stretch {
    std::uint64_t first;
    std::uint64_t length;
    std::uint64_t tried;
};

// The answer of `shortest_stretch`.
class [[nodiscard]] stretch_answer : public answer {
public:
    using answer::answer;

    // The stretch; nothing if the call was refused.
    constexpr std::optional<delkuthi::stretch> found() const noexcept
    {
        return taken() ? std::optional(delkuthi::stretch{
                             DELKUTHI_STRETCH_FIRST(answer_),
                             DELKUTHI_STRETCH_LENGTH(answer_),
                             DELKUTHI_STRETCH_TRIED(answer_)})
                       : std::nullopt;
    }
};

// Finds the shortest stretch of a recording that breaks a row.
inline stretch_answer shortest_stretch(input table, input recording,
                                       std::uint64_t row) noexcept
{
    return stretch_answer(delkuthi_shortest_stretch_2(
        table.data(), table.size(), recording.data(), recording.size(), row));
}

} // namespace delkuthi

#endif
