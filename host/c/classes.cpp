// The classes of delkuthi.hpp: a monitor before it is fresh, one in which 64 wait, and the calls on whole recordings.
#include "delkuthi.hpp"
#include <cstring>
#include <vector>

namespace {

using bytes = std::vector<std::uint8_t>;

// The bytes of a record: an event of a kind at a time below 256.
void add(bytes &recording, std::uint8_t kind, std::uint8_t time)
{
    const std::uint8_t record[] = {0, 9, kind, 0, 0, 0, 0, 0, 0, 0, time};
    recording.insert(recording.end(), std::begin(record), std::end(record));
}

// Is this the text at the front of the memory?
bool is(const bytes &memory, std::optional<std::size_t> length, std::string_view text)
{
    return length == text.size() && std::memcmp(memory.data(), text.data(), text.size()) == 0;
}

// Every call on a monitor that is not fresh yet.
bool closed()
{
    delkuthi::monitor monitor;
    bytes report(DELKUTHI_REPORT_LIMIT);
    const bool refused = monitor.event(0, 1).number() == delkuthi::number::closed
        && monitor.event(48, 0, 1).number() == delkuthi::number::closed && monitor.tick(1).number() == delkuthi::number::closed
        && monitor.close().number() == delkuthi::number::closed
        && monitor.withdraw().number() == delkuthi::number::nothing_to_withdraw
        && monitor.withdraw(0).number() == delkuthi::number::nothing_to_withdraw;

    return refused && monitor.closed() && monitor.rows() == 0 && monitor.clock() == 0 && monitor.steps() == 0
        && monitor.broken_rows() == 0 && !monitor.verdict(0) && monitor.broken_at(0) == 0 && monitor.waiting(0) == 0
        && !monitor.deadline(0) && !monitor.deadline() && !monitor.crowded_row(0, 1)
        && monitor.cause(0) == delkuthi::cause::none && !monitor.moment(0) && !monitor.oldest(0) && !monitor.oldest_stream(0);
}

// A Delay behind an Order, with 64 sources and no target.
bool crowded()
{
    delkuthi::monitor monitor;
    bool well = monitor.fresh(delkuthi::table{delkuthi_order(0, 1), delkuthi_delay(0, 1, 0, 1000)}).taken();

    for (std::uint64_t time = 1; time <= 64; time++)
        well = well && !monitor.crowded_row(0, time) && monitor.event(0, time).taken();
    return well && monitor.rows() == 2 && !monitor.closed() && monitor.waiting(1) == 64 && monitor.deadline() == 1001u
        && monitor.oldest(1) == 1u && monitor.oldest_stream(1) == 0u
        && monitor.crowded_row(0, 65) == 1 && !monitor.crowded_row(1, 65)
        && monitor.event(0, 65).number() == delkuthi::number::crowded && monitor.event(1, 65).taken() && monitor.waiting(1) == 0;
}

// A Pattern behind an Order: the table has the bytes of both, in edition 2, and no room for a 33rd of the longest rows.
bool longer()
{
    const std::uint64_t offsets[] = {0, 3};
    const std::uint8_t expected[] = {2, 0, 3, 6, 0, 1, 0, 43, 15, 2, 4, 0, 0, 0, 0, 0, 0, 0, 10, 0, 0, 0, 0, 0, 0, 0, 1,
                                     0, 0, 0, 0, 0, 0, 0, 0, 0, 0, 0, 0, 0, 0, 0, 0, 0, 0, 0, 0, 0, 0, 0, 3};
    const delkuthi_pair pairs[8] = {};
    delkuthi::table table{delkuthi_order(0, 1)}, full{};
    bool well = table.data()[0] == 1 && table.put(delkuthi_pattern(4, 10, 1, 0, offsets, 2))
        && table.size() == sizeof expected && std::memcmp(table.data(), expected, sizeof expected) == 0;

    delkuthi::table added{delkuthi_order(0, 1)};
    well = well && added.add(delkuthi_pattern(4, 10, 1, 0, offsets, 2)) && added.size() == sizeof expected
        && std::memcmp(added.data(), expected, sizeof expected) == 0
        && added.add(delkuthi_as_long(delkuthi_order(0, 0))).number() == delkuthi::number::row_kinds && added.size() == sizeof expected;
    well = well && added.row(9).length == 0 && added.row(0).length + 2 <= added.size();
    for (int row = 0; row < DELKUTHI_ROW_LIMIT; row++)
        well = well && full.put(delkuthi_arbitrary(0, pairs, 8));
    return well && full.size() == DELKUTHI_TABLE_LIMIT && !full.put(delkuthi_as_long(delkuthi_order(0, 1)));
}

// The report on a recording, by the three calls, and the page: 0@10, 1@20 under Delay 0 to 1, 2 to 3.
bool reports()
{
    const delkuthi::table table{delkuthi_delay(0, 1, 2, 3)};
    const std::string_view text = "closed 3\n0 broken 2\n";
    bytes recording{1}, memory(DELKUTHI_PAGE_LIMIT), none;
    delkuthi::monitor monitor, stepped;

    add(recording, 0, 10);
    add(recording, 1, 20);
    bool well = is(memory, delkuthi::report(table, recording, memory), text);
    well = well && is(memory, monitor.report_on(table, recording, memory), text) && monitor.broken_at(0) == 2;
    well = well && monitor.cause(0) == delkuthi::cause::overdue && monitor.moment(0) == 13u;
    well = well && stepped.fresh(table) && stepped.event(0, 10) && stepped.event(1, 20) && !stepped.report(memory);
    well = well && stepped.close() && is(memory, stepped.report(memory), text) && !stepped.report(none);
    well = well && !delkuthi::report(table, recording, none) && !monitor.report_on(table, recording, delkuthi::output(nullptr, 9));
    well = well && is(memory, delkuthi::report(none, recording, memory), "refused 1 0\n");
    return well && monitor.page(memory) == 146u && memory[0] == '-' && std::memcmp(memory.data() + 73, "  0  Delay", 10) == 0
        && !monitor.page(none);
}

// Records taken in parts, the second of which is refused at its second record, and a step withdrawn by its number.
bool takes()
{
    bytes first{1}, second{1};
    delkuthi::monitor monitor;

    add(first, 0, 10);
    add(second, 1, 12);
    add(second, 1, 12);
    const bool well = monitor.fresh(delkuthi::table{delkuthi_delay(0, 1, 2, 3)}).taken() && monitor.take(first).taken();
    const delkuthi::answer refused = monitor.take(second);
    return well && refused.number() == delkuthi::number::time_order && refused.place() == 12 && monitor.steps() == 2
        && monitor.withdraw(1).number() == delkuthi::number::other_step && monitor.withdraw(2) && monitor.steps() == 1
        && monitor.take(bytes{}).number() == delkuthi::number::recording_version;
}

// A recording that is written in memory with room for three records and taken as it is.
bool writes()
{
    bytes memory(34), none;
    delkuthi::recording recording(memory), short_one(none);
    delkuthi::monitor monitor;
    const bool well = recording.event(0, 10) && recording.event(48, 1, 11) && recording.tick(20);

    return well && recording.size() == 34 && recording.tick(21).number() == delkuthi::number::table_room
        && recording.event(64, 21).number() == delkuthi::number::kind && short_one.tick(1).number() == delkuthi::number::table_room
        && monitor.fresh(delkuthi::table{delkuthi_order(0, 1)}) && monitor.take(recording) && monitor.clock() == 20;
}

// Late stamps of a Repeat, 4 to 6, with events at 10 and 15.
bool late_stamps()
{
    const delkuthi::table table{delkuthi_repeat(0, 1, 4, 6), delkuthi_order(0, 1)};
    bytes recording{1};

    add(recording, 0, 10);
    add(recording, 0, 15);
    const delkuthi::stamps_answer refused = delkuthi::stamps(table, recording, 1, 1);
    return delkuthi::stamps(table, recording, 0, 1).word() == delkuthi::stamped::kept
        && delkuthi::stamps(table, recording, 0, 2).word() == delkuthi::stamped::unsure && !refused && !refused.word()
        && refused.number() == delkuthi::number::not_repeat;
}

// Two recordings joined, and the refusals of a join.
bool joins()
{
    bytes first{1}, second{1}, wrong{1, 0}, joined(64), none;

    add(first, 0, 10);
    add(second, 1, 12);
    const delkuthi::join_answer made = delkuthi::join(first, second, joined);
    const delkuthi::join_answer common = delkuthi::join(first, first, joined);
    const delkuthi::join_answer cut = delkuthi::join(wrong, second, joined);
    return made && made.length() == 23u && joined[14] == 1 && !common && common.number() == delkuthi::number::common_kind
        && common.second() && common.place() == 1 && !common.length() && cut.number() == delkuthi::number::record && !cut.second()
        && delkuthi::join(first, second, none).number() == delkuthi::number::table_room;
}

// The shortest stretch that breaks a row, and the refusals of the search.
bool stretches()
{
    const delkuthi::table table{delkuthi_delay(0, 1, 2, 3)};
    bytes recording{1}, quiet{1}, many{1};

    add(recording, 0, 10);
    add(recording, 1, 20);
    add(quiet, 2, 1);
    for (int i = 0; i < 257; i++)
        add(many, static_cast<std::uint8_t>(i % 2 ? 2 : 3), static_cast<std::uint8_t>(i / 2));
    const std::optional<delkuthi::stretch> found = delkuthi::shortest_stretch(table, recording, 0).found();
    return found && found->first == 0 && found->length == 2 && found->tried == 3
        && delkuthi::shortest_stretch(table, quiet, 0).number() == delkuthi::number::no_stretch
        && delkuthi::shortest_stretch(table, many, 0).number() == delkuthi::number::too_many_records
        && !delkuthi::shortest_stretch(table, quiet, 1).found();
}

} // namespace

int main()
{
    const bool calls = reports() && takes() && writes() && late_stamps() && joins() && stretches();

    return delkuthi::matches() && closed() && crowded() && longer() && calls ? 0 : 1;
}
