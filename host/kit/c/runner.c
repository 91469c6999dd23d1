/*
 * Plays the vectors of the qualification kit. A vector is a list of items: bytes
 * of a table or a recording, or a call with the answer that the contract asks
 * for. After each call on the monitor the vector says what has changed in it,
 * and everything that the library answers about the monitor is compared:
 * verdict, step, what waits and deadline of each row, clock, count, broken rows.
 * A refused call has to leave the monitor as it was, to the byte, and no call
 * may write behind what it says that it wrote.
 */
#include "runner.h"
#include "delkuthi.h"
#include "vectors.h"
#include <string.h>

#define ROOM_LIMIT  8192
#define BEHIND      16   /* bytes behind the buffer, which have to stay */
#define FILL        0xA5
#define SHOWN_LIMIT 20

enum item {
    TABLE = 1, RECORDING, FRESH, EVENT, COLOURED, TICK, CLOSE, WITHDRAW, PAGE,
    REPORT, REPORT_ON, REPORT_OF, WRITE, JOIN, STAMPS, STRETCH, COUNT, ZEROS,
    WITHDRAW_STEP, TAKE, PUT, ADD_ROW, ROW_BACK
};

/* What the vector says of the monitor. */
static struct {
    uint64_t rows, clock, count;
    uint8_t closed;
    uint8_t verdicts[DELKUTHI_ROW_LIMIT], causes[DELKUTHI_ROW_LIMIT], streams[DELKUTHI_ROW_LIMIT];
    uint64_t moments[DELKUTHI_ROW_LIMIT], oldest[DELKUTHI_ROW_LIMIT];
    uint64_t steps[DELKUTHI_ROW_LIMIT], waiting[DELKUTHI_ROW_LIMIT], deadlines[DELKUTHI_ROW_LIMIT];
} expected;

static delkuthi_monitor monitor, before;
static const uint8_t *table, *recording; /* within the vectors */
static size_t table_length, recording_length;
static uint8_t buffer[ROOM_LIMIT + BEHIND];
static const uint8_t *at, *end; /* what is left of the vector */
static kit_print *out;
static uint32_t vector_number, item_number, shown;
static int has_monitor, failed;

static void say(const char *text)
{
    size_t length = 0;

    while (text[length] != 0)
        length++;
    out(text, length);
}

static void say_number(uint64_t number)
{
    char digits[20];
    size_t first = sizeof digits;

    do {
        digits[--first] = (char)('0' + (int)(number % 10));
        number /= 10;
    } while (number > 0);
    out(digits + first, sizeof digits - first);
}

/* Compares a number; the first difference of a vector is printed. */
static void same(const char *what, uint64_t found, uint64_t wanted)
{
    if (found == wanted || failed)
        return;
    failed = 1;
    if (shown++ >= SHOWN_LIMIT)
        return;
    say("vector ");
    say_number(vector_number);
    say(", item ");
    say_number(item_number);
    say(": ");
    say(what);
    say(" is ");
    say_number(found);
    say(", expected ");
    say_number(wanted);
    say("\n");
}

static uint8_t byte(void)
{
    if (at < end)
        return *at++;
    same("end of the vector", 1, 0);
    return 0;
}

/* A number in groups of seven bits, the lowest first. */
static uint64_t number(void)
{
    uint64_t result = 0;
    unsigned shift = 0;
    uint8_t group;

    do {
        group = byte();
        result |= (uint64_t)(group & 127) << shift;
        shift += 7;
    } while (group > 127 && shift < 64);
    return result;
}

/* A number that is given by the way to it. */
static uint64_t moved(uint64_t from)
{
    uint64_t way = number();

    return from + ((way >> 1) ^ (0 - (way & 1)));
}

/* Bytes after their number, in place. */
static const uint8_t *bytes(size_t *length)
{
    const uint8_t *first;

    *length = (size_t)number();
    first = at;
    if (*length > (size_t)(end - at))
        *length = (size_t)(end - at);
    at += *length;
    return first;
}

/* The length of the buffer for a call. The whole buffer is filled, so that a written byte shows. */
static size_t room(void)
{
    uint64_t length = number();

    memset(buffer, FILL, sizeof buffer);
    return length < ROOM_LIMIT ? (size_t)length : ROOM_LIMIT;
}

/* Compares the buffer with a text, given as its runs, and what is behind the text with what was there before. */
static void same_text(const char *what)
{
    uint64_t length = number();
    size_t place = 0;

    while (place < length && !failed) {
        uint8_t run = byte(), i;
        uint8_t first = run < 128 ? byte() : 0;

        for (i = 0; i < (run & 127) && place < ROOM_LIMIT; i++)
            same(what, buffer[place++], run < 128 ? first : byte());
    }
    for (; place < sizeof buffer; place++)
        same("a byte that should not have been written", buffer[place], FILL);
}

/* Compares what the library answers about a row. */
static void same_row(uint64_t row)
{
    same("verdict of a row", delkuthi_row_verdict(&monitor, row), expected.verdicts[row]);
    same("step of a row", delkuthi_row_step(&monitor, row), expected.steps[row]);
    same("cause of a row", delkuthi_row_cause(&monitor, row), expected.causes[row]);
    same("moment of a row", delkuthi_row_moment(&monitor, row), expected.moments[row]);
    same("waiting in a row", delkuthi_row_waiting(&monitor, row), expected.waiting[row]);
    same("oldest in a row", delkuthi_row_oldest(&monitor, row), expected.oldest[row]);
    same("stream of the oldest in a row", delkuthi_row_oldest_stream(&monitor, row), expected.streams[row]);
    same("deadline of a row", delkuthi_row_deadline(&monitor, row), expected.deadlines[row]);
}

/* Compares what the library answers about rows that do not exist. */
static void no_row(uint64_t row)
{
    same("verdict of no row", delkuthi_row_verdict(&monitor, row), DELKUTHI_NO_ROW);
    same("step of no row", delkuthi_row_step(&monitor, row), 0);
    same("cause of no row", delkuthi_row_cause(&monitor, row), 0);
    same("moment of no row", delkuthi_row_moment(&monitor, row), DELKUTHI_NO_LIMIT);
    same("waiting in no row", delkuthi_row_waiting(&monitor, row), 0);
    same("oldest in no row", delkuthi_row_oldest(&monitor, row), DELKUTHI_NO_LIMIT);
    same("stream of the oldest in no row", delkuthi_row_oldest_stream(&monitor, row), DELKUTHI_NO_STREAM);
    same("deadline of no row", delkuthi_row_deadline(&monitor, row), DELKUTHI_NO_LIMIT);
}

/* Compares everything that the library answers about the monitor. */
static void same_monitor(void)
{
    uint64_t row, broken = 0, deadline = DELKUTHI_NO_LIMIT;

    same("rows", delkuthi_rows(&monitor), expected.rows);
    for (row = 0; row < expected.rows; row++) {
        same_row(row);
        broken |= (uint64_t)(expected.verdicts[row] == DELKUTHI_BROKEN) << row;
        if (expected.deadlines[row] < deadline)
            deadline = expected.deadlines[row];
    }
    no_row(expected.rows);
    no_row(DELKUTHI_ROW_LIMIT);
    no_row(UINT64_C(4294967296));
    no_row(UINT64_MAX);
    same("clock", delkuthi_clock(&monitor), expected.clock);
    same("steps", delkuthi_steps(&monitor), expected.count);
    same("closed", delkuthi_closed(&monitor), expected.closed);
    same("broken rows", delkuthi_broken_rows(&monitor), broken);
    same("deadline", delkuthi_deadline(&monitor), deadline);
}

/* Reads what has changed in the monitor, and compares. */
static void state(void)
{
    uint64_t changed, row;

    if (!has_monitor)
        return;
    expected.clock = moved(expected.clock);
    expected.count = moved(expected.count);
    expected.closed = byte();
    for (changed = number(); changed > 0 && !failed; changed--) {
        row = byte() % DELKUTHI_ROW_LIMIT;
        expected.verdicts[row] = byte();
        expected.steps[row] = expected.verdicts[row] == DELKUTHI_BROKEN ? number() : 0;
        expected.causes[row] = expected.verdicts[row] == DELKUTHI_BROKEN ? byte() : 0;
        expected.moments[row] = expected.verdicts[row] == DELKUTHI_BROKEN ? number() : DELKUTHI_NO_LIMIT;
        expected.waiting[row] = number();
        expected.oldest[row] = expected.waiting[row] > 0 ? number() : DELKUTHI_NO_LIMIT;
        expected.streams[row] = expected.waiting[row] > 0 ? byte() : DELKUTHI_NO_STREAM;
        expected.deadlines[row] = number() - 1;
    }
    same_monitor();
}

/* A monitor over this many rows, as it is at the start. */
static void expect_fresh(uint64_t rows)
{
    uint64_t row;

    memset(&expected, 0, sizeof expected);
    expected.rows = rows <= DELKUTHI_ROW_LIMIT ? rows : DELKUTHI_ROW_LIMIT;
    for (row = 0; row < DELKUTHI_ROW_LIMIT; row++)
        expected.deadlines[row] = expected.moments[row] = expected.oldest[row] = DELKUTHI_NO_LIMIT;
    memset(expected.streams, DELKUTHI_NO_STREAM, sizeof expected.streams);
    has_monitor = 1;
}

/* A refused call has changed nothing. */
static void unchanged(void)
{
    same("monitor after a refusal", memcmp(&monitor, &before, sizeof monitor) != 0, 0);
}

/* The answer of a call on the monitor beside the vector's, and the monitor after it. */
static void stepped(uint8_t answer)
{
    uint8_t wanted = byte();

    same("answer", answer, wanted);
    if (wanted != DELKUTHI_TAKEN)
        unchanged();
    if (wanted != DELKUTHI_CROWDED)
        state();
}

/* An event of a plain kind. The row that would refuse it with 12 is known before. */
static void event(void)
{
    uint8_t kind = byte();
    uint64_t time = number();
    uint8_t row = delkuthi_crowded_row(&monitor, kind, time), answer = delkuthi_event(&monitor, kind, time);

    if (at < end && *at == DELKUTHI_CROWDED) {
        stepped(answer);
        same("crowded row", row, byte());
        state();
    } else {
        same("crowded row", row, DELKUTHI_ROW_LIMIT);
        stepped(answer);
    }
}

static void fresh(void)
{
    uint8_t form = byte();
    uint64_t wanted = number();

    same("answer", form == 2 ? delkuthi_fresh_2(&monitor, table, table_length) : delkuthi_fresh(&monitor, table, table_length), wanted);
    if (wanted == DELKUTHI_TAKEN)
        expect_fresh(number());
    else
        unchanged();
    state();
}

/* Sets the count, which no test can reach by steps: it is the one word that counts the ticks of a fresh monitor. */
static void count(void)
{
    uint64_t place, ticks;
    const size_t words = sizeof monitor.words / sizeof *monitor.words;

    for (place = 0; place < words; place++) {
        static const uint8_t no_rows[] = {1};

        same("answer", delkuthi_fresh(&before, no_rows, sizeof no_rows), DELKUTHI_TAKEN);
        for (ticks = 0; ticks < 3 && before.words[place] == ticks; ticks++)
            same("answer", delkuthi_tick(&before, 10 * ticks + 10), DELKUTHI_TAKEN);
        if (ticks == 3 && before.words[place] == 3)
            break;
    }
    if (place < words)
        monitor.words[place] = number();
    same("a word that counts", place < words, 1);
    state();
}

/* The records of the recording without a close; where none is taken, the monitor is as it was. */
static void take(void)
{
    same("answer", delkuthi_take(&monitor, recording, recording_length), number());
    if (byte() == 0)
        unchanged();
    state();
}

/* Memory of zeros is a closed monitor without rows. */
static void zeros(void)
{
    memset(&monitor, 0, sizeof monitor);
    memset(&before, 0, sizeof before);
    expect_fresh(0);
    expected.closed = 1;
    same_monitor();
    same("event on zeros", delkuthi_event(&monitor, 0, 1), DELKUTHI_CLOSED);
    same("coloured event on zeros", delkuthi_coloured_event(&monitor, 48, 0, 1), DELKUTHI_CLOSED);
    same("tick on zeros", delkuthi_tick(&monitor, 1), DELKUTHI_CLOSED);
    same("close on zeros", delkuthi_close(&monitor), DELKUTHI_CLOSED);
    same("withdrawal on zeros", delkuthi_withdraw(&monitor), DELKUTHI_NOTHING_TO_WITHDRAW);
    same("withdrawal of a step on zeros", delkuthi_withdraw_step(&monitor, 0), DELKUTHI_NOTHING_TO_WITHDRAW);
    unchanged();
}

/* Calls on the monitor. Returns whether this is one. */
static int played_monitor(enum item item)
{
    uint8_t kind, colour;

    memcpy(&before, &monitor, sizeof monitor);
    if (item == FRESH)
        fresh();
    else if (item == EVENT)
        event();
    else if (item == COLOURED) {
        kind = byte();
        colour = byte();
        stepped(delkuthi_coloured_event(&monitor, kind, colour, number()));
    } else if (item == TICK)
        stepped(delkuthi_tick(&monitor, number()));
    else if (item == CLOSE)
        stepped(delkuthi_close(&monitor));
    else if (item == WITHDRAW)
        stepped(delkuthi_withdraw(&monitor));
    else if (item == WITHDRAW_STEP)
        stepped(delkuthi_withdraw_step(&monitor, number()));
    else if (item == TAKE)
        take();
    else if (item == COUNT)
        count();
    else if (item == ZEROS)
        zeros();
    else
        return 0;
    return 1;
}

/* The bytes that a call wrote, and how many it says they are. */
static void wrote(uint64_t answer)
{
    const uint8_t *text = at;

    same("number of bytes", answer, number());
    at = text;
    same_text("a byte of the text");
}

/* The report on a lent monitor, and the monitor after it. */
static void report_on(void)
{
    uint8_t form = byte();
    size_t length = room();

    memcpy(&before, &monitor, sizeof monitor);
    wrote(form == 2 ? delkuthi_report_on_2(&monitor, table, table_length, recording, recording_length, buffer, length)
                    : delkuthi_report_on(&monitor, table, table_length, recording, recording_length, buffer, length));
    if (byte() == 0) {
        unchanged();
        return;
    }
    expect_fresh(number());
    state();
}

/* A table that is written from rows. */
static void written(void)
{
    uint8_t edition = byte();
    size_t rows_size, length;
    const uint8_t *rows = bytes(&rows_size);
    uint64_t answer;

    length = room();
    answer = edition == 2 ? delkuthi_table_2((const delkuthi_row *)rows, rows_size, buffer, length)
                          : delkuthi_table((const delkuthi_row *)rows, rows_size, buffer, length);
    same("answer", answer, number());
    same_text("a byte of the table");
}

/* A record that is written behind the recording. */
static void put(void)
{
    uint8_t sort = byte(), kind = byte(), colour = byte();
    uint64_t time = number(), answer;
    size_t length = room(), size = recording_length < ROOM_LIMIT ? recording_length : ROOM_LIMIT;

    memcpy(buffer, recording, size);
    if (sort == 0)
        answer = delkuthi_put_event(buffer, length, size, kind, time);
    else if (sort == 1)
        answer = delkuthi_put_coloured_event(buffer, length, size, kind, colour, time);
    else
        answer = delkuthi_put_tick(buffer, length, size, time);
    same("answer", answer, number());
    same_text("a byte of the recording");
}

/* A row that is added to the table, in a copy of it. */
static void add_row(void)
{
    size_t body_length, length, size = table_length < ROOM_LIMIT ? table_length : ROOM_LIMIT;
    const uint8_t *body = bytes(&body_length);

    length = room();
    memcpy(buffer, table, size);
    same("answer", delkuthi_add_row(buffer, length, size, body, body_length), number());
    same_text("a byte of the table");
}

/* A row of the table, or of the monitor, that is read back. */
static void row_back(void)
{
    uint8_t of_monitor = byte();
    uint64_t row = number();
    size_t length = room();

    same("answer", of_monitor ? delkuthi_monitor_row(&monitor, row, buffer, length)
                              : delkuthi_table_row(table, table_length, row, buffer, length), number());
    same_text("a byte of the row");
}

/* Calls that write to a buffer. Returns whether this is one. */
static int played_writer(enum item item)
{
    size_t length;
    uint8_t form;

    if (item == PAGE) {
        length = room();
        wrote(delkuthi_page(&monitor, buffer, length));
    } else if (item == REPORT_OF) {
        length = room();
        wrote(delkuthi_report_of(&monitor, buffer, length));
    } else if (item == REPORT) {
        form = byte();
        length = room();
        wrote(form == 2 ? delkuthi_report_2(table, table_length, recording, recording_length, buffer, length)
                        : delkuthi_report(table, table_length, recording, recording_length, buffer, length));
    } else if (item == REPORT_ON)
        report_on();
    else if (item == WRITE)
        written();
    else if (item == PUT)
        put();
    else if (item == ADD_ROW)
        add_row();
    else if (item == ROW_BACK)
        row_back();
    else if (item == JOIN) {
        length = room();
        same("answer", delkuthi_join(table, table_length, recording, recording_length, buffer, length), number());
        same_text("a byte of the joined recording");
    } else
        return 0;
    return 1;
}

/* Bytes for later calls, and calls on bytes alone. Returns whether this is one. */
static int played_reader(enum item item)
{
    uint8_t form;
    uint64_t row, late;

    if (item == TABLE)
        table = bytes(&table_length);
    else if (item == RECORDING)
        recording = bytes(&recording_length);
    else if (item == STAMPS) {
        form = byte();
        row = number();
        late = number();
        same("answer", form == 2 ? delkuthi_stamps_2(table, table_length, recording, recording_length, row, late)
                                 : delkuthi_stamps(table, table_length, recording, recording_length, row, late), number());
    } else if (item == STRETCH) {
        form = byte();
        row = number();
        same("answer", form == 2 ? delkuthi_shortest_stretch_2(table, table_length, recording, recording_length, row)
                                 : delkuthi_shortest_stretch(table, table_length, recording, recording_length, row), number());
    } else
        return 0;
    return 1;
}

/* Plays a vector up to its first difference. Returns whether there is none. */
static int play(void)
{
    uint64_t items = number();

    table = recording = at;
    table_length = recording_length = 0;
    has_monitor = failed = 0;
    for (item_number = 1; item_number <= items && !failed; item_number++) {
        enum item item = (enum item)byte();

        if (!played_monitor(item) && !played_writer(item) && !played_reader(item))
            same("sort of the item", item, 0);
    }
    if (!failed)
        same("bytes left of the vector", (uint64_t)(end - at), 0);
    return !failed;
}

/* Is this the header of the library, and are the vectors as they were made? */
static int fit(void)
{
    uint64_t sum = UINT64_C(0xcbf29ce484222325);
    uint32_t i;

    for (i = 0; i < kit_length; i++)
        sum = (sum ^ kit_vectors[i]) * UINT64_C(0x100000001b3);
    if (sum != kit_sum)
        say("the vectors are damaged\n");
    else if (delkuthi_version() != DELKUTHI_VERSION || delkuthi_monitor_size() != sizeof monitor)
        say("header and library are of different versions\n");
    else
        return 1;
    return 0;
}

uint32_t kit_run(kit_print *print)
{
    const uint8_t *next = kit_vectors;
    uint32_t passed = 0;

    out = print;
    shown = 0;
    if (!fit())
        return 1;
    for (vector_number = 1; vector_number <= kit_count; vector_number++) {
        size_t length;

        at = next;
        end = kit_vectors + kit_length;
        (void)bytes(&length);
        next = at;
        end = next;
        at = next - length;
        passed += (uint32_t)play();
    }
    say_number(passed);
    say(" passed, ");
    say_number(kit_count - passed);
    say(" failed\n");
    return kit_count - passed;
}
