/*
 * Plays a script of calls and prints each answer: player SCRIPT [words]
 *
 * If two libraries play the same script, on the same or different machines, the
 * texts are equal exactly if all answers are. After a call on the monitor the
 * line has what each row reads: o open, k kept, b and a step broken; how many
 * wait in it and its deadline; and then the numbers of the monitor. After an
 * event that is refused with 12 it has the crowded row, and after a close the
 * report. A buffer that a call writes is printed whole. With `words`, for
 * machines with sizes of 64 bits, the line also has a sum of the monitor's
 * bytes. The exit status is 1 if a refused call changed the monitor or a buffer.
 *
 * A line of the script is a call and its arguments: numbers, bytes in
 * hexadecimal, and the length of a buffer. "-" stands for no bytes. The name of a
 * call that takes a table ends with "_2" for the form for both editions.
 */
#include "delkuthi.h"
#include <inttypes.h>
#include <stdio.h>
#include <stdlib.h>
#include <string.h>

#define LINE_LIMIT   65536
#define BUFFER_LIMIT 8192
#define FILL         0xA5

static delkuthi_monitor monitor, before;
static char line[LINE_LIMIT];
static uint8_t bytes[3][LINE_LIMIT / 2];
static size_t lengths[3];
static uint8_t buffer[BUFFER_LIMIT];
static int with_words, well = 1, both; /* both: the call is the form for both editions */

/* Returns the next word of the line. */
static const char *word(void)
{
    const char *found = strtok(NULL, " \n");

    return found ? found : "";
}

static uint64_t number(void)
{
    return strtoull(word(), NULL, 10);
}

static uint8_t byte(void)
{
    return (uint8_t)number();
}

/* Reads bytes in hexadecimal to the given place. */
static const uint8_t *stretch(int place)
{
    const char *text = word();
    size_t length = 0;
    unsigned value;

    while (sscanf(text + 2 * length, "%2x", &value) == 1)
        bytes[place][length++] = (uint8_t)value;
    lengths[place] = length;
    return bytes[place];
}

/* Returns whether this many bytes from a place on are as they were. */
static int untouched(size_t from, size_t length)
{
    while (from < length && buffer[from] == FILL)
        from++;
    return from >= length;
}

/* Returns the length of the buffer for a call, and fills the buffer so that a written byte shows. */
static size_t lent(void)
{
    uint64_t length = number();

    memset(buffer, FILL, sizeof buffer);
    return length < BUFFER_LIMIT ? (size_t)length : BUFFER_LIMIT;
}

/* Prints an answer and the written bytes, and checks that nothing behind them was written. */
static void wrote(uint64_t answer, size_t written)
{
    size_t i;

    printf(" %" PRIu64 " ", answer);
    for (i = 0; i < written; i++)
        printf("%02x", buffer[i]);
    well &= untouched(written, sizeof buffer);
}

/* Returns a sum of the monitor's bytes (FNV-1a). */
static uint64_t sum(void)
{
    const uint8_t *place = (const uint8_t *)&monitor;
    uint64_t result = UINT64_C(14695981039346656037);
    size_t i;

    for (i = 0; i < sizeof monitor; i++)
        result = (result ^ place[i]) * UINT64_C(1099511628211);
    return result;
}

/* Prints what waits in each row and its deadline, if it has one, and the numbers of the monitor. */
static void numbers(uint64_t count)
{
    uint64_t row, waiting, deadline;

    for (row = 0; row < count; row++) {
        waiting = delkuthi_row_waiting(&monitor, row);
        deadline = delkuthi_row_deadline(&monitor, row);
        if (waiting > 0)
            printf(" %" PRIu64 ":%" PRIu64, row, waiting);
        if (deadline != DELKUTHI_NO_LIMIT)
            printf(" %" PRIu64 "<=%" PRIu64, row, deadline);
    }
    printf(" clock %" PRIu64 " steps %" PRIu64 " closed %d broken %" PRIx32 " deadline %" PRIu64, delkuthi_clock(&monitor),
           delkuthi_steps(&monitor), delkuthi_closed(&monitor), delkuthi_broken_rows(&monitor), delkuthi_deadline(&monitor));
}

/* Prints what the rows read, and some rows that do not exist. */
static void rows(void)
{
    static const uint64_t behind[] = {32, 33, 64, UINT64_C(4294967296), UINT64_C(4294967297), UINT64_MAX};
    uint64_t row, count = delkuthi_rows(&monitor);
    size_t i;

    putchar(' ');
    for (row = 0; row < count; row++) {
        uint8_t verdict = delkuthi_row_verdict(&monitor, row);

        putchar(verdict < 3 ? "okb"[verdict] : '?');
        if (verdict == DELKUTHI_BROKEN)
            printf("%" PRIu64, delkuthi_row_step(&monitor, row));
    }
    for (i = 0; i < sizeof behind / sizeof *behind; i++)
        well &= delkuthi_row_verdict(&monitor, behind[i]) == DELKUTHI_NO_ROW && delkuthi_row_step(&monitor, behind[i]) == 0 &&
                delkuthi_row_waiting(&monitor, behind[i]) == 0 && delkuthi_row_deadline(&monitor, behind[i]) == DELKUTHI_NO_LIMIT;
    numbers(count);
    if (with_words)
        printf(" %016" PRIx64, sum());
}

/* Prints the answer of a call on the monitor, and checks that a refused call changed nothing. */
static void stepped(uint64_t answer)
{
    printf(" %" PRIu64, answer);
    well &= answer == DELKUTHI_TAKEN || memcmp(&monitor, &before, sizeof monitor) == 0;
    rows();
}

/* An event of a plain kind. Where it is refused with 12, and only there, a row is crowded, which is known beforehand. */
static void event(uint8_t kind, uint64_t time)
{
    uint8_t row = delkuthi_crowded_row(&monitor, kind, time), answer = delkuthi_event(&monitor, kind, time);

    stepped(answer);
    well &= (row < DELKUTHI_ROW_LIMIT) == (answer == DELKUTHI_CROWDED);
    if (answer == DELKUTHI_CROWDED)
        printf(" row %d", row);
}

/* The close, and the report of the monitor, which there is not before. */
static void close_it(void)
{
    size_t written;

    memset(buffer, FILL, sizeof buffer);
    written = delkuthi_report_of(&monitor, buffer, sizeof buffer);
    well &= delkuthi_closed(&monitor) ? written > 0 : written == 0 && untouched(0, sizeof buffer);
    stepped(delkuthi_close(&monitor));
    memset(buffer, FILL, sizeof buffer);
    written = delkuthi_report_of(&monitor, buffer, sizeof buffer);
    wrote(written, written);
}

/* Calls on the monitor; returns whether this is one. */
static int played_monitor(const char *call)
{
    memcpy(&before, &monitor, sizeof monitor);
    if (strcmp(call, "fresh") == 0) {
        const uint8_t *table = stretch(0);

        stepped(both ? delkuthi_fresh_2(&monitor, table, lengths[0]) : delkuthi_fresh(&monitor, table, lengths[0]));
    } else if (strcmp(call, "event") == 0) {
        uint8_t kind = byte();

        event(kind, number());
    } else if (strcmp(call, "coloured") == 0) {
        uint8_t kind = byte(), colour = byte();

        stepped(delkuthi_coloured_event(&monitor, kind, colour, number()));
    } else if (strcmp(call, "tick") == 0)
        stepped(delkuthi_tick(&monitor, number()));
    else if (strcmp(call, "close") == 0)
        close_it();
    else if (strcmp(call, "withdraw") == 0)
        stepped(delkuthi_withdraw(&monitor));
    else
        return 0;
    return 1;
}

/* The report on a recording, on the monitor or on none; returns how many bytes were written. */
static size_t reported(int on, size_t length)
{
    if (on)
        return both ? delkuthi_report_on_2(&monitor, bytes[0], lengths[0], bytes[1], lengths[1], buffer, length)
                    : delkuthi_report_on(&monitor, bytes[0], lengths[0], bytes[1], lengths[1], buffer, length);
    return both ? delkuthi_report_2(bytes[0], lengths[0], bytes[1], lengths[1], buffer, length)
                : delkuthi_report(bytes[0], lengths[0], bytes[1], lengths[1], buffer, length);
}

/* Calls that write to a buffer; returns whether this is one. */
static int played_writer(const char *call)
{
    size_t length, written;
    uint64_t answer;

    if (strcmp(call, "page") == 0) {
        length = lent();
        written = delkuthi_page(&monitor, buffer, length);
        wrote(written, written);
    } else if (strcmp(call, "report") == 0 || strcmp(call, "report_on") == 0) {
        (void)stretch(0);
        (void)stretch(1);
        length = lent();
        written = reported(call[6] != 0, length);
        wrote(written, written);
        rows();
    } else if (strcmp(call, "join") == 0) {
        (void)stretch(0);
        (void)stretch(1);
        length = lent();
        answer = delkuthi_join(bytes[0], lengths[0], bytes[1], lengths[1], buffer, length);
        wrote(answer, DELKUTHI_NUMBER(answer) == DELKUTHI_TAKEN ? (size_t)DELKUTHI_LENGTH(answer) : 0);
    } else if (strcmp(call, "table") == 0) {
        (void)stretch(0);
        length = lent();
        answer = (both ? delkuthi_table_2 : delkuthi_table)((const delkuthi_row *)bytes[0], lengths[0], buffer, length);
        wrote(answer, DELKUTHI_NUMBER(answer) == DELKUTHI_TAKEN ? (size_t)DELKUTHI_LENGTH(answer) : 0);
    } else
        return 0;
    return 1;
}

/* Calls on bytes alone; returns whether this is one. */
static int played_reader(const char *call)
{
    uint64_t row;

    (void)stretch(0);
    (void)stretch(1);
    row = number();
    if (strcmp(call, "stamps") == 0)
        printf(" %" PRIu64, (both ? delkuthi_stamps_2 : delkuthi_stamps)(bytes[0], lengths[0], bytes[1], lengths[1], row, number()));
    else if (strcmp(call, "stretch") == 0)
        printf(" %" PRIu64, (both ? delkuthi_shortest_stretch_2 : delkuthi_shortest_stretch)(bytes[0], lengths[0], bytes[1],
                                                                                             lengths[1], row));
    else
        return 0;
    return 1;
}

/* The name of a call without its "_2", which says whether it is the form for both editions. */
static const char *name_of(char *call)
{
    size_t length = strlen(call);

    both = length > 2 && strcmp(call + length - 2, "_2") == 0;
    if (both)
        call[length - 2] = 0;
    return call;
}

int main(int argc, char **argv)
{
    FILE *script = argc > 1 ? fopen(argv[1], "r") : NULL;
    const char *call;

    if (script == NULL || !DELKUTHI_MATCHES())
        return 3;
    with_words = argc > 2;
    while (well && fgets(line, sizeof line, script)) {
        call = name_of(strtok(line, " \n"));
        fputs(call, stdout);
        if (!played_monitor(call) && !played_writer(call) && !played_reader(call))
            return 2;
        putchar('\n');
    }
    fclose(script);
    return well ? 0 : 1;
}
