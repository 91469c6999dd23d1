/*
 * A bench loop over a recorded drive: bench_loop TABLE RECORDING [LAG [LATE]]
 *
 * It gives the monitor each record as it arrives, and a tick if the clock of the
 * drive passes a deadline by LAG before the next record arrives. A record
 * arrives LATE after its stamp. Both are 0 if they are not given. The loop is
 * the one in the manual, delkuthi.h.
 */
#define DELKUTHI_EDITION 2
#include "delkuthi.h"
#include <inttypes.h>
#include <stdio.h>

// The longest time from the stamp of an event to its arrival, over all sources.
static uint64_t lag;

// What comes next: 'e' an event, 'c' an event with a colour, 't' a tick, 0 the
// end; or 'w' once the bench's clock reads `wake` and nothing has arrived.
extern int next_step(uint64_t wake, uint8_t *kind, uint8_t *colour,
                     uint64_t *time);

static delkuthi_monitor monitor;

// When a row breaks if no event comes: one past the deadline.
static uint64_t breaks(void)
{
    uint64_t deadline = delkuthi_deadline(&monitor);

    return deadline == DELKUTHI_NO_LIMIT ? deadline : deadline + 1;
}

// Prints each row that has broken since; returns all that are broken now.
static uint32_t say(uint32_t before)
{
    uint32_t now = delkuthi_broken_rows(&monitor), row;

    for (row = 0; row < DELKUTHI_ROW_LIMIT; row++)
        if ((now & ~before) >> row & 1)
            printf("%" PRIu64 ": row %" PRIu32 " broken\n",
                   delkuthi_clock(&monitor), row);
    return now;
}

// 0: every row kept. 1: a row is broken. 2: the table or a step was refused.
// 3: the library does not match this header.
static int bench(const uint8_t *table, size_t table_length)
{
    uint64_t time, until, answer;
    uint32_t broken = 0;
    uint8_t kind, colour, refused = DELKUTHI_TAKEN;
    int what = 't';

    if (!DELKUTHI_MATCHES()) {
        printf("the library does not match this header\n");
        return 3;
    }
    answer = delkuthi_fresh(&monitor, table, table_length);
    if (answer != DELKUTHI_TAKEN) {
        printf("table refused with %d at byte %" PRIu64 "\n",
               DELKUTHI_NUMBER(answer), DELKUTHI_PLACE(answer));
        return 2;
    }
    while (what && !refused) {
        until = breaks();
        what = next_step(lag < DELKUTHI_NO_LIMIT - until ? until + lag
                                                         : DELKUTHI_NO_LIMIT,
                         &kind, &colour, &time);
        if (what == 'e')
            refused = delkuthi_event(&monitor, kind, time);
        else if (what == 'c')
            refused = delkuthi_coloured_event(&monitor, kind, colour, time);
        else if (what)
            refused = delkuthi_tick(&monitor, what == 'w' ? until : time);
        else
            refused = delkuthi_close(&monitor);
        broken = say(broken);
    }
    if (refused)
        printf("step refused with %d\n", refused);
    else if (!broken)
        printf("every row kept\n");
    return refused ? 2 : broken ? 1 : 0;
}

#include "file.h"
#include <stdlib.h>

static struct file recording;
static size_t place = 1; // behind the version byte
static uint64_t late;

// The next record. Its length of two bytes is 9 for an event, 10 for an event
// with a colour, 8 for a tick. Version 1 has no colours; 255 is not a colour.
int next_step(uint64_t wake, uint8_t *kind, uint8_t *colour, uint64_t *time)
{
    const uint8_t *record = recording.bytes + place;
    size_t left = recording.length - place, size;

    if (left == 0)
        return 0;
    size = left >= 10 && record[0] == 0 ? record[1] : 0;
    if (size < 8 || size > 10 || left < 2 + size) {
        fprintf(stderr, "no record at byte %lu\n", (unsigned long)place);
        exit(4);
    }
    *time = time_of(record + size - 6);
    if (wake != DELKUTHI_NO_LIMIT && (wake < late || *time > wake - late))
        return 'w';
    *kind = record[2];
    *colour = recording.bytes[0] == 1 ? 255 : record[3];
    place += 2 + size;
    return size == 8 ? 't' : size == 9 ? 'e' : 'c';
}

// Reads a whole number. Returns 0 if the text is not one.
static int read_number(const char *text, uint64_t *number)
{
    char *end;

    *number = strtoull(text, &end, 10);
    return *text >= '0' && *text <= '9' && *end == 0;
}

int main(int argc, char **argv)
{
    struct file table;
    int result, well = argc >= 3 && argc <= 5;

    well = well && (argc < 4 || read_number(argv[3], &lag)) && (argc < 5 || read_number(argv[4], &late));
    if (!well || !read_file(argv[1], &table) || !read_file(argv[2], &recording)) {
        fprintf(stderr, "usage: bench_loop TABLE RECORDING [LAG [LATE]]\n");
        return 4;
    }
    if (recording.length == 0 || recording.bytes[0] < 1 || recording.bytes[0] > 2) {
        fprintf(stderr, "not a recording of version 1 or 2\n");
        return 4;
    }
    result = bench(table.bytes, table.length);
    free_file(&table);
    free_file(&recording);
    return result;
}
