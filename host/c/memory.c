/*
 * The monitor's memory: memory ROUNDS
 *
 * Prints the size and the alignment of delkuthi_monitor. Then it makes calls on
 * monitors in static memory, on the stack, in a struct and on the heap, filled
 * with arbitrary bytes. These calls must return, leave the memory around the
 * monitor alone, and report at most 32 rows. Static memory, which is all zeros,
 * is a closed monitor without rows.
 */
#define DELKUTHI_CHECKED // the answers do not matter here
#include "delkuthi.h"
#include "file.h"
#include <stdio.h>
#include <stdlib.h>
#include <string.h>

/* One row: Order of kinds 0 and 1. */
static const uint8_t table[6] = {1, 0, 3, 6, 0, 1};

struct aligned {
    char before;
    delkuthi_monitor monitor;
};

struct fenced {
    uint64_t before[8];
    delkuthi_monitor monitor;
    uint64_t after[8];
};

static delkuthi_monitor in_static;
static uint64_t state = 88172645463325252u;

/* Returns the next random number. */
static uint64_t number(void)
{
    state ^= state << 13;
    state ^= state >> 7;
    state ^= state << 17;
    return state;
}

/* Fills memory with random bytes, with many bits set or few. */
static void fill(delkuthi_monitor *monitor)
{
    uint64_t shift = number() % 2 ? 0 : 64;
    size_t i;

    for (i = 0; i < sizeof monitor->words / sizeof monitor->words[0]; i++)
        monitor->words[i] = number() >> (shift ? number() % shift : 0);
}

/* Makes calls of every sort, whatever the memory holds. */
static void calls(delkuthi_monitor *monitor)
{
    uint8_t page[DELKUTHI_PAGE_LIMIT];
    int i;

    memset(page, 1, sizeof page);
    for (i = 0; i < 16; i++) {
        uint64_t time = number() >> (number() % 64);

        (void)delkuthi_event(monitor, (uint8_t)(number() % 72), time);
        (void)delkuthi_coloured_event(monitor, (uint8_t)(number() % 72), (uint8_t)(number() % 9), time);
        (void)delkuthi_tick(monitor, time + 1);
        (void)delkuthi_withdraw_step(monitor, number() % 40);
        (void)delkuthi_take(monitor, page, number() % (sizeof page + 1));
        (void)delkuthi_row_verdict(monitor, number() % 40);
        (void)delkuthi_row_verdict(monitor, number());
        (void)delkuthi_row_step(monitor, number() % 40);
        if (delkuthi_row_cause(monitor, number() % 40) > DELKUTHI_AT_CLOSE)
            exit(1);
        (void)delkuthi_row_moment(monitor, number() % 40);
        (void)delkuthi_row_step(monitor, number());
        if (delkuthi_rows(monitor) > DELKUTHI_ROW_LIMIT)
            exit(1);
        (void)delkuthi_monitor_row(monitor, number() % 40, page, number() % (DELKUTHI_LONGEST_ROW + 1));
        (void)delkuthi_deadline(monitor);
        (void)delkuthi_row_deadline(monitor, number() % 40);
        (void)delkuthi_row_waiting(monitor, number());
        (void)delkuthi_row_oldest(monitor, number() % 40);
        (void)delkuthi_row_oldest_stream(monitor, number() % 40);
        (void)delkuthi_crowded_row(monitor, (uint8_t)(number() % 72), time);
        (void)delkuthi_broken_rows(monitor);
        (void)(delkuthi_clock(monitor) + delkuthi_steps(monitor) + delkuthi_closed(monitor));
        (void)delkuthi_report_of(monitor, page, number() % (DELKUTHI_REPORT_LIMIT + 1));
        (void)delkuthi_page(monitor, page, number() % (sizeof page + 1));
        if (i % 8 == 7)
            (void)delkuthi_close(monitor);
        if (number() % 8 == 0)
            monitor->words[number() % (sizeof monitor->words / sizeof monitor->words[0])] = number();
    }
}

/* Returns whether a fresh monitor in this memory is fresh. */
static int fresh(delkuthi_monitor *monitor)
{
    return delkuthi_fresh(monitor, table, sizeof table) == DELKUTHI_TAKEN && delkuthi_rows(monitor) == 1
        && delkuthi_row_verdict(monitor, 0) == DELKUTHI_OPEN && delkuthi_row_verdict(monitor, 1) == DELKUTHI_NO_ROW
        && delkuthi_event(monitor, 0, 5) == DELKUTHI_TAKEN && delkuthi_close(monitor) == DELKUTHI_TAKEN
        && delkuthi_row_verdict(monitor, 0) == DELKUTHI_BROKEN && delkuthi_row_step(monitor, 0) == 2
        && delkuthi_row_step(monitor, 1) == 0 && delkuthi_close(monitor) == DELKUTHI_CLOSED;
}

/* Returns whether memory of zeros is a closed monitor without rows and stays as it is. */
static int closed(delkuthi_monitor *zeros)
{
    uint8_t page[DELKUTHI_PAGE_LIMIT];
    uint64_t row;
    size_t i;
    int well = delkuthi_closed(zeros) == 1 && delkuthi_rows(zeros) == 0 && delkuthi_clock(zeros) == 0
        && delkuthi_steps(zeros) == 0 && delkuthi_broken_rows(zeros) == 0 && delkuthi_deadline(zeros) == DELKUTHI_NO_LIMIT
        && delkuthi_page(zeros, page, sizeof page) == 73 && delkuthi_report_of(zeros, page, sizeof page) == 9
        && memcmp(page, "closed 0\n", 9) == 0;

    for (row = 0; row < 40; row++)
        well = well && delkuthi_row_verdict(zeros, row) == DELKUTHI_NO_ROW && delkuthi_row_step(zeros, row) == 0
            && delkuthi_row_waiting(zeros, row) == 0 && delkuthi_row_deadline(zeros, row) == DELKUTHI_NO_LIMIT
            && delkuthi_row_oldest(zeros, row) == DELKUTHI_NO_LIMIT && delkuthi_row_oldest_stream(zeros, row) == DELKUTHI_NO_STREAM;
    well = well && delkuthi_event(zeros, 0, 1) == DELKUTHI_CLOSED && delkuthi_coloured_event(zeros, 48, 0, 1) == DELKUTHI_CLOSED
        && delkuthi_tick(zeros, 1) == DELKUTHI_CLOSED && delkuthi_close(zeros) == DELKUTHI_CLOSED
        && delkuthi_withdraw(zeros) == DELKUTHI_NOTHING_TO_WITHDRAW
        && delkuthi_withdraw_step(zeros, 0) == DELKUTHI_NOTHING_TO_WITHDRAW;
    for (i = 0; i < sizeof zeros->words / sizeof zeros->words[0]; i++)
        well = well && zeros->words[i] == 0;
    return well;
}

/* Makes calls on a monitor with a fence on both sides, which must not change. */
static int stands(struct fenced *fenced)
{
    struct fenced like;

    memset(like.before, 7, sizeof like.before);
    memset(like.after, 7, sizeof like.after);
    memcpy(fenced->before, like.before, sizeof like.before);
    memcpy(fenced->after, like.after, sizeof like.after);
    fill(&fenced->monitor);
    calls(&fenced->monitor);
    return fresh(&fenced->monitor) && memcmp(fenced->before, like.before, sizeof like.before) == 0
        && memcmp(fenced->after, like.after, sizeof like.after) == 0;
}

/* Makes calls on a heap block, at an address that is a multiple of 8, and of 16 or not. */
static int stands_alone(size_t shift)
{
    uint8_t *block = block_of(sizeof(delkuthi_monitor) + shift);
    delkuthi_monitor *monitor = (delkuthi_monitor *)(void *)(block + shift);
    int well;

    fill(monitor);
    calls(monitor);
    well = fresh(monitor);
    free_block(block);
    return well;
}

int main(int argc, char **argv)
{
    struct fenced on_stack;
    int rounds = argc == 2 ? atoi(argv[1]) : 0;

    printf("%lu %lu\n", (unsigned long)sizeof(delkuthi_monitor), (unsigned long)offsetof(struct aligned, monitor));
    if (!closed(&in_static))
        return 1;
    calls(&in_static);
    if (!fresh(&in_static))
        return 1;
    while (rounds-- > 0)
        if (!stands(&on_stack) || !stands_alone(0) || !stands_alone(8))
            return 1;
    return 0;
}
