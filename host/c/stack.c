/*
 * How much stack each call uses: stack TABLE RECORDING [TABLE RECORDING]..
 *
 * Makes every call with every pair of files. A call that has two forms, one for
 * each edition of the table, is made in both. Before each call the memory below
 * the caller's frame is filled with a pattern; a byte that has changed was used.
 * Prints a line for each call: the most bytes it used, its limit in the header,
 * and its name. The exit status is 1 if a call uses more than nine tenths of its
 * limit.
 */
#define DELKUTHI_CHECKED // the answers do not matter here
#include "delkuthi.h"
#include "file.h"
#include <stdio.h>

#define PATTERN 0xA5
#define SIZE    ((size_t)1 << 17)

static struct file table, recording;
static delkuthi_monitor monitor;
static uint8_t report[DELKUTHI_REPORT_LIMIT];
static uint8_t page[DELKUTHI_PAGE_LIMIT];
static uint8_t joined[65536];
static delkuthi_row rows[DELKUTHI_ROW_LIMIT];

static void fresh(void)
{
    (void)delkuthi_fresh(&monitor, table.bytes, table.length);
    (void)delkuthi_fresh_2(&monitor, table.bytes, table.length);
}

static void make_table(void)
{
    (void)delkuthi_make_table(rows, DELKUTHI_ROW_LIMIT, report, sizeof report);
    (void)delkuthi_make_table_2(rows, DELKUTHI_ROW_LIMIT, report, sizeof report);
}

static void add_row(void)
{
    const delkuthi_pair pairs[8] = {{0, 1}, {0, 2}, {0, 3}, {0, 4}, {0, 5}, {0, 6}, {0, 7}, {0, 8}};
    const delkuthi_long_row row = delkuthi_arbitrary(0, pairs, 8);
    size_t length = 1;
    int i;

    joined[0] = 1;
    for (i = 0; i < DELKUTHI_ROW_LIMIT; i++)
        length = DELKUTHI_LENGTH(delkuthi_add_row(joined, sizeof joined, length, row.body, row.length));
}

static void table_row(void)
{
    uint64_t row;

    for (row = 0; row < DELKUTHI_ROW_LIMIT; row++)
        (void)delkuthi_table_row(joined, DELKUTHI_TABLE_LIMIT, row, report, sizeof report);
}

static void monitor_row(void)
{
    uint64_t row;

    for (row = 0; row < delkuthi_rows(&monitor); row++)
        (void)delkuthi_monitor_row(&monitor, row, report, sizeof report);
}

static void event(void)
{
    uint64_t time;

    for (time = 0; time < 1000; time++)
        if (time % 64 < DELKUTHI_FIRST_COLOURED)
            (void)delkuthi_event(&monitor, (uint8_t)(time % 64), time);
        else
            (void)delkuthi_coloured_event(&monitor, (uint8_t)(time % 64), (uint8_t)(time % 8), time);
}

static void tick(void)
{
    (void)delkuthi_tick(&monitor, 2000);
}

static void verdict(void)
{
    (void)delkuthi_row_verdict(&monitor, delkuthi_rows(&monitor) - 1);
    (void)delkuthi_row_step(&monitor, delkuthi_rows(&monitor) - 1);
    (void)delkuthi_row_cause(&monitor, delkuthi_rows(&monitor) - 1);
    (void)delkuthi_row_moment(&monitor, delkuthi_rows(&monitor) - 1);
    (void)delkuthi_row_oldest(&monitor, delkuthi_rows(&monitor) - 1);
    (void)delkuthi_row_oldest_stream(&monitor, delkuthi_rows(&monitor) - 1);
    (void)delkuthi_deadline(&monitor);
    (void)delkuthi_broken_rows(&monitor);
    (void)delkuthi_crowded_row(&monitor, 0, delkuthi_clock(&monitor) + 1);
}

static void withdraw(void)
{
    (void)delkuthi_withdraw(&monitor);
}

static void withdraw_step(void)
{
    (void)delkuthi_withdraw_step(&monitor, delkuthi_steps(&monitor));
}

static void take(void)
{
    (void)delkuthi_fresh_2(&monitor, table.bytes, table.length);
    (void)delkuthi_take(&monitor, recording.bytes, recording.length);
}

static void put(void)
{
    (void)delkuthi_put_event(joined, sizeof joined, 0, 0, 1);
    (void)delkuthi_put_coloured_event(joined, sizeof joined, 12, DELKUTHI_FIRST_COLOURED, 1, 2);
    (void)delkuthi_put_tick(joined, sizeof joined, 24, 3);
}

static void printed(void)
{
    (void)delkuthi_page(&monitor, page, sizeof page);
}

static void close_it(void)
{
    (void)delkuthi_close(&monitor);
}

static void whole_report(void)
{
    (void)delkuthi_report(table.bytes, table.length, recording.bytes, recording.length, report, sizeof report);
    (void)delkuthi_report_2(table.bytes, table.length, recording.bytes, recording.length, report, sizeof report);
}

static void report_on(void)
{
    (void)delkuthi_report_on(&monitor, table.bytes, table.length, recording.bytes, recording.length, report,
                             sizeof report);
    (void)delkuthi_report_on_2(&monitor, table.bytes, table.length, recording.bytes, recording.length, report,
                               sizeof report);
}

static void report_of(void)
{
    (void)delkuthi_report_of(&monitor, report, sizeof report);
}

static void late_stamps(void)
{
    (void)delkuthi_stamps(table.bytes, table.length, recording.bytes, recording.length, 0, 1);
    (void)delkuthi_stamps_2(table.bytes, table.length, recording.bytes, recording.length, 0, 1);
}

static void join(void)
{
    const uint8_t none = 1;

    (void)delkuthi_join(recording.bytes, recording.length, &none, 1, joined, sizeof joined);
}

static void short_stretch(void)
{
    (void)delkuthi_shortest_stretch(table.bytes, table.length, recording.bytes, recording.length, 0);
    (void)delkuthi_shortest_stretch_2(table.bytes, table.length, recording.bytes, recording.length, 0);
}

/* The address below which a function that the caller calls has its frame. */
static __attribute__((noinline)) volatile uint8_t *frame(void)
{
    return (volatile uint8_t *)__builtin_frame_address(0);
}

/* The bytes of stack that a call uses. */
static __attribute__((noinline)) size_t used_by(void (*act)(void))
{
    volatile uint8_t *stack = frame() - SIZE;
    size_t i;

    for (i = SIZE; i-- > 0;)
        stack[i] = PATTERN;
    act();
    for (i = 0; i < SIZE && stack[i] == PATTERN; i++)
        ;
    return SIZE - i;
}

/* A call, its limit, and the most bytes it has used. */
struct measured {
    const char *name;
    void (*act)(void);
    size_t limit, used;
};

static struct measured calls[] = {
    {"table", make_table, DELKUTHI_TABLE_STACK, 0},
    {"add_row", add_row, DELKUTHI_TABLE_STACK, 0},
    {"fresh", fresh, DELKUTHI_MONITOR_STACK, 0},
    {"table_row", table_row, DELKUTHI_TABLE_STACK, 0},
    {"monitor_row", monitor_row, DELKUTHI_TABLE_STACK, 0},
    {"event", event, DELKUTHI_STEP_STACK, 0},
    {"tick", tick, DELKUTHI_STEP_STACK, 0},
    {"withdraw", withdraw, DELKUTHI_STEP_STACK, 0},
    {"withdraw_step", withdraw_step, DELKUTHI_STEP_STACK, 0},
    {"take", take, DELKUTHI_TAKE_STACK, 0},
    {"put", put, DELKUTHI_STEP_STACK, 0},
    {"verdict", verdict, DELKUTHI_STEP_STACK, 0},
    {"close", close_it, DELKUTHI_STEP_STACK, 0},
    {"page", printed, DELKUTHI_PAGE_STACK, 0},
    {"report", whole_report, DELKUTHI_REPORT_STACK, 0},
    {"report_on", report_on, DELKUTHI_REPORT_ON_STACK, 0},
    {"report_of", report_of, DELKUTHI_REPORT_ON_STACK, 0},
    {"stamps", late_stamps, DELKUTHI_STAMPS_STACK, 0},
    {"join", join, DELKUTHI_JOIN_STACK, 0},
    {"stretch", short_stretch, DELKUTHI_STRETCH_STACK, 0},
};

#define CALLS (sizeof calls / sizeof *calls)

/* Makes every call with the files that were read. */
static void measure(void)
{
    size_t i, used;

    for (i = 0; i < CALLS; i++) {
        used = used_by(calls[i].act);
        if (used > calls[i].used)
            calls[i].used = used;
    }
}

int main(int argc, char **argv)
{
    size_t i;
    int well = argc > 2 && argc % 2 == 1, pair;

    for (i = 0; i < DELKUTHI_ROW_LIMIT; i++)
        rows[i] = delkuthi_order(0, 1);
    for (pair = 1; well && pair < argc; pair += 2) {
        if (!read_file(argv[pair], &table) || !read_file(argv[pair + 1], &recording))
            return 3;
        measure();
        free_file(&table);
        free_file(&recording);
    }
    for (i = 0; i < CALLS; i++) {
        printf("%lu of %lu %s\n", (unsigned long)calls[i].used, (unsigned long)calls[i].limit, calls[i].name);
        well = well && calls[i].used <= calls[i].limit / 10 * 9;
    }
    return well ? 0 : 1;
}
