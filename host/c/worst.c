/*
 * The slowest calls: worst
 *
 * Searches for situations in which a call takes long, over tables of 32 rows of
 * edition 1, and prints for each sort of call the most cycles that it took and
 * where. There is a table of 32 rows for each type, whose rows share their kinds,
 * and one with all types. Each takes events in several orders, up to as many as
 * may wait. Then, on a copy, it takes one more event of each kind, soon and late,
 * a tick past every deadline, the close, and the withdrawal of each. A call is
 * repeated on copies of the same monitor, and its shortest time counts, so that
 * other work of the machine is not measured. "cold" is the median time of the
 * same call with the monitor in no cache. Cycles are those of the time stamp
 * counter (x86-64).
 */
#define _POSIX_C_SOURCE 199309L
#include "delkuthi.h"
#include <inttypes.h>
#include <stdio.h>
#include <stdlib.h>
#include <string.h>
#include <time.h>
#include <x86intrin.h>

#define REPEATS 40
#define FILLS   72
#define FAR     UINT64_C(1000000)

/* A call on a monitor. */
struct call {
    char sort; /* 'e' an event, 'c' an event with a colour, 't' a tick, 'x' the close, 'w' the withdrawal of the last step */
    uint8_t kind;
    uint64_t time;
};

/* The slowest call of a sort so far. */
struct slowest {
    const char *name;
    uint64_t cycles, cold;
    char where[112];
};

enum sort { EVENT, TICK, CLOSE, WITHDRAW, VERDICT, FRESH, SORTS };

static struct slowest slowest[SORTS] = {{"delkuthi_event", 0, 0, ""},    {"delkuthi_tick", 0, 0, ""},
                                        {"delkuthi_close", 0, 0, ""},    {"delkuthi_withdraw", 0, 0, ""},
                                        {"delkuthi_row_verdict", 0, 0, ""}, {"delkuthi_fresh", 0, 0, ""}};
static delkuthi_monitor filled, copy;
static uint8_t table[DELKUTHI_TABLE_LIMIT];
static size_t table_length;
static volatile uint64_t sink;

/* Returns a row of a type over the kinds 0 to 3, or 48 and 49, as all rows of the type have; number tells rows apart. */
static delkuthi_row row_of(int type, int number)
{
    static const uint8_t kinds[4] = {0, 1, 2, 3};
    uint64_t more = (uint64_t)number;

    switch (type) {
    case 1:
        return delkuthi_delay(0, 1, more, FAR / 2 + more);
    case 2:
        return delkuthi_strong_delay(0, 1, 0, FAR / 2 + more);
    case 3:
        return delkuthi_repeat(0, (uint8_t)(64 - number), 0, FAR / 2);
    case 4:
        return delkuthi_sporadic(0, 0, FAR / 4, 40 + more, 0);
    case 5:
        return delkuthi_burst(0, (uint8_t)(64 - number), 1, 1);
    case 6:
        return delkuthi_order(0, 1);
    case 7:
        return delkuthi_strong_synchronization(kinds, (uint8_t)(2 + number % 3), FAR / 2 + more);
    case 8:
        return delkuthi_execution_time(0, 1, 2, 3, 0, FAR / 2 + more);
    case 9:
        return delkuthi_reaction(48, 49, 0, FAR / 2 + more);
    default:
        return delkuthi_repetition(0, (uint8_t)(1 + number % 8), 0, FAR / 4, 40 + more);
    }
}

/* Writes the table of 32 rows of a type, or of all types in turn if it is 0. Returns whether it is accepted. */
static int make_table(int type)
{
    delkuthi_row rows[DELKUTHI_ROW_LIMIT];
    uint64_t answer;
    int i;

    for (i = 0; i < DELKUTHI_ROW_LIMIT; i++)
        rows[i] = row_of(type ? type : 1 + i % 10, i);
    answer = delkuthi_make_table(rows, DELKUTHI_ROW_LIMIT, table, sizeof table);
    table_length = (size_t)DELKUTHI_LENGTH(answer);
    return DELKUTHI_NUMBER(answer) == DELKUTHI_TAKEN;
}

static uint8_t take(delkuthi_monitor *monitor, struct call call)
{
    switch (call.sort) {
    case 'e':
        return delkuthi_event(monitor, call.kind, call.time);
    case 'c':
        return delkuthi_coloured_event(monitor, call.kind, 1, call.time);
    case 't':
        return delkuthi_tick(monitor, call.time);
    case 'x':
        return delkuthi_close(monitor);
    default:
        return delkuthi_withdraw(monitor);
    }
}

/* Removes the monitor from every cache. */
static void flush(delkuthi_monitor *monitor)
{
    size_t i;

    for (i = 0; i < sizeof *monitor; i += 64)
        _mm_clflush((char *)monitor + i);
    _mm_mfence();
}

static uint64_t now(void)
{
    unsigned processor;
    uint64_t cycles;

    _mm_lfence();
    cycles = __rdtscp(&processor);
    _mm_lfence();
    return cycles;
}

static int by_size(const void *one, const void *other)
{
    uint64_t a = *(const uint64_t *)one, b = *(const uint64_t *)other;

    return a < b ? -1 : a > b;
}

/* Returns the cycles of a call after a first step (none if its sort is 0): the shortest time, or, cold, the median. */
static uint64_t cycles_of(struct call first, struct call call, int cold)
{
    uint64_t times[REPEATS], start;
    int i;

    for (i = 0; i < REPEATS; i++) {
        copy = filled;
        if (first.sort)
            (void)take(&copy, first);
        if (cold)
            flush(&copy);
        start = now();
        sink = call.sort == 'v' ? delkuthi_row_verdict(&copy, 31)
               : call.sort == 'f' ? delkuthi_fresh(&copy, table, table_length) : take(&copy, call);
        times[i] = now() - start;
    }
    qsort(times, REPEATS, sizeof *times, by_size);
    return times[cold ? REPEATS / 2 : 0];
}

/* Notes where a call was slow: the rows, how many events came before it and in which order of kinds, and the event. */
static void say_where(char *text, size_t room, struct call call, int type, const char *order, int fill)
{
    char rows[24], event[40] = "";

    if (type)
        snprintf(rows, sizeof rows, "of type %d", type);
    else
        snprintf(rows, sizeof rows, "of all types");
    if (call.sort == 'e' || call.sort == 'c')
        snprintf(event, sizeof event, ", of kind %d, %s", call.kind, call.time > FAR ? "past every deadline" : "at the next time");
    snprintf(text, room, "%s, after %d events of kinds %s%s", rows, fill, order, event);
}

/* Measures a call, and keeps it if it is the slowest of its sort. */
static void measure(enum sort sort, struct call first, struct call call, int type, const char *order, int fill)
{
    uint64_t cycles = cycles_of(first, call, 0), again;
    struct slowest *found = &slowest[sort];
    int i;

    /* again, so that a time that was long by chance does not count */
    for (i = 0; i < 10 && cycles > found->cycles; i++) {
        again = cycles_of(first, call, 0);
        cycles = again < cycles ? again : cycles;
    }
    if (cycles <= found->cycles)
        return;
    found->cycles = cycles;
    found->cold = cycles_of(first, call, 1);
    say_where(found->where, sizeof found->where, first.sort ? first : call, type, order, fill);
}

/* Measures every call on the filled monitor. */
static void measure_all(int type, const char *order, int fill, uint64_t clock)
{
    static const struct call none = {0, 0, 0};
    struct call calls[16] = {{'t', 0, 0}, {'x', 0, 0}, {'v', 0, 0}, {'f', 0, 0}}, withdrawal = {'w', 0, 0};
    size_t i, count = 4;
    uint8_t kind;

    calls[0].time = clock + 2 * FAR;
    for (kind = 0; kind < 6; kind++) {
        char sort = kind < 4 ? 'e' : 'c';
        uint8_t number = (uint8_t)(kind < 4 ? kind : 44 + kind);
        struct call soon = {0, 0, 0}, late;

        soon.sort = sort;
        soon.kind = number;
        soon.time = clock + 1;
        late = soon;
        late.time = clock + 2 * FAR;
        calls[count++] = soon;
        calls[count++] = late;
    }
    for (i = 0; i < count; i++) {
        enum sort sort = calls[i].sort == 't' ? TICK : calls[i].sort == 'x' ? CLOSE : calls[i].sort == 'v' ? VERDICT
                         : calls[i].sort == 'f' ? FRESH : EVENT;

        measure(sort, none, calls[i], type, order, fill);
        if (sort == EVENT || sort == TICK || sort == CLOSE)
            measure(WITHDRAW, calls[i], withdrawal, type, order, fill);
    }
}

/* Fills a monitor over the table with events in an order of kinds, and measures while it fills. */
static void fill_and_measure(int type, const char *order)
{
    int i, length = (int)strlen(order);
    uint64_t clock = 0;

    if (delkuthi_fresh(&filled, table, table_length) != DELKUTHI_TAKEN)
        exit(2);
    for (i = 0; i < FILLS; i++) {
        char letter = order[i % length];
        struct call call = {'e', 0, 0};

        if (i < 3 || i % 20 == 10 || i > 60)
            measure_all(type, order, i, clock);
        call.sort = letter < '4' ? 'e' : 'c';
        call.kind = (uint8_t)(letter < '4' ? letter - '0' : letter - '0' + 44);
        call.time = ++clock;
        (void)take(&filled, call);
    }
}

/* Returns how many nanoseconds a cycle of the counter takes. */
static double nanoseconds(void)
{
    struct timespec start, end;
    uint64_t first, last;
    double passed;

    clock_gettime(CLOCK_MONOTONIC, &start);
    first = now();
    do {
        clock_gettime(CLOCK_MONOTONIC, &end);
        last = now();
        passed = (double)(end.tv_sec - start.tv_sec) * 1e9 + (double)(end.tv_nsec - start.tv_nsec);
    } while (passed < 2e8);
    return passed / (double)(last - first);
}

int main(void)
{
    /* kinds 4 and 5 stand for the coloured ones, 48 and 49 */
    static const char *const orders[] = {"0", "00000001", "01", "0123", "4", "45", "0124"};
    double unit = nanoseconds();
    size_t i;
    int type;

    if (!DELKUTHI_MATCHES())
        return 3;
    for (type = 0; type <= 10; type++) {
        if (!make_table(type))
            return 2;
        for (i = 0; i < sizeof orders / sizeof *orders; i++)
            fill_and_measure(type, orders[i]);
    }
    printf("| call | cycles | ns | cycles, cold | ns, cold | where |\n|---|---:|---:|---:|---:|---|\n");
    for (i = 0; i < SORTS; i++)
        printf("| `%s` | %" PRIu64 " | %.0f | %" PRIu64 " | %.0f | %s |\n", slowest[i].name, slowest[i].cycles,
               (double)slowest[i].cycles * unit, slowest[i].cold, (double)slowest[i].cold * unit, slowest[i].where);
    return 0;
}
