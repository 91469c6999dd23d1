/*
 * Every call ends soon, whatever the memory holds: forged ROUNDS TABLE..
 *
 * For each table it makes a monitor, steps it, and forges its memory in three
 * ways: it sets one word after the other to each of the worst numbers; it sets
 * all words, and then one of them to a small number, as the number of a type is;
 * and, in ROUNDS rounds, it sets some words at random. On each such memory it
 * makes every call. A correct call takes less than a thousandth of LIMIT seconds
 * of processor time. If one takes more than LIMIT, the program says which, and
 * ends with status 1. It prints how many calls it made.
 */
#define _XOPEN_SOURCE 600
#define DELKUTHI_CHECKED // the answers do not matter here
#include "delkuthi.h"
#include "file.h"
#include <signal.h>
#include <stdio.h>
#include <stdlib.h>
#include <string.h>
#include <sys/time.h>
#include <unistd.h>

#define LIMIT 5
#define WORDS (sizeof(delkuthi_monitor) / sizeof(uint64_t))
#define COUNT(list) (sizeof(list) / sizeof (list)[0])

/* The words of the first row, and those of the monitor behind all rows. */
#define FIRST 128
#define OWN   384

static const uint64_t worst[] = {0, 1, 63, 64, 65, UINT64_C(1) << 32, DELKUTHI_LAST_TIME, DELKUTHI_LAST_TIME + 1,
                                 UINT64_C(1) << 63, UINT64_MAX - 1, UINT64_MAX};
static const uint64_t times[] = {21, DELKUTHI_LAST_TIME, UINT64_MAX};
static const uint64_t rows[] = {0, 31, 32, UINT64_MAX};
static const uint8_t kinds[] = {0, 1, 2, 48, 49, 63, 64};

static uint64_t state = 88172645463325252u;
static unsigned long made;
static const char *call;

/* Returns the next random number below a limit. */
static uint64_t below(uint64_t limit)
{
    state ^= state << 13;
    state ^= state >> 7;
    state ^= state << 17;
    return state % limit;
}

/* A call took too long. */
static void too_long(int signal)
{
    static const char text[] = "a call did not end in time: ";

    (void)signal;
    (void)!write(2, text, sizeof text - 1);
    (void)!write(2, call, strlen(call));
    (void)!write(2, "\n", 1);
    _exit(1);
}

/* Starts the time of the next call. */
static void begins(const char *name)
{
    const struct itimerval limit = {{0, 0}, {LIMIT, 0}};

    call = name;
    made++;
    if (setitimer(ITIMER_VIRTUAL, &limit, NULL) != 0)
        exit(3);
}

/* Makes every call, each on a copy of the forged memory. */
static void every_call(const delkuthi_monitor *forged)
{
    static delkuthi_monitor monitor;
    static uint8_t page[DELKUTHI_PAGE_LIMIT];
    /* an event, an event with a colour, and a tick */
    static const uint8_t records[] = {2, 0, 9, 0, 0, 0, 0, 0, 0, 0, 1, 0, 0, 10, 48, 1, 0, 0, 0, 0, 0, 0, 1, 0,
                                      0, 8, 0, 0, 0, 0, 0, 0, 2, 0};
    size_t i, j;

    for (i = 0; i < COUNT(times); i++) {
        for (j = 0; j < COUNT(kinds); j++) {
            monitor = *forged;
            begins("delkuthi_event");
            (void)delkuthi_event(&monitor, kinds[j], times[i]);
            begins("delkuthi_crowded_row");
            (void)delkuthi_crowded_row(forged, kinds[j], times[i]);
            monitor = *forged;
            begins("delkuthi_coloured_event");
            (void)delkuthi_coloured_event(&monitor, kinds[j], (uint8_t)(j % 9), times[i]);
        }
        monitor = *forged;
        begins("delkuthi_tick");
        (void)delkuthi_tick(&monitor, times[i]);
    }
    monitor = *forged;
    begins("delkuthi_withdraw_step");
    (void)delkuthi_withdraw_step(&monitor, delkuthi_steps(forged));
    monitor = *forged;
    begins("delkuthi_take");
    (void)delkuthi_take(&monitor, records, sizeof records);
    monitor = *forged;
    begins("delkuthi_close");
    (void)delkuthi_close(&monitor);
    for (i = 0; i < COUNT(rows); i++) {
        begins("delkuthi_row_verdict");
        (void)delkuthi_row_verdict(forged, rows[i]);
        begins("delkuthi_row_step");
        (void)delkuthi_row_step(forged, rows[i]);
        begins("delkuthi_row_cause");
        (void)delkuthi_row_cause(forged, rows[i]);
        begins("delkuthi_row_moment");
        (void)delkuthi_row_moment(forged, rows[i]);
        begins("delkuthi_monitor_row");
        (void)delkuthi_monitor_row(forged, rows[i], page, DELKUTHI_LONGEST_ROW);
        begins("delkuthi_row_deadline");
        (void)delkuthi_row_deadline(forged, rows[i]);
        begins("delkuthi_row_waiting");
        (void)delkuthi_row_waiting(forged, rows[i]);
        begins("delkuthi_row_oldest");
        (void)delkuthi_row_oldest(forged, rows[i]);
        begins("delkuthi_row_oldest_stream");
        (void)delkuthi_row_oldest_stream(forged, rows[i]);
    }
    begins("delkuthi_deadline");
    (void)delkuthi_deadline(forged);
    begins("delkuthi_broken_rows");
    (void)delkuthi_broken_rows(forged);
    begins("delkuthi_page");
    (void)delkuthi_page(forged, page, sizeof page);
    begins("delkuthi_report_of");
    (void)delkuthi_report_of(forged, page, DELKUTHI_REPORT_LIMIT);
    begins("delkuthi_rows");
    (void)delkuthi_rows(forged);
}

/* Makes a monitor over a table that has taken some steps. */
static int stepped(const struct file *table, delkuthi_monitor *monitor)
{
    uint64_t time;

    if (delkuthi_fresh_2(monitor, table->bytes, table->length) != DELKUTHI_TAKEN)
        return 0;
    for (time = 0; time < 20; time++)
        (void)delkuthi_event(monitor, (uint8_t)(time % 5 == 0 ? time % 4 : 0), time);
    return 1;
}

/* Sets one word after the other to each of the worst numbers. */
static void one_word(const delkuthi_monitor *good)
{
    delkuthi_monitor forged = *good;
    size_t at, i;

    for (at = 0; at < WORDS; at++) {
        for (i = at < FIRST || at >= WORDS - OWN ? 0 : COUNT(worst) - 1; i < COUNT(worst); i++) {
            forged.words[at] = worst[i];
            every_call(&forged);
        }
        forged.words[at] = good->words[at];
    }
}

/* Sets every word to one of the worst numbers, and then each word of the first row and of the monitor to a small number. */
static void every_word(void)
{
    static delkuthi_monitor forged;
    size_t at, i;
    uint64_t small;

    for (i = 0; i < COUNT(worst); i++) {
        for (at = 0; at < WORDS; at++)
            forged.words[at] = worst[i];
        every_call(&forged);
        for (at = 0; at < WORDS; at = at + 1 == FIRST ? WORDS - OWN : at + 1)
            for (small = 0; small < 10; small++) {
                forged.words[at] = small;
                every_call(&forged);
                forged.words[at] = worst[i];
            }
    }
}

/* Sets some words of a monitor at random. */
static void some_words(const delkuthi_monitor *good, long rounds)
{
    delkuthi_monitor forged;
    uint64_t number;

    while (rounds-- > 0) {
        forged = *good;
        for (number = 2 + below(20); number > 0; number--) {
            uint64_t at = below(FIRST + OWN);

            forged.words[at < FIRST ? at : WORDS - FIRST - OWN + at] = below(2) ? below(10) : worst[below(COUNT(worst))];
        }
        every_call(&forged);
    }
}

int main(int argc, char **argv)
{
    static delkuthi_monitor good;
    struct sigaction action;
    struct file table;
    int i;

    memset(&action, 0, sizeof action);
    action.sa_handler = too_long;
    if (argc < 3 || sigaction(SIGVTALRM, &action, NULL) != 0)
        return 3;
    for (i = 2; i < argc; i++) {
        if (!read_file(argv[i], &table) || !stepped(&table, &good))
            return 3;
        free_file(&table);
        one_word(&good);
        some_words(&good, atol(argv[1]));
    }
    every_word();
    printf("%lu calls\n", made);
    return 0;
}
