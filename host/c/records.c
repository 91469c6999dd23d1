/*
 * The instructions of a record: records
 *
 * Counts what a record costs delkuthi_report_on, delkuthi_stamps and
 * delkuthi_join, over a table of one Repeat: the instructions over 2,000 records
 * less those over 500, for each of the 1,500 records. All are events of two
 * kinds, or all are ticks. A join has half of the records in each recording, and
 * takes them by turns. Then the program counts the instructions of
 * delkuthi_shortest_stretch for each row of a table of 32 rows, over 32 to 256
 * records, and measures its time. No stretch of the records breaks one of these
 * rows, so that each start is run to the end.
 *
 * The program starts itself again under callgrind, of valgrind, and plays its
 * calls there.
 */
#define _POSIX_C_SOURCE 200809L
#include "delkuthi.h"
#include <inttypes.h>
#include <stdio.h>
#include <stdlib.h>
#include <string.h>
#include <time.h>

#define FEW     500
#define MANY    2000
#define ROWS    DELKUTHI_ROW_LIMIT
#define FAR     UINT64_C(1000000)
#define REPEATS 5
#define COUNTS  (2 * 3 * 2 + SIZES * ROWS)

enum call { REPORT, STAMPS, JOIN, STRETCH, CALLS };

static const char *const names[CALLS] = {"delkuthi_report_on", "delkuthi_stamps", "delkuthi_join", "delkuthi_shortest_stretch"};

/* How many records a stretch is searched in. */
#define SIZES 4
static const unsigned sizes[SIZES] = {32, 64, 128, 256};

/* A recording. */
struct bytes {
    uint8_t bytes[1 + 11 * MANY];
    size_t length;
};

static uint8_t table[DELKUTHI_TABLE_LIMIT];
static size_t table_length;
static struct bytes all, first, second;
static delkuthi_monitor monitor;
static uint8_t joined[sizeof all.bytes + 1];
static uint8_t report[DELKUTHI_REPORT_LIMIT];

/* Stops where a call has not answered as it must. */
static void must(int holds)
{
    if (!holds) {
        fprintf(stderr, "records: a call has answered otherwise\n");
        exit(2);
    }
}

/* Adds a record at the next time: an event of a kind, or a tick. */
static void add(struct bytes *to, int ticks, uint8_t kind, uint64_t time)
{
    uint64_t answer = ticks ? delkuthi_put_tick(to->bytes, sizeof to->bytes, to->length, time)
                            : delkuthi_put_event(to->bytes, sizeof to->bytes, to->length, kind, time);

    must(DELKUTHI_NUMBER(answer) == DELKUTHI_TAKEN);
    to->length = (size_t)DELKUTHI_LENGTH(answer);
}

/* Makes the recordings of some records: whole, and in two parts by turns. */
static void make_recordings(int ticks, unsigned count)
{
    unsigned i;

    all.length = first.length = second.length = 0;
    for (i = 0; i < count; i++) {
        uint8_t kind = (uint8_t)(i % 2);

        add(&all, ticks, kind, i + 1);
        add(kind ? &second : &first, ticks, kind, i + 1);
    }
}

static void make_table(const delkuthi_row *rows, size_t count)
{
    uint64_t answer = delkuthi_make_table(rows, count, table, sizeof table);

    must(DELKUTHI_NUMBER(answer) == DELKUTHI_TAKEN);
    table_length = (size_t)DELKUTHI_LENGTH(answer);
}

/* Makes the table of 32 rows of six types, of which no stretch of events of kinds 0 and 1 by turns breaks one. */
static void make_rows(void)
{
    static const uint8_t kinds[2] = {0, 1};
    delkuthi_row rows[ROWS];
    unsigned i;

    for (i = 0; i < ROWS; i++) {
        uint64_t more = FAR + i;

        switch (i % 8) {
        case 0:
            rows[i] = delkuthi_delay(0, 1, 0, more);
            break;
        case 1:
            rows[i] = delkuthi_repeat(0, (uint8_t)(1 + i), 0, more);
            break;
        case 2:
            rows[i] = delkuthi_sporadic(0, 0, more, more, 0);
            break;
        case 3:
            rows[i] = delkuthi_burst(0, (uint8_t)(1 + i), 1, 1);
            break;
        case 4:
            rows[i] = delkuthi_repetition(0, 1, 0, more, more);
            break;
        case 5:
            rows[i] = delkuthi_strong_synchronization(kinds, 2, more);
            break;
        case 6:
            rows[i] = delkuthi_delay(2, 0, 0, more);
            break;
        default:
            rows[i] = delkuthi_repeat(2, 1, 0, more);
            break;
        }
    }
    make_table(rows, ROWS);
}

/* Makes one call. Its instructions are counted. */
__attribute__((noinline)) uint64_t counted(enum call call, uint64_t row)
{
    switch (call) {
    case REPORT:
        return delkuthi_report_on(&monitor, table, table_length, all.bytes, all.length, report, sizeof report);
    case STAMPS:
        return delkuthi_stamps(table, table_length, all.bytes, all.length, row, 1);
    case JOIN:
        return delkuthi_join(first.bytes, first.length, second.bytes, second.length, joined, first.length + second.length);
    default:
        return delkuthi_shortest_stretch(table, table_length, all.bytes, all.length, row);
    }
}

/* Plays the calls in the order in which they are printed. */
static void play(void)
{
    delkuthi_row repeat = delkuthi_repeat(0, 1, 0, FAR);
    uint64_t row;
    int ticks, i;

    make_table(&repeat, 1);
    for (ticks = 0; ticks < 2; ticks++)
        for (i = 0; i < 2; i++) {
            make_recordings(ticks, i ? MANY : FEW);
            must(counted(REPORT, 0) > 0 && memcmp(report, "closed", 6) == 0);
            must(DELKUTHI_NUMBER(counted(STAMPS, 0)) == DELKUTHI_TAKEN);
            must(DELKUTHI_LENGTH(counted(JOIN, 0)) == all.length && memcmp(joined, all.bytes, all.length) == 0);
        }
    make_rows();
    for (i = 0; i < SIZES; i++) {
        make_recordings(0, sizes[i]);
        /* no row has too many waiting */
        must(delkuthi_report_on(&monitor, table, table_length, all.bytes, all.length, report, sizeof report) > 6 && memcmp(report, "closed", 6) == 0);
        for (row = 0; row < ROWS; row++)
            must(DELKUTHI_NUMBER(counted(STRETCH, row)) == DELKUTHI_NO_STRETCH);
    }
}

/* Starts the program again under callgrind, and reads the instructions of each call. */
static void count(const char *program, uint64_t *counts)
{
    char command[1024], line[256];
    int found = 0, length;
    FILE *written;

    length = snprintf(command, sizeof command,
                      "exec valgrind -q --tool=callgrind --combine-dumps=yes --toggle-collect=counted --dump-after=counted "
                      "--callgrind-out-file='%s.counts' '%s' played", program, program);
    must(length > 0 && (size_t)length < sizeof command);
    must(system(command) == 0);
    snprintf(command, sizeof command, "%s.counts", program);
    written = fopen(command, "r");
    must(written != NULL);
    while (found < COUNTS && fgets(line, sizeof line, written))
        if (sscanf(line, "totals: %" SCNu64, &counts[found]) == 1)
            found++;
    fclose(written);
    must(found == COUNTS);
}

/* Returns the milliseconds of the search in 256 records for a row: the shortest of some. */
static double milliseconds(uint64_t row)
{
    struct timespec start, end;
    double least = 0, passed;
    int i;

    for (i = 0; i < REPEATS; i++) {
        clock_gettime(CLOCK_MONOTONIC, &start);
        must(DELKUTHI_NUMBER(counted(STRETCH, row)) == DELKUTHI_NO_STRETCH);
        clock_gettime(CLOCK_MONOTONIC, &end);
        passed = (double)(end.tv_sec - start.tv_sec) * 1e3 + (double)(end.tv_nsec - start.tv_nsec) / 1e6;
        if (i == 0 || passed < least)
            least = passed;
    }
    return least;
}

static void print_records(const uint64_t *counts)
{
    int call;

    printf("| call | an event | a tick |\n|---|--:|--:|\n");
    for (call = REPORT; call <= JOIN; call++)
        printf("| `%s` | %.0f | %.0f |\n", names[call], (double)(counts[3 + call] - counts[call]) / (MANY - FEW),
               (double)(counts[9 + call] - counts[6 + call]) / (MANY - FEW));
}

/* Prints the least, the middle and the most instructions of a row, and the time of the search in most records. */
static void print_stretches(const uint64_t *counts)
{
    double time, least = 0, most = 0, sum = 0;
    uint64_t row;
    int i;

    printf("\n| records | instructions, least of 32 rows | mean | most |\n|--:|--:|--:|--:|\n");
    for (i = 0; i < SIZES; i++) {
        const uint64_t *of = counts + i * ROWS;
        uint64_t low = of[0], high = of[0], total = 0;

        for (row = 0; row < ROWS; row++) {
            low = of[row] < low ? of[row] : low;
            high = of[row] > high ? of[row] : high;
            total += of[row];
        }
        printf("| %u | %" PRIu64 " | %" PRIu64 " | %" PRIu64 " |\n", sizes[i], low, total / ROWS, high);
    }
    for (row = 0; row < ROWS; row++) {
        time = milliseconds(row);
        least = row == 0 || time < least ? time : least;
        most = time > most ? time : most;
        sum += time;
    }
    printf("\n%u records of 32 rows: a row takes %.2f to %.2f ms, all rows %.1f ms.\n", sizes[SIZES - 1], least, most, sum);
}

int main(int words, char **word)
{
    static uint64_t counts[COUNTS];

    if (!DELKUTHI_MATCHES())
        return 3;
    play();
    if (words > 1)
        return 0;
    count(word[0], counts);
    print_records(counts);
    print_stretches(counts + 12);
    return 0;
}
