/*
 * Writes tables of rows, in the edition that they need: make_table ROWS
 *
 * ROWS is a text file of numbers. For each table it has the number of rows and
 * the length of the buffer, then for each row its type, how many bytes and times
 * it has, and these. For each table the program prints the number and the length
 * that the library answers, and every byte of the buffer.
 */
#include "delkuthi.h"
#include <inttypes.h>
#include <stdio.h>
#include <stdlib.h>
#include <string.h>

enum { BYTES = 300, TIMES = 40 };

/* Returns the pairs of a list of times. */
static const delkuthi_pair *pairs(const uint64_t *t)
{
    static delkuthi_pair made[TIMES / 2];
    int i;

    for (i = 0; i < TIMES / 2; i++) {
        made[i].minimum = t[2 * i];
        made[i].maximum = t[2 * i + 1];
    }
    return made;
}

/* Returns the row of a type, from its bytes b and its times t. */
static delkuthi_long_row row_of(unsigned type, const uint8_t *b,
                                const uint64_t *t)
{
    switch (type) {
    /* begin cases: made by release/row-types.py */
    case 1:
        return delkuthi_as_long(delkuthi_delay(b[0], b[1], t[0], t[1]));
    case 2:
        return delkuthi_as_long(delkuthi_strong_delay(b[0], b[1], t[0], t[1]));
    case 3:
        return delkuthi_as_long(delkuthi_repeat(b[0], b[1], t[0], t[1]));
    case 4:
        return delkuthi_as_long(delkuthi_sporadic(b[0], t[0], t[1], t[2], t[3]));
    case 5:
        return delkuthi_as_long(delkuthi_burst(b[0], b[1], t[0], t[1]));
    case 6:
        return delkuthi_as_long(delkuthi_order(b[0], b[1]));
    case 7:
        return delkuthi_as_long(delkuthi_strong_synchronization(b + 1, b[0], t[0]));
    case 8:
        return delkuthi_as_long(delkuthi_execution_time(b[0], b[1], b[2], b[3], t[0], t[1]));
    case 9:
        return delkuthi_as_long(delkuthi_reaction(b[0], b[1], t[0], t[1]));
    case 10:
        return delkuthi_as_long(delkuthi_repetition(b[0], b[1], t[0], t[1], t[2]));
    case 11:
        return delkuthi_as_long(delkuthi_synchronization(b + 1, b[0], t[0]));
    case 12:
        return delkuthi_as_long(delkuthi_age(b[0], b[1], t[0], t[1]));
    case 13:
        return delkuthi_as_long(delkuthi_output_synchronization(b[1], b + 2, b[0], t[0]));
    case 14:
        return delkuthi_as_long(delkuthi_input_synchronization(b + 1, b[0], b[1 + b[0]], t[0]));
    case 15:
        return delkuthi_pattern(b[1], t[0], t[1], t[2], t + 3, b[0]);
    case 16:
        return delkuthi_arbitrary(b[1], pairs(t), b[0]);
    default:
        return delkuthi_as_long(delkuthi_comparison(b[0], t[0], t[1]));
    /* end cases */
    }
}

/* Reads a row. Returns 0 if the file has none. */
static int read_row(FILE *file, delkuthi_long_row *row)
{
    unsigned type, bytes_given, times_given, i;
    uint8_t bytes[BYTES] = {0};
    uint64_t times[TIMES] = {0};

    if (fscanf(file, "%u %u %u", &type, &bytes_given, &times_given) != 3 ||
        bytes_given > BYTES || times_given > TIMES)
        return 0;
    for (i = 0; i < bytes_given; i++)
        if (fscanf(file, "%" SCNu8, &bytes[i]) != 1)
            return 0;
    for (i = 0; i < times_given; i++)
        if (fscanf(file, "%" SCNu64, &times[i]) != 1)
            return 0;
    *row = row_of(type, bytes, times);
    return 1;
}

/* Is the row of a type whose rows are given by value? */
static int is_short(const delkuthi_long_row *row)
{
    return row->body[0] != 15 && row->body[0] != 16;
}

/* Makes a table of rows that are given by value, if all can be. */
static int make_short(const delkuthi_long_row *rows, size_t count,
                      uint8_t *table, size_t length, uint64_t *answer)
{
    delkuthi_row *made = malloc((count ? count : 1) * sizeof *made);
    size_t i;

    if (!made)
        abort();
    memset(made, 0, (count ? count : 1) * sizeof *made);
    for (i = 0; i < count && is_short(&rows[i]); i++)
        memcpy(made[i].body, rows[i].body, rows[i].length);
    if (i == count)
        *answer = delkuthi_make_any_table(made, count, table, length);
    free(made);
    return i == count;
}

/* Makes a table of rows of any length; a fresh monitor asks about them. */
static uint64_t make_long(const delkuthi_long_row *rows, size_t count,
                          uint8_t *table, size_t length)
{
    static delkuthi_monitor monitor;
    static uint8_t made[64 * DELKUTHI_TABLE_LIMIT];
    size_t used = 1, place = 1, i;
    uint64_t answer;

    made[0] = 1;
    for (i = 0; i < count && used; i++)
        used = delkuthi_put_row(made, sizeof made, used, &rows[i]);
    answer = delkuthi_fresh_2(&monitor, made, used);
    for (i = 0; i < count && place < DELKUTHI_PLACE(answer); i++)
        place += 2 + rows[i].length;
    if (answer)
        return (uint64_t)i << 8 | DELKUTHI_NUMBER(answer);
    if (used > length)
        return DELKUTHI_TABLE_ROOM;
    memcpy(table, made, used);
    return (uint64_t)used << 8;
}

/* Makes the next table of the file. Returns 0 if there is none. */
static int next_table(FILE *file)
{
    unsigned long count, length, i;
    delkuthi_long_row *rows;
    uint8_t *table;
    uint64_t answer;
    int well = 1;

    if (fscanf(file, "%lu %lu", &count, &length) != 2)
        return 0;
    rows = malloc((count ? count : 1) * sizeof *rows);
    table = malloc(length ? length : 1);
    if (!rows || !table)
        abort();
    memset(table, 0xA5, length);
    for (i = 0; i < count; i++)
        well = well && read_row(file, &rows[i]);
    if (well) {
        if (!make_short(rows, count, table, length, &answer))
            answer = make_long(rows, count, table, length);
        printf("%d %" PRIu64 " ", DELKUTHI_NUMBER(answer), DELKUTHI_LENGTH(answer));
        for (i = 0; i < length; i++)
            printf("%02x", table[i]);
        printf("\n");
    }
    free(rows);
    free(table);
    return well;
}

int main(int argc, char **argv)
{
    FILE *file = argc == 2 ? fopen(argv[1], "r") : NULL;

    if (!file)
        return 1;
    while (next_table(file))
        continue;
    fclose(file);
    return 0;
}
