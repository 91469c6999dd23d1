/*
 * Every cut of a table and of a recording: every_cut TABLE RECORDING
 *
 * For each length of the table, then for each of the recording, it prints what
 * delkuthi_fresh_2 answers and the report. Every argument of a call is in a block
 * of exactly its length, so that valgrind sees a byte read or written outside.
 */
#include "delkuthi.h"
#include "file.h"
#include <inttypes.h>
#include <stdio.h>
#include <stdlib.h>
#include <string.h>

/* Ends the program if a check fails. */
static void must(int yes, const char *what)
{
    if (yes)
        return;
    fprintf(stderr, "not so: %s\n", what);
    exit(1);
}

/* Returns the first bytes of a file, as a separate file. */
static struct file cut(const struct file *file, size_t length)
{
    struct file part;

    part.bytes = block_of(length);
    part.length = length;
    memcpy(part.bytes, file->bytes, length);
    return part;
}

/* Makes the report in a block of this length. Returns the number of bytes written. */
static size_t report_in(const struct file *table, const struct file *recording, uint8_t *block, size_t length)
{
    memset(block, '#', length);
    return delkuthi_report_2(table->bytes, table->length, recording->bytes, recording->length, block, length);
}

/* Prints the report, made in blocks that are too long, exactly long enough, one byte short, and of length 0. */
static void print_report(const struct file *table, const struct file *recording)
{
    uint8_t *large = block_of(DELKUTHI_REPORT_LIMIT), *just, *small, *none = block_of(0);
    size_t length = report_in(table, recording, large, DELKUTHI_REPORT_LIMIT), i;

    must(length > 0 && length <= DELKUTHI_REPORT_LIMIT, "a report has a length");
    just = block_of(length);
    small = block_of(length - 1);
    must(report_in(table, recording, just, length) == length, "a block just as long is long enough");
    must(memcmp(just, large, length) == 0, "the report is the same");
    must(report_in(table, recording, small, length - 1) == 0, "a block one byte short is too short");
    for (i = 0; i < length - 1; i++)
        must(small[i] == '#', "nothing is written if the block is too short");
    must(report_in(table, recording, none, 0) == 0, "a block of length 0 is too short");
    fwrite(large, 1, length, stdout);
    free_block(large);
    free_block(just);
    free_block(small);
    free_block(none);
}

/* Prints what a fresh monitor answers to a table. */
static void print_fresh(const struct file *table)
{
    delkuthi_monitor *monitor = (delkuthi_monitor *)(void *)block_of(sizeof *monitor);
    uint64_t answer = delkuthi_fresh_2(monitor, table->bytes, table->length);

    if (answer == DELKUTHI_TAKEN)
        printf("fresh %" PRIu64 "\n", delkuthi_rows(monitor));
    else
        printf("fresh refused %d %" PRIu64 "\n", DELKUTHI_NUMBER(answer), DELKUTHI_PLACE(answer));
    free_block((uint8_t *)monitor);
}

int main(int argc, char **argv)
{
    struct file table, recording, part;
    size_t length;

    must(argc == 3 && read_file(argv[1], &table) && read_file(argv[2], &recording), "two files");
    for (length = 0; length <= table.length; length++) {
        part = cut(&table, length);
        print_fresh(&part);
        print_report(&part, &recording);
        free_file(&part);
    }
    for (length = 0; length <= recording.length; length++) {
        part = cut(&recording, length);
        print_report(&table, &part);
        free_file(&part);
    }
    free_file(&table);
    free_file(&recording);
    return 0;
}
