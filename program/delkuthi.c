/*
 * The program: delkuthi [--edition N]
 *
 * Reads table.bin and recording.bin in the current folder, and prints the report
 * on them. The table has to be of edition 1; with --edition 2 it may be of
 * edition 1 or 2. A file that cannot be opened counts as one of 0 bytes. The exit
 * status says what the report says:
 *   0  every row is kept
 *   1  a row is broken
 *   2  something is refused: the table, the recording, a step, or an argument.
 *      The command of the same name in the Python package takes more arguments
 *   3  the report could not be written
 */
#define _POSIX_C_SOURCE 200809L
#include "delkuthi.h"
#include <inttypes.h>
#include <signal.h>
#include <stdio.h>
#include <string.h>

#define TABLE_SIZE_LIMIT     2048
#define RECORDING_SIZE_LIMIT 61440
#define TOO_LARGE            "refused 17 0\n"

static const char help[] =
    "usage: delkuthi [--edition N | --version | --help]\n"
    "\n"
    "Reads table.bin and recording.bin in the current folder, at most 2,048 and\n"
    "61,440 bytes, and prints the report on them. A file that cannot be opened\n"
    "counts as one of 0 bytes.\n"
    "\n"
    "  --edition N  the newest edition of the table that is taken, 1 or 2;\n"
    "               without it 1, so that a table of edition 2 is refused with 1\n"
    "\n"
    "status: 0 every row kept, 1 a row broken, 2 something refused, 3 the\n"
    "report not written. The command of the same name in the Python package\n"
    "takes more arguments.\n";

/* One byte more than a file may have, so that a larger file shows. */
static uint8_t table[TABLE_SIZE_LIMIT + 1];
static uint8_t recording[RECORDING_SIZE_LIMIT + 1];
static uint8_t report[DELKUTHI_REPORT_LIMIT + 1];

/* Reads as much of a file as there is room for. Returns the number of bytes. */
static size_t load(const char *name, uint8_t *bytes, size_t room)
{
    FILE *file = fopen(name, "rb");
    size_t length;

    if (file == NULL)
        return 0;
    length = fread(bytes, 1, room, file);
    fclose(file);
    return length;
}

/* Makes the report by the call for an edition, with a byte 0 behind it. */
static void make_report(int edition, size_t table_length, size_t recording_length)
{
    size_t written;

    if (table_length > TABLE_SIZE_LIMIT || recording_length > RECORDING_SIZE_LIMIT) {
        memcpy(report, TOO_LARGE, sizeof TOO_LARGE);
        return;
    }
    written = (edition == 1 ? delkuthi_report : delkuthi_report_2)(table, table_length, recording, recording_length,
                                                                   report, DELKUTHI_REPORT_LIMIT);
    report[written] = 0;
}

/* Returns the exit status for a report. */
static int status_of(const char *text)
{
    if (strncmp(text, "refused", strlen("refused")) == 0)
        return 2;
    return strstr(text, "broken") != NULL ? 1 : 0;
}

/* Prints a text and closes the output. Returns the exit status: this one, or 3 if it could not be written. */
static int print(const char *text, int status)
{
    if (fputs(text, stdout) == EOF || fclose(stdout) != 0) {
        fputs("delkuthi: the report could not be written\n", stderr);
        return 3;
    }
    return status;
}

/* Prints the version of the library. */
static int print_version(void)
{
    char text[64];
    uint32_t version = delkuthi_version();

    snprintf(text, sizeof text, "delkuthi %" PRIu32 ".%" PRIu32 ".%" PRIu32 "\n", version / 1000000,
             version / 1000 % 1000, version % 1000);
    return print(text, 0);
}

/* Reports on the files in the current folder. Returns the exit status. */
static int print_report(int edition)
{
    const char *text = (const char *)report;
    size_t table_length = load("table.bin", table, sizeof table);

    make_report(edition, table_length, load("recording.bin", recording, sizeof recording));
    return print(text, status_of(text));
}

int main(int argc, char **argv)
{
    const char *option = argc > 1 ? argv[1] : "", *value = argc > 2 ? argv[2] : "";

    /* If the reader of a pipe has gone, writing has to fail, not end the program. */
    signal(SIGPIPE, SIG_IGN);
    if (argc == 1)
        return print_report(1);
    if (argc == 2 && strcmp(option, "--version") == 0)
        return print_version();
    if (argc == 2 && strcmp(option, "--help") == 0)
        return print(help, 0);
    if (argc == 3 && strcmp(option, "--edition") == 0 && (strcmp(value, "1") == 0 || strcmp(value, "2") == 0))
        return print_report(value[0] - '0');
    fputs("delkuthi: this program takes no arguments but --edition 1 or 2, --version and --help; "
          "the command of the Python package takes others\n", stderr);
    return 2;
}
