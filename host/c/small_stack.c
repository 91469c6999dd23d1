/*
 * A report on a small stack: small_stack TABLE RECORDING
 *
 * Makes the report with a monitor in static memory, on a stack of 8,192 bytes,
 * which is enough on x86-64, and prints it. The memory below that stack is
 * filled with a pattern; the exit status is 1 if a byte of it was written.
 */
#define _XOPEN_SOURCE 600
#include "delkuthi.h"
#include "file.h"
#include <stdio.h>
#include <stdlib.h>
#include <string.h>
#include <ucontext.h>

#define PATTERN 0xA5
#define BELOW ((size_t)1 << 18)
#define STACK 8192

static struct file table, recording;
static delkuthi_monitor monitor;
static uint8_t report[DELKUTHI_REPORT_LIMIT];
static size_t written;
static uint8_t stack[BELOW + STACK];

static void make(void)
{
    written = delkuthi_report_on_2(&monitor, table.bytes, table.length, recording.bytes, recording.length, report,
                                   sizeof report);
}

/* Runs it on the small stack; returns whether nothing was written below. */
static int on_small_stack(void)
{
    static ucontext_t here, there;
    size_t untouched = 0;

    memset(stack, PATTERN, sizeof stack);
    if (getcontext(&there) != 0)
        return 0;
    there.uc_stack.ss_sp = stack;
    there.uc_stack.ss_size = sizeof stack;
    there.uc_link = &here;
    makecontext(&there, make, 0);
    if (swapcontext(&here, &there) != 0)
        return 0;
    while (untouched < sizeof stack && stack[untouched] == PATTERN)
        untouched++;
    return untouched >= BELOW;
}

int main(int argc, char **argv)
{
    int well;

    if (argc != 3 || !read_file(argv[1], &table) || !read_file(argv[2], &recording))
        return 3;
    well = on_small_stack();
    (void)fwrite(report, 1, written, stdout);
    free_file(&table);
    free_file(&recording);
    return well ? 0 : 1;
}
