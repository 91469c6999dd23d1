/*
 * The qualification kit on a library with one wrong answer: slips NAME PLACE
 *
 * It is linked with --wrap for every call of the library. The answer of the
 * given call has its lowest bit flipped once, at the given place among the
 * answers of that call, counted from 0.
 */
#include "delkuthi.h"
#include "runner.h"
#include <stdio.h>
#include <stdlib.h>
#include <string.h>

static const char *wrong;
static unsigned long place, count;

static uint64_t slip(const char *name, uint64_t answer)
{
    return strcmp(name, wrong) == 0 && count++ == place ? answer ^ 1 : answer;
}

#define CALL(type, name, parameters, arguments)              \
    type __real_##name parameters;                           \
    type __wrap_##name parameters;                           \
    type __wrap_##name parameters                            \
    {                                                        \
        return (type)slip(#name, __real_##name arguments);   \
    }

typedef const uint8_t *bytes;
typedef const delkuthi_monitor *reads;
typedef delkuthi_monitor *changes;
typedef const delkuthi_row *rows;

CALL(uint32_t, delkuthi_version, (void), ())
CALL(uint64_t, delkuthi_monitor_size, (void), ())
CALL(uint64_t, delkuthi_fresh, (changes m, bytes t, size_t n), (m, t, n))
CALL(uint64_t, delkuthi_fresh_2, (changes m, bytes t, size_t n), (m, t, n))
CALL(uint64_t, delkuthi_table, (rows r, size_t n, uint8_t *b, size_t l), (r, n, b, l))
CALL(uint64_t, delkuthi_table_2, (rows r, size_t n, uint8_t *b, size_t l), (r, n, b, l))
CALL(uint64_t, delkuthi_add_row, (uint8_t *t, size_t n, size_t l, bytes b, size_t m), (t, n, l, b, m))
CALL(uint64_t, delkuthi_table_row, (bytes t, size_t n, uint64_t r, uint8_t *b, size_t l), (t, n, r, b, l))
CALL(uint64_t, delkuthi_monitor_row, (reads m, uint64_t r, uint8_t *b, size_t l), (m, r, b, l))
CALL(uint8_t, delkuthi_event, (changes m, uint8_t k, uint64_t t), (m, k, t))
CALL(uint8_t, delkuthi_coloured_event, (changes m, uint8_t k, uint8_t c, uint64_t t), (m, k, c, t))
CALL(uint8_t, delkuthi_tick, (changes m, uint64_t t), (m, t))
CALL(uint8_t, delkuthi_close, (changes m), (m))
CALL(uint8_t, delkuthi_withdraw, (changes m), (m))
CALL(uint8_t, delkuthi_withdraw_step, (changes m, uint64_t s), (m, s))
CALL(uint64_t, delkuthi_put_event, (uint8_t *b, size_t l, size_t s, uint8_t k, uint64_t t), (b, l, s, k, t))
CALL(uint64_t, delkuthi_put_coloured_event, (uint8_t *b, size_t l, size_t s, uint8_t k, uint8_t c, uint64_t t), (b, l, s, k, c, t))
CALL(uint64_t, delkuthi_put_tick, (uint8_t *b, size_t l, size_t s, uint64_t t), (b, l, s, t))
CALL(uint64_t, delkuthi_take, (changes m, bytes r, size_t n), (m, r, n))
CALL(uint8_t, delkuthi_row_verdict, (reads m, uint64_t r), (m, r))
CALL(uint64_t, delkuthi_row_step, (reads m, uint64_t r), (m, r))
CALL(uint8_t, delkuthi_row_cause, (reads m, uint64_t r), (m, r))
CALL(uint64_t, delkuthi_row_moment, (reads m, uint64_t r), (m, r))
CALL(uint64_t, delkuthi_rows, (reads m), (m))
CALL(uint64_t, delkuthi_clock, (reads m), (m))
CALL(uint64_t, delkuthi_steps, (reads m), (m))
CALL(uint8_t, delkuthi_closed, (reads m), (m))
CALL(uint32_t, delkuthi_broken_rows, (reads m), (m))
CALL(uint64_t, delkuthi_row_waiting, (reads m, uint64_t r), (m, r))
CALL(uint64_t, delkuthi_row_oldest, (reads m, uint64_t r), (m, r))
CALL(uint8_t, delkuthi_row_oldest_stream, (reads m, uint64_t r), (m, r))
CALL(uint8_t, delkuthi_crowded_row, (reads m, uint8_t k, uint64_t t), (m, k, t))
CALL(uint64_t, delkuthi_row_deadline, (reads m, uint64_t r), (m, r))
CALL(uint64_t, delkuthi_deadline, (reads m), (m))
CALL(size_t, delkuthi_page, (reads m, uint8_t *b, size_t l), (m, b, l))
CALL(size_t, delkuthi_report_of, (reads m, uint8_t *b, size_t l), (m, b, l))
CALL(size_t, delkuthi_report, (bytes t, size_t n, bytes r, size_t o, uint8_t *b, size_t l), (t, n, r, o, b, l))
CALL(size_t, delkuthi_report_2, (bytes t, size_t n, bytes r, size_t o, uint8_t *b, size_t l), (t, n, r, o, b, l))
CALL(size_t, delkuthi_report_on, (changes m, bytes t, size_t n, bytes r, size_t o, uint8_t *b, size_t l), (m, t, n, r, o, b, l))
CALL(size_t, delkuthi_report_on_2, (changes m, bytes t, size_t n, bytes r, size_t o, uint8_t *b, size_t l), (m, t, n, r, o, b, l))
CALL(uint64_t, delkuthi_join, (bytes t, size_t n, bytes r, size_t o, uint8_t *b, size_t l), (t, n, r, o, b, l))
CALL(uint64_t, delkuthi_stamps, (bytes t, size_t n, bytes r, size_t o, uint64_t i, uint64_t e), (t, n, r, o, i, e))
CALL(uint64_t, delkuthi_stamps_2, (bytes t, size_t n, bytes r, size_t o, uint64_t i, uint64_t e), (t, n, r, o, i, e))
CALL(uint64_t, delkuthi_shortest_stretch, (bytes t, size_t n, bytes r, size_t o, uint64_t i), (t, n, r, o, i))
CALL(uint64_t, delkuthi_shortest_stretch_2, (bytes t, size_t n, bytes r, size_t o, uint64_t i), (t, n, r, o, i))

static void print(const char *text, size_t length)
{
    (void)fwrite(text, 1, length, stdout);
}

int main(int argc, char **argv)
{
    if (argc != 3)
        return 2;
    wrong = argv[1];
    place = strtoul(argv[2], NULL, 10);
    return kit_run(print) == 0 ? 0 : 1;
}
