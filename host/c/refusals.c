/*
 * What every number of a refusal says: refusals
 *
 * Prints a line for each number from 0 to 255. Before that it uses every macro of
 * the header as a host would, so that a compiler can complain. It also compares
 * every byte of a monitor before and after a refusal of each number that a call
 * on a monitor can give, except 24.
 */
#include "delkuthi.h"
#include <stdio.h>
#include <string.h>

static delkuthi_monitor monitor, before;

/* Returns whether an answer has the number of a refusal and nothing has changed. */
static int left(uint64_t answer, uint8_t number)
{
    return DELKUTHI_NUMBER(answer) == number && memcmp(&monitor, &before, sizeof monitor) == 0;
}

/* The same for a table, by delkuthi_fresh and by a report on the monitor. */
static int table_left(const uint8_t *table, size_t length, uint8_t number)
{
    static const uint8_t recording[1] = {1};
    uint8_t report[64];

    return left(delkuthi_fresh(&monitor, table, length), number)
        && delkuthi_report_on(&monitor, table, length, recording, sizeof recording, report, sizeof report) > 0
        && left(number, number);
}

/* Refused tables, each with its number. */
static int tables_left(void)
{
    /* 33 rows, each an Order of kinds 0 and 1 */
    static uint8_t rows[1 + 33 * 5];
    static const uint8_t version[1] = {2}, cut[2] = {1, 0}, shape[6] = {1, 0, 3, 11, 0, 1},
                         kinds[6] = {1, 0, 3, 6, 0, 64}, sort[6] = {1, 0, 3, 6, 0, 48};
    /* a Repeat of span 0, and a Repeat from 2 to 1 */
    static const uint8_t range[22] = {1, 0, 19, 3}, bounds[22] = {1, 0, 19, 3, 0, 1, 0, 0, 0, 0, 0, 0, 0, 2,
                                                                 0, 0, 0, 0, 0, 0, 0, 1};
    size_t i;

    rows[0] = 1;
    for (i = 0; i < 33; i++)
        memcpy(rows + 1 + 5 * i, "\0\3\6\0\1", 5);
    return table_left(version, sizeof version, DELKUTHI_TABLE_VERSION)
        && table_left(cut, sizeof cut, DELKUTHI_ROW_CUT)
        && table_left(rows, sizeof rows, DELKUTHI_ROW_TOO_MANY)
        && table_left(shape, sizeof shape, DELKUTHI_ROW_SHAPE)
        && table_left(kinds, sizeof kinds, DELKUTHI_ROW_KINDS)
        && table_left(sort, sizeof sort, DELKUTHI_ROW_SORT)
        && table_left(range, sizeof range, DELKUTHI_ROW_RANGE)
        && table_left(bounds, sizeof bounds, DELKUTHI_ROW_BOUNDS);
}

/* Refused steps, each with its number: with 64 waiting, after a withdrawal, and after the close. */
static int steps_left(void)
{
    /* a Delay from kind 0 to kind 1, 0 to 1,000 */
    static const uint8_t delay[22] = {1, 0, 19, 1, 0, 1, 0, 0, 0, 0, 0, 0, 0, 0, 0, 0, 0, 0, 0, 0, 3, 232};
    uint64_t time;

    if (delkuthi_fresh(&monitor, delay, sizeof delay) != DELKUTHI_TAKEN)
        return 0;
    for (time = 1; time <= DELKUTHI_WAITING_LIMIT; time++)
        if (delkuthi_event(&monitor, 0, time) != DELKUTHI_TAKEN)
            return 0;
    if (delkuthi_tick(&monitor, 65) != DELKUTHI_TAKEN || delkuthi_withdraw(&monitor) != DELKUTHI_TAKEN)
        return 0;
    before = monitor;
    return left(delkuthi_event(&monitor, 0, 65), DELKUTHI_CROWDED)
        && left(delkuthi_withdraw(&monitor), DELKUTHI_NOTHING_TO_WITHDRAW)
        && left(delkuthi_withdraw_step(&monitor, DELKUTHI_WAITING_LIMIT), DELKUTHI_NOTHING_TO_WITHDRAW)
        && left(delkuthi_event(&monitor, DELKUTHI_LAST_KIND + 1, 65), DELKUTHI_KIND)
        && left(delkuthi_coloured_event(&monitor, DELKUTHI_LAST_KIND + 1, 0, 65), DELKUTHI_KIND)
        && left(delkuthi_event(&monitor, DELKUTHI_FIRST_COLOURED, 65), DELKUTHI_FORM)
        && left(delkuthi_coloured_event(&monitor, 0, 0, 65), DELKUTHI_FORM)
        && left(delkuthi_event(&monitor, 1, DELKUTHI_LAST_TIME + 1), DELKUTHI_TIME_RANGE)
        && left(delkuthi_tick(&monitor, DELKUTHI_LAST_TIME + 1), DELKUTHI_TIME_RANGE)
        && left(delkuthi_event(&monitor, 0, 64), DELKUTHI_TIME_ORDER)
        && left(delkuthi_coloured_event(&monitor, DELKUTHI_FIRST_COLOURED, 0, 63), DELKUTHI_TIME_ORDER)
        && left(delkuthi_tick(&monitor, 64), DELKUTHI_TIME_ORDER)
        && tables_left()
        && delkuthi_close(&monitor) == DELKUTHI_TAKEN && (before = monitor, 1)
        && left(delkuthi_event(&monitor, 1, 65), DELKUTHI_CLOSED)
        && left(delkuthi_tick(&monitor, 65), DELKUTHI_CLOSED)
        && left(delkuthi_close(&monitor), DELKUTHI_CLOSED);
}

/* Uses every function that takes an answer apart. Returns whether each gives what the header says. */
static int functions(void)
{
    const uint64_t refused = 5 * 256 + DELKUTHI_COMMON_KIND, written = 7 * 256, stretch = 1 * 256 + 2 * 65536 + (UINT64_C(5) << 32);

    return delkuthi_answer_number(refused) == DELKUTHI_COMMON_KIND && delkuthi_answer_place(refused) == 5
        && delkuthi_answer_row(refused) == 5 && delkuthi_answer_length(refused) == 0 && delkuthi_answer_word(refused) == 0
        && delkuthi_answer_number(written) == DELKUTHI_TAKEN && delkuthi_answer_length(written) == 7
        && delkuthi_answer_word(written) == 7 && delkuthi_join_second(refused) == 0 && delkuthi_join_second(refused + 128) == 1
        && delkuthi_answer_number(refused + 128) == DELKUTHI_COMMON_KIND && delkuthi_stretch_first(stretch) == 1
        && delkuthi_stretch_length(stretch) == 2 && delkuthi_stretch_tried(stretch) == 5
        && strcmp(delkuthi_type_text(1), "Delay") == 0 && strcmp(delkuthi_type_text(0), "no type") == 0;
}

/* Uses every macro. Returns whether each gives what the header says. */
static int macros(void)
{
    static const uint8_t table[6] = {1, 0, 3, 6, 0, 1};
    uint64_t answer = delkuthi_fresh(&monitor, table, 5);
    uint8_t number = DELKUTHI_NUMBER(answer);
    uint64_t place = DELKUTHI_PLACE(answer);
    /* an Order of kinds 0 and 1; tick 1, 1@5, tick 6: the last two break it */
    static const uint8_t recording[32] = {1, 0, 8, 0, 0, 0, 0, 0, 0, 0, 1,
                                          0, 9, 1, 0, 0, 0, 0, 0, 0, 0, 5,
                                          0, 8, 0, 0, 0, 0, 0, 0, 0, 6};
    uint64_t stretch = delkuthi_shortest_stretch(table, sizeof table, recording, sizeof recording, 0);

    return DELKUTHI_NUMBER(stretch) == DELKUTHI_TAKEN && DELKUTHI_STRETCH_FIRST(stretch) == 1
        && DELKUTHI_STRETCH_LENGTH(stretch) == 2 && DELKUTHI_STRETCH_TRIED(stretch) == 5
        && DELKUTHI_MATCHES() && number == DELKUTHI_ROW_CUT && place == 1
        && delkuthi_fresh(&monitor, table, sizeof table) == DELKUTHI_TAKEN
        && delkuthi_event(&monitor, DELKUTHI_LAST_KIND + 1, 0) == DELKUTHI_KIND
        && delkuthi_event(&monitor, DELKUTHI_FIRST_COLOURED, 0) == DELKUTHI_FORM
        && delkuthi_coloured_event(&monitor, DELKUTHI_FIRST_COLOURED,
                                   DELKUTHI_LAST_COLOUR, 0) == DELKUTHI_TAKEN
        && delkuthi_coloured_event(&monitor, DELKUTHI_FIRST_COLOURED,
                                   DELKUTHI_LAST_COLOUR + 1, 0) == DELKUTHI_FORM
        && delkuthi_tick(&monitor, DELKUTHI_LAST_TIME + 1) == DELKUTHI_TIME_RANGE
        && delkuthi_row_verdict(&monitor, 0) == DELKUTHI_OPEN
        && delkuthi_row_verdict(&monitor, DELKUTHI_ROW_LIMIT) == DELKUTHI_NO_ROW
        && delkuthi_close(&monitor) == DELKUTHI_TAKEN
        && delkuthi_row_verdict(&monitor, 0) == DELKUTHI_KEPT;
}

int main(void)
{
    unsigned number;

    for (number = 0; number < 256; number++)
        printf("%s\n", delkuthi_refusal_text((uint8_t)number));
    return macros() && functions() && steps_left() ? 0 : 1;
}
