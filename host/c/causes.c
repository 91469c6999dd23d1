/*
 * Says why rows broke: causes TABLE RECORDING
 *
 * Takes a table of either edition and the records of a recording, and closes
 * it. Then prints a line for each row: that it was kept, or the step that broke
 * it, whether it was the clock, an event or the close, and the moment.
 */
#include "delkuthi.h"
#include "file.h"
#include <inttypes.h>
#include <stdio.h>

static delkuthi_monitor monitor;

static const char *cause_text(uint8_t cause)
{
    switch (cause) {
    case DELKUTHI_OVERDUE:
        return "by the clock";
    case DELKUTHI_BY_EVENT:
        return "by an event";
    default:
        return "at the close";
    }
}

static void print_row(uint64_t row)
{
    uint8_t cause = delkuthi_row_cause(&monitor, row);

    if (cause == 0)
        printf("row %" PRIu64 " kept\n", row);
    else
        printf("row %" PRIu64 " broken %s, at %" PRIu64 ", step %" PRIu64 "\n", row, cause_text(cause),
               delkuthi_row_moment(&monitor, row), delkuthi_row_step(&monitor, row));
}

/* Returns the number of the refusal, or DELKUTHI_TAKEN. */
static uint8_t play(const struct file *table, const struct file *recording)
{
    uint8_t number = delkuthi_answer_number(delkuthi_fresh_2(&monitor, table->bytes, table->length));

    if (number == DELKUTHI_TAKEN)
        number = delkuthi_answer_number(delkuthi_take(&monitor, recording->bytes, recording->length));
    return number == DELKUTHI_TAKEN ? delkuthi_close(&monitor) : number;
}

int main(int argc, char **argv)
{
    struct file table, recording;
    uint8_t number;
    uint64_t row;

    if (argc != 3 || !DELKUTHI_MATCHES() || !read_file(argv[1], &table) || !read_file(argv[2], &recording)) {
        fprintf(stderr, "usage: causes TABLE RECORDING\n");
        return 3;
    }
    number = play(&table, &recording);
    if (number != DELKUTHI_TAKEN)
        printf("refused %u: %s\n", (unsigned)number, delkuthi_refusal_text(number));
    for (row = 0; number == DELKUTHI_TAKEN && row < delkuthi_rows(&monitor); row++)
        print_row(row);
    free_file(&table);
    free_file(&recording);
    return number == DELKUTHI_TAKEN ? 0 : 1;
}
