/*
 * The page of a monitor after each length of a recording: page TABLE RECORDING
 *
 * Gives the records to a fresh monitor, one after the other, and closes it. A
 * refused record is skipped. Prints the page of the fresh monitor, after every
 * tenth record, before the close and after it. Each page is written to blocks of
 * exactly its length, of one byte less and of one byte more. The exit status is 1
 * if an answer, or a byte behind a page, is wrong.
 */
#define DELKUTHI_CHECKED // the answers do not matter here
#include "delkuthi.h"
#include "file.h"
#include <stdio.h>
#include <string.h>

#define FILL 0xA5

static delkuthi_monitor monitor;

/* Returns the length of the page of this many rows. */
static size_t page_size(uint64_t rows)
{
    return 73 * (size_t)(rows + (rows == 0 ? 1 : (rows + 15) / 16));
}

/* Returns whether bytes are as they were. */
static int untouched(const uint8_t *bytes, size_t length)
{
    while (length > 0 && bytes[length - 1] == FILL)
        length--;
    return length == 0;
}

/* Writes the page to a block of this length, and prints it. Returns whether answer and bytes are right. */
static int asked(size_t size, size_t length, int print)
{
    uint8_t *block = block_of(length);
    size_t written, expected = length < size ? 0 : size;
    int well;

    memset(block, FILL, length);
    written = delkuthi_page(&monitor, block, length);
    well = written == expected && untouched(block + expected, length - expected);
    if (well && print)
        (void)fwrite(block, 1, written, stdout);
    free_block(block);
    return well;
}

/* Prints the page. Returns whether every answer is right. */
static int page(void)
{
    size_t size = page_size(delkuthi_rows(&monitor));

    return asked(size, size, 1) && asked(size, size - 1, 0) && asked(size, size + 1, 0) && asked(size, 1, 0);
}

int main(int argc, char **argv)
{
    struct file table, recording;
    size_t place, count = 0;
    int well;

    if (argc != 3 || !read_file(argv[1], &table) || !read_file(argv[2], &recording))
        return 3;
    if (delkuthi_fresh_2(&monitor, table.bytes, table.length) != DELKUTHI_TAKEN)
        return 2;
    well = page();
    for (place = 1; place < recording.length; place += 2u + recording.bytes[place + 1]) {
        const uint8_t *record = recording.bytes + place;

        if (record[1] == 9)
            (void)delkuthi_event(&monitor, record[2], time_of(record + 3));
        else if (record[1] == 10)
            (void)delkuthi_coloured_event(&monitor, record[2], recording.bytes[0] == 1 ? 255 : record[3],
                                          time_of(record + 4));
        else
            (void)delkuthi_tick(&monitor, time_of(record + 2));
        if (++count % 10 == 0)
            well &= page();
    }
    well &= page();
    (void)delkuthi_close(&monitor);
    well &= page();
    free_file(&table);
    free_file(&recording);
    return well ? 0 : 1;
}
