/*
 * Reports on a recording: report TABLE RECORDING [page]
 *
 * With `page` it also prints the page: what each row reads after the close.
 */
#include "delkuthi.h"
#include "file.h"
#include <stdio.h>
#include <string.h>

static delkuthi_monitor monitor;

int main(int argc, char **argv)
{
    struct file table, recording;
    uint8_t report[DELKUTHI_REPORT_LIMIT], page[DELKUTHI_PAGE_LIMIT];
    int with_page = argc == 4 && strcmp(argv[3], "page") == 0;

    if ((argc != 3 && !with_page) || !read_file(argv[1], &table) || !read_file(argv[2], &recording)) {
        fprintf(stderr, "usage: report TABLE RECORDING [page]\n");
        return 3;
    }
    fwrite(report, 1,
           delkuthi_report_on_2(&monitor, table.bytes, table.length, recording.bytes, recording.length, report,
                                sizeof report),
           stdout);
    if (with_page)
        fwrite(page, 1, delkuthi_page(&monitor, page, sizeof page), stdout);
    free_file(&table);
    free_file(&recording);
    return 0;
}
