// The header in C++: a monitor as a member, every call and every macro.
#include "delkuthi.h"
#include <cstring>

struct Bench {
    delkuthi_monitor monitor;
    uint8_t report[DELKUTHI_REPORT_LIMIT];
    uint8_t page[DELKUTHI_PAGE_LIMIT];
};

static Bench bench;

int main()
{
    static const uint8_t table[6] = {1, 0, 3, 6, 0, 1};
    static const uint8_t recording[1] = {1};
    bool well = DELKUTHI_MATCHES();
    const uint64_t answer = delkuthi_fresh(&bench.monitor, table, 5);
    well = well && DELKUTHI_NUMBER(answer) == DELKUTHI_ROW_CUT && DELKUTHI_PLACE(answer) == 1;
    well = well && std::strcmp(delkuthi_refusal_text(DELKUTHI_CLOSED), "the recording is closed") == 0;
    well = well && delkuthi_fresh(&bench.monitor, table, sizeof table) == DELKUTHI_TAKEN;
    const delkuthi_row row = delkuthi_order(0, 1);
    uint8_t made[DELKUTHI_TABLE_LIMIT];
    const uint64_t length = delkuthi_make_table(&row, 1, made, sizeof made);
    well = well && DELKUTHI_NUMBER(length) == DELKUTHI_TAKEN && DELKUTHI_LENGTH(length) == sizeof table;
    well = well && std::memcmp(made, table, sizeof table) == 0;
    well = well && delkuthi_make_table(&row, 1, made, 5) == DELKUTHI_TABLE_ROOM;
    well = well && delkuthi_event(&bench.monitor, 1, DELKUTHI_LAST_TIME + 1) == DELKUTHI_TIME_RANGE;
    well = well && delkuthi_row_verdict(&bench.monitor, DELKUTHI_ROW_LIMIT) == DELKUTHI_NO_ROW;
    well = well && delkuthi_row_verdict(&bench.monitor, 0) == DELKUTHI_OPEN;
    well = well && delkuthi_event(&bench.monitor, 1, 5) == DELKUTHI_TAKEN;
    well = well && delkuthi_tick(&bench.monitor, 6) == DELKUTHI_TAKEN;
    well = well && delkuthi_withdraw_step(&bench.monitor, 1) == DELKUTHI_OTHER_STEP;
    well = well && delkuthi_take(&bench.monitor, recording, 1) == DELKUTHI_TAKEN;
    well = well && delkuthi_row_verdict(&bench.monitor, 0) == DELKUTHI_BROKEN;
    well = well && delkuthi_row_step(&bench.monitor, 0) == 2;
    well = well && delkuthi_row_cause(&bench.monitor, 0) == DELKUTHI_OVERDUE && delkuthi_row_moment(&bench.monitor, 0) == 5;
    well = well && delkuthi_clock(&bench.monitor) == 6 && delkuthi_steps(&bench.monitor) == 2;
    well = well && delkuthi_broken_rows(&bench.monitor) == 1 && delkuthi_closed(&bench.monitor) == 0;
    well = well && delkuthi_deadline(&bench.monitor) == DELKUTHI_NO_LIMIT && delkuthi_row_waiting(&bench.monitor, 0) == 0;
    well = well && delkuthi_row_deadline(&bench.monitor, 0) == DELKUTHI_NO_LIMIT;
    well = well && delkuthi_row_oldest(&bench.monitor, 0) == DELKUTHI_NO_LIMIT;
    well = well && delkuthi_row_oldest_stream(&bench.monitor, 0) == DELKUTHI_NO_STREAM;
    well = well && delkuthi_crowded_row(&bench.monitor, 0, 7) == DELKUTHI_ROW_LIMIT;
    well = well && delkuthi_report_of(&bench.monitor, bench.report, sizeof bench.report) == 0;
    well = well && delkuthi_close(&bench.monitor) == DELKUTHI_TAKEN;
    well = well && delkuthi_report_of(&bench.monitor, bench.report, sizeof bench.report) == 20;
    well = well && std::memcmp(bench.report, "closed 3\n0 broken 2\n", 20) == 0;
    well = well && delkuthi_rows(&bench.monitor) == 1;
    well = well && delkuthi_page(&bench.monitor, bench.page, 2 * 73 - 1) == 0;
    well = well && delkuthi_page(&bench.monitor, bench.page, sizeof bench.page) == 2 * 73;
    well = well && std::memcmp(bench.page + 73, "  0  Order", 10) == 0;
    well = well && delkuthi_report(table, 6, recording, 1, bench.report, sizeof bench.report) == 16;
    return well ? 0 : 1;
}
