/*
 * The library without a C library: it links with only these four functions,
 * which every compiler assumes. This host is linked, not run.
 */
#define DELKUTHI_CHECKED // the answers do not matter here
#include "delkuthi.h"

void *memcpy(void *to, const void *from, size_t length);
void *memmove(void *to, const void *from, size_t length);
void *memset(void *to, int byte, size_t length);
int memcmp(const void *one, const void *other, size_t length);
void start(void);

void *memcpy(void *to, const void *from, size_t length)
{
    return memmove(to, from, length);
}

void *memmove(void *to, const void *from, size_t length)
{
    volatile uint8_t *target = to;
    const volatile uint8_t *source = from;
    size_t i;

    for (i = 0; i < length; i++)
        if ((uintptr_t)to < (uintptr_t)from)
            target[i] = source[i];
        else
            target[length - 1 - i] = source[length - 1 - i];
    return to;
}

void *memset(void *to, int byte, size_t length)
{
    volatile uint8_t *target = to;
    size_t i;

    for (i = 0; i < length; i++)
        target[i] = (uint8_t)byte;
    return to;
}

int memcmp(const void *one, const void *other, size_t length)
{
    const uint8_t *first = one, *second = other;
    size_t i;

    for (i = 0; i < length; i++)
        if (first[i] != second[i])
            return first[i] < second[i] ? -1 : 1;
    return 0;
}

void start(void)
{
    static delkuthi_monitor monitor;
    static uint8_t bytes[1], report[DELKUTHI_REPORT_LIMIT], page[DELKUTHI_PAGE_LIMIT];

    (void)DELKUTHI_MATCHES();
    (void)delkuthi_fresh(&monitor, bytes, sizeof bytes);
    (void)delkuthi_fresh_2(&monitor, bytes, sizeof bytes);
    (void)delkuthi_event(&monitor, 0, 0);
    (void)delkuthi_tick(&monitor, 0);
    (void)delkuthi_take(&monitor, bytes, sizeof bytes);
    (void)delkuthi_put_event(bytes, sizeof bytes, 0, 0, 0);
    (void)delkuthi_put_coloured_event(bytes, sizeof bytes, 0, DELKUTHI_FIRST_COLOURED, 0, 0);
    (void)delkuthi_put_tick(bytes, sizeof bytes, 0, 0);
    (void)delkuthi_add_row(bytes, sizeof bytes, 0, bytes, sizeof bytes);
    (void)delkuthi_table_row(bytes, sizeof bytes, 0, page, sizeof page);
    (void)delkuthi_monitor_row(&monitor, 0, page, sizeof page);
    (void)delkuthi_withdraw_step(&monitor, 0);
    (void)delkuthi_close(&monitor);
    (void)delkuthi_row_verdict(&monitor, delkuthi_rows(&monitor));
    (void)delkuthi_row_step(&monitor, delkuthi_rows(&monitor));
    (void)delkuthi_row_cause(&monitor, 0);
    (void)delkuthi_row_moment(&monitor, 0);
    (void)delkuthi_row_oldest(&monitor, 0);
    (void)delkuthi_row_oldest_stream(&monitor, 0);
    (void)delkuthi_page(&monitor, page, sizeof page);
    (void)delkuthi_report_of(&monitor, report, sizeof report);
    (void)delkuthi_report(bytes, sizeof bytes, bytes, sizeof bytes, report, sizeof report);
    (void)delkuthi_report_on(&monitor, bytes, sizeof bytes, bytes, sizeof bytes, report, sizeof report);
    (void)delkuthi_report_on_2(&monitor, bytes, sizeof bytes, bytes, sizeof bytes, report, sizeof report);
}
