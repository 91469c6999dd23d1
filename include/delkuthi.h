/*
 * delkuthi.h: a proved monitor for TADL2 timing constraints
 *
 * The monitor takes a table of timing constraints (its rows) and the stamped
 * events of a bench. For each row it says, while the recording runs, whether
 * the row is open, kept, or broken, and which step broke it.
 *
 * It runs on x86-64 Linux. Link libdelkuthi.a, or libdelkuthi.so, which needs
 * glibc 2.14 or newer (pkg-config --cflags --libs delkuthi). The archive needs
 * only memcpy, memmove, memset and memcmp of a C library, so any C library
 * will do.
 *
 *
 * THE PROMISE
 *
 * For every table, every recording and every order of calls, refused ones
 * included:
 *   - Each call returns a result or the number of a refusal. A refused call
 *     changes nothing, with one exception: if delkuthi_report_on or
 *     delkuthi_take refuses a record, its monitor has taken the records before
 *     that one. No call reads or writes outside the memory that it is given,
 *     and every call ends.
 *   - A row reads broken exactly if no continuation of the recording can
 *     still meet its TADL2 definition. The step that broke it is the first
 *     one after which this holds. Otherwise the row reads open, or kept once
 *     the recording is closed.
 *   - A broken row stays broken, at the same step, unless a step up to that
 *     one is withdrawn. After a withdrawal every row reads as if the withdrawn
 *     step had never been taken.
 * A machine has checked these statements. They are one theorem,
 * session_is_exact. It speaks of any memory and any list of the calls that
 * change it: delkuthi_fresh, events, ticks, closes, withdrawals,
 * delkuthi_take and delkuthi_report_on, with any arguments, in both forms. It
 * says what each of these calls answers, and what each of the eighteen calls
 * that only read a monitor answers after the list. That no call leaves its
 * memory and that every call ends is in the contract of each call.
 * DATASHEET.md lists the promises with their theorems, the assumptions, and
 * what is not promised. CONTRACT.md says everything in words, in numbered
 * clauses, with examples by which you can check a verdict by hand.
 *
 *
 * STEPS
 *
 * Times are whole numbers, 0 to DELKUTHI_LAST_TIME. The host chooses the time
 * unit; the table and the events must use the same one. An event has a kind,
 * numbered 0 to DELKUTHI_LAST_KIND. Kinds 0 to 47 are plain. Kinds from
 * DELKUTHI_FIRST_COLOURED, 48, on are coloured: their events also have a
 * colour, 0 to DELKUTHI_LAST_COLOUR, which tells the runs through a chain
 * apart. A step is an event, a tick (the clock moves to a time without an
 * event) or the close. The first step that is taken has number 1. The close
 * has a number too. A refused step has none.
 *
 * Two events of one kind never have the same time; if the kind is coloured,
 * this holds for each colour. The second such event is refused with 11. If the
 * recorder's clock is too coarse to tell two events apart, use a finer unit:
 * for example, multiply the times of the table and all stamps by 1,000, and
 * give the second event the next time. If the second event tells nothing new,
 * leave it out. Events of different kinds or colours may have the same time,
 * in any order.
 *
 *
 * LATE EVENTS
 *
 * A tick to time t, or an event at time t, says that every event stamped
 * before t has been given. An event with an earlier stamp that arrives later
 * is refused with 11, and the tick may have broken a row that the event would
 * have kept. So:
 *   - Tick only as far as your slowest source allows. If an event can arrive
 *     up to L after its stamp, tick to t only when the bench's clock reads
 *     t + L or more. The bench loop below has this lag.
 *   - If several sources have different delays, hold each event back until no
 *     source can still deliver an earlier one, and give events in the order of
 *     their stamps.
 *   - Close only when every source has delivered its last event.
 *
 *
 * WHAT TO DO AFTER A 12
 *
 * A step is refused with 12 if more than 64 would then wait in an open row.
 * The event is then lost to every row of the monitor, not only to the crowded
 * one. A row that it would have broken may read kept. So a host that meets a
 * 12 must not count the recording as passed. It can
 *   - ask delkuthi_crowded_row, with the same kind and time, which row is full;
 *   - give the event again once something has answered in that row. Its time
 *     then has to be in order, and the verdicts are about that time;
 *   - for the next run, shorten that row's upper limit, or put the row into a
 *     separate monitor, where a 12 affects no other row.
 * A report ends at the first refusal, and a 12 is one: the report is then the
 * one line "refused 12 P".
 *
 *
 * MEMORY AND THREADS
 *
 * The host owns all memory. The library allocates nothing and keeps nothing
 * between calls: the whole state of a monitor is its delkuthi_monitor. You can
 * copy it as a struct; the copy is an independent monitor.
 *
 *   - No pointer may be NULL, even if its length is 0. An empty table or
 *     recording may come as NULL, for example from data() of an empty vector.
 *     Then pass the address of any byte, with length 0.
 *   - A pointer points to as many bytes as its length says and is aligned for
 *     its type. The memory that a call writes does not overlap with the other
 *     arguments of that call.
 *   - Each monitor has one caller at a time, or several callers that only read
 *     it (const delkuthi_monitor *). Nobody else writes its memory from the
 *     first call to the last. Calls on different monitors, and
 *     delkuthi_report, may run at the same time in different threads.
 *   - Every call is reentrant, so a signal handler may make it under the same
 *     rules. The code uses SSE registers and the red zone below the stack
 *     pointer. Use it in an interrupt handler or a kernel only if you preserve
 *     both. It has no unwind tables: a debugger that stops inside a call does
 *     not find the caller.
 *   - Every content of the memory is safe. A call on memory that
 *     delkuthi_fresh never filled still ends as soon as on any other, and
 *     touches nothing else, but its answer means nothing. Memory of zeros, as
 *     static memory is at first, is an exception: it is a closed monitor
 *     without rows. Every step on it is refused with 8, and a withdrawal with
 *     21.
 *
 *
 * LIMITS
 *
 *   times            0 to 2^60 - 1        DELKUTHI_LAST_TIME
 *   steps            at most 2^64 - 1     DELKUTHI_LAST_COUNT
 *   kinds            0 to 63              DELKUTHI_LAST_KIND
 *   colours          0 to 7               DELKUTHI_LAST_COLOUR
 *   rows of a table  0 to 32              DELKUTHI_ROW_LIMIT
 *   waiting in a row at most 64           DELKUTHI_WAITING_LIMIT
 *   a table          at most 4,257 bytes  DELKUTHI_TABLE_LIMIT
 *   a report         at most 1,024 bytes  DELKUTHI_REPORT_LIMIT
 *   a page           at most 2,482 bytes  DELKUTHI_PAGE_LIMIT
 *   stack, report    at most 50 KiB       DELKUTHI_REPORT_STACK
 *   stack, report_on at most 11 KiB       DELKUTHI_REPORT_ON_STACK
 *   stack, take      at most 3 KiB        DELKUTHI_TAKE_STACK
 *   stack, page      at most 2 KiB        DELKUTHI_PAGE_STACK
 *   stack, stamps    at most 20 KiB       DELKUTHI_STAMPS_STACK
 *   stack, join      at most 16 KiB       DELKUTHI_JOIN_STACK
 *   stack, stretch   at most 32 KiB       DELKUTHI_STRETCH_STACK
 *   stack, table     at most 12 KiB       DELKUTHI_TABLE_STACK
 *   stack, fresh     at most 2 KiB        DELKUTHI_MONITOR_STACK
 *   stack, steps     at most 1 KiB        DELKUTHI_STEP_STACK
 *
 * Sources without a target wait in a Delay and in a StrongDelay, incomplete
 * groups in a StrongSynchronization. Nothing waits in rows of other types.
 *
 * The stack of a call is measured, not proved. Each limit leaves at least ten
 * percent of room on every machine that DATASHEET.md names. The limit of a
 * step also holds for a withdrawal and for the calls that only read, the limit
 * of report_on for delkuthi_report_of, and the limit of table for
 * delkuthi_table_row and delkuthi_monitor_row. Link the host statically or with
 * -Wl,-z,now: otherwise the loader resolves a function at its first call, and
 * that takes about 3 KiB more on the caller's stack.
 *
 *
 * THE TABLE
 *
 * begin table: made by a program
 * A table is one byte, its version, followed by the rows. The first row is row
 * 0. The version is 1 or 2 (EDITIONS below). Each row is a length field of two
 * bytes, then its type and its fields in as many bytes as the length field
 * says. Kinds, n, operator, span and maximum take one byte, all other fields
 * eight, the most significant byte first. n is the number of kinds, offsets or
 * pairs. A pair is a minimum and a maximum.
 *
 *   type                      fields                                   length
 *   1 Delay                   source, target, lower, upper                 19
 *   2 StrongDelay             source, target, lower, upper                 19
 *   3 Repeat                  event, span, lower, upper                    19
 *   4 Sporadic                event, lower, upper, jitter, minimum         34
 *   5 Burst                   event, maximum, length, minimum              19
 *   6 Order                   source, target                                3
 *   7 StrongSynchronization   n from 2 to 4, n kinds, tolerance        10 + n
 *   8 ExecutionTime           start, stop, preempt, resume, lower,
 *                             upper                                        21
 *   9 Reaction                stimulus, response, minimum, maximum         19
 *  10 Repetition              event, span, lower, upper, jitter            27
 *  11 Synchronization         n from 2 to 4, n kinds, tolerance        10 + n
 *  12 Age                     stimulus, response, minimum, maximum         19
 *  13 OutputSynchronization   n from 2 to 4, stimulus, n responses,
 *                             tolerance                                11 + n
 *  14 InputSynchronization    n from 2 to 4, n stimuli, response,
 *                             tolerance                                11 + n
 *  15 Pattern                 n from 1 to 8, event, period, jitter,
 *                             minimum, n offsets                      27 + 8n
 *  16 Arbitrary               n from 1 to 8, event, n pairs           3 + 16n
 *  17 Comparison              operator from 1 to 5, left, right            18
 *
 * The kinds of types 9 and 12 to 14 are coloured, and those of all other types
 * are plain. Minima are times, and so are maxima but that of a Burst.
 *
 * Spans, and the maximum of a Burst, go from 1 to 64, the span of type 10 from
 * 1 to 8. If the upper of type 1, 3 or 4, or a maximum of type 16, is
 * 2^64 - 1, DELKUTHI_NO_LIMIT, there is no upper limit. Offsets increase. The
 * operators 1 to 5 are <=, <, >=, > and =.
 *
 * Types 11 to 17 require edition 2.
 *
 * end table
 * A host need not count these bytes. A function for each type makes a row from
 * its fields, and delkuthi_make_table writes the table. A Delay and an Order:
 *
 *     #define DELKUTHI_EDITION 2
 *     #include "delkuthi.h"
 *
 *     uint8_t table[DELKUTHI_TABLE_LIMIT];
 *     const delkuthi_row rows[2] = {
 *         delkuthi_delay(0, 1, 2, 3),
 *         delkuthi_order(4, 5)
 *     };
 *     uint64_t answer = delkuthi_make_table(rows, 2, table, sizeof table);
 *
 *     if (DELKUTHI_NUMBER(answer) == DELKUTHI_TAKEN)
 *         answer = delkuthi_fresh(&monitor, table, DELKUTHI_LENGTH(answer));
 *
 * Rows with offsets or pairs, types 15 and 16, are put into the table one by
 * one. A Pattern behind these rows:
 *
 *     const uint64_t offsets[2] = {0, 3};
 *     const delkuthi_long_row row = delkuthi_pattern(6, 10, 1, 0, offsets, 2);
 *     size_t length = delkuthi_put_row(table, sizeof table,
 *                                      DELKUTHI_LENGTH(answer), &row);
 *
 *
 * EDITIONS
 *
 * The version of a table is its edition. Edition 1 has the row types 1 to 10,
 * and edition 2 has all types. There is no other difference. A call that takes
 * a table has two forms, with the same arguments and answers:
 *
 *   tables of edition 1           tables of editions 1 and 2
 *   delkuthi_fresh                delkuthi_fresh_2
 *   delkuthi_report               delkuthi_report_2
 *   delkuthi_report_on            delkuthi_report_on_2
 *   delkuthi_stamps               delkuthi_stamps_2
 *   delkuthi_shortest_stretch     delkuthi_shortest_stretch_2
 *   delkuthi_make_table           delkuthi_make_table_2, which writes edition 2
 *
 * A new host calls the second forms. It need not write _2: with
 *
 *     #define DELKUTHI_EDITION 2
 *
 * before the include, the names on the left stand for the calls on the right,
 * and delkuthi_make_table writes the lowest edition that has all types of the
 * rows. For a table of edition 1 both forms answer the same. The first forms
 * behave as they did before there was edition 2: they refuse a table of
 * edition 2 with 1. Both forms refuse a row with 4 if the table's edition does
 * not have its type. The monitor is the same whichever form made it, and every
 * other call works on both.
 *
 * Edition 2 has a row for each of the 18 constraints of TADL2: a row has the
 * name of its constraint, and a PeriodicConstraint is a Sporadic with lower =
 * upper. Edition 1 is frozen, and edition 2 is frozen from version 1.0.0 on: a
 * type that comes later starts edition 3.
 *
 *
 * WHAT EACH ROW ASKS
 *
 * Limits include their ends. CONTRACT.md has the special cases and examples of
 * each type, from clause 5.1 on.
 *
 * begin rows: made by a program
 *   1 Delay       For each source, at time s, a target comes at s + lower or
 *                 later and at s + upper or earlier. One target may answer
 *                 several sources, and extra targets do no harm. A source
 *                 without a target breaks the row once the clock is past
 *                 s + upper, and at the close. Without an upper limit the
 *                 target may come at any later time, and only the close breaks
 *                 the row.
 *   2 StrongDelay The first target belongs to the first source, the second to
 *                 the second, and so on, and each comes lower to upper after
 *                 its source. A target that is too early, or one too many,
 *                 breaks the row at once. A source without its target breaks
 *                 it as in a Delay.
 *   3 Repeat      In any span + 1 consecutive events, the last comes lower to
 *                 upper after the first. Silence counts from the first event
 *                 on: the row breaks once the clock is past (the oldest event
 *                 that has none span places after it) + upper. Without an
 *                 upper limit silence does not break the row. The close does
 *                 not break it either.
 *   4 Sporadic    Each event comes 0 to jitter after its own hidden point. The
 *                 points are at least 0, increase, and are lower to upper
 *                 apart. The events are at least minimum apart. With lower =
 *                 upper it is a periodic signal. Silence counts from the first
 *                 event on: the row breaks once the clock is past (the latest
 *                 place that the last point can have) + upper + jitter.
 *                 Without an upper limit silence does not break the row. The
 *                 close does not break it either.
 *   5 Burst       The event maximum places after another one comes at least
 *                 length after it, so that any stretch shorter than length has
 *                 at most maximum events. Neighbouring events are at least
 *                 minimum apart. Silence and the close do not break the row.
 *   6 Order       The first target belongs to the first source, the second to
 *                 the second, and so on, and no target comes before its
 *                 source. A source may wait for its target until the close.
 *   7 StrongSynchronization
 *                 The first events of all the kinds are at most tolerance
 *                 apart, and so are the second, the third, and so on. A group
 *                 that lacks a kind breaks the row once the clock is past its
 *                 first event + tolerance, and at the close.
 *   8 ExecutionTime
 *                 The row's events come in this order: a start, any number of
 *                 pairs of a preempt and a resume, a stop, and then a start
 *                 again. No two have the same time. The running time is stop
 *                 minus start, less the stretches from preempt to resume, and
 *                 it is lower to upper. The row breaks at an event out of this
 *                 order, as soon as the running time up to the clock is more
 *                 than upper, at a preempt after which no time is left to run,
 *                 and at a close between a start and its stop.
 *   9 Reaction    Each stimulus needs a response of its colour. The response
 *                 is the first one of that colour in the whole recording, and
 *                 it must come minimum to maximum after the stimulus. So all
 *                 stimuli of a colour share one response, and a response
 *                 before every stimulus counts as that response. Later
 *                 responses do not count. A colour that has stimuli and no
 *                 response breaks the row once the clock is past its first
 *                 stimulus + maximum, as soon as no time is left that suits
 *                 all its stimuli, and at the close.
 *  10 Repetition  Each event comes 0 to jitter after its own hidden point. The
 *                 points are at least 0 and increase, and a point is lower to
 *                 upper after the one span places before it. An event for
 *                 which there is no such point breaks the row; the first span
 *                 events never do. Silence and the close do not break the row.
 *  11 Synchronization
 *                 Each event of the kinds lies in a full window: a stretch
 *                 from some time to tolerance later in which every one of the
 *                 kinds has an event. Windows may overlap, one event may be in
 *                 several, and a kind may have several events in one: unlike
 *                 type 7 it does not count events. An event that lies in no
 *                 full window breaks the row once the clock is past
 *                 it + tolerance, and at the close.
 *  12 Age         Each response needs a stimulus of its colour. The stimulus
 *                 is the latest one of that colour in the whole recording, and
 *                 the response must come minimum to maximum after it. So all
 *                 responses of a colour share one stimulus, and a stimulus
 *                 after a response of its colour breaks the row. Stimuli
 *                 without a response are allowed. With minimum 0 a response
 *                 may come before its stimulus at the same time; it breaks the
 *                 row once the clock is past it, and at the close.
 *  13 OutputSynchronization
 *                 Each colour with a stimulus needs a response of every one of
 *                 the kinds. The first responses of the colour are at most
 *                 tolerance apart, and no stimulus of the colour comes after
 *                 one of them. Later responses do not count, and how long
 *                 after the stimulus they come is not asked. A colour that
 *                 lacks a response breaks the row once the clock is past its
 *                 first response + tolerance, and at the close. A response
 *                 without a stimulus is allowed; a later stimulus of its
 *                 colour breaks the row.
 *  14 InputSynchronization
 *                 Each colour with a response needs a stimulus of every one of
 *                 the kinds. The latest stimuli of the colour in the whole
 *                 recording are at most tolerance apart, and none of them
 *                 comes after a response of the colour. Stimuli without a
 *                 response are allowed, and how long before the response they
 *                 come is not asked. A stimulus after a response of its colour
 *                 breaks the row at once. A response whose stimuli are missing
 *                 or too far apart breaks it once the clock is past the
 *                 response, and at the close.
 *  15 Pattern     The events come in groups of as many as there are offsets.
 *                 From one hidden start on, which is at least 0, the groups
 *                 have points a period apart. The first event of a group comes
 *                 0 to jitter after its point + the first offset, the second
 *                 after its point + the second offset, and so on. The events
 *                 are at least minimum apart. With period 0 there is only one
 *                 group. Silence counts from the first event on: the row
 *                 breaks once the clock is past the last moment for the next
 *                 event. A group may be begun at the close.
 *  16 Arbitrary   There are 1 to 8 pairs of a minimum and a maximum. In any
 *                 i + 1 consecutive events, the last comes the i-th minimum to
 *                 the i-th maximum after the first. So the row is a Repeat of
 *                 span 1, a Repeat of span 2, and so on. Silence counts as in
 *                 a Repeat, for each pair with an upper limit. The close does
 *                 not break the row.
 *  17 Comparison  The operator is 1 for left <= right, 2 for left < right, 3
 *                 for left >= right, 4 for left > right and 5 for left =
 *                 right. A table with a comparison that is false is refused
 *                 with 7. A row that is accepted is kept, whatever the events
 *                 are.
 * end rows
 *
 *
 * A BENCH LOOP
 *
 * The loop gives the monitor each step as it arrives. If nothing arrives, it
 * sleeps until the deadline and then ticks, later by the lag of its slowest
 * source. It prints each row when the row breaks. You write next_step for your
 * bench; bench_loop.c, among the examples, has one that reads a recording.

#define DELKUTHI_EDITION 2
#include "delkuthi.h"
#include <inttypes.h>
#include <stdio.h>

// The longest time from the stamp of an event to its arrival, over all sources.
static uint64_t lag;

// What comes next: 'e' an event, 'c' an event with a colour, 't' a tick, 0 the
// end; or 'w' once the bench's clock reads `wake` and nothing has arrived.
extern int next_step(uint64_t wake, uint8_t *kind, uint8_t *colour,
                     uint64_t *time);

static delkuthi_monitor monitor;

// When a row breaks if no event comes: one past the deadline.
static uint64_t breaks(void)
{
    uint64_t deadline = delkuthi_deadline(&monitor);

    return deadline == DELKUTHI_NO_LIMIT ? deadline : deadline + 1;
}

// Prints each row that has broken since; returns all that are broken now.
static uint32_t say(uint32_t before)
{
    uint32_t now = delkuthi_broken_rows(&monitor), row;

    for (row = 0; row < DELKUTHI_ROW_LIMIT; row++)
        if ((now & ~before) >> row & 1)
            printf("%" PRIu64 ": row %" PRIu32 " broken\n",
                   delkuthi_clock(&monitor), row);
    return now;
}

// 0: every row kept. 1: a row is broken. 2: the table or a step was refused.
// 3: the library does not match this header.
static int bench(const uint8_t *table, size_t table_length)
{
    uint64_t time, until, answer;
    uint32_t broken = 0;
    uint8_t kind, colour, refused = DELKUTHI_TAKEN;
    int what = 't';

    if (!DELKUTHI_MATCHES()) {
        printf("the library does not match this header\n");
        return 3;
    }
    answer = delkuthi_fresh(&monitor, table, table_length);
    if (answer != DELKUTHI_TAKEN) {
        printf("table refused with %d at byte %" PRIu64 "\n",
               DELKUTHI_NUMBER(answer), DELKUTHI_PLACE(answer));
        return 2;
    }
    while (what && !refused) {
        until = breaks();
        what = next_step(lag < DELKUTHI_NO_LIMIT - until ? until + lag
                                                         : DELKUTHI_NO_LIMIT,
                         &kind, &colour, &time);
        if (what == 'e')
            refused = delkuthi_event(&monitor, kind, time);
        else if (what == 'c')
            refused = delkuthi_coloured_event(&monitor, kind, colour, time);
        else if (what)
            refused = delkuthi_tick(&monitor, what == 'w' ? until : time);
        else
            refused = delkuthi_close(&monitor);
        broken = say(broken);
    }
    if (refused)
        printf("step refused with %d\n", refused);
    else if (!broken)
        printf("every row kept\n");
    return refused ? 2 : broken ? 1 : 0;
}

 */
#ifndef DELKUTHI_H
#define DELKUTHI_H

#include <stddef.h>
#include <stdint.h>

#ifdef __cplusplus
extern "C" {
#endif

/*
 * With these the compiler warns if a host ignores an answer that may be a
 * refusal, or passes NULL. To switch the warnings off, define both as nothing
 * before you include this header.
 */
#if defined(__GNUC__) || defined(__clang__)
#ifndef DELKUTHI_CHECKED
#define DELKUTHI_CHECKED __attribute__((warn_unused_result))
#endif
#ifndef DELKUTHI_NONNULL
#define DELKUTHI_NONNULL __attribute__((nonnull))
#endif
#endif
#ifndef DELKUTHI_CHECKED
#define DELKUTHI_CHECKED
#endif
#ifndef DELKUTHI_NONNULL
#define DELKUTHI_NONNULL
#endif

/* The version of this header, 1.0.0: major * 1000000 + minor * 1000 + patch. */
#define DELKUTHI_VERSION UINT32_C(1000000)

#define DELKUTHI_LAST_TIME     UINT64_C(1152921504606846975)
#define DELKUTHI_LAST_COUNT    UINT64_C(18446744073709551615)
#define DELKUTHI_LAST_KIND     63
#define DELKUTHI_FIRST_COLOURED 48
#define DELKUTHI_LAST_COLOUR   7
#define DELKUTHI_ROW_LIMIT     32
#define DELKUTHI_WAITING_LIMIT 64
#define DELKUTHI_TABLE_LIMIT   4257
#define DELKUTHI_LONGEST_ROW   131
#define DELKUTHI_REPORT_LIMIT  1024
#define DELKUTHI_PAGE_LIMIT    2482
#define DELKUTHI_REPORT_STACK  51200
#define DELKUTHI_REPORT_ON_STACK 11264
#define DELKUTHI_TAKE_STACK    3072
#define DELKUTHI_PAGE_STACK    2048
#define DELKUTHI_STAMPS_STACK  20480
#define DELKUTHI_JOIN_STACK    16384
#define DELKUTHI_STRETCH_STACK 32768
#define DELKUTHI_TABLE_STACK   12288
#define DELKUTHI_MONITOR_STACK 2048
#define DELKUTHI_STEP_STACK    1024

/* begin no limit: made by a program */
/*
 * The upper of a Delay, Repeat or Sporadic, or a maximum of an Arbitrary, that
 * has no upper limit.
 */
#define DELKUTHI_NO_LIMIT UINT64_C(18446744073709551615)
/* end no limit */

/* The newest edition of the table, and the last type that the first has. */
#define DELKUTHI_NEWEST_EDITION 2
/* begin first edition: made by a program */
#define DELKUTHI_FIRST_EDITION_TYPES 10
/* end first edition */

/*
 * A monitor: 35,840 bytes, aligned as a uint64_t. Put it on the stack, in
 * static memory, on the heap or in a struct, and pass it to delkuthi_fresh
 * first. Only the library reads and writes its words.
 */
typedef struct delkuthi_monitor {
    uint64_t words[4480];
} delkuthi_monitor;

/* Returns the version of the library. */
uint32_t delkuthi_version(void);

/* Returns the size of a monitor in the library, in bytes. */
uint64_t delkuthi_monitor_size(void);

/*
 * Does the linked library have the interface of this header? It does if the
 * first number of its version and the size of a monitor are the same, and the
 * second number is not smaller. Ask once, before the first call: a library that
 * does not match may lack a call, answer other numbers, or write past the end
 * of a monitor.
 */
#define DELKUTHI_MATCHES() \
    (delkuthi_version() / 1000000 == DELKUTHI_VERSION / 1000000 && \
     delkuthi_version() / 1000 >= DELKUTHI_VERSION / 1000 && \
     delkuthi_monitor_size() == sizeof(delkuthi_monitor))

/* The answer of a call that is not refused. */
#define DELKUTHI_TAKEN 0

/*
 * An answer of 64 bits that may be a refusal has two parts. DELKUTHI_NUMBER is
 * DELKUTHI_TAKEN or the number of the refusal. The other macros give the rest:
 * the comment of each call says whether that is a place, a row, a length or a
 * word. Each has a function of the same meaning. An answer of 8 bits is the
 * number alone.
 */
#ifdef __cplusplus
#define DELKUTHI_CAST(type, value) (static_cast<type>(value))
#else
#define DELKUTHI_CAST(type, value) ((type)(value))
#endif
#define DELKUTHI_LOW(answer, bits) DELKUTHI_CAST(uint8_t, (answer) & (bits))
#define DELKUTHI_NUMBER(answer) DELKUTHI_LOW(answer, 127)
#define DELKUTHI_PLACE(answer)  ((answer) >> 8)
#define DELKUTHI_ROW(answer)    ((answer) >> 8)
#define DELKUTHI_LENGTH(answer) DELKUTHI_CAST(size_t, (answer) >> 8)
#define DELKUTHI_WORD(answer)   ((answer) >> 8)

/*
 * The same as functions, so that the compiler checks the argument. The length
 * and the word of a refusal are 0.
 */
static inline uint8_t delkuthi_answer_number(uint64_t answer)
{
    return DELKUTHI_NUMBER(answer);
}

static inline uint64_t delkuthi_answer_place(uint64_t answer)
{
    return DELKUTHI_PLACE(answer);
}

static inline uint64_t delkuthi_answer_row(uint64_t answer)
{
    return DELKUTHI_ROW(answer);
}

static inline size_t delkuthi_answer_length(uint64_t answer)
{
    return (delkuthi_answer_number(answer) == DELKUTHI_TAKEN)
               ? DELKUTHI_LENGTH(answer)
               : 0;
}

static inline uint64_t delkuthi_answer_word(uint64_t answer)
{
    return (delkuthi_answer_number(answer) == DELKUTHI_TAKEN)
               ? DELKUTHI_WORD(answer)
               : 0;
}

/*
 * The refusals, with what to do about each. A call asks its questions in a
 * fixed order, and the first one that is answered "no" gives the number.
 */
enum delkuthi_refusal {
    /* A table (delkuthi_fresh, delkuthi_report; delkuthi_make_table: only 3 to
       7 and 18). Correct the table. */
    DELKUTHI_TABLE_VERSION = 1, /* it does not begin with a byte 1, or 2 if the
                                   call takes both editions */
    DELKUTHI_ROW_CUT = 2,       /* a length field or a row is cut off */
    DELKUTHI_ROW_TOO_MANY = 3,  /* more than 32 rows: use two monitors */
    DELKUTHI_ROW_SHAPE = 4,     /* the table's edition has no such type, no such
                                   n or operator, or the length is wrong */
    DELKUTHI_ROW_KINDS = 5,     /* a kind above 63, or the same kind twice */
    DELKUTHI_ROW_RANGE = 6,     /* a time, span or maximum out of range */
    DELKUTHI_ROW_BOUNDS = 7,    /* lower is more than upper, minimum more than
                                   maximum, offsets do not increase, or a
                                   comparison is false */
    DELKUTHI_ROW_SORT = 18,     /* a plain kind in a row of type 9 or 12 to 14,
                                   or a coloured kind in another row; asked
                                   after 5 */

    /* A step (delkuthi_event, _coloured_event, _tick, _close, _report). */
    DELKUTHI_CLOSED = 8,     /* the recording is closed: use a fresh monitor */
    DELKUTHI_COUNT_FULL = 24,/* 2^64 - 1 steps were taken: use a fresh monitor.
                                Asked after 8, also of the close */
    DELKUTHI_KIND = 9,       /* a kind above 63: leave the event out */
    DELKUTHI_FORM = 19,      /* a coloured kind without a colour, a plain kind
                                with a colour, or a colour above 7; in a
                                recording of version 1 any colour. Asked after
                                9: use the other call or form of record */
    DELKUTHI_TIME_RANGE = 10,/* a time above 2^60 - 1: check the host's clock */
    DELKUTHI_TIME_ORDER = 11,/* an event before the clock, or not after the
                                last event of its kind and colour; a tick not
                                after the clock. Give steps in the order of
                                time. See LATE EVENTS above */
    DELKUTHI_CROWDED = 12,   /* more than 64 would wait in a row. The event is
                                lost to every row, so do not count the recording
                                as passed. See WHAT TO DO AFTER A 12 above */

    /* A recording (delkuthi_report). Correct the recording. */
    DELKUTHI_RECORDING_VERSION = 13, /* its first byte is neither 1 nor 2 */
    DELKUTHI_RECORD = 14,            /* a record is cut off, or its length is
                                        not 8, 9 or 10 */

    /* A row number (delkuthi_row_verdict). The first row is row 0. */
    DELKUTHI_NO_ROW = 15, /* the table has no row of that number */

    /* A buffer (delkuthi_make_table, delkuthi_join, delkuthi_put_event). Pass
       a longer one. */
    DELKUTHI_TABLE_ROOM = 16, /* it is too short for the table, for the joined
                                 recording, or for one more record */

    /* Two recordings (delkuthi_join). Join other recordings, or renumber the
       kinds of one. */
    DELKUTHI_COMMON_KIND = 20, /* both have events of one kind */

    /* The shortest stretch (delkuthi_shortest_stretch). */
    DELKUTHI_TOO_MANY_RECORDS = 22, /* the recording has more than 256 records:
                                       pass a part of it */
    DELKUTHI_NO_STRETCH = 23, /* no stretch of it breaks the row */

    /* A withdrawal (delkuthi_withdraw, delkuthi_withdraw_step). Take a step
       first. */
    DELKUTHI_NOTHING_TO_WITHDRAW = 21, /* no step was taken since the last
                                          withdrawal, or none at all */
    DELKUTHI_OTHER_STEP = 26, /* the last step does not have that number: other
                                 steps were taken since. Asked after 21, of
                                 delkuthi_withdraw_step alone */

    /* A row for late stamps (delkuthi_stamps). Ask for another row. */
    DELKUTHI_NOT_REPEAT = 25 /* the row is not a Repeat of span 1 */

    /*
     * No call of this header answers 17, a file that is too large. It is a
     * refusal of the program.
     */
};

/* Returns a line of text for the number of a refusal, for the bench's log. */
static inline const char *delkuthi_refusal_text(uint8_t number)
{
    switch (number) {
    /* begin refusal texts: made by a program */
    case DELKUTHI_TAKEN:
        return "taken";
    case DELKUTHI_TABLE_VERSION:
        return "the table does not begin with a version byte 1, or 2 where "
               "both editions are taken";
    case DELKUTHI_ROW_CUT:
        return "a length field or a row of the table is not whole";
    case DELKUTHI_ROW_TOO_MANY:
        return "the table has more than 32 rows";
    case DELKUTHI_ROW_SHAPE:
        return "a row has no type of the table's edition, no known n or "
               "operator, or the wrong length";
    case DELKUTHI_ROW_KINDS:
        return "a row has a kind above 63, or one kind twice";
    case DELKUTHI_ROW_RANGE:
        return "a row has a time, span or maximum out of range";
    case DELKUTHI_ROW_BOUNDS:
        return "a row has times that are not in order, or a false comparison";
    case DELKUTHI_CLOSED:
        return "the recording is closed";
    case DELKUTHI_KIND:
        return "the kind is above 63";
    case DELKUTHI_TIME_RANGE:
        return "the time is above 2^60 - 1";
    case DELKUTHI_TIME_ORDER:
        return "the time is not in order";
    case DELKUTHI_CROWDED:
        return "more than 64 would wait in a row";
    case DELKUTHI_RECORDING_VERSION:
        return "the recording does not begin with a version byte 1 or 2";
    case DELKUTHI_RECORD:
        return "a record is not whole, or its length is not 8, 9 or 10";
    case DELKUTHI_NO_ROW:
        return "there is no row of that number";
    case DELKUTHI_TABLE_ROOM:
        return "the buffer is too short";
    case 17:
        return "a file is too large";
    case DELKUTHI_ROW_SORT:
        return "a row has a plain kind where its type takes coloured ones, "
               "or a coloured one where it takes plain ones";
    case DELKUTHI_FORM:
        return "an event has no colour and a coloured kind, or a colour and "
               "a plain kind, or no such colour";
    case DELKUTHI_COMMON_KIND:
        return "a kind is found in both recordings";
    case DELKUTHI_NOTHING_TO_WITHDRAW:
        return "there is no step to withdraw";
    case DELKUTHI_TOO_MANY_RECORDS:
        return "the recording has more than 256 records";
    case DELKUTHI_NO_STRETCH:
        return "no stretch of the recording breaks the row";
    case DELKUTHI_COUNT_FULL:
        return "the count of steps is full";
    case DELKUTHI_NOT_REPEAT:
        return "the row is not a Repeat of span 1";
    case DELKUTHI_OTHER_STEP:
        return "the last step has another number";
    /* end refusal texts */
    default:
        return "a refusal without a text";
    }
}

/* Returns the name of a row type, such as "Delay", as a page has it. */
static inline const char *delkuthi_type_text(uint8_t type)
{
    switch (type) {
    /* begin type texts: made by a program */
    case 1:
        return "Delay";
    case 2:
        return "StrongDelay";
    case 3:
        return "Repeat";
    case 4:
        return "Sporadic";
    case 5:
        return "Burst";
    case 6:
        return "Order";
    case 7:
        return "StrongSynchronization";
    case 8:
        return "ExecutionTime";
    case 9:
        return "Reaction";
    case 10:
        return "Repetition";
    case 11:
        return "Synchronization";
    case 12:
        return "Age";
    case 13:
        return "OutputSynchronization";
    case 14:
        return "InputSynchronization";
    case 15:
        return "Pattern";
    case 16:
        return "Arbitrary";
    case 17:
        return "Comparison";
    /* end type texts */
    default:
        return "no type";
    }
}

/*
 * Makes the memory a fresh monitor over a table: its clock is at 0 and nothing
 * is recorded. The earlier content of the memory is lost. The table's bytes
 * are not needed after the call.
 *
 * Returns DELKUTHI_TAKEN, or a refusal of number 1 to 7 or 18. DELKUTHI_NUMBER
 * of a refusal is its number, and DELKUTHI_PLACE is the place in the table of
 * the length field concerned, counted in bytes (0 for the version byte). A
 * refusal leaves the memory as it was: a monitor in it can go on.
 */
DELKUTHI_CHECKED DELKUTHI_NONNULL
uint64_t delkuthi_fresh(delkuthi_monitor *monitor,
                        const uint8_t *table, size_t table_length);

/*
 * A row for delkuthi_make_table or delkuthi_make_table_2. Make it with the
 * function of its type, which takes the fields in the order of the list above.
 */
typedef struct delkuthi_row {
    uint8_t body[34];
} delkuthi_row;

/* A row with its type and two bytes. Hosts use the functions below. */
static inline delkuthi_row delkuthi_row_bytes(uint8_t type, uint8_t a,
                                              uint8_t b)
{
    delkuthi_row row = {{0}};

    row.body[0] = type;
    row.body[1] = a;
    row.body[2] = b;
    return row;
}

/* Returns the row with a time in the eight bytes from a place on. */
static inline delkuthi_row delkuthi_row_time(delkuthi_row row, size_t place,
                                             uint64_t time)
{
    size_t i;

    for (i = 8; i-- > 0; time >>= 8)
        row.body[place + i] = DELKUTHI_LOW(time, 255);
    return row;
}

/* A function for each type. */
/* begin makers: made by a program */

static inline delkuthi_row delkuthi_delay(uint8_t source, uint8_t target,
                                          uint64_t lower, uint64_t upper)
{
    delkuthi_row row = delkuthi_row_bytes(1, source, target);

    return delkuthi_row_time(delkuthi_row_time(row, 3, lower), 11, upper);
}

static inline delkuthi_row delkuthi_strong_delay(uint8_t source,
                                                 uint8_t target,
                                                 uint64_t lower,
                                                 uint64_t upper)
{
    delkuthi_row row = delkuthi_row_bytes(2, source, target);

    return delkuthi_row_time(delkuthi_row_time(row, 3, lower), 11, upper);
}

static inline delkuthi_row delkuthi_repeat(uint8_t event, uint8_t span,
                                           uint64_t lower, uint64_t upper)
{
    delkuthi_row row = delkuthi_row_bytes(3, event, span);

    return delkuthi_row_time(delkuthi_row_time(row, 3, lower), 11, upper);
}

static inline delkuthi_row delkuthi_sporadic(uint8_t event, uint64_t lower,
                                             uint64_t upper, uint64_t jitter,
                                             uint64_t minimum)
{
    delkuthi_row row = delkuthi_row_bytes(4, event, 0);

    row = delkuthi_row_time(delkuthi_row_time(row, 2, lower), 10, upper);
    return delkuthi_row_time(delkuthi_row_time(row, 18, jitter), 26, minimum);
}

static inline delkuthi_row delkuthi_burst(uint8_t event, uint8_t maximum,
                                          uint64_t length, uint64_t minimum)
{
    delkuthi_row row = delkuthi_row_bytes(5, event, maximum);

    return delkuthi_row_time(delkuthi_row_time(row, 3, length), 11, minimum);
}

static inline delkuthi_row delkuthi_order(uint8_t source, uint8_t target)
{
    return delkuthi_row_bytes(6, source, target);
}

/* Of n kinds, 2 to 4; a row of another n is refused with 4. */
static inline delkuthi_row delkuthi_strong_synchronization(
    const uint8_t *kinds, uint8_t n, uint64_t tolerance)
{
    delkuthi_row row = delkuthi_row_bytes(7, n, 0);
    size_t i;

    for (i = 0; i < n && i < 4; i++)
        row.body[2 + i] = kinds[i];
    return delkuthi_row_time(row, 2 + i, tolerance);
}

static inline delkuthi_row delkuthi_execution_time(uint8_t start, uint8_t stop,
                                                   uint8_t preempt,
                                                   uint8_t resume,
                                                   uint64_t lower,
                                                   uint64_t upper)
{
    delkuthi_row row = delkuthi_row_bytes(8, start, stop);

    row.body[3] = preempt;
    row.body[4] = resume;
    return delkuthi_row_time(delkuthi_row_time(row, 5, lower), 13, upper);
}

/* Of coloured kinds. */
static inline delkuthi_row delkuthi_reaction(uint8_t stimulus,
                                             uint8_t response,
                                             uint64_t minimum,
                                             uint64_t maximum)
{
    delkuthi_row row = delkuthi_row_bytes(9, stimulus, response);

    return delkuthi_row_time(delkuthi_row_time(row, 3, minimum), 11, maximum);
}

static inline delkuthi_row delkuthi_repetition(uint8_t event, uint8_t span,
                                               uint64_t lower, uint64_t upper,
                                               uint64_t jitter)
{
    delkuthi_row row = delkuthi_row_bytes(10, event, span);

    row = delkuthi_row_time(delkuthi_row_time(row, 3, lower), 11, upper);
    return delkuthi_row_time(row, 19, jitter);
}

/* Of n kinds, 2 to 4; a row of another n is refused with 4. */
static inline delkuthi_row delkuthi_synchronization(const uint8_t *kinds,
                                                    uint8_t n,
                                                    uint64_t tolerance)
{
    delkuthi_row row = delkuthi_row_bytes(11, n, 0);
    size_t i;

    for (i = 0; i < n && i < 4; i++)
        row.body[2 + i] = kinds[i];
    return delkuthi_row_time(row, 2 + i, tolerance);
}

/* Of coloured kinds. */
static inline delkuthi_row delkuthi_age(uint8_t stimulus, uint8_t response,
                                        uint64_t minimum, uint64_t maximum)
{
    delkuthi_row row = delkuthi_row_bytes(12, stimulus, response);

    return delkuthi_row_time(delkuthi_row_time(row, 3, minimum), 11, maximum);
}

/* Of coloured kinds, n responses, 2 to 4; another n is refused with 4. */
static inline delkuthi_row delkuthi_output_synchronization(
    uint8_t stimulus, const uint8_t *responses, uint8_t n, uint64_t tolerance)
{
    delkuthi_row row = delkuthi_row_bytes(13, n, stimulus);
    size_t i;

    for (i = 0; i < n && i < 4; i++)
        row.body[3 + i] = responses[i];
    return delkuthi_row_time(row, 3 + i, tolerance);
}

/* Of coloured kinds, n stimuli, 2 to 4; another n is refused with 4. */
static inline delkuthi_row delkuthi_input_synchronization(
    const uint8_t *stimuli, uint8_t n, uint8_t response, uint64_t tolerance)
{
    delkuthi_row row = delkuthi_row_bytes(14, n, 0);
    size_t i;

    for (i = 0; i < n && i < 4; i++)
        row.body[2 + i] = stimuli[i];
    row.body[2 + i] = response;
    return delkuthi_row_time(row, 3 + i, tolerance);
}

/* The sign 1 is <=, 2 is <, 3 is >=, 4 is >, 5 is =. */
static inline delkuthi_row delkuthi_comparison(uint8_t sign, uint64_t left,
                                               uint64_t right)
{
    delkuthi_row row = delkuthi_row_bytes(17, sign, 0);

    return delkuthi_row_time(delkuthi_row_time(row, 2, left), 10, right);
}

/* end makers */
/*
 * A row of a type that has offsets or pairs. Its rows may be too long for a
 * delkuthi_row. delkuthi_put_row puts it into a table.
 */
typedef struct delkuthi_long_row {
    size_t length;
    uint8_t body[DELKUTHI_LONGEST_ROW];
} delkuthi_long_row;

/* A pair of an Arbitrary. */
typedef struct delkuthi_pair {
    uint64_t minimum;
    uint64_t maximum;
} delkuthi_pair;

/* A row with its type and two bytes. Hosts use the functions below. */
static inline delkuthi_long_row delkuthi_long_row_bytes(uint8_t type,
                                                        uint8_t a, uint8_t b)
{
    delkuthi_long_row row = {3, {0}};

    row.body[0] = type;
    row.body[1] = a;
    row.body[2] = b;
    return row;
}

/* Puts a time behind the bytes of a row. */
DELKUTHI_NONNULL
static inline void delkuthi_long_row_time(delkuthi_long_row *row,
                                          uint64_t time)
{
    size_t i;

    for (i = 8; i-- > 0; time >>= 8)
        row->body[row->length + i] = DELKUTHI_LOW(time, 255);
    row->length += 8;
}

/* A function for each type. */
/* begin long makers: made by a program */

/* Of n offsets, 1 to 8; a row of another n is refused with 4. */
static inline delkuthi_long_row delkuthi_pattern(uint8_t event,
                                                 uint64_t period,
                                                 uint64_t jitter,
                                                 uint64_t minimum,
                                                 const uint64_t *offsets,
                                                 uint8_t n)
{
    delkuthi_long_row row = delkuthi_long_row_bytes(15, n, event);
    size_t i;

    delkuthi_long_row_time(&row, period);
    delkuthi_long_row_time(&row, jitter);
    delkuthi_long_row_time(&row, minimum);
    for (i = 0; i < n && i < 8; i++)
        delkuthi_long_row_time(&row, offsets[i]);
    return row;
}

/* Of n pairs, 1 to 8; a row of another n is refused with 4. */
static inline delkuthi_long_row delkuthi_arbitrary(uint8_t event,
                                                   const delkuthi_pair *pairs,
                                                   uint8_t n)
{
    delkuthi_long_row row = delkuthi_long_row_bytes(16, n, event);
    size_t i;

    for (i = 0; i < n && i < 8; i++) {
        delkuthi_long_row_time(&row, pairs[i].minimum);
        delkuthi_long_row_time(&row, pairs[i].maximum);
    }
    return row;
}

/* end long makers */

/* Returns a row of another type as a row of any length. */
static inline delkuthi_long_row delkuthi_as_long(delkuthi_row given)
{
    const uint8_t type = given.body[0];
    /* begin lengths: made by a program */
    static const uint8_t lengths[] = {0, 19, 19, 19, 34, 19, 3, 10, 21, 19, 27,
        10, 19, 11, 11, 0, 0, 18};
    static const uint8_t entries[] = {0, 0, 0, 0, 0, 0, 0, 1, 0, 0, 0, 1, 0, 1,
        1, 0, 0, 0};
    /* end lengths */
    delkuthi_long_row row = {1, {0}};
    size_t i;

    if (type < sizeof lengths)
        row.length = lengths[type];
    for (i = 0; i < given.body[1] && i < 4; i++)
        if (type < sizeof entries)
            row.length += entries[type];
    for (i = 0; i < row.length; i++)
        row.body[i] = given.body[i];
    return row;
}

/*
 * Puts a row behind the first `length` bytes of a table, with its length field.
 * The table then has edition 2 if the row needs it. A table of no rows is one
 * byte, its version.
 *
 * Returns the new length of the table, or 0 if the buffer is too short; then
 * it stays as it was. Nothing is asked about the row: delkuthi_fresh_2 and the
 * other second forms ask their questions of the whole table, and the place of
 * a refusal says which row it is about.
 */
DELKUTHI_CHECKED DELKUTHI_NONNULL
static inline size_t delkuthi_put_row(uint8_t *table, size_t table_length,
                                      size_t length,
                                      const delkuthi_long_row *row)
{
    size_t i;

    if (length > table_length || table_length - length < 2 + row->length)
        return 0;
    if (row->body[0] > DELKUTHI_FIRST_EDITION_TYPES)
        table[0] = 2;
    table[length] = DELKUTHI_LOW(row->length >> 8, 255);
    table[length + 1] = DELKUTHI_LOW(row->length, 255);
    for (i = 0; i < row->length; i++)
        table[length + 2 + i] = row->body[i];
    return length + 2 + row->length;
}

/*
 * Adds a row of any length to a table, and asks the questions that reading the
 * table would ask. `table` is a buffer of table_length bytes; its first
 * `length` bytes are a table of edition 1 or 2. A table of no rows is one
 * byte, its version. `body` is the row: its type and its fields, without a
 * length field, as in the body of a delkuthi_long_row.
 *
 * If DELKUTHI_NUMBER of the answer is DELKUTHI_TAKEN, DELKUTHI_LENGTH is the
 * length of the table with the row. The version becomes 2 if the table's
 * edition does not have the row's type. Bytes behind the row stay as they
 * were.
 *
 * Otherwise the call is refused and the buffer stays as it was. If the table
 * is refused, number and place are those of delkuthi_fresh_2. If the row is
 * refused, with 3 to 7 or 18 or with DELKUTHI_TABLE_ROOM, the place is
 * `length`.
 */
DELKUTHI_CHECKED DELKUTHI_NONNULL
uint64_t delkuthi_add_row(uint8_t *table, size_t table_length, size_t length,
                          const uint8_t *body, size_t body_length);

/*
 * Reads a row of a table of edition 1 or 2 back: copies its body, the type and
 * the fields as delkuthi_add_row takes them, to a buffer. A buffer of
 * DELKUTHI_LONGEST_ROW bytes holds every body. Bytes behind it stay as they
 * were.
 *
 * If DELKUTHI_NUMBER of the answer is DELKUTHI_TAKEN, DELKUTHI_LENGTH is the
 * length of the body. Otherwise the call is refused and the buffer stays as it
 * was. If the table is refused, number and place are those of
 * delkuthi_fresh_2. After those come, with the place 0, DELKUTHI_NO_ROW and
 * DELKUTHI_TABLE_ROOM.
 */
DELKUTHI_CHECKED DELKUTHI_NONNULL
uint64_t delkuthi_table_row(const uint8_t *table, size_t table_length,
                            uint64_t row, uint8_t *body, size_t body_length);

/* The table writer; rows_size is in bytes. Call delkuthi_make_table instead. */
DELKUTHI_CHECKED DELKUTHI_NONNULL
uint64_t delkuthi_table(const delkuthi_row *rows, size_t rows_size,
                        uint8_t *table, size_t table_length);

/*
 * Writes the table of some rows in edition 1, for delkuthi_fresh and
 * delkuthi_report. A buffer of DELKUTHI_TABLE_LIMIT bytes holds every table.
 * Bytes behind the table stay as they were.
 *
 * If DELKUTHI_NUMBER of the answer is DELKUTHI_TAKEN, DELKUTHI_LENGTH is the
 * length of the table. Otherwise the call is refused and the buffer stays as
 * it was: with 3 to 7 or 18, where DELKUTHI_ROW is the refused row, or with
 * DELKUTHI_TABLE_ROOM. The call asks 3 to 7 and 18 of each row before the
 * next. Rows behind the 33rd are never read.
 */
DELKUTHI_CHECKED DELKUTHI_NONNULL
static inline uint64_t delkuthi_make_table(const delkuthi_row *rows,
                                           size_t count, uint8_t *table,
                                           size_t table_length)
{
    if (count > DELKUTHI_ROW_LIMIT)
        count = DELKUTHI_ROW_LIMIT + 1;
    return delkuthi_table(rows, count * sizeof *rows, table, table_length);
}

/*
 * Takes an event of a plain kind, 0 to 47. Its time must not be before the
 * clock, and must be later than the last event of its kind. The clock moves to
 * its time, which says that all earlier events have been given (LATE EVENTS).
 *
 * Returns DELKUTHI_TAKEN or a refusal: DELKUTHI_CLOSED, DELKUTHI_COUNT_FULL,
 * DELKUTHI_KIND, DELKUTHI_FORM, DELKUTHI_TIME_RANGE, DELKUTHI_TIME_ORDER or
 * DELKUTHI_CROWDED. A refusal leaves the monitor as it was.
 */
DELKUTHI_CHECKED DELKUTHI_NONNULL
uint8_t delkuthi_event(delkuthi_monitor *monitor, uint8_t kind, uint64_t time);

/*
 * Takes an event of a coloured kind, 48 to 63, with its colour, 0 to 7. Its
 * time must not be before the clock, and must be later than the last event of
 * its kind and colour. The clock moves to its time.
 *
 * Returns what delkuthi_event returns.
 */
DELKUTHI_CHECKED DELKUTHI_NONNULL
uint8_t delkuthi_coloured_event(delkuthi_monitor *monitor, uint8_t kind,
                                uint8_t colour, uint64_t time);

/*
 * Takes a tick: the clock moves to a later time. Ticks tell the monitor that
 * time passes without events, so that a row whose answer does not come breaks.
 * A tick to t says that every event stamped before t has been given: tick only
 * as far as your slowest source allows (LATE EVENTS).
 *
 * Returns DELKUTHI_TAKEN or a refusal: DELKUTHI_CLOSED, DELKUTHI_COUNT_FULL,
 * DELKUTHI_TIME_RANGE or DELKUTHI_TIME_ORDER. A refusal leaves the monitor as
 * it was.
 */
DELKUTHI_CHECKED DELKUTHI_NONNULL
uint8_t delkuthi_tick(delkuthi_monitor *monitor, uint64_t time);

/*
 * Closes the recording. After it no step is taken, and no row reads open.
 *
 * Returns DELKUTHI_TAKEN; DELKUTHI_CLOSED if it is already closed; or
 * DELKUTHI_COUNT_FULL. A refusal leaves the monitor as it was.
 */
DELKUTHI_CHECKED DELKUTHI_NONNULL
uint8_t delkuthi_close(delkuthi_monitor *monitor);

/*
 * Withdraws the last step that was taken: an event, a tick or the close. Rows,
 * clock and count are then as if it had never been taken. Only the last step
 * can be withdrawn, and only once: the next withdrawal needs a new step first.
 * A refused call does not change what can be withdrawn. A withdrawal is not a
 * step itself.
 *
 * It takes back the last step, whichever that is. To take back a certain step,
 * call delkuthi_withdraw_step.
 *
 * Returns DELKUTHI_TAKEN, or DELKUTHI_NOTHING_TO_WITHDRAW, which leaves the
 * monitor as it was.
 */
DELKUTHI_CHECKED DELKUTHI_NONNULL
uint8_t delkuthi_withdraw(delkuthi_monitor *monitor);

/*
 * Withdraws the last step if its number is `step`. The number of a step is
 * what delkuthi_steps returns right after it. If another step has come since,
 * the call is refused, and that other step stays.
 *
 * Returns DELKUTHI_TAKEN; DELKUTHI_NOTHING_TO_WITHDRAW; or DELKUTHI_OTHER_STEP
 * if the last step has another number. A refusal leaves the monitor as it was.
 */
DELKUTHI_CHECKED DELKUTHI_NONNULL
uint8_t delkuthi_withdraw_step(delkuthi_monitor *monitor, uint64_t step);

/*
 * Takes the records of a recording, one after the other, without a close. Each
 * record is the step that delkuthi_event, delkuthi_coloured_event or
 * delkuthi_tick would take. The monitor goes on from where it is, so a host
 * can pass a long recording in parts; each part begins with a version byte
 * (delkuthi_report has the form of a recording).
 *
 * Returns DELKUTHI_TAKEN if every record is taken. Otherwise DELKUTHI_NUMBER
 * is the number of the refusal: DELKUTHI_RECORDING_VERSION, DELKUTHI_RECORD,
 * or what a step returns; and DELKUTHI_PLACE is the place of the refused
 * record. A place above 2^56 - 1 is given as 2^56 - 1. The monitor has then
 * taken the records before that one, and nothing of the refused one.
 */
DELKUTHI_CHECKED DELKUTHI_NONNULL
uint64_t delkuthi_take(delkuthi_monitor *monitor,
                       const uint8_t *recording, size_t recording_length);

/*
 * Write one record behind the first `size` bytes of a buffer: an event of a
 * plain kind, an event of a coloured kind, or a tick. If size is 0, the call
 * begins a recording: it writes the version byte 2 before the record. Pass the
 * size that one call returns to the next:
 *
 *     answer = delkuthi_put_event(buffer, sizeof buffer, size, kind, time);
 *     if (DELKUTHI_NUMBER(answer) == DELKUTHI_TAKEN)
 *         size = DELKUTHI_LENGTH(answer);
 *
 * The first `size` bytes are then a recording for delkuthi_take,
 * delkuthi_report and the other calls. Other bytes of the buffer stay as they
 * were. The calls do not compare times with those of earlier records: that is
 * asked when the recording is read.
 *
 * If DELKUTHI_NUMBER of the answer is DELKUTHI_TAKEN, DELKUTHI_LENGTH is the
 * new size. Otherwise the call is refused, and the buffer stays as it was:
 * DELKUTHI_RECORDING_VERSION if size is not 0 and the first byte is neither 1
 * nor 2; DELKUTHI_KIND, DELKUTHI_FORM or DELKUTHI_TIME_RANGE for the record,
 * where version 1 takes no colours; DELKUTHI_TABLE_ROOM if the buffer is too
 * short.
 */
DELKUTHI_CHECKED DELKUTHI_NONNULL
uint64_t delkuthi_put_event(uint8_t *buffer, size_t buffer_length, size_t size,
                            uint8_t kind, uint64_t time);

DELKUTHI_CHECKED DELKUTHI_NONNULL
uint64_t delkuthi_put_coloured_event(uint8_t *buffer, size_t buffer_length,
                                     size_t size, uint8_t kind, uint8_t colour,
                                     uint64_t time);

DELKUTHI_CHECKED DELKUTHI_NONNULL
uint64_t delkuthi_put_tick(uint8_t *buffer, size_t buffer_length, size_t size,
                           uint64_t time);

/*
 * Says what a row reads. The first row is row 0. The call changes nothing and
 * can be made at any time.
 *
 * Returns
 *   DELKUTHI_OPEN    it can still be met, and the recording is not closed
 *   DELKUTHI_KEPT    it is met, and the recording is closed
 *   DELKUTHI_BROKEN  it can no longer be met; delkuthi_row_step says since
 *                    which step
 *   DELKUTHI_NO_ROW  the table has no row of that number
 *
 * It returns one of these four whatever the memory holds.
 */
DELKUTHI_NONNULL
uint8_t delkuthi_row_verdict(const delkuthi_monitor *monitor, uint64_t row);

#define DELKUTHI_OPEN   0
#define DELKUTHI_KEPT   1
#define DELKUTHI_BROKEN 2

/*
 * Returns the number of the step that broke a row; the first step is 1.
 * Returns 0 if the row is not broken, or there is no row of that number.
 */
DELKUTHI_NONNULL
uint64_t delkuthi_row_step(const delkuthi_monitor *monitor, uint64_t row);

/*
 * Says why a row broke. Let t be the clock after the step that broke it.
 *
 * Returns
 *   DELKUTHI_OVERDUE   the clock passed the row's deadline: a tick to t in
 *                      place of that step would have broken the row too
 *   DELKUTHI_BY_EVENT  an event of one of the row's kinds broke it, and a tick
 *                      to t would have left it open
 *   DELKUTHI_AT_CLOSE  the close broke it
 *   0                  the row is not broken, or there is no such row
 *
 * It returns one of these four whatever the memory holds.
 * causes.c, among the examples, prints the cause of each row.
 */
DELKUTHI_NONNULL
uint8_t delkuthi_row_cause(const delkuthi_monitor *monitor, uint64_t row);

#define DELKUTHI_OVERDUE  1
#define DELKUTHI_BY_EVENT 2
#define DELKUTHI_AT_CLOSE 3

/*
 * Returns the moment at which a row broke: the deadline that passed
 * (DELKUTHI_OVERDUE), the time of the event, or the clock at the close. Returns
 * DELKUTHI_NO_LIMIT if the row is not broken, or there is no such row.
 */
DELKUTHI_NONNULL
uint64_t delkuthi_row_moment(const delkuthi_monitor *monitor, uint64_t row);

/*
 * Returns the number of rows of the monitor's table, 0 to 32 whatever the
 * memory holds.
 */
DELKUTHI_NONNULL
uint64_t delkuthi_rows(const delkuthi_monitor *monitor);

/*
 * Reads a row of the monitor's table back, as delkuthi_table_row does: copies
 * its body to a buffer. It is the row of the table whatever steps the monitor
 * has taken, whether the row is broken or not.
 *
 * If DELKUTHI_NUMBER of the answer is DELKUTHI_TAKEN, DELKUTHI_LENGTH is the
 * length of the body. Otherwise it is refused with DELKUTHI_NO_ROW or
 * DELKUTHI_TABLE_ROOM and the buffer stays as it was, whatever the memory of
 * the monitor holds.
 */
DELKUTHI_CHECKED DELKUTHI_NONNULL
uint64_t delkuthi_monitor_row(const delkuthi_monitor *monitor, uint64_t row,
                              uint8_t *body, size_t body_length);

/*
 * WHAT A HOST ASKS WHILE IT RUNS
 *
 * These calls only read, and can be made at any time. Several threads may read
 * one monitor at once, as long as none takes a step. After any calls and
 * withdrawals each returns what the definitions say about the steps that are
 * left.
 */

/* Returns the clock: the time of the last event or tick, and 0 before any. */
DELKUTHI_NONNULL
uint64_t delkuthi_clock(const delkuthi_monitor *monitor);

/* Returns how many steps were taken, the close included. */
DELKUTHI_NONNULL
uint64_t delkuthi_steps(const delkuthi_monitor *monitor);

/*
 * Returns 1 if the recording is closed, otherwise 0. It returns one of the two
 * whatever the memory holds.
 */
DELKUTHI_NONNULL
uint8_t delkuthi_closed(const delkuthi_monitor *monitor);

/* Returns a bit for each row: bit i is 1 if row i reads broken. */
DELKUTHI_NONNULL
uint32_t delkuthi_broken_rows(const delkuthi_monitor *monitor);

/*
 * Returns how many sources or groups wait in a row that reads open. Returns 0
 * for any other row, and if there is no row of that number.
 */
DELKUTHI_NONNULL
uint64_t delkuthi_row_waiting(const delkuthi_monitor *monitor, uint64_t row);

/*
 * Returns the time of the oldest source or group that waits in a row that reads
 * open; the time of a group is that of its first event. Returns
 * DELKUTHI_NO_LIMIT if nothing waits in the row, for any other row, and if
 * there is no row of that number.
 */
DELKUTHI_NONNULL
uint64_t delkuthi_row_oldest(const delkuthi_monitor *monitor, uint64_t row);

/*
 * Returns the stream of that source; for a group the first of the row's kinds,
 * in the order of the row, that has an event in it. Both are plain kinds, so
 * the stream is the kind. Returns DELKUTHI_NO_STREAM where delkuthi_row_oldest
 * returns DELKUTHI_NO_LIMIT.
 */
DELKUTHI_NONNULL
uint8_t delkuthi_row_oldest_stream(const delkuthi_monitor *monitor,
                                   uint64_t row);

#define DELKUTHI_NO_STREAM 255

/*
 * Returns the first row for which delkuthi_event with the same kind and time
 * would answer DELKUTHI_CROWDED: the row would be open with more than 64
 * waiting. After a 12 this tells the host in which row something has to
 * answer.
 *
 * Returns DELKUTHI_ROW_LIMIT if that call would answer anything else. It never
 * returns more, whatever the memory holds. An event of a coloured kind, a tick
 * and the close never crowd a row.
 */
DELKUTHI_NONNULL
uint8_t delkuthi_crowded_row(const delkuthi_monitor *monitor, uint8_t kind,
                             uint64_t time);

/*
 * Returns the deadline of a row that reads open. A tick to a time that is not
 * after the deadline leaves the row open, and a tick to any later time breaks
 * it. So if none of the row's events comes, the row breaks one past its
 * deadline. A tick that is refused does not break it: once 2^64 - 1 steps have
 * been taken, every tick is refused with 24, and the row stays open.
 *
 * Returns DELKUTHI_NO_LIMIT if no tick can break the row, if it is broken,
 * after the close, and if there is no row of that number.
 */
DELKUTHI_NONNULL
uint64_t delkuthi_row_deadline(const delkuthi_monitor *monitor, uint64_t row);

/*
 * Returns the earliest deadline of all rows: a host may sleep until then if no
 * event comes. Returns DELKUTHI_NO_LIMIT if no row has a deadline.
 */
DELKUTHI_NONNULL
uint64_t delkuthi_deadline(const delkuthi_monitor *monitor);

/*
 * Writes a page for printing: what each row of a monitor, closed or not, reads
 * now. It changes nothing in the monitor and can be called at any time. The
 * page shows no kinds and no limits, so it cannot tell which table is loaded;
 * compare a checksum of the table's bytes for that.
 *
 * Each line has 72 bytes of ASCII followed by byte 10. A line of 72 hyphens
 * stands before row 0 and before row 16, and alone if the table has no rows.
 * Every other line has
 *
 *   columns 0 to 2    the row's number, right-aligned
 *   columns 5 to 28   the name of its type as in the list above, left-aligned
 *   columns 29 to 36  open, kept or broken, left-aligned
 *   columns 37 to 56  the step that broke it, if it is broken, right-aligned
 *
 * and blanks elsewhere. Row i's line begins at byte 73 * (i + i / 16 + 1).
 *
 * Returns the number of bytes written, 73 for each line, at most
 * DELKUTHI_PAGE_LIMIT. If the page is longer than page_length, it returns 0
 * and writes nothing. Bytes behind the page stay as they were; there is no
 * byte 0 at the end.
 */
DELKUTHI_CHECKED DELKUTHI_NONNULL
size_t delkuthi_page(const delkuthi_monitor *monitor,
                     uint8_t *page, size_t page_length);

/*
 * Reports on a whole recording: gives its records to a fresh monitor over the
 * table, closes it, and writes a report in ASCII. Each line ends with byte 10.
 *
 *   closed N         N is the number of steps, the close included
 *   0 kept           then a line for each row: its number, and kept,
 *   1 broken 38      or broken and the step that broke it
 *
 * If the table, a record or a step is refused, the report is only
 *
 *   refused N P      the number, 1 to 14, 18 or 19, and the place P of the
 *                    length field concerned, in the table (1 to 7, 18) or in
 *                    the recording
 *
 * A recording is one byte, its version, followed by records: a length of two
 * bytes, then a kind and a time (length 9, an event), a kind, a colour and a
 * time (length 10, an event of a coloured kind) or a time (length 8, a tick),
 * big-endian. The version is 2 if a record has a colour; without colours it is
 * 1 or 2. The place of a record is that of its length; the place of a version
 * byte is 0.
 *
 * Returns the number of bytes written, at most DELKUTHI_REPORT_LIMIT. If the
 * report is longer than report_length, it returns 0 and writes nothing. Bytes
 * behind the report stay as they were; there is no byte 0 at the end.
 */
DELKUTHI_CHECKED DELKUTHI_NONNULL
size_t delkuthi_report(const uint8_t *table, size_t table_length,
                       const uint8_t *recording, size_t recording_length,
                       uint8_t *report, size_t report_length);

/*
 * Writes the same report with a monitor that the host passes, so that no
 * monitor is on the stack. The earlier content of the monitor does not matter.
 * If the table is refused, the monitor stays as it was. Otherwise it is made
 * fresh over the table and takes the records up to the first one that is
 * refused, or all records and the close. It then goes on as after those calls:
 * for example, delkuthi_row_verdict tells what its rows read. All this holds
 * even if the buffer is too short.
 *
 * Returns and writes what delkuthi_report returns and writes.
 */
DELKUTHI_CHECKED DELKUTHI_NONNULL
size_t delkuthi_report_on(delkuthi_monitor *monitor,
                          const uint8_t *table, size_t table_length,
                          const uint8_t *recording, size_t recording_length,
                          uint8_t *report, size_t report_length);

/*
 * Writes the report of a closed monitor whose steps the host gave it one by
 * one: the bytes that delkuthi_report writes for the same table and steps. It
 * changes nothing in the monitor.
 *
 * Returns the number of bytes written, at most DELKUTHI_REPORT_LIMIT. Returns
 * 0 and writes nothing in two cases: the monitor is not closed, or the report
 * is longer than report_length. delkuthi_closed tells them apart: it returns 0
 * in the first case. Bytes behind the report stay as they were; there is no
 * byte 0 at the end.
 */
DELKUTHI_CHECKED DELKUTHI_NONNULL
size_t delkuthi_report_of(const delkuthi_monitor *monitor,
                          uint8_t *report, size_t report_length);

/*
 * Says what a Repeat row of span 1 reads at the close of a recording whose
 * stamps may be late by up to `late`. Each event of the row then happened at a
 * time t with stamp - late <= t <= stamp and 0 <= t, each after the one
 * before. The clock of the recording is exact. The first row is row 0.
 *
 * Returns a word as below if DELKUTHI_NUMBER of the answer is DELKUTHI_TAKEN.
 * Otherwise the answer is a refusal with that number and DELKUTHI_PLACE: of
 * the table (1 to 7 and 18), or of a record or its step (9 to 11, 13, 14 and
 * 19). After those come, with the place 0, DELKUTHI_NO_ROW,
 * DELKUTHI_NOT_REPEAT, and DELKUTHI_TIME_RANGE if `late` is above
 * DELKUTHI_LAST_TIME. A place above 2^56 - 1 is given as 2^56 - 1.
 */
DELKUTHI_CHECKED DELKUTHI_NONNULL
uint64_t delkuthi_stamps(const uint8_t *table, size_t table_length,
                         const uint8_t *recording, size_t recording_length,
                         uint64_t row, uint64_t late);

/*
 * DELKUTHI_WORD of an answer of delkuthi_stamps that is not a refusal is
 * DELKUTHI_KEPT if every choice of true times meets the row, DELKUTHI_BROKEN
 * if none does, and DELKUTHI_UNSURE if some do and some do not.
 */
#define DELKUTHI_UNSURE 3

/*
 * Joins two recordings that have no kind in common, and writes the joined
 * recording to the front of a buffer. Its records are in the order of time; at
 * equal times those of the first recording come first. A tick that is not
 * later than the joined clock is dropped. The version is the higher of the
 * two. A buffer as long as both recordings together is always long enough.
 * Bytes behind the joined recording stay as they were.
 *
 * If DELKUTHI_NUMBER of the answer is DELKUTHI_TAKEN, DELKUTHI_LENGTH is the
 * number of bytes. Otherwise the answer is a refusal with that number and
 * DELKUTHI_PLACE: of a record of the first recording or its step (9 to 11, 13,
 * 14 and 19), then of the second; then DELKUTHI_COMMON_KIND, with the place of
 * the second recording's first record of such a kind; then
 * DELKUTHI_TABLE_ROOM, with the place 0. DELKUTHI_JOIN_SECOND tells whether
 * the second recording is the one that is refused. A place or a length above
 * 2^56 - 1 is given as 2^56 - 1. A refusal leaves the buffer as it was.
 */
DELKUTHI_CHECKED DELKUTHI_NONNULL
uint64_t delkuthi_join(const uint8_t *first, size_t first_length,
                       const uint8_t *second, size_t second_length,
                       uint8_t *joined, size_t joined_length);

/* 1 if delkuthi_join refuses the second recording, 0 if the first. */
#define DELKUTHI_JOIN_SECOND(answer) (((answer) >> 7) & 1)

static inline uint8_t delkuthi_join_second(uint64_t answer)
{
    return DELKUTHI_LOW(DELKUTHI_JOIN_SECOND(answer), 1);
}

/*
 * Finds the shortest stretch of consecutive records of a recording that breaks
 * a row, before any close, when a fresh monitor over this row alone takes
 * them; among stretches of equal length the earliest. A stretch that meets
 * DELKUTHI_CROWDED on the way does not break the row. The first row is row 0.
 * For n records the call takes at most n(n + 1)/2 steps of the row.
 *
 * Returns a stretch as below if DELKUTHI_NUMBER of the answer is
 * DELKUTHI_TAKEN. Otherwise the answer is a refusal with that number and
 * DELKUTHI_PLACE: of the table (1 to 7 and 18), or of a record or its step (9
 * to 11, 13, 14 and 19). After those come, with the place 0,
 * DELKUTHI_TOO_MANY_RECORDS, DELKUTHI_NO_ROW, and DELKUTHI_NO_STRETCH if no
 * stretch breaks the row. A place above 2^56 - 1 is given as 2^56 - 1.
 */
DELKUTHI_CHECKED DELKUTHI_NONNULL
uint64_t delkuthi_shortest_stretch(const uint8_t *table, size_t table_length,
                                   const uint8_t *recording,
                                   size_t recording_length, uint64_t row);

/*
 * Parts of an answer of delkuthi_shortest_stretch that is not a refusal: the
 * number of the stretch's first record, from 0; how many records it has; and
 * how many stretches were tried, by length and then by start, including this
 * one.
 */
#define DELKUTHI_STRETCH_FIRST(answer)  ((answer) >> 8 & 255)
#define DELKUTHI_STRETCH_LENGTH(answer) ((answer) >> 16 & 65535)
#define DELKUTHI_STRETCH_TRIED(answer)  ((answer) >> 32)

static inline uint64_t delkuthi_stretch_first(uint64_t answer)
{
    return DELKUTHI_STRETCH_FIRST(answer);
}

static inline uint64_t delkuthi_stretch_length(uint64_t answer)
{
    return DELKUTHI_STRETCH_LENGTH(answer);
}

static inline uint64_t delkuthi_stretch_tried(uint64_t answer)
{
    return DELKUTHI_STRETCH_TRIED(answer);
}

/*
 * THE SECOND FORMS
 *
 * These are the calls above that take a table, for tables of editions 1 and 2.
 * Each has the arguments, the answers and the stack of the call without _2.
 * They refuse a table with 1 if it does not begin with a byte 1 or 2, and a
 * row with 4 if the edition that this byte names does not have its type.
 */

DELKUTHI_CHECKED DELKUTHI_NONNULL
uint64_t delkuthi_fresh_2(delkuthi_monitor *monitor,
                          const uint8_t *table, size_t table_length);

DELKUTHI_CHECKED DELKUTHI_NONNULL
size_t delkuthi_report_2(const uint8_t *table, size_t table_length,
                         const uint8_t *recording, size_t recording_length,
                         uint8_t *report, size_t report_length);

DELKUTHI_CHECKED DELKUTHI_NONNULL
size_t delkuthi_report_on_2(delkuthi_monitor *monitor,
                            const uint8_t *table, size_t table_length,
                            const uint8_t *recording, size_t recording_length,
                            uint8_t *report, size_t report_length);

DELKUTHI_CHECKED DELKUTHI_NONNULL
uint64_t delkuthi_stamps_2(const uint8_t *table, size_t table_length,
                           const uint8_t *recording, size_t recording_length,
                           uint64_t row, uint64_t late);

DELKUTHI_CHECKED DELKUTHI_NONNULL
uint64_t delkuthi_shortest_stretch_2(const uint8_t *table, size_t table_length,
                                     const uint8_t *recording,
                                     size_t recording_length, uint64_t row);

/* The table writer of edition 2, which delkuthi_make_table_2 calls. */
DELKUTHI_CHECKED DELKUTHI_NONNULL
uint64_t delkuthi_table_2(const delkuthi_row *rows, size_t rows_size,
                          uint8_t *table, size_t table_length);

/*
 * Writes the table of some rows as delkuthi_make_table does, in edition 2, for
 * delkuthi_fresh_2, delkuthi_report_2 and the other second forms.
 */
DELKUTHI_CHECKED DELKUTHI_NONNULL
static inline uint64_t delkuthi_make_table_2(const delkuthi_row *rows,
                                             size_t count, uint8_t *table,
                                             size_t table_length)
{
    if (count > DELKUTHI_ROW_LIMIT)
        count = DELKUTHI_ROW_LIMIT + 1;
    return delkuthi_table_2(rows, count * sizeof *rows, table, table_length);
}

/*
 * Returns the edition that some rows need: 1, or 2 if one of them has a type
 * that edition 1 does not have. Rows behind the 33rd are not read.
 */
DELKUTHI_NONNULL
static inline uint8_t delkuthi_edition(const delkuthi_row *rows, size_t count)
{
    size_t i;

    for (i = 0; i < count && i <= DELKUTHI_ROW_LIMIT; i++)
        if (rows[i].body[0] > DELKUTHI_FIRST_EDITION_TYPES)
            return 2;
    return 1;
}

/*
 * Writes the table of some rows as delkuthi_make_table and
 * delkuthi_make_table_2 do, in the lowest edition that has all their types.
 */
DELKUTHI_CHECKED DELKUTHI_NONNULL
static inline uint64_t delkuthi_make_any_table(const delkuthi_row *rows,
                                               size_t count, uint8_t *table,
                                               size_t table_length)
{
    if (delkuthi_edition(rows, count) == 1)
        return delkuthi_make_table(rows, count, table, table_length);
    return delkuthi_make_table_2(rows, count, table, table_length);
}

/*
 * The names without _2 for both editions: a host defines DELKUTHI_EDITION as 2
 * before it includes this header. Without it they are the first forms.
 */
#ifndef DELKUTHI_EDITION
#define DELKUTHI_EDITION 1
#endif
#if DELKUTHI_EDITION == 2
#define delkuthi_fresh            delkuthi_fresh_2
#define delkuthi_report           delkuthi_report_2
#define delkuthi_report_on        delkuthi_report_on_2
#define delkuthi_stamps           delkuthi_stamps_2
#define delkuthi_shortest_stretch delkuthi_shortest_stretch_2
#define delkuthi_make_table       delkuthi_make_any_table
#elif DELKUTHI_EDITION != 1
#error "DELKUTHI_EDITION has to be 1 or 2"
#endif

#ifdef __cplusplus
}
#endif

#endif
