/*
 * orders.h: one call that takes a text of tasks and rules and gives a listing.
 *
 * The text. Each line ends with a line feed, the last one too; fields are
 * parted by one tab; a number is 1 to 7 decimal digits, and none but 0 itself
 * begins with 0.
 *
 *     t  C  T  D  J  S0 .. S7     a task: execution time, period, deadline, jitter, and the
 *                                 longest section on each of eight resources, 0 where it does not use it
 *     r  u  l  weight             a rule: task u has a higher priority than task l; its weight, 1 to 1,000,
 *                                 plays no part in the listing
 *
 * Times are whole microseconds. Tasks and rules have places, counted from 0.
 * A rule may name only tasks that stand on lines before it.
 *
 * Tasks share resources by the ceiling protocol: a task is blocked for the
 * longest section that a task below it holds on a resource that the task itself
 * or some task above it uses.
 *
 * The listing, in the same form, is an order in which every task meets its
 * deadline and every rule is kept:
 *
 *     order  count         then one line for each level, highest first: level, place, response
 *
 * Where there are several such orders, it is always this one: levels are filled
 * from the lowest upward. A task may take a level when every task that a rule
 * puts below it has one; of the tasks that may and that meet their deadline
 * with every task still without a level above them, the one with the greatest
 * place takes it.
 *
 * Where there is no such order, the listing is a core: rules under which there
 * is none, while with any one of them taken out there is one:
 *
 *     core  count          then one line for each rule: rule place, u, l
 *
 * A core of 0 rules says that there is no such order even without any rule.
 * Then one line follows for each task that has no level when the levels are
 * filled so without any rule, in rising place, and there is at least one:
 *
 *     late  place  response
 *
 * The response is that of the task with the other late tasks above it, which is
 * beyond its deadline; it is 0 where none lies within its period.
 */
#ifndef ORDERS_H
#define ORDERS_H

#include <stddef.h>
#include <stdint.h>

/* The longest text that is read, in bytes. */
#define ORDERS_TEXT_MAX 16384

/* A listing never has more bytes than this: a buffer of this size is always enough. */
#define ORDERS_LISTING_MAX 1289

/*
 * Stack that is enough for a call, in bytes. 30,952 were measured: the deepest
 * byte that calls changed on a stack filled with one value (tests/stack.c).
 */
#define ORDERS_STACK 65536

/*
 * Results below ORDERS_LISTED are refusals. ORDERS_TEXT_TOO_LONG comes first,
 * then the first line that is refused, then ORDERS_NO_TASK, then
 * ORDERS_BUFFER_TOO_SHORT. On one line ORDERS_UNREADABLE_LINE comes first,
 * then 1 to 5 and 10 for a task, or 6, 11, 12 and 15 for a rule.
 */
enum {
    ORDERS_PERIOD_RANGE = 1,     /* a period is not 1 to 1,000,000 */
    ORDERS_EXECUTION_RANGE = 2,  /* an execution time is not 1 to the period */
    ORDERS_DEADLINE_RANGE = 3,   /* a deadline is not 1 to the period */
    ORDERS_JITTER_RANGE = 4,     /* a jitter is not 0 to the period less 1 */
    ORDERS_SECTION_RANGE = 5,    /* a section is longer than the execution time */
    ORDERS_SAME_TASK_TWICE = 6,  /* a rule names one task twice */
    ORDERS_UNREADABLE_LINE = 7,  /* a line does not have the form above */
    ORDERS_TEXT_TOO_LONG = 8,    /* the text has more than ORDERS_TEXT_MAX bytes */
    ORDERS_BUFFER_TOO_SHORT = 9, /* the buffer is shorter than the listing */
    ORDERS_TOO_MANY_TASKS = 10,  /* a task line after 64 tasks */
    ORDERS_UNKNOWN_TASK = 11,    /* a rule names a place that has no task yet */
    ORDERS_TOO_MANY_RULES = 12,  /* a rule line after 128 rules */
    ORDERS_NO_TASK = 13,         /* the text has no task */
    ORDERS_WEIGHT_RANGE = 15     /* a weight is not 1 to 1,000 */
};

/* A result of ORDERS_LISTED + n says that a listing of n bytes was written. */
#define ORDERS_LISTED 100

#ifdef __cplusplus
extern "C" {
#endif

/*
 * Reads the text_len bytes at text, and writes the listing to the out_len
 * bytes at out.
 *
 * The result is a refusal, and then no byte of the buffer has changed; or it
 * is ORDERS_LISTED plus the listing's byte count, and then the listing stands
 * in the front of the buffer and every byte after it is as it was. A buffer of
 * exactly the listing's size is enough. No zero byte is put at the end.
 *
 * The text is never changed. The call keeps nothing from one call to the next,
 * allocates nothing, and calls nothing but memcpy, memmove and memset, so several
 * threads may call it at once, each with a buffer of its own.
 *
 * A null pointer with length 0 is an empty text or an empty buffer. A caller
 * must not
 *   - give a null pointer with another length,
 *   - give a length beyond the bytes that are behind its pointer,
 *   - let the text and the buffer overlap,
 *   - change the text, or touch the buffer, while the call runs.
 * Nothing is promised for a call that does.
 */
uint64_t orders_solve(const uint8_t *text, size_t text_len, uint8_t *out, size_t out_len);

#ifdef __cplusplus
}
#endif

#endif
