/*
 * plain.c: the call of orders.h written the plain way, to compare with. The
 * response is found by repeating w := demand(w), the blocking by a pass over the
 * tasks and resources at each level, the order by one search from the lowest
 * level upward, the core by one such search for each rule, and the late tasks
 * by one more.
 */
#include <stdbool.h>
#include <string.h>
#include "orders.h"

enum { MAX_TASKS = 64, MAX_RULES = 128, RESOURCES = 8, FIELDS = 4 + RESOURCES, MAX_PERIOD = 1000000, MAX_WEIGHT = 1000, MAX_DIGITS = 7 };

struct task { uint64_t execution, period, deadline, jitter, sections[RESOURCES]; };
struct rule { uint64_t higher, lower, weight; };

struct task_set {
    struct task tasks[MAX_TASKS];
    struct rule rules[MAX_RULES];
    size_t ntasks, nrules;
    bool shares; /* some task has a section */
};

/* The task at each level, highest first, and its response there. */
struct order {
    size_t task[MAX_TASKS];
    uint64_t response[MAX_TASKS];
};

/* A text and how far it is read. */
struct reader {
    const uint8_t *text;
    size_t len, at;
};

struct listing {
    uint8_t bytes[ORDERS_LISTING_MAX];
    size_t len;
};

/* ---- reading ---- */

/* Steps over this byte, if it comes next. */
static bool take(struct reader *r, uint8_t byte)
{
    bool here = r->at < r->len && r->text[r->at] == byte;
    r->at += here;
    return here;
}

/* Reads a number: 1 to 7 digits, and none but 0 itself begins with 0. */
static bool take_number(struct reader *r, uint64_t *number)
{
    size_t from = r->at;
    *number = 0;
    while (r->at < r->len && r->text[r->at] >= '0' && r->text[r->at] <= '9' && r->at - from < MAX_DIGITS)
        *number = *number * 10 + (r->text[r->at++] - '0');
    size_t digits = r->at - from;
    return digits == 1 || (digits > 1 && r->text[from] != '0');
}

/* Reads the rest of a line: so many numbers, each after a tab, and the line feed. */
static bool take_numbers(struct reader *r, uint64_t *numbers, size_t count)
{
    for (size_t k = 0; k < count; k++)
        if (!take(r, '\t') || !take_number(r, &numbers[k]))
            return false;
    return take(r, '\n');
}

/* Adds a task; gives the refusal's number, or 0. */
static uint64_t add_task(struct task_set *s, struct task t)
{
    if (t.period < 1 || t.period > MAX_PERIOD)
        return 1;
    if (t.execution < 1 || t.execution > t.period)
        return 2;
    if (t.deadline < 1 || t.deadline > t.period)
        return 3;
    if (t.jitter >= t.period)
        return 4;
    for (size_t k = 0; k < RESOURCES; k++)
        if (t.sections[k] > t.execution)
            return 5;
    if (s->ntasks == MAX_TASKS)
        return 10;
    for (size_t k = 0; k < RESOURCES; k++)
        s->shares |= t.sections[k] > 0;
    s->tasks[s->ntasks++] = t;
    return 0;
}

/* Adds a rule; gives the refusal's number, or 0. */
static uint64_t add_rule(struct task_set *s, struct rule r)
{
    if (r.higher == r.lower)
        return 6;
    if (r.higher >= s->ntasks || r.lower >= s->ntasks)
        return 11;
    if (s->nrules == MAX_RULES)
        return 12;
    if (r.weight < 1 || r.weight > MAX_WEIGHT)
        return 15;
    s->rules[s->nrules++] = r;
    return 0;
}

/* Reads a line and adds what it says; gives the refusal's number, or 0. */
static uint64_t read_line(struct task_set *s, struct reader *r)
{
    uint64_t n[FIELDS];
    if (take(r, 't')) {
        if (!take_numbers(r, n, FIELDS))
            return 7;
        struct task t = { n[0], n[1], n[2], n[3], { 0 } };
        memcpy(t.sections, n + 4, sizeof t.sections);
        return add_task(s, t);
    }
    if (take(r, 'r'))
        return take_numbers(r, n, 3) ? add_rule(s, (struct rule){ n[0], n[1], n[2] }) : 7;
    return 7;
}

/* Reads a text into an empty task set; gives the first refusal's number, or 0. */
static uint64_t read_text(struct task_set *s, const uint8_t *text, size_t len)
{
    struct reader r = { text, len, 0 };
    uint64_t refusal = len > ORDERS_TEXT_MAX ? 8 : 0;
    s->ntasks = s->nrules = 0;
    s->shares = false;
    while (refusal == 0 && r.at < len)
        refusal = read_line(s, &r);
    return refusal;
}

/* ---- solving ---- */

/* The blocking of any task left, with the others that are left above it: the longest section of a task with a level, on a
 * resource that some task left uses. */
static uint64_t level_blocking(const struct task_set *s, const bool *left)
{
    uint64_t longest = 0;
    for (size_t k = 0; k < RESOURCES && s->shares; k++) {
        bool used = false;
        uint64_t held = 0;
        for (size_t j = 0; j < s->ntasks; j++)
            if (left[j])
                used |= s->tasks[j].sections[k] > 0;
            else if (held < s->tasks[j].sections[k])
                held = s->tasks[j].sections[k];
        if (used && longest < held)
            longest = held;
    }
    return longest;
}

/* What task i needs within a window of w, with this blocking and the other tasks that are left above it. */
static uint64_t demand(const struct task_set *s, const bool *left, uint64_t blocking, size_t i, uint64_t w)
{
    uint64_t sum = blocking + s->tasks[i].execution;
    for (size_t j = 0; j < s->ntasks; j++) {
        const struct task *t = &s->tasks[j];
        if (left[j] && j != i)
            /* Both numbers have at most 32 bits, and a division of such takes less time. */
            sum += (uint64_t)((uint32_t)(w + t->jitter + t->period - 1) / (uint32_t)t->period) * t->execution;
    }
    return sum;
}

/* The response of task i with the other tasks that are left above it; 0 when none lies within the limit. */
static uint64_t response(const struct task_set *s, const bool *left, uint64_t blocking, size_t i, uint64_t limit)
{
    const struct task *own = &s->tasks[i];
    uint64_t w = blocking + own->execution;
    while (own->jitter + w <= limit) {
        uint64_t needed = demand(s, left, blocking, i, w);
        if (needed == w)
            return own->jitter + w;
        w = needed;
    }
    return 0;
}

/* Marks the tasks that an active rule puts above a task that is left. */
static void mark_held(const struct task_set *s, const bool *active, const bool *left, bool *held)
{
    memset(held, 0, MAX_TASKS);
    for (size_t k = 0; k < s->nrules; k++)
        if (active[k] && left[s->rules[k].lower])
            held[s->rules[k].higher] = true;
}

/* Gives a level to the last task that may take it; false when none may. */
static bool fill_level(const struct task_set *s, const bool *active, bool *left, size_t level, struct order *order)
{
    bool held[MAX_TASKS];
    mark_held(s, active, left, held);
    uint64_t blocking = level_blocking(s, left);
    for (size_t i = s->ntasks; i-- > 0;) {
        order->task[level] = i;
        order->response[level] = left[i] && !held[i] ? response(s, left, blocking, i, s->tasks[i].deadline) : 0;
        if (order->response[level] > 0) {
            left[i] = false;
            return true;
        }
    }
    return false;
}

/* Fills the levels from the lowest upward; false when no order is valid, and `left` then marks the tasks without a level. */
static bool find_order(const struct task_set *s, const bool *active, bool *left, struct order *order)
{
    memset(left, 1, MAX_TASKS);
    for (size_t level = s->ntasks; level-- > 0;)
        if (!fill_level(s, active, left, level, order))
            return false;
    return true;
}

/* Takes each rule out in turn, and puts it back when an order is found without it. */
static void find_core(const struct task_set *s, bool *active)
{
    struct order order;
    bool left[MAX_TASKS];
    for (size_t k = 0; k < s->nrules; k++) {
        active[k] = false;
        active[k] = find_order(s, active, left, &order);
    }
}

/* ---- listing ---- */

/* Puts a number and the byte that ends its field. */
static void put_number(struct listing *l, uint64_t number, uint8_t end)
{
    uint8_t digits[20];
    size_t count = 0;
    do
        digits[count++] = (uint8_t)('0' + number % 10);
    while ((number /= 10) > 0);
    while (count > 0)
        l->bytes[l->len++] = digits[--count];
    l->bytes[l->len++] = end;
}

static void put_row(struct listing *l, uint64_t a, uint64_t b, uint64_t c)
{
    put_number(l, a, '\t');
    put_number(l, b, '\t');
    put_number(l, c, '\n');
}

static void put_word(struct listing *l, const char *word)
{
    while (*word)
        l->bytes[l->len++] = (uint8_t)*word++;
}

/* Puts the word of a head line, and the count. */
static void put_head(struct listing *l, const char *word, size_t count)
{
    put_word(l, word);
    put_number(l, count, '\n');
}

static void list_order(const struct task_set *s, const struct order *order, struct listing *l)
{
    put_head(l, "order\t", s->ntasks);
    for (size_t k = 0; k < s->ntasks; k++)
        put_row(l, k, order->task[k], order->response[k]);
}

/* The tasks that have no level when no rule is active, with their responses up to their periods. */
static void list_late(const struct task_set *s, const bool *no_rule, struct listing *l)
{
    struct order order;
    bool left[MAX_TASKS];
    find_order(s, no_rule, left, &order);
    uint64_t blocking = level_blocking(s, left);
    for (size_t i = 0; i < s->ntasks; i++)
        if (left[i]) {
            put_word(l, "late\t");
            put_number(l, i, '\t');
            put_number(l, response(s, left, blocking, i, s->tasks[i].period), '\n');
        }
}

static void list_core(const struct task_set *s, const bool *core, struct listing *l)
{
    size_t count = 0;
    for (size_t k = 0; k < s->nrules; k++)
        count += core[k];
    put_head(l, "core\t", count);
    for (size_t k = 0; k < s->nrules; k++)
        if (core[k])
            put_row(l, k, s->rules[k].higher, s->rules[k].lower);
    if (count == 0)
        list_late(s, core, l);
}

/* Solves a task set and lists the verdict. */
static void list_verdict(const struct task_set *s, struct listing *l)
{
    struct order order;
    bool active[MAX_RULES], left[MAX_TASKS];
    memset(active, 1, sizeof active);
    if (find_order(s, active, left, &order)) {
        list_order(s, &order, l);
        return;
    }
    find_core(s, active);
    list_core(s, active, l);
}

/* Does what orders_solve does. */
uint64_t plain_solve(const uint8_t *text, size_t text_len, uint8_t *out, size_t out_len)
{
    struct task_set set;
    struct listing listing;
    uint64_t refusal = read_text(&set, text, text_len);
    if (refusal != 0)
        return refusal;
    if (set.ntasks == 0)
        return 13;
    listing.len = 0;
    list_verdict(&set, &listing);
    if (out_len < listing.len)
        return 9;
    memcpy(out, listing.bytes, listing.len);
    return ORDERS_LISTED + listing.len;
}
