/*
 * bench.c: times orders_solve beside plain_solve on task sets of several kinds,
 * and how long a task may run, which rules to give up and every core beside
 * trials, and prints the tables in Markdown. With the word `check` it only
 * compares.
 *
 * A set is timed only after both calls gave the same number and left the same
 * bytes. The calls take turns in batches, and the least time of a call counts.
 * It is the processor time of this process, since other programs may run
 * beside it.
 *
 * The program `queries` is asked for the calls which the archive lacks; its
 * processor time counts, less what it takes to read the same texts. An answer
 * is held against what orders_solve says of the set with that execution time
 * and with the next one, or of the set with fewer rules.
 */
#define _DEFAULT_SOURCE
#include <fcntl.h>
#include <stdio.h>
#include <stdlib.h>
#include <string.h>
#include <sys/resource.h>
#include <sys/wait.h>
#include <time.h>
#include <unistd.h>
#include "orders.h"

uint64_t plain_solve(const uint8_t *text, size_t text_len, uint8_t *out, size_t out_len);

enum { FULL = 64, RULES = 128, RESOURCES = 8, SECOND = 1000000, BATCHES = 25 };

/* A batch lasts at least this long, and a solver gets about this long for a set, in seconds. */
static const double BATCH = 0.002, BUDGET = 0.6;

/* A text, with room for a zero behind it. */
struct text {
    uint8_t bytes[ORDERS_TEXT_MAX + 1];
    size_t len;
};

/* A kind of task set, with so many tasks and rules. */
struct family {
    const char *name;
    void (*make)(struct text *t, unsigned tasks, unsigned rules);
    unsigned tasks, rules;
};

typedef uint64_t solver(const uint8_t *text, size_t text_len, uint8_t *out, size_t out_len);

/* ---- lines of a text ---- */

/* A task with a section of this length on each of two resources. */
static void sharing_task(struct text *t, unsigned execution, unsigned period, unsigned deadline, unsigned jitter,
                         unsigned section, unsigned one, unsigned other)
{
    t->len += (size_t)sprintf((char *)t->bytes + t->len, "t\t%u\t%u\t%u\t%u", execution, period, deadline, jitter);
    for (unsigned k = 0; k < RESOURCES; k++)
        t->len += (size_t)sprintf((char *)t->bytes + t->len, "\t%u", k == one || k == other ? section : 0);
    t->bytes[t->len++] = '\n';
}

/* A task without sections. */
static void task(struct text *t, unsigned execution, unsigned period, unsigned deadline, unsigned jitter)
{
    sharing_task(t, execution, period, deadline, jitter, 0, 0, 0);
}

static void weighed_rule(struct text *t, unsigned higher, unsigned lower, unsigned weight)
{
    t->len += (size_t)sprintf((char *)t->bytes + t->len, "r\t%u\t%u\t%u\n", higher, lower, weight);
}

/* A rule of weight 1. */
static void rule(struct text *t, unsigned higher, unsigned lower)
{
    weighed_rule(t, higher, lower, 1);
}

/* Rules along a chain of n tasks: each above the next, then each above the next but one, and so on. */
static void chain(struct text *t, unsigned n, unsigned count, int falling)
{
    for (unsigned step = 1; step < n; step++)
        for (unsigned i = 0; i + step < n && count > 0; i++, count--)
            rule(t, falling ? i + step : i, falling ? i : i + step);
}

/* Each of n tasks, from a first one on, above the next, and the last above the first; round again until there are enough. */
static void circle(struct text *t, unsigned from, unsigned n, unsigned count)
{
    for (unsigned k = 0; k < count; k++)
        rule(t, from + k % n, from + (k + 1) % n);
}

/* The period of task i of n, from 5 ms to about 1 s: of 64, each is 8.7 % longer than the one before. */
static unsigned period_of(unsigned i, unsigned n)
{
    unsigned period = 5000;
    for (unsigned k = 0; k < i * FULL / n; k++)
        period = period * 1087 / 1000;
    return period;
}

/* Task i of n with a load of 0.66 together: every third has jitter. Its sections have one part in `parts` of its C; 0 for none. */
static void usual_task(struct text *t, unsigned i, unsigned n, unsigned parts)
{
    unsigned period = period_of(i, n), execution = period * (7 + i % 7) / (15 * n);
    sharing_task(t, execution, period, period, i % 3 == 0 ? period / 40 : 0, parts ? execution / parts : 0, i % RESOURCES,
                 i / RESOURCES % RESOURCES);
}

/* n tasks that meet their deadlines in any order. */
static void loose_tasks(struct text *t, unsigned n)
{
    for (unsigned i = 0; i < n; i++)
        task(t, 5000 + 100 * i, SECOND, SECOND, 0);
}

/* n tasks that need a microsecond in a second. */
static void small_tasks(struct text *t, unsigned n)
{
    for (unsigned i = 0; i < n; i++)
        task(t, 1, SECOND, SECOND, 0);
}

/* ---- families ---- */

/* Typed by rising deadline, rules that can be kept. */
static void rising(struct text *t, unsigned n, unsigned m)
{
    for (unsigned i = 0; i < n; i++)
        usual_task(t, i, n, 0);
    chain(t, n, m, 0);
}

/* Typed by falling deadline, so that each level tries many tasks; rules that can be kept. */
static void falling(struct text *t, unsigned n, unsigned m)
{
    for (unsigned i = n; i-- > 0;)
        usual_task(t, i, n, 0);
    chain(t, n, m, 1);
}

/* Rising, with one more rule that no order can keep: the longest deadline above the shortest. */
static void rising_clash(struct text *t, unsigned n, unsigned m)
{
    rising(t, n, m - 1);
    rule(t, n - 1, 0);
}

/* The same for falling. */
static void falling_clash(struct text *t, unsigned n, unsigned m)
{
    falling(t, n, m - 1);
    rule(t, 0, n - 1);
}

/* Loose tasks with rules along a chain, and one that closes the circle. */
static void closed_chain(struct text *t, unsigned n, unsigned m)
{
    loose_tasks(t, n);
    chain(t, n, m - 1, 0);
    rule(t, n - 1, 0);
}

/* Loose tasks with rules in a circle. */
static void ring(struct text *t, unsigned n, unsigned m)
{
    loose_tasks(t, n);
    circle(t, 0, n, m);
}

/* Rising, with sections on all eight resources. */
static void sharing(struct text *t, unsigned n, unsigned m)
{
    for (unsigned i = 0; i < n; i++)
        usual_task(t, i, n, 8);
    chain(t, n, m, 0);
}

/* The same with one more rule that no order can keep. */
static void sharing_clash(struct text *t, unsigned n, unsigned m)
{
    sharing(t, n, m - 1);
    rule(t, n - 1, 0);
}

/* Loose tasks with sections on all eight resources, and rules in a circle. */
static void sharing_ring(struct text *t, unsigned n, unsigned m)
{
    for (unsigned i = 0; i < n; i++)
        sharing_task(t, 5000 + 100 * i, SECOND, SECOND, 0, 100 * i + 1, i % RESOURCES, i / RESOURCES % RESOURCES);
    circle(t, 0, n, m);
}

/* Rising, with a task in the middle that runs longer than its deadline: late at every level. */
static void late_task(struct text *t, unsigned n, unsigned m)
{
    for (unsigned i = 0; i < n; i++)
        if (i == n / 2)
            task(t, 2, period_of(i, n), 1, 0);
        else
            usual_task(t, i, n, 0);
    chain(t, n, m, 0);
}

/* A task that takes the whole processor, before small ones. */
static void whole_processor(struct text *t, unsigned n, unsigned m)
{
    task(t, 1000, 1000, 1000, 0);
    small_tasks(t, n - 1);
    chain(t, n, m, 0);
}

/* Five tasks that leave 1 part in 3,263,442 of the processor, before small ones. */
static void load_near_one(struct text *t, unsigned n, unsigned m)
{
    static const unsigned periods[] = { 2, 3, 7, 43, 1807 };
    for (unsigned i = 0; i < 5; i++)
        task(t, 1, periods[i], periods[i], 0);
    small_tasks(t, n - 5);
    chain(t, n, m, 0);
}

/*
 * Six tasks, found by a search, that leave 1 part in 3,000 of the processor in such a pattern that a response takes a
 * thousand rounds, with leaps or without.
 */
static const unsigned nearly[6][2] = { { 83, 334 }, { 251, 1169 }, { 1185, 2339 }, { 68, 2343 }, { 2, 4678 }, { 4, 10659 } };

static void nearly_full(struct text *t)
{
    for (unsigned i = 0; i < 6; i++)
        task(t, nearly[i][0], nearly[i][1], nearly[i][1], 0);
}

/* The response of a task under those six, for which it and the others above it need this much together. */
static unsigned under_six(unsigned needed)
{
    for (unsigned w = needed;;) {
        unsigned sum = needed;
        for (unsigned i = 0; i < 6; i++)
            sum += (w + nearly[i][1] - 1) / nearly[i][1] * nearly[i][0];
        if (sum == w)
            return w;
        w = sum;
    }
}

/*
 * Hostile. Below those six, small tasks that stand in circles of rules, if there are rules; and small tasks of which each is
 * late, which takes up to a thousand rounds to see, until its own level is reached. The last one typed may only stand
 * highest, so each level tries them all.
 */
static void hostile(struct text *t, unsigned n, unsigned m)
{
    unsigned circled = m > 0 ? 33 : 0;
    nearly_full(t);
    small_tasks(t, circled);
    for (unsigned i = 6 + circled; i < n; i++)
        task(t, 1, SECOND, under_six(n - i), 0);
    circle(t, 6, 33, m);
}

/* The same six, and tasks that are late at once; how late takes over a thousand rounds each to see. */
static void hostile_late(struct text *t, unsigned n, unsigned m)
{
    (void)m;
    nearly_full(t);
    for (unsigned i = 6; i < n; i++)
        task(t, 1, SECOND, 1, 0);
}

/* Loose tasks with rules in circles of so many. */
static void circles(struct text *t, unsigned n, unsigned size, unsigned m)
{
    loose_tasks(t, n);
    for (unsigned k = 0; k < m; k += size)
        circle(t, k, size, size);
}

static void pairs(struct text *t, unsigned n, unsigned m)
{
    circles(t, n, 2, m);
}

static void threes(struct text *t, unsigned n, unsigned m)
{
    circles(t, n, 3, m);
}

static void one_circle(struct text *t, unsigned n, unsigned m)
{
    circles(t, n, m, m);
}

/* m rules that set as many tasks above the first one, which meets its deadline below any `most` of them, and no more. */
static void at_most(struct text *t, unsigned n, unsigned most, unsigned m)
{
    task(t, 1000, SECOND, 1000 * (1 + most), 0);
    for (unsigned i = 1; i < n; i++)
        task(t, 1000, SECOND, SECOND, 0);
    for (unsigned k = 0; k < m; k++)
        rule(t, 1 + k, 0);
}

static void five(struct text *t, unsigned n, unsigned m)
{
    at_most(t, n, 5, m);
}

static void seven(struct text *t, unsigned n, unsigned m)
{
    at_most(t, n, 7, m);
}

/* The same below those six tasks and small ones, of which each is late until its own level is reached. */
static void hostile_seven(struct text *t, unsigned n, unsigned m)
{
    nearly_full(t);
    task(t, 1, SECOND, under_six(8 + n - 7 - m), 0);
    small_tasks(t, m);
    for (unsigned i = 7 + m; i < n; i++)
        task(t, 1, SECOND, under_six(n - i), 0);
    for (unsigned k = 0; k < m; k++)
        rule(t, 7 + k, 6);
}

static const struct family families[] = {
    { "an order, no rules", rising, FULL, 0 },
    { "an order, 128 rules", rising, FULL, RULES },
    { "one rule of 128 clashes with the deadlines", rising_clash, FULL, RULES },
    { "one rule of 128 closes a circle", closed_chain, FULL, RULES },
    { "a ring of 64 rules", ring, FULL, FULL },
    { "eight resources, an order, no rules", sharing, FULL, 0 },
    { "eight resources, an order, 128 rules", sharing, FULL, RULES },
    { "eight resources, one rule of 128 clashes", sharing_clash, FULL, RULES },
    { "eight resources, a ring of 64 rules", sharing_ring, FULL, FULL },
    { "a task late at every level, 128 rules", late_task, FULL, RULES },
    { "a task takes the whole processor, no rules", whole_processor, FULL, 0 },
    { "a task takes the whole processor, 128 rules", whole_processor, FULL, RULES },
    { "load just under one, 128 rules", load_near_one, FULL, RULES },
    { "falling deadlines, no rules", falling, FULL, 0 },
    { "falling deadlines, one rule of 128 clashes", falling_clash, FULL, RULES },
    { "hostile, no rules", hostile, FULL, 0 },
    { "hostile, 128 rules in circles", hostile, FULL, RULES },
    { "hostile, every task late", hostile_late, FULL, 0 },
};

static const struct family growth[] = {
    { "8 tasks, no rules", rising, 8, 0 },
    { "16 tasks, no rules", rising, 16, 0 },
    { "32 tasks, no rules", rising, 32, 0 },
    { "64 tasks, no rules", rising, FULL, 0 },
    { "64 tasks, 16 rules", rising, FULL, 16 },
    { "64 tasks, 32 rules", rising, FULL, 32 },
    { "64 tasks, 64 rules", rising, FULL, 64 },
    { "64 tasks, 128 rules", rising, FULL, RULES },
    { "a ring of 8 rules", ring, 8, 8 },
    { "a ring of 16 rules", ring, 16, 16 },
    { "a ring of 32 rules", ring, 32, 32 },
    { "a ring of 64 rules", ring, FULL, FULL },
};

/* ---- measuring ---- */

/* A call that is measured: its least time so far, and all time it got, in seconds. */
struct measured {
    solver *solve;
    double least, spent;
    uint64_t result;
    uint8_t out[ORDERS_LISTING_MAX];
};

static double now(void)
{
    struct timespec t;
    clock_gettime(CLOCK_PROCESS_CPUTIME_ID, &t);
    return (double)t.tv_sec + 1e-9 * (double)t.tv_nsec;
}

/* So many calls in a row. */
static void batch(struct measured *m, const struct text *t, unsigned calls)
{
    double start = now();
    for (unsigned k = 0; k < calls; k++)
        m->result = m->solve(t->bytes, t->len, m->out, sizeof m->out);
    double took = now() - start;
    m->spent += took;
    if (took / calls < m->least)
        m->least = took / calls;
}

/* The first call, in a buffer of known bytes. */
static void first_call(struct measured *m, const struct text *t)
{
    m->least = 1e9;
    m->spent = 0;
    memset(m->out, 0x5a, sizeof m->out);
    batch(m, t, 1);
}

/* One more batch, if the time for it is not used up. */
static void next_batch(struct measured *m, const struct text *t)
{
    if (m->spent < BUDGET)
        batch(m, t, m->least < BATCH ? (unsigned)(BATCH / m->least) + 1 : 1);
}

/* Makes the text, and sees that both calls answer it alike, with a listing. */
static void compare(const struct family *f, struct text *t, struct measured *a, struct measured *b)
{
    t->len = 0;
    f->make(t, f->tasks, f->rules);
    first_call(a, t);
    first_call(b, t);
    if (a->result != b->result || memcmp(a->out, b->out, sizeof a->out) != 0) {
        fprintf(stderr, "%s: results %llu and %llu, or other bytes\n", f->name,
                (unsigned long long)a->result, (unsigned long long)b->result);
        exit(1);
    }
    if (a->result < ORDERS_LISTED) {
        fprintf(stderr, "%s: refused by %llu\n", f->name, (unsigned long long)a->result);
        exit(1);
    }
}

static void measure(const struct family *f, struct measured *a, struct measured *b)
{
    static struct text t;
    compare(f, &t, a, b);
    for (unsigned k = 0; k < BATCHES; k++) {
        next_batch(a, &t);
        next_batch(b, &t);
    }
}

static struct measured ours = { .solve = orders_solve }, plain = { .solve = plain_solve };

/* ---- tables ---- */

/* A number with two digits that count, and more where it is above 1. */
static void print_ratio(double x)
{
    int places = x >= 10 ? 1 : 2;
    for (double y = x; y > 0 && y < 0.1; y *= 10)
        places++;
    printf("%.*f", places, x);
}

/* A listing's verdict in words, from its head line. */
static void print_verdict(const uint8_t *listing)
{
    unsigned rules;
    if (sscanf((const char *)listing, "core\t%u", &rules) == 1)
        printf("core of %u", rules);
    else
        printf("order");
}

/* A table, and what the first set in it took. `unit` is the time that the last column counts in; 0 for the first set's. */
static double print_table(const char *title, const struct family *f, size_t count, double unit)
{
    printf("\n| %s | verdict | ours, µs | plain, µs | ours / plain | ours / our 64-task order |\n", title);
    printf("|---|---|---:|---:|---:|---:|\n");
    for (size_t k = 0; k < count; k++) {
        measure(&f[k], &ours, &plain);
        if (unit == 0)
            unit = ours.least;
        printf("| %s | ", f[k].name);
        print_verdict(ours.out);
        printf(" | %.1f | %.1f | ", 1e6 * ours.least, 1e6 * plain.least);
        print_ratio(ours.least / plain.least);
        printf(" | ");
        print_ratio(ours.least / unit);
        printf(" |\n");
        fflush(stdout);
    }
    return unit;
}

/* ---- questions ---- */

/* So many runs are made of the program, and in each so many cases are asked: trials, or how long a task may run. */
enum { RUNS = 5, TRIALS = 200, LENGTHS = 10, MOST_CASES = 4096 };

/* Where cases are counted out, a run takes at least so long, in seconds; and after so long no more runs are made. */
static const double ENOUGH = 0.015, LONG = 3;

static const char *const program = "crates/queries/out/queries", *const asking = "target/bench.in", *const answers = "target/bench.out";

static double of_children(void)
{
    struct rusage r;
    getrusage(RUSAGE_CHILDREN, &r);
    return (double)(r.ru_utime.tv_sec + r.ru_stime.tv_sec) + 1e-6 * (double)(r.ru_utime.tv_usec + r.ru_stime.tv_usec);
}

static void need(int holds, const char *what)
{
    if (holds)
        return;
    fprintf(stderr, "bench: can't %s\n", what);
    exit(1);
}

/* Writes a case behind the others. */
static void write_case(FILE *f, const char *question, const struct text *t)
{
    fprintf(f, "%s%s\n", ftell(f) > 0 ? "\f" : "", question);
    fwrite(t->bytes, 1, t->len, f);
}

/* The time of a run of the program on the cases that are written. */
static double run_program(void)
{
    double before = of_children();
    pid_t child = fork();
    need(child >= 0, "start the program");
    if (child == 0) {
        if (dup2(open(asking, O_RDONLY), 0) == 0 && dup2(open(answers, O_WRONLY | O_CREAT | O_TRUNC, 0600), 1) == 1)
            execl(program, program, (char *)0);
        _exit(2);
    }
    int status;
    need(waitpid(child, &status, 0) == child && status == 0, "run the program");
    return of_children() - before;
}

/* The time of a run in which a question is asked so often, and the first line that is answered. */
static double ask(const struct text *t, const char *question, unsigned cases, char *answer, size_t room)
{
    FILE *f = fopen(asking, "wb");
    need(f != NULL, "write the cases");
    for (unsigned k = 0; k < cases; k++)
        write_case(f, question, t);
    need(fclose(f) == 0, "write the cases");
    double took = run_program();
    f = fopen(answers, "rb");
    need(f != NULL && fgets(answer, (int)room, f) != NULL, "read the answers");
    fclose(f);
    return took;
}

static double lesser(double a, double b)
{
    return a < b ? a : b;
}

/* What one call takes: the least time of a run, less that of reading the texts alone. The two take turns. */
static double asked(const struct text *t, const char *question, unsigned cases, char *answer, size_t room)
{
    double reading = 1e9, least = 1e9, spent = 0;
    for (unsigned k = 0; k < RUNS && spent < LONG; k++) {
        reading = lesser(reading, ask(t, "", cases, answer, room));
        double took = ask(t, question, cases, answer, room);
        least = lesser(least, took);
        spent += took;
    }
    return (least - reading) / cases;
}

/* The row at a place: C, T, D, J and the sections, and where its line begins. */
enum { ROW = 4 + RESOURCES };

static const char *row_at(const struct text *t, unsigned place, unsigned *row)
{
    const char *line = (const char *)t->bytes;
    while (place-- > 0)
        line = strchr(line, '\n') + 1;
    const char *at = line + 1;
    for (unsigned k = 0; k < ROW; k++)
        row[k] = (unsigned)strtoul(at, (char **)&at, 10);
    return line;
}

/* Does the set have an order with this execution time in a row? By the C call. */
static int has_order(const struct text *t, unsigned place, unsigned figure)
{
    static struct text other;
    static uint8_t out[ORDERS_LISTING_MAX];
    unsigned row[ROW];
    const char *line = row_at(t, place, row), *rest = strchr(line + 2, '\t');
    size_t front = (size_t)(line - (const char *)t->bytes);
    memcpy(other.bytes, t->bytes, front);
    other.len = front + (size_t)sprintf((char *)other.bytes + front, "t\t%u", figure);
    size_t back = t->len - (size_t)(rest - (const char *)t->bytes);
    memcpy(other.bytes + other.len, rest, back);
    other.len += back;
    need(orders_solve(other.bytes, other.len, out, sizeof out) >= ORDERS_LISTED, "list a changed set");
    return memcmp(out, "order", 5) == 0;
}

/* Sees that an answer is the last execution time with which there is an order, or that there is none with the least. */
static void agree(const struct family *f, const struct text *t, unsigned place, const char *answer)
{
    unsigned row[ROW], least = 1, told, figure;
    row_at(t, place, row);
    for (unsigned k = 4; k < ROW; k++)
        least = row[k] > least ? row[k] : least;
    int right = 0;
    if (strcmp(answer, "none\n") == 0)
        right = !has_order(t, place, least);
    else if (sscanf(answer, "longest\t%u\t%u\n", &told, &figure) == 2)
        right = told == place && figure >= least && figure <= row[1] && has_order(t, place, figure)
                && (figure == row[1] || !has_order(t, place, figure + 1));
    if (right)
        return;
    fprintf(stderr, "%s: task %u: a wrong answer, %s", f->name, place, answer);
    exit(1);
}

static void make(const struct family *f, struct text *t)
{
    t->len = 0;
    f->make(t, f->tasks, f->rules);
    t->bytes[t->len] = 0;
}

/*
 * How long each task may run, beside a trial with every rule active, where that
 * finds an order. Where it finds none, gives the dearest place's time.
 */
static double print_longest(const struct family *f)
{
    static struct text t;
    char all[8 + RULES] = "trial\t", question[32], answer[64];
    double trial = 1e9, dearest = 0, sum = 0;
    int found = 0;
    make(f, &t);
    memset(all + strlen(all), '1', RULES);
    for (unsigned k = 0; k < f->tasks; k++) {
        /* Now and then, since the processor's pace may vary. */
        if (k % 16 == 0) {
            double took = asked(&t, all, TRIALS, answer, sizeof answer);
            trial = took < trial ? took : trial;
            found = strcmp(answer, "yes\n") == 0;
            need(found || strcmp(answer, "no\n") == 0, "try the set");
        }
        sprintf(question, "longest\t%u", k);
        double took = asked(&t, question, LENGTHS, answer, sizeof answer);
        agree(f, &t, k, answer);
        sum += took;
        dearest = took > dearest ? took : dearest;
    }
    if (!found)
        return dearest;
    printf("| %s | %.1f | %.0f | %.0f | ", f->name, 1e6 * trial, 1e6 * sum / f->tasks, 1e6 * dearest);
    print_ratio(sum / f->tasks / (20 * trial));
    printf(" | ");
    print_ratio(dearest / (20 * trial));
    printf(" |\n");
    fflush(stdout);
    return 0;
}

static void print_lengths(const struct family *f, size_t count)
{
    double others = 0;
    printf("\n| 64 tasks | a trial, µs | the call, mean of all places, µs | the dearest place, µs | the call / 20 trials | the dearest / 20 trials |\n");
    printf("|---|---:|---:|---:|---:|---:|\n");
    for (size_t k = 0; k < count; k++) {
        double dearest = print_longest(&f[k]);
        others = dearest > others ? dearest : others;
    }
    printf("\nOn the sets without an order the dearest place takes %.0f µs.\n", 1e6 * others);
}

/* ---- drawn sets ---- */

/* The greatest weight and budget; rules of a short list, and how many sets of them there are; and how many such lists are drawn. */
enum { MAX_WEIGHT = 1000, MAX_BUDGET = 10000, SHORT = 12, SUBSETS = 4096, SHORT_DRAWN = 20 };

/* The rules of a set: for each the higher task, the lower one and the weight. */
static unsigned rules_of(const struct text *t, unsigned (*rules)[3])
{
    unsigned n = 0;
    for (const char *line = (const char *)t->bytes; *line; line = strchr(line, '\n') + 1)
        n += sscanf(line, "r\t%u\t%u\t%u", &rules[n][0], &rules[n][1], &rules[n][2]) == 3;
    return n;
}

/* The text of a set with the marked ones of its rules. */
static void with_rules(const struct text *t, const char *marks, struct text *other)
{
    const char *end = (const char *)t->bytes + t->len;
    unsigned place = 0;
    other->len = 0;
    for (const char *line = (const char *)t->bytes, *next; line < end; line = next) {
        next = (const char *)memchr(line, '\n', (size_t)(end - line)) + 1;
        if (*line == 't' || marks[place++]) {
            memcpy(other->bytes + other->len, line, (size_t)(next - line));
            other->len += (size_t)(next - line);
        }
    }
}

/* Does some order keep the marked rules? By the C call. */
static int ordered(const struct text *t, const char *marks)
{
    static struct text other;
    static uint8_t out[ORDERS_LISTING_MAX];
    with_rules(t, marks, &other);
    need(orders_solve(other.bytes, other.len, out, sizeof out) >= ORDERS_LISTED, "list a set with fewer rules");
    return memcmp(out, "order", 5) == 0;
}

struct range { unsigned low, high; };

/*
 * A kind of drawn sets: how many, with so many tasks and rules. Of a hundred rules so many stand against the deadlines, and so
 * many circles are drawn; so many rules go when each in turn is kept if it can be.
 */
struct kind {
    const char *name;
    unsigned sets;
    struct range tasks, rules, against, circles, dropped;
};

/* A set that is being drawn: its text, how many rules it has and gets, its tasks by rising deadline, and which rules it has. */
struct drawing {
    struct text text;
    unsigned tasks, rules, wanted, deadline[FULL], rising[FULL];
    char has[FULL][FULL];
};

/* Where the generator stands, which gives everyone the same. */
static uint64_t state;

/* A number from the one to the other. */
static unsigned draw(unsigned low, unsigned high)
{
    state = state * 6364136223846793005u + 1442695040888963407u;
    return low + (unsigned)((state >> 33) % (high - low + 1));
}

static unsigned draw_in(struct range r)
{
    return draw(r.low, r.high);
}

/* Tasks with a load of 0.5 to 0.95 together, and deadlines from 0.4 of the period on. In every other set some have jitter. */
static void draw_tasks(struct drawing *d)
{
    static const unsigned scales[] = { 1, 10, 100 };
    unsigned parts[FULL], whole = 0, load = draw(50, 95), jittery = 4 * draw(0, 1);
    for (unsigned i = 0; i < d->tasks; i++)
        whole += parts[i] = draw(1, 100) * draw(1, 100);
    for (unsigned i = 0; i < d->tasks; i++) {
        unsigned scale = scales[draw(0, 2)], period = scale * draw(1000, 10000), deadline = period / 100 * draw(40, 100), at = i;
        unsigned execution = 1 + (unsigned)((uint64_t)period * load * parts[i] / (100 * (uint64_t)whole));
        task(&d->text, execution, period, deadline, draw(1, 10) <= jittery ? period / 1000 * draw(0, 100) : 0);
        for (; at > 0 && d->deadline[d->rising[at - 1]] > deadline; at--)
            d->rising[at] = d->rising[at - 1];
        d->rising[at] = i;
        d->deadline[i] = deadline;
    }
}

/* One more rule, unless the set has it. Of those that clash alone, one in ten is taken. */
static void draw_rule(struct drawing *d, unsigned higher, unsigned lower)
{
    char alone[RULES] = "";
    size_t before = d->text.len;
    if (higher == lower || d->has[higher][lower] || d->rules == d->wanted)
        return;
    weighed_rule(&d->text, higher, lower, draw(1, MAX_WEIGHT));
    alone[d->rules] = 1;
    if (draw(1, 10) > 1 && !ordered(&d->text, alone)) {
        d->text.len = before;
        d->text.bytes[before] = 0;
        return;
    }
    d->has[higher][lower] = 1;
    d->rules++;
}

/* Rules in a circle of tasks with deadlines that lie near. */
static void draw_circle(struct drawing *d)
{
    unsigned n = draw(2, 5), from = draw(0, d->tasks - 8), in[5];
    for (unsigned k = 0; k < n; k++)
        in[k] = d->rising[from + draw(0, 7)];
    for (unsigned k = 0; k < n; k++)
        draw_rule(d, in[k], in[(k + 1) % n]);
}

/* Rules until there are enough. Those against the deadlines are of tasks whose deadlines are not too far from each other. */
static void draw_rules(struct drawing *d, const struct kind *kind)
{
    unsigned against = draw_in(kind->against), round = draw_in(kind->circles), reach = draw(3, 50);
    for (unsigned tries = 0; d->rules < d->wanted && tries < 20 * RULES; tries++) {
        unsigned a = draw(0, d->tasks - 1), b = draw(0, d->tasks - 1);
        unsigned shorter = d->rising[a < b ? a : b], longer = d->rising[a < b ? b : a];
        if (draw(1, 300) <= round)
            draw_circle(d);
        else if (draw(1, 100) > against)
            draw_rule(d, shorter, longer);
        else if (d->deadline[longer] / reach <= d->deadline[shorter])
            draw_rule(d, longer, shorter);
    }
}

/* How many rules go when each in turn is kept if it can be. */
static unsigned rules_to_drop(const struct drawing *d)
{
    char kept[RULES] = "";
    unsigned dropped = 0;
    for (unsigned k = 0; k < d->rules; k++) {
        kept[k] = 1;
        kept[k] = (char)ordered(&d->text, kept);
        dropped += !kept[k];
    }
    return dropped;
}

/* Draws once; is it a set of the kind? Its rules then go to `t`, each with a weight up to 1,000. */
static int drawn(const struct kind *kind, struct text *t)
{
    static struct drawing d;
    static const char none[RULES];
    memset(&d, 0, sizeof d);
    d.tasks = draw_in(kind->tasks);
    d.wanted = draw_in(kind->rules);
    if (d.tasks * (d.tasks - 1) < 4 * d.wanted)
        return 0;
    draw_tasks(&d);
    if (!ordered(&d.text, none))
        return 0;
    draw_rules(&d, kind);
    unsigned dropped = rules_to_drop(&d);
    *t = d.text;
    return d.rules == d.wanted && kind->dropped.low <= dropped && dropped <= kind->dropped.high;
}

/* The same set with weights up to `most`. */
static void weigh(const struct text *t, unsigned most, struct text *other)
{
    unsigned rules[RULES][3], n = rules_of(t, rules);
    char none[RULES] = "";
    with_rules(t, none, other);
    for (unsigned k = 0; k < n; k++)
        weighed_rule(other, rules[k][0], rules[k][1], (rules[k][2] - 1) * most / MAX_WEIGHT + 1);
    other->bytes[other->len] = 0;
}

/* ---- rules to give up ---- */

/* What is told: the weight, the floor and the count, the rules that are kept, and by each rule the number of its core, from 1 on. */
struct relaxed {
    unsigned weight, floor, count, cores, core[RULES];
    char kept[RULES];
};

/* Takes a line of an answer, of which so many rules of a core are still to come; does it stand in its place? */
static int take_line(const char *line, unsigned (*rules)[3], unsigned n, struct relaxed *r, unsigned *left)
{
    unsigned k, higher, lower, weight;
    if (*left == 0 && sscanf(line, "core\t%u\n", left) == 1) {
        r->cores++;
        return *left > 0;
    }
    int goes = sscanf(line, "rule\t%u\t%u\t%u\t%u\n", &k, &higher, &lower, &weight) == 4;
    if (!goes && sscanf(line, "%u\t%u\t%u\n", &k, &higher, &lower) != 3)
        return 0;
    if (k >= n || higher != rules[k][0] || lower != rules[k][1])
        return 0;
    if (goes) {
        int kept = r->kept[k];
        r->kept[k] = 0;
        return kept && r->cores == 0 && weight == rules[k][2];
    }
    int apart = r->core[k] == 0;
    r->core[k] = r->cores;
    return apart && (*left)-- > 0;
}

/* Reads the first answer of the last run; is it of the form, with rules of the set and no rule in two cores? */
static int read_relaxed(unsigned (*rules)[3], unsigned n, struct relaxed *r)
{
    char line[64];
    unsigned left = 0;
    memset(r->kept, 1, n);
    FILE *f = fopen(answers, "rb");
    need(f != NULL && fgets(line, sizeof line, f) != NULL, "read the answers");
    int right = sscanf(line, "drop\t%u\t%u\t%u\n", &r->weight, &r->floor, &r->count) == 3;
    while (right && fgets(line, sizeof line, f) != NULL && strncmp(line, "drop", 4) != 0)
        right = take_line(line, rules, n, r, &left);
    fclose(f);
    return right && left == 0;
}

/* Is it a core: no order keeps it, and without any one of its rules some order does? */
static int is_core(const struct text *t, char *core, unsigned n)
{
    int right = !ordered(t, core);
    for (unsigned k = 0; k < n; k++)
        if (core[k]) {
            core[k] = 0;
            right &= ordered(t, core);
            core[k] = 1;
        }
    return right;
}

/* Are the listed ones cores, with least weights that come to the floor at most? */
static int cores_hold(const struct text *t, unsigned (*rules)[3], unsigned n, const struct relaxed *r)
{
    char core[RULES] = "";
    unsigned sum = 0;
    int right = 1;
    for (unsigned number = 1; number <= r->cores; number++) {
        unsigned least = MAX_WEIGHT;
        for (unsigned k = 0; k < n; k++) {
            core[k] = r->core[k] == number;
            if (core[k] && rules[k][2] < least)
                least = rules[k][2];
        }
        sum += least;
        right &= is_core(t, core, n);
    }
    return right && sum <= r->floor;
}

/* Do all cores of a short list meet the listed ones? */
static int cores_met(const struct text *t, unsigned n, const struct relaxed *r)
{
    char others[RULES] = "";
    for (unsigned k = 0; k < n; k++)
        others[k] = r->core[k] == 0;
    return ordered(t, others);
}

/* Is an answer right, as far as the C call can tell? */
static int holds(const struct text *t, unsigned (*rules)[3], unsigned n, unsigned budget, const struct relaxed *r)
{
    char kept[RULES];
    unsigned weight = 0, dropped = 0;
    int right = ordered(t, r->kept) && cores_hold(t, rules, n, r);
    memcpy(kept, r->kept, sizeof kept);
    for (unsigned k = 0; k < n; k++)
        if (!kept[k]) {
            kept[k] = 1;
            right &= budget <= n || !ordered(t, kept);
            kept[k] = 0;
            weight += rules[k][2];
            dropped++;
        }
    if (budget > 2 * n && dropped > 0)
        right &= r->cores > 0;
    if (n <= SHORT && budget >= SUBSETS)
        right &= r->floor == r->weight && cores_met(t, n, r);
    return right && r->weight == weight && r->floor <= weight && r->count <= budget;
}

/* Asks what can be given up within a budget, and holds the answer against the C call. */
static void give_up(const char *name, const struct text *t, unsigned budget, struct relaxed *r)
{
    unsigned rules[RULES][3], n = rules_of(t, rules);
    char question[16], answer[64], none[RULES] = "";
    memset(r, 0, sizeof *r);
    sprintf(question, "drop\t%u", budget);
    ask(t, question, 1, answer, sizeof answer);
    if (strcmp(answer, "none\t1\n") == 0 ? !ordered(t, none) : read_relaxed(rules, n, r) && holds(t, rules, n, budget, r))
        return;
    fprintf(stderr, "%s: budget %u: a wrong answer, %s", name, budget, answer);
    exit(1);
}

static const struct kind clashing[] = {
    { "13 to 40 rules", 100, { 8, FULL }, { 13, 40 }, { 25, 65 }, { 5, 25 }, { 4, 13 } },
    { "60 to 128 rules", 48, { 16, FULL }, { 60, RULES }, { 8, 43 }, { 2, 12 }, { 5, 18 } },
};

static const struct kind drawn_short = { "12 rules", SHORT_DRAWN, { FULL, FULL }, { SHORT, SHORT }, { 25, 65 }, { 5, 25 }, { 2, 8 } };

/* The weights that a drawn set is given, from 1 to these. */
static const unsigned weights[] = { MAX_WEIGHT, 10, 1 };

/* Short lists. The last one has the most cores, and stands only in their table. */
static const struct family shorts[] = {
    { "an order", rising, FULL, SHORT },
    { "eight resources, an order", sharing, FULL, SHORT },
    { "one rule clashes with the deadlines", rising_clash, FULL, SHORT },
    { "eight resources, one rule clashes", sharing_clash, FULL, SHORT },
    { "one circle of 12", one_circle, FULL, SHORT },
    { "four circles of 3", threes, FULL, SHORT },
    { "six circles of 2", pairs, FULL, SHORT },
    { "any 7 can be kept, but no 8", seven, FULL, SHORT },
    { "hostile, all can be kept", hostile, FULL, SHORT },
    { "hostile, any 7 can be kept, but no 8", hostile_seven, FULL, SHORT },
    { "any 5 can be kept, but no 6", five, FULL, SHORT },
};

/*
 * How many kinds, weights and short lists; how many sets of a kind are checked, and of how many of these, if short, every core;
 * and within which budget, if not short.
 */
enum {
    KINDS = sizeof clashing / sizeof clashing[0],
    WEIGHTS = sizeof weights / sizeof weights[0],
    SHORTS = sizeof shorts / sizeof shorts[0],
    CHECKED = 12,
    CORES_CHECKED = 4,
    SOME_BUDGET = 1000,
};

static unsigned rules_dropped(const struct text *t, const struct relaxed *r)
{
    unsigned rules[RULES][3], n = rules_of(t, rules), dropped = 0;
    for (unsigned k = 0; k < n; k++)
        dropped += !r->kept[k];
    return dropped;
}

/* What sets of a kind come to: sums, and what was most. */
struct tally {
    unsigned sets, closed;
    double dropped, cores, solved, most_solved, took, most_took, ratio, most_ratio;
};

static double greater(double a, double b)
{
    return a > b ? a : b;
}

/* What one call takes, asked so often that a run takes long enough. */
static double call(const struct text *t, const char *question)
{
    char answer[64];
    unsigned cases = 1;
    while (cases < MOST_CASES && ask(t, question, cases, answer, sizeof answer) < ENOUGH)
        cases *= 2;
    return asked(t, question, cases, answer, sizeof answer);
}

static double call_within(const struct text *t, unsigned budget)
{
    char question[16];
    sprintf(question, "drop\t%u", budget);
    return call(t, question);
}

/* A trial with the marked rules. */
static double trial_with(const struct text *t, const char *marks)
{
    char question[8 + RULES] = "trial\t";
    for (unsigned k = 0; k < RULES; k++)
        strcat(question, marks[k] ? "1" : "0");
    return call(t, question);
}

/*
 * What a set adds. The call's time is held against as many trials as it counts.
 * It solves sets with an order and sets without; so a trial takes the mean of
 * one with the rules that are kept and of one with every rule.
 */
static void add_set(const struct kind *kind, const struct text *t, double every, struct tally *y)
{
    struct relaxed r;
    give_up(kind->name, t, MAX_BUDGET, &r);
    double took = call_within(t, MAX_BUDGET), ratio = took / (r.count * (trial_with(t, r.kept) + every) / 2);
    y->sets++;
    y->closed += r.floor == r.weight;
    y->dropped += rules_dropped(t, &r);
    y->cores += r.cores;
    y->solved += r.count;
    y->most_solved = greater(y->most_solved, r.count);
    y->took += took;
    y->most_took = greater(y->most_took, took);
    y->ratio += ratio;
    y->most_ratio = greater(y->most_ratio, ratio);
}

static void print_tally(const struct kind *kind, unsigned most, const struct tally *y)
{
    printf(most > 1 ? "| %s, weights 1 to %u" : "| %s, weights all %u", kind->name, most);
    printf(" | %u of %u | %.1f | %.1f | %.0f | %.0f | %.1f | %.1f | ", y->closed, y->sets, y->dropped / y->sets, y->cores / y->sets,
           y->solved / y->sets, y->most_solved, 1e3 * y->took / y->sets, 1e3 * y->most_took);
    print_ratio(y->ratio / y->sets);
    printf(" | ");
    print_ratio(y->most_ratio);
    printf(" |\n");
    fflush(stdout);
}

static void draw_set(const struct kind *kind, struct text *t)
{
    while (!drawn(kind, t))
        continue;
}

static void print_drops(void)
{
    static struct text t, weighed;
    char every[RULES];
    memset(every, 1, sizeof every);
    printf("\n| drawn sets with clashes | the floor is the weight | rules dropped, mean | cores listed, mean | sets solved, mean | most | "
           "the call, mean, ms | most | the call / its trials, mean | most |\n");
    printf("|---|---:|---:|---:|---:|---:|---:|---:|---:|---:|\n");
    for (unsigned k = 0; k < KINDS; k++) {
        struct tally tallies[WEIGHTS] = { 0 };
        state = 0;
        for (unsigned i = 0; i < clashing[k].sets; i++) {
            draw_set(&clashing[k], &t);
            double trial = trial_with(&t, every);
            for (unsigned w = 0; w < WEIGHTS; w++) {
                weigh(&t, weights[w], &weighed);
                add_set(&clashing[k], &weighed, trial, &tallies[w]);
            }
        }
        for (unsigned w = 0; w < WEIGHTS; w++)
            print_tally(&clashing[k], weights[w], &tallies[w]);
    }
}

/* Asks for a trial of each set of a short list: rule k is in a set where bit k of its number is set. */
static void write_trials(const struct text *t, unsigned n)
{
    FILE *f = fopen(asking, "wb");
    need(f != NULL, "write the cases");
    for (unsigned set = 0; set < 1u << n; set++) {
        char question[8 + SHORT] = "trial\t";
        for (unsigned k = 0; k < n; k++)
            strcat(question, set >> k & 1 ? "1" : "0");
        write_case(f, question, t);
    }
    need(fclose(f) == 0, "write the cases");
}

/* For which sets of a short list an order is found, by the answers. */
static void read_trials(unsigned n, char *found)
{
    char line[16];
    FILE *f = fopen(answers, "rb");
    for (unsigned set = 0; set < 1u << n; set++) {
        need(f != NULL && fgets(line, sizeof line, f) != NULL, "read the answers");
        found[set] = strcmp(line, "yes\n") == 0;
    }
    fclose(f);
}

/* The least weight of what is not in a set that has an order. */
static unsigned least_weight(unsigned (*rules)[3], unsigned n, const char *found)
{
    unsigned least = MAX_WEIGHT * SHORT;
    for (unsigned set = 0; set < 1u << n; set++) {
        unsigned weight = 0;
        for (unsigned k = 0; k < n; k++)
            weight += set >> k & 1 ? 0 : rules[k][2];
        if (found[set] && weight < least)
            least = weight;
    }
    return least;
}

/* ---- every core ---- */

/* The question, with the length of a buffer that is long enough. */
static const char *const every_core = "cores\t924";

/* Is a set of a short list a core, by which sets have an order? */
static int is_core_set(const char *found, unsigned set)
{
    int right = !found[set];
    for (unsigned k = 0; k < SHORT; k++)
        right &= !(set >> k & 1) || found[set - (1u << k)];
    return right;
}

/* The line of a core. */
static void write_core(char *line, unsigned set)
{
    line += sprintf(line, "%u", set);
    for (unsigned k = 0; k < SHORT; k++)
        if (set >> k & 1)
            line += sprintf(line, "\t%u", k);
    strcpy(line, "\n");
}

/* Asks for every core of a short list, and sees that each is listed in its place and nothing else; gives how many there are. */
static unsigned list_cores(const char *name, const struct text *t, unsigned n, const char *found)
{
    char line[64], core[64];
    unsigned told = 0, cores = 0;
    ask(t, every_core, 1, line, sizeof line);
    FILE *f = fopen(answers, "rb");
    need(f != NULL && fgets(line, sizeof line, f) != NULL, "read the answers");
    int right = sscanf(line, "cores\t%u\n", &told) == 1;
    for (unsigned set = 0; set < 1u << n; set++)
        if (is_core_set(found, set)) {
            write_core(core, set);
            right = right && fgets(line, sizeof line, f) != NULL && strcmp(line, core) == 0;
            cores++;
        }
    right = right && told == cores && fgets(line, sizeof line, f) == NULL;
    fclose(f);
    if (right)
        return cores;
    fprintf(stderr, "%s: %u cores, and a wrong answer, %s", name, cores, line);
    exit(1);
}

/* ---- short lists ---- */

/* What is measured of a short list: for each of two calls what it tells and then its time, and the time of the trials. */
enum { DROPPED, DROP_CORES, DROP_TIME, CORES, CORES_TIME, TRIALS_TIME, FIGURES };

/* A call's table: the columns for what it tells, the first figure in them, and its time, which stands behind them. */
struct table {
    const char *told;
    unsigned first, time;
};

static const struct table drop_table = { "rules dropped | cores listed", DROPPED, DROP_TIME }, core_table = { "cores", CORES, CORES_TIME };

/* What a call tells, and three columns more. */
static void print_head(const struct table *of)
{
    printf("\n| 12 rules over 64 tasks | %s | the call, ms | 4,096 trials, ms | the call / 4,096 trials |\n|---", of->told);
    for (unsigned k = of->first; k < of->time + 3; k++)
        printf("|---:");
    printf("|\n");
}

/* A row: a list, or several together. */
static void print_short(const struct table *of, const char *name, const double *figures)
{
    printf("| %s", name);
    for (unsigned k = of->first; k < of->time; k++)
        printf(" | %.4g", figures[k]);
    printf(" | %.1f | %.1f | ", 1e3 * figures[of->time], 1e3 * figures[TRIALS_TIME]);
    print_ratio(figures[of->time] / figures[TRIALS_TIME]);
    printf(" |\n");
    fflush(stdout);
}

/* Asks what to give up of a short list and for every core, and tries each set of its rules. */
static void measure_short(const char *name, const struct text *t, double *figures)
{
    struct relaxed r;
    unsigned rules[RULES][3], n = rules_of(t, rules);
    char answer[64], found[SUBSETS];
    give_up(name, t, MAX_BUDGET, &r);
    figures[DROPPED] = rules_dropped(t, &r);
    figures[DROP_CORES] = r.cores;
    figures[DROP_TIME] = call_within(t, MAX_BUDGET);
    double reading = 1e9, least = 1e9;
    for (unsigned k = 0; k < RUNS && (k == 0 || least < LONG); k++) {
        reading = lesser(reading, ask(t, "", 1u << n, answer, sizeof answer));
        write_trials(t, n);
        least = lesser(least, run_program());
    }
    figures[TRIALS_TIME] = least - reading;
    read_trials(n, found);
    need(least_weight(rules, n, found) == r.weight, "find the weight by trials");
    figures[CORES] = list_cores(name, t, n, found);
    figures[CORES_TIME] = call(t, every_core);
}

/* Drawn ones, the mean and the one with the greatest ratio. */
static void print_drawn_shorts(const struct table *of, double (*draws)[FIGURES])
{
    double mean[FIGURES] = { 0 }, *worst = draws[0];
    for (unsigned i = 0; i < SHORT_DRAWN; i++) {
        for (unsigned k = 0; k < FIGURES; k++)
            mean[k] += draws[i][k] / SHORT_DRAWN;
        if (draws[i][of->time] / draws[i][TRIALS_TIME] > worst[of->time] / worst[TRIALS_TIME])
            worst = draws[i];
    }
    print_short(of, "drawn with clashes, mean", mean);
    print_short(of, "drawn with clashes, the worst", worst);
}

static void print_shorts(void)
{
    static struct text t;
    double made[SHORTS][FIGURES], draws[SHORT_DRAWN][FIGURES];
    print_head(&drop_table);
    for (size_t k = 0; k < SHORTS; k++) {
        make(&shorts[k], &t);
        measure_short(shorts[k].name, &t, made[k]);
        if (k + 1 < SHORTS)
            print_short(&drop_table, shorts[k].name, made[k]);
    }
    state = 0;
    for (unsigned i = 0; i < SHORT_DRAWN; i++) {
        draw_set(&drawn_short, &t);
        measure_short(drawn_short.name, &t, draws[i]);
    }
    print_drawn_shorts(&drop_table, draws);
    print_head(&core_table);
    for (size_t k = 0; k < SHORTS; k++)
        print_short(&core_table, shorts[k].name, made[k]);
    print_drawn_shorts(&core_table, draws);
}

/* ---- checks ---- */

static void check(const struct family *f, size_t count)
{
    static struct text t;
    for (size_t k = 0; k < count; k++)
        compare(&f[k], &t, &ours, &plain);
}

/* The first task, the last and some between. */
static void check_longest(const struct family *f, size_t count)
{
    static struct text t;
    char question[32], answer[64];
    for (size_t k = 0; k < count; k++) {
        make(&f[k], &t);
        for (unsigned step = 0; step < 8; step++) {
            unsigned place = (f[k].tasks - 1) * step / 7;
            sprintf(question, "longest\t%u", place);
            ask(&t, question, 1, answer, sizeof answer);
            agree(&f[k], &t, place, answer);
        }
    }
}

/* Of how many sets it was checked what can be given up, and every core. */
static unsigned drops_checked, cores_checked;

/* Budgets on both sides of each promise. No floor may be above a weight, whatever the budgets. */
static void check_budgets(const char *name, const struct text *t)
{
    unsigned rules[RULES][3], n = rules_of(t, rules), floor = 0, weight = RULES * MAX_WEIGHT;
    const unsigned budgets[] = { 1, n, n + 1, 2 * n + 1, n > SHORT ? SOME_BUDGET : SUBSETS };
    struct relaxed r;
    for (size_t k = 0; k < sizeof budgets / sizeof budgets[0]; k++) {
        if (budgets[k] == 0)
            continue;
        give_up(name, t, budgets[k], &r);
        floor = r.floor > floor ? r.floor : floor;
        weight = r.weight < weight ? r.weight : weight;
    }
    drops_checked++;
    if (floor <= weight)
        return;
    fprintf(stderr, "%s: a floor of %u and a weight of %u\n", name, floor, weight);
    exit(1);
}

/* Every core of a short list, by the C call on each set of its rules. */
static void check_cores(const char *name, const struct text *t)
{
    char found[SUBSETS];
    unsigned rules[RULES][3], n = rules_of(t, rules);
    if (n > SHORT)
        return;
    for (unsigned set = 0; set < 1u << n; set++) {
        char marks[RULES] = "";
        for (unsigned k = 0; k < n; k++)
            marks[k] = (char)(set >> k & 1);
        found[set] = (char)ordered(t, marks);
    }
    list_cores(name, t, n, found);
    cores_checked++;
}

/* The first sets of a kind, with each range of weights in turn. */
static void check_drawn(const struct kind *kind)
{
    static struct text t, weighed;
    state = 0;
    for (unsigned i = 0; i < CHECKED; i++) {
        draw_set(kind, &t);
        weigh(&t, weights[i % WEIGHTS], &weighed);
        check_budgets(kind->name, &weighed);
        if (i < CORES_CHECKED)
            check_cores(kind->name, &weighed);
    }
}

/* Made sets that are not hostile. */
static void check_made(const struct family *f, size_t count)
{
    static struct text t;
    for (size_t k = 0; k < count; k++)
        if (strncmp(f[k].name, "hostile", 7) != 0) {
            make(&f[k], &t);
            check_budgets(f[k].name, &t);
            check_cores(f[k].name, &t);
        }
}

int main(int argc, char **argv)
{
    size_t kinds = sizeof families / sizeof families[0], steps = sizeof growth / sizeof growth[0];
    if (argc > 1 && strcmp(argv[1], "check") == 0) {
        check(families, kinds);
        check(growth, steps);
        check_longest(families, kinds);
        check_longest(growth, steps);
        printf("bench: %zu task sets, answered alike; how long 8 tasks of each may run is as the C call has it\n", kinds + steps);
        for (unsigned k = 0; k < KINDS; k++)
            check_drawn(&clashing[k]);
        check_drawn(&drawn_short);
        check_made(shorts, SHORTS);
        check_made(families, kinds);
        check_made(growth, steps);
        printf("bench: what can be given up of %u task sets is as the C call has it\n", drops_checked);
        printf("bench: every core of %u lists of at most 12 rules is as the C call has it\n", cores_checked);
        return 0;
    }
    double unit = print_table("64 tasks", families, kinds, 0);
    print_table("growth", growth, steps, unit);
    print_lengths(families, kinds);
    print_drops();
    print_shorts();
    return 0;
}
