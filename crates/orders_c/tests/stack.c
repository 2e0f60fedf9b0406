/*
 * Measures the stack that a call needs, and fails where ORDERS_STACK is less.
 * Looks at the stack while calls run that cut a core down, and fails where the
 * list of rules, or four rules of it one after the other, stand on it twice.
 *
 *     stack TEXTS
 *
 * TEXTS holds texts joined by form feeds (byte 12). The calls run on a stack
 * that was filled with one byte; the deepest byte that has changed after all of
 * them tells the need.
 *
 *     cc -O2 -Icrates/orders_c/include crates/orders_c/tests/stack.c crates/orders_c/out/liborders_c.a -o target/stack
 */
#define _GNU_SOURCE
#include <signal.h>
#include <sys/mman.h>
#include <sys/time.h>
#include <ucontext.h>
#include <unistd.h>
#include "orders.h"
#include "texts.h"

enum {
    ROOM = 1 << 20, /* bytes of the stack that is measured */
    FILLER = 0xa5
};

static uint8_t *stack;
static unsigned long calls;

/* The text of the next call, and what it lists. */
static struct bytes text;
static uint8_t listing[ORDERS_LISTING_MAX];

static void call(void)
{
    orders_solve(text.at, text.len, listing, sizeof listing);
}

/* Calls on the stack that is measured. */
static void call_there(struct bytes t)
{
    ucontext_t here, there;
    text = t;
    calls++;
    if (getcontext(&there) != 0) {
        perror("context");
        exit(2);
    }
    there.uc_stack.ss_sp = stack;
    there.uc_stack.ss_size = ROOM;
    there.uc_link = &here;
    makecontext(&there, call, 0);
    if (swapcontext(&here, &there) != 0) {
        perror("context");
        exit(2);
    }
}

/* A stack above a page that nobody may touch. */
static void make_stack(void)
{
    size_t page = (size_t)sysconf(_SC_PAGESIZE);
    uint8_t *p = mmap(NULL, page + ROOM, PROT_NONE, MAP_PRIVATE | MAP_ANONYMOUS, -1, 0);
    if (p == MAP_FAILED || mprotect(p + page, ROOM, PROT_READ | PROT_WRITE) != 0) {
        perror("memory");
        exit(2);
    }
    stack = p + page;
    memset(stack, FILLER, ROOM);
}

/* The bytes from the deepest one that has changed to the top. */
static size_t need(void)
{
    size_t free = 0;
    while (free < ROOM && stack[free] == FILLER)
        free++;
    return ROOM - free;
}

/*
 * 64 tasks and 128 rules that take long: six tasks leave little of the
 * processor, rules stand in circles, and late tasks are tried at each level.
 * All eight resources are used. The deadlines of the late ones rise by what one
 * more task above them adds to a response there, about 18,704 µs. Rule weights
 * fall from 1000: in the rows of a listing, which look like rules from their
 * second number on, the next place stands where a weight would.
 */
static struct bytes hostile(void)
{
    static const int rows[6][2] = { { 83, 334 }, { 251, 1169 }, { 1185, 2339 }, { 68, 2343 }, { 2, 4678 }, { 4, 10659 } };
    static uint8_t made[ORDERS_TEXT_MAX];
    struct bytes t = { made, 0 };
    for (int k = 0; k < 6; k++)
        PUT(made, t.len, "t\t%d\t%d\t%d\t0" NO_SECTIONS, rows[k][0], rows[k][1], rows[k][1]);
    for (int k = 6; k < 64; k++) {
        PUT(made, t.len, "t\t1\t1000000\t%d\t0", k < 39 ? 1000000 : 18704 * (65 - k) + 40000);
        for (int r = 0; r < 8; r++)
            PUT(made, t.len, "\t%d", k % 8 == r);
        PUT(made, t.len, "\n");
    }
    for (int k = 0; k < 128; k++)
        PUT(made, t.len, "r\t%d\t%d\t%d\n", 6 + k % 33, 6 + (k + 1) % 33, 1000 - k);
    return t;
}

/* ---- copies of the rules ---- */

enum {
    RULES = 128,
    PART = 4,      /* rules one after the other that count as a part of the list */
    PAUSE = 100,   /* microseconds from one look at the stack to the next */
    LOOKS = 1000,  /* so many looks while a text is answered again and again */
    MOST = 100000, /* and at most so many calls */
    DEEPEST = ROOM - ORDERS_STACK
};

/* A rule as the library holds it, and the rules of the text that is answered. */
static struct rule {
    uint64_t higher, lower, weight;
} list[RULES];

/* Is the timer to go on? Looks that found the list of the task set, and of these the ones that found a part of it elsewhere. */
static volatile sig_atomic_t looking, looks, copies;

static void fail(const char *why)
{
    fprintf(stderr, "%s\n", why);
    exit(1);
}

/* The rules that a text lists, which has to have 128 of them. */
static void list_rules(struct bytes t)
{
    size_t rules = 0;
    while (t.len > 0) {
        struct bytes line = take_until(&t, '\n');
        char copy[64] = "";
        unsigned higher, lower, weight;
        memcpy(copy, line.at, line.len < sizeof copy ? line.len : sizeof copy - 1);
        if (sscanf(copy, "r\t%u\t%u\t%u", &higher, &lower, &weight) != 3)
            continue;
        if (rules == RULES)
            fail("there are too many rules");
        list[rules++] = (struct rule){ higher, lower, weight };
    }
    if (rules < RULES)
        fail("there are too few rules");
}

/* Do so many rules, from number k on, stand at this place of the stack? */
static int stand(size_t at, size_t k, size_t rules)
{
    return at + rules * sizeof *list <= ROOM && memcmp(stack + at, list + k, rules * sizeof *list) == 0;
}

/* Looks at the stack. */
static void look(void)
{
    size_t own = DEEPEST;
    int found = 0;
    while (own < ROOM && !stand(own, 0, RULES))
        own += sizeof(uint64_t);
    for (size_t at = DEEPEST; at + PART * sizeof *list <= ROOM; at += sizeof(uint64_t)) {
        struct rule here;
        memcpy(&here, stack + at, sizeof here);
        if (here.higher == here.lower || here.higher >= 64 || (at >= own && at < own + sizeof list))
            continue; /* no rule, or one of the task set */
        for (size_t k = 0; k + PART <= RULES; k++)
            if (here.higher == list[k].higher && here.lower == list[k].lower)
                found += stand(at, k, PART);
    }
    looks += own < ROOM;
    copies += own < ROOM && found > 0;
}

/* The next look by the timer. */
static int look_soon(void)
{
    struct itimerval once = { { 0, 0 }, { 0, PAUSE } };
    return setitimer(ITIMER_REAL, &once, NULL);
}

/* The timer's look, wherever a call is: it runs on a stack of its own, and reads what the call is writing. */
static void look_now(int signal)
{
    (void)signal;
    if (looking) {
        look();
        look_soon();
    }
}

/*
 * Answers a text of 128 rules, whose core is not empty, again and again on a
 * stack that was filled anew, and looks at the stack all the while. Beside the
 * task set's own list no part of it may stand there at any look, and a look must
 * see a part that is put there. Only rules that are held as the task set holds
 * them are seen; and a copy that reading or listing makes is seen as well.
 */
static void look_for_copies(struct bytes t)
{
    static uint8_t aside[1 << 16];
    stack_t own = { .ss_sp = aside, .ss_size = sizeof aside };
    struct sigaction action = { .sa_handler = look_now, .sa_flags = SA_ONSTACK | SA_RESTART };
    sigset_t alarm;
    sigemptyset(&alarm);
    sigaddset(&alarm, SIGALRM);
    list_rules(t);
    memset(stack, FILLER, ROOM);
    memset(listing, 0, sizeof listing);
    looks = copies = 0;
    looking = 1;
    if (sigaltstack(&own, NULL) != 0 || sigaction(SIGALRM, &action, NULL) != 0 || sigprocmask(SIG_UNBLOCK, &alarm, NULL) != 0
        || look_soon() != 0) {
        perror("timer");
        exit(2);
    }
    for (int k = 0; looks < LOOKS && k < MOST; k++)
        call_there(t);
    looking = 0;
    int seen = looks;
    if (seen < LOOKS)
        fail("the task set's rules were not seen on the stack");
    if (memcmp(listing, "core\t", 5) != 0 || listing[5] == '0')
        fail("no core was cut down");
    look();
    if (copies > 0)
        fail("a copy of the rules is on the stack");
    memcpy(stack + DEEPEST, list + 1, PART * sizeof *list);
    look();
    if (copies == 0)
        fail("a copy of the rules was put on the stack and not seen");
    printf("stack: no copy of the rules at %d looks\n", seen);
}

int main(int argc, char **argv)
{
    if (argc != 2) {
        fprintf(stderr, "usage: stack TEXTS\n");
        return 2;
    }
    make_stack();
    struct bytes stored = load(argv[1]);
    while (stored.len > 0)
        call_there(take_until(&stored, '\f'));
    call_there(full_order().text);
    call_there(full_core().text);
    call_there(full_late().text);
    call_there(hostile());
    printf("stack: %lu calls, %zu bytes at most, ORDERS_STACK is %d\n", calls, need(), ORDERS_STACK);
    if (need() > ORDERS_STACK)
        return 1;
    look_for_copies(full_core().text);
    look_for_copies(hostile());
    return 0;
}
