/*
 * Runs the built program on texts that come by a pipe and in pieces, and looks
 * at all that it writes; then lines of a shell that run `./orders`.
 *
 *     program TEXTS ANSWERS
 *
 * is run where `orders` and `crates` are. TEXTS holds texts joined by form
 * feeds (byte 12), ANSWERS what `orders` writes for them, one after the other;
 * each eighth text is run.
 *
 *     cc -O2 -Icrates/orders_c/include -Icrates/orders_c/tests crates/orders/tests/program.c -o target/program
 */
#define _GNU_SOURCE
#include <fcntl.h>
#include <poll.h>
#include <sched.h>
#include <signal.h>
#include <sys/ioctl.h>
#include <sys/wait.h>
#include <unistd.h>
#include "orders.h"
#include "texts.h"

enum {
    EACH = 8,       /* one stored text of so many is run */
    SECONDS = 60,   /* the longest that a run may take */
    SHOWN = 20,     /* wrong runs that are described */
    WRITTEN = 65536 /* the most bytes that are looked at */
};

#define PROGRAM "crates/orders/out/orders"
#define NO_READ "orders: can't read standard input\n"
#define NO_WRITE "orders: can't write standard output\n"

/* What a run wrote to standard output and standard error, and how it ended. */
struct run {
    pid_t pid;
    int out_end, err_end;
    uint8_t out[WRITTEN], err[WRITTEN];
    size_t out_len, err_len;
    int status;
};

static struct run run;
static unsigned long runs, wrongs;

/* ---- one run ---- */

static void stop(const char *what)
{
    perror(what);
    exit(2);
}

static void make_pipe(int ends[2])
{
    if (pipe2(ends, O_CLOEXEC) != 0)
        stop("pipe");
}

/* In the child: a descriptor is this one, or closed where that is -1. */
static void set(int descriptor, int from)
{
    if (from < 0)
        close(descriptor);
    else if (dup2(from, descriptor) < 0)
        _exit(126);
}

/* Starts a command with this standard input, and this standard output or, for -2, a pipe. */
static void start(char *const command[], int in, int out)
{
    int out_ends[2], err_ends[2];
    make_pipe(out_ends);
    make_pipe(err_ends);
    runs++;
    run.pid = fork();
    if (run.pid < 0)
        stop("fork");
    if (run.pid == 0) {
        signal(SIGPIPE, SIG_DFL);
        set(STDIN_FILENO, in);
        set(STDOUT_FILENO, out == -2 ? out_ends[1] : out);
        set(STDERR_FILENO, err_ends[1]);
        execv(command[0], command);
        _exit(127);
    }
    close(out_ends[1]);
    close(err_ends[1]);
    run.out_end = out_ends[0];
    run.err_end = err_ends[0];
}

/* Reads a pipe to its end. */
static size_t drain(int end, uint8_t *room)
{
    size_t len = 0;
    ssize_t got;
    while (len < WRITTEN && (got = read(end, room + len, WRITTEN - len)) > 0)
        len += (size_t)got;
    close(end);
    return len;
}

/* Waits for the end of the run. */
static void finish(void)
{
    alarm(SECONDS);
    run.out_len = drain(run.out_end, run.out);
    run.err_len = drain(run.err_end, run.err);
    if (waitpid(run.pid, &run.status, 0) != run.pid)
        stop("wait");
    alarm(0);
}

/* ---- what is due ---- */

static void wrong(const char *name, size_t piece, const char *what)
{
    if (++wrongs > SHOWN)
        return;
    printf("wrong: %s", name);
    if (piece > 0)
        printf(", %zu bytes at a time", piece);
    printf(": %s\n  standard output: %.*s\n  standard error: %.*s\n", what,
           (int)run.out_len, (char *)run.out, (int)run.err_len, (char *)run.err);
}

static int is(const uint8_t *at, size_t len, struct bytes due)
{
    return len == due.len && (len == 0 || memcmp(at, due.at, len) == 0);
}

static struct bytes line(const char *s)
{
    struct bytes b = { (const uint8_t *)s, strlen(s) };
    return b;
}

/* The program ended by itself, and wrote just this. */
static void expect(const char *name, size_t piece, struct bytes out, const char *err)
{
    if (!WIFEXITED(run.status) || WEXITSTATUS(run.status) != 0)
        wrong(name, piece, "the program did not end well");
    else if (!is(run.out, run.out_len, out))
        wrong(name, piece, "another standard output was due");
    else if (!is(run.err, run.err_len, line(err)))
        wrong(name, piece, "another standard error was due");
}

/* ---- texts by a pipe ---- */

static char *const program[] = { PROGRAM, NULL };

/* Has the other side of a pipe taken every byte, or gone? */
static int taken(int end)
{
    struct pollfd p = { end, 0, 0 };
    int waiting = 0;
    if (ioctl(end, FIONREAD, &waiting) != 0 || poll(&p, 1, 0) < 0)
        stop("pipe");
    return waiting == 0 || (p.revents & POLLERR);
}

/* Writes a text so many bytes at a time, each piece after the one before was taken. */
static void send_text(int end, struct bytes text, size_t piece)
{
    for (size_t at = 0; at < text.len; at += piece) {
        size_t len = text.len - at < piece ? text.len - at : piece;
        if (write(end, text.at + at, len) < 0)
            return;
        while (!taken(end))
            sched_yield();
    }
}

/* The program on a text that comes in pieces. */
static void run_pieces(const char *name, struct pair p, size_t piece)
{
    int ends[2];
    make_pipe(ends);
    start(program, ends[0], -2);
    close(ends[0]);
    alarm(SECONDS);
    send_text(ends[1], p.text, piece);
    close(ends[1]);
    finish();
    expect(name, piece, p.answer, "");
}

/* The same in pieces of several sizes. */
static void run_sizes(const char *name, struct pair p)
{
    static const size_t sizes[] = { 1, 61, 4093, ORDERS_TEXT_MAX, ORDERS_TEXT_MAX + 1 };
    for (size_t k = 0; k < sizeof sizes / sizeof sizes[0]; k++)
        run_pieces(name, p, sizes[k]);
}

static void run_stored(const char *texts, const char *answers)
{
    static const size_t sizes[] = { 1, 7, 61, ORDERS_TEXT_MAX + 1 };
    struct store stored = open_store(texts, answers);
    for (size_t k = 0; stored.more; k++) {
        struct pair next = next_pair(&stored);
        char name[40];
        snprintf(name, sizeof name, "stored text %zu", k + 1);
        if (k % EACH == 0)
            run_pieces(name, next, sizes[k / EACH % 4]);
    }
}

/* A full set and then one line that is no line, so that all has as many bytes as asked. */
static struct pair long_text(size_t len, const char *answer)
{
    static uint8_t made[ORDERS_TEXT_MAX + 1];
    struct pair full = full_order(), p = { { made, len }, line(answer) };
    memcpy(made, full.text.at, full.text.len);
    memset(made + full.text.len, '7', len - full.text.len - 1);
    made[len - 1] = '\n';
    return p;
}

static void run_made(void)
{
    struct pair empty = { { NULL, 0 }, line("bad\t0\t13\n") };
    run_sizes("the empty text", empty);
    run_sizes("64 tasks, 128 rules, an order", full_order());
    run_sizes("64 tasks, 128 rules, a core", full_core());
    run_sizes("64 tasks, 128 rules, every task late", full_late());
    run_sizes("16,384 bytes", long_text(ORDERS_TEXT_MAX, "bad\t193\t7\n"));
    run_sizes("16,385 bytes", long_text(ORDERS_TEXT_MAX + 1, "bad\t0\t8\n"));
}

/* ---- reads and writes that fail ---- */

static int open_for(const char *name, int how)
{
    int f = open(name, how | O_CLOEXEC);
    if (f < 0)
        stop(name);
    return f;
}

/* A whole text comes, and then a read fails, since the pipe does not wait and stays open. */
static void run_cut_off(void)
{
    struct pair p = full_order();
    int ends[2];
    make_pipe(ends);
    if (fcntl(ends[0], F_SETFL, O_NONBLOCK) != 0 || write(ends[1], p.text.at, p.text.len) != (ssize_t)p.text.len)
        stop("pipe");
    start(program, ends[0], -2);
    finish();
    close(ends[0]);
    close(ends[1]);
    expect("a read that fails after a whole text", 0, line(""), NO_READ);
}

static void run_failing(void)
{
    int folder = open_for(".", O_RDONLY), none = open_for("/dev/null", O_RDONLY), full = open_for("/dev/full", O_WRONLY);
    start(program, -1, -2);
    finish();
    expect("no standard input", 0, line(""), NO_READ);
    start(program, folder, -2);
    finish();
    expect("a folder as standard input", 0, line(""), NO_READ);
    run_cut_off();
    start(program, none, full);
    finish();
    expect("a full device as standard output", 0, line(""), NO_WRITE);
    start(program, none, -1);
    finish();
    expect("no standard output", 0, line(""), NO_WRITE);
    close(folder);
    close(none);
    close(full);
}

/* ---- the exit status of ./orders ---- */

/* A line of a shell, its exit status, and how what it writes begins. */
struct use {
    const char *line;
    int status;
    const char *out, *err;
};

static const struct use uses[] = {
    { "./orders examples/door-drive.txt", 0, "order\t6\n", "" },
    { "./orders <examples/packing-line.txt", 0, "core\t2\n", "" },
    { "cd examples && ../orders door-drive.txt", 0, "order\t6\n", "" },
    { "printf 't\\t5\\t4\\t4\\t0\\t0\\t0\\t0\\t0\\t0\\t0\\t0\\t0\\n' | ./orders", 1, "bad\t1\t2\n", "" },
    { "./orders examples/no-such-file", 2, "", "./orders: " },
    { "./orders examples", 2, "", NO_READ },
    { "./orders <&-", 2, "", "./orders: " },
    { "./orders examples/door-drive.txt >/dev/full", 2, "", NO_WRITE },
    { "d=$(mktemp -d) && cp orders \"$d\" && \"$d\"/orders examples/door-drive.txt; s=$?; rm -r \"$d\"; exit $s", 2, "", "proving" },
};

/* Does this begin with these bytes, and is it empty where they are? */
static int begins(const uint8_t *at, size_t len, const char *with)
{
    size_t n = strlen(with);
    return n == 0 ? len == 0 : len >= n && memcmp(at, with, n) == 0;
}

static void run_uses(void)
{
    int none = open_for("/dev/null", O_RDONLY);
    for (size_t k = 0; k < sizeof uses / sizeof uses[0]; k++) {
        char shell[] = "/bin/sh", flag[] = "-c", text[200];
        char *const command[] = { shell, flag, text, NULL };
        snprintf(text, sizeof text, "%s", uses[k].line);
        start(command, none, -2);
        finish();
        if (!WIFEXITED(run.status) || WEXITSTATUS(run.status) != uses[k].status)
            wrong(text, 0, "another exit status was due");
        else if (!begins(run.out, run.out_len, uses[k].out) || !begins(run.err, run.err_len, uses[k].err))
            wrong(text, 0, "another output was due");
    }
    close(none);
}

int main(int argc, char **argv)
{
    if (argc != 3) {
        fprintf(stderr, "usage: program TEXTS ANSWERS\n");
        return 2;
    }
    setvbuf(stdout, NULL, _IOLBF, 0);
    signal(SIGPIPE, SIG_IGN);
    run_made();
    run_failing();
    run_stored(argv[1], argv[2]);
    unsigned long of_program = runs;
    run_uses();
    printf("program: %lu runs of " PROGRAM ", %lu of ./orders, %lu wrong\n", of_program, runs - of_program, wrongs);
    return wrongs > 0;
}
