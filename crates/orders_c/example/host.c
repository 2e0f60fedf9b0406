/*
 * An example host: reads a text from the file that is named, or from standard
 * input, and writes the listing to standard output.
 *
 *     (cd crates/orders_c && rt lib) && mkdir -p target
 *     cc -O2 -Icrates/orders_c/include crates/orders_c/example/host.c crates/orders_c/out/liborders_c.a -o target/host
 *
 * Exit status: 0 with a listing, 1 for a refused text, 2 when a file cannot be
 * read or written.
 */
#include <stdio.h>
#include "orders.h"

static const char *const meanings[] = {
    [ORDERS_PERIOD_RANGE] = "a period is out of its range",
    [ORDERS_EXECUTION_RANGE] = "an execution time is out of its range",
    [ORDERS_DEADLINE_RANGE] = "a deadline is out of its range",
    [ORDERS_JITTER_RANGE] = "a jitter is out of its range",
    [ORDERS_SECTION_RANGE] = "a section is longer than the execution time",
    [ORDERS_SAME_TASK_TWICE] = "a rule names one task twice",
    [ORDERS_UNREADABLE_LINE] = "a line does not have the right form",
    [ORDERS_TEXT_TOO_LONG] = "the text is over 16,384 bytes",
    [ORDERS_BUFFER_TOO_SHORT] = "the buffer is shorter than the listing",
    [ORDERS_TOO_MANY_TASKS] = "more than 64 tasks",
    [ORDERS_UNKNOWN_TASK] = "a rule names a place that has no task",
    [ORDERS_TOO_MANY_RULES] = "more than 128 rules",
    [ORDERS_NO_TASK] = "the text has no task",
    [ORDERS_WEIGHT_RANGE] = "a weight is out of its range",
};

/* Says what a refusal means. */
static const char *meaning(uint64_t refusal)
{
    const char *known = refusal < sizeof meanings / sizeof meanings[0] ? meanings[refusal] : NULL;
    return known ? known : "an unknown number";
}

/* Reads until the room is full or the file ends; a read may give less than was asked for. */
static size_t read_all(FILE *in, uint8_t *room, size_t size)
{
    size_t len = 0, got;
    while (len < size && (got = fread(room + len, 1, size - len, in)) > 0)
        len += got;
    return len;
}

int main(int argc, char **argv)
{
    /* One byte more than a text may have, so that a longer one is refused. */
    static uint8_t text[ORDERS_TEXT_MAX + 1];
    static uint8_t listing[ORDERS_LISTING_MAX];

    FILE *in = argc > 1 ? fopen(argv[1], "rb") : stdin;
    if (!in) {
        perror(argv[1]);
        return 2;
    }
    size_t len = read_all(in, text, sizeof text);
    if (ferror(in)) {
        perror(argc > 1 ? argv[1] : "standard input");
        return 2;
    }
    if (in != stdin)
        fclose(in);

    uint64_t result = orders_solve(text, len, listing, sizeof listing);
    if (result < ORDERS_LISTED) {
        fprintf(stderr, "refused: %u (%s)\n", (unsigned)result, meaning(result));
        return 1;
    }
    size_t count = (size_t)(result - ORDERS_LISTED);
    if (fwrite(listing, 1, count, stdout) != count || fflush(stdout) != 0) {
        perror("standard output");
        return 2;
    }
    return 0;
}
