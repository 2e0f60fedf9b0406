/*
 * Calls orders_solve on stored texts with every buffer length from 0 to past
 * the listing, and looks at the result and at every byte.
 *
 *     buffers TEXTS ANSWERS
 *
 * TEXTS holds texts joined by form feeds (byte 12), ANSWERS what `orders`
 * writes for them, one after the other. Each text is then damaged in a few
 * ways; the right answer is not known there, but every length has to agree
 * with what a large buffer gave.
 *
 *     cc -O1 -g -fsanitize=address,undefined -Icrates/orders_c/include crates/orders_c/tests/buffers.c \
 *         crates/orders_c/out/liborders_c.a -o target/buffers
 *
 * The sanitiser sees what is built with it. For a library that is not, text
 * and buffer also stand at the edge of a page that nobody may touch.
 */
#define _DEFAULT_SOURCE
#include <signal.h>
#include <stdio.h>
#include <stdlib.h>
#include <string.h>
#include <sys/mman.h>
#include <unistd.h>
#include "orders.h"
#include "texts.h"

enum {
    GUARD = 16,      /* bytes that stand before and after a guarded buffer */
    PAST = 24,       /* buffer lengths tried beyond the listing */
    REFUSED = 40,    /* buffer lengths tried for a refused text */
    DAMAGED = 6,     /* damaged forms of each text */
    REGION = 131072, /* bytes between two forbidden pages; no stored text is longer */
    SHOWN = 20       /* wrong calls that are described */
};

/* What a call has to give: a refusal number, or 0 and a listing. */
struct answer {
    unsigned number;
    struct bytes listing;
};

static unsigned long texts, calls, wrongs;
static const char *part = "stored";
static uint8_t *text_region, *out_region;

/* ---- bytes ---- */

static void *room(size_t size)
{
    void *p = malloc(size);
    if (!p && size > 0) {
        fprintf(stderr, "no memory\n");
        exit(2);
    }
    return p;
}

/* Bytes between two pages that nobody may touch. */
static uint8_t *region(void)
{
    size_t page = (size_t)sysconf(_SC_PAGESIZE);
    uint8_t *p = mmap(NULL, page + REGION + page, PROT_NONE, MAP_PRIVATE | MAP_ANONYMOUS, -1, 0);
    if (p == MAP_FAILED || mprotect(p + page, REGION, PROT_READ | PROT_WRITE) != 0) {
        perror("memory");
        exit(2);
    }
    return p + page;
}

/* A place for so many bytes at the end of a region, or at its start, by turns. */
static uint8_t *edge(uint8_t *at, size_t len)
{
    return calls / 2 % 2 ? at : at + REGION - len;
}

/* What is said when a forbidden page is touched. */
static void touched(int signal_number)
{
    char said[200];
    int len = snprintf(said, sizeof said, "wrong: %s text %lu: signal %d, bytes outside the text or the buffer were touched\n",
                       part, texts, signal_number);
    _exit(write(STDOUT_FILENO, said, (size_t)len) < 0 ? 2 : 1);
}

static int same(const uint8_t *a, const uint8_t *b, size_t len)
{
    return len == 0 || memcmp(a, b, len) == 0;
}

/* The byte that call number `call` puts at place i before it is made. */
static uint8_t filler(unsigned long call, size_t i)
{
    uint32_t x = (uint32_t)call * 2654435761u + (uint32_t)i * 2246822519u;
    x ^= x >> 15;
    x *= 3266489917u;
    return (uint8_t)(x >> 24);
}

static void fill(uint8_t *at, size_t len, unsigned long call)
{
    for (size_t i = 0; i < len; i++)
        at[i] = filler(call, i);
}

/* Are bytes `from` to `to` as they were filled? */
static int as_filled(const uint8_t *at, size_t from, size_t to, unsigned long call)
{
    for (size_t i = from; i < to; i++)
        if (at[i] != filler(call, i))
            return 0;
    return 1;
}

/* Damage is the same in every run. */
static uint32_t draw(uint32_t below)
{
    static uint32_t state = 2463534242u;
    state ^= state << 13;
    state ^= state >> 17;
    state ^= state << 5;
    return below > 0 ? state % below : 0;
}

/* ---- one call ---- */

static void wrong(struct bytes text, size_t out_len, uint64_t result, const char *what)
{
    if (++wrongs > SHOWN)
        return;
    printf("wrong: %s text %lu, buffer of %zu bytes, result %llu: %s\n",
           part, texts, out_len, (unsigned long long)result, what);
    printf("       text of %zu bytes: ", text.len);
    for (size_t i = 0; i < text.len && i < 60; i++)
        printf(text.at[i] > 32 && text.at[i] < 127 ? "%c" : "\\%d", text.at[i]);
    printf("\n");
}

/* The result that a buffer of this length has to give. */
static uint64_t expected(struct answer want, size_t out_len)
{
    if (want.number)
        return want.number;
    return out_len < want.listing.len ? ORDERS_BUFFER_TOO_SHORT : ORDERS_LISTED + want.listing.len;
}

/*
 * One call on a copy of the text, with a buffer that has so many guard bytes
 * on each side in its block. Every byte of the block is looked at.
 */
static void call_at(struct bytes text, struct answer want, size_t out_len, uint8_t *own, uint8_t *block, size_t guard)
{
    unsigned long call = calls;
    size_t size = guard + out_len + guard;
    fill(block, size, call);
    if (text.len > 0)
        memcpy(own, text.at, text.len);
    uint64_t result = orders_solve(own, text.len, block + guard, out_len);

    uint64_t due = expected(want, out_len);
    size_t listed = due < ORDERS_LISTED ? 0 : want.listing.len;
    if (result != due)
        wrong(text, out_len, result, "another result was due");
    else if (!same(block + guard, want.listing.at, listed))
        wrong(text, out_len, result, "the listing is another one");
    else if (!as_filled(block, 0, guard, call))
        wrong(text, out_len, result, "a byte before the buffer changed");
    else if (!as_filled(block, guard + listed, guard + out_len, call))
        wrong(text, out_len, result, listed ? "a byte after the listing changed" : "a refused buffer changed");
    else if (!as_filled(block, guard + out_len, size, call))
        wrong(text, out_len, result, "a byte after the buffer changed");
    else if (!same(own, text.at, text.len))
        wrong(text, out_len, result, "the text changed");
}

/* The buffer stands between guard bytes; it and the text stand at forbidden pages. */
static void call_guarded(struct bytes text, struct answer want, size_t out_len)
{
    calls++;
    call_at(text, want, out_len, edge(text_region, text.len), edge(out_region, GUARD + out_len + GUARD), GUARD);
}

/* Text and buffer are blocks of exactly their sizes, for the sanitiser. */
static void call_alone(struct bytes text, struct answer want, size_t out_len)
{
    uint8_t *own = room(text.len), *block = room(out_len);
    calls++;
    call_at(text, want, out_len, own, block, 0);
    free(block);
    free(own);
}

/* Null pointers with length 0: for the buffer, and for an empty text. */
static void call_null(struct bytes text, struct answer want)
{
    uint8_t kept[REFUSED];
    calls++;
    uint64_t result = orders_solve(text.at, text.len, NULL, 0);
    if (result != expected(want, 0))
        wrong(text, 0, result, "another result was due for a null buffer");
    if (text.len > 0)
        return;
    calls += 2;
    result = orders_solve(NULL, 0, NULL, 0);
    if (result != want.number)
        wrong(text, 0, result, "another result was due for two null pointers");
    fill(kept, sizeof kept, calls);
    result = orders_solve(NULL, 0, kept, sizeof kept);
    if (result != want.number || !as_filled(kept, 0, sizeof kept, calls))
        wrong(text, sizeof kept, result, "a null text was not an empty one");
}

/* Each length twice, in both ways. */
static void call_both(struct bytes text, struct answer want, size_t out_len)
{
    call_guarded(text, want, out_len);
    call_alone(text, want, out_len);
}

/* The greatest length that is tried for a text, beside ORDERS_LISTING_MAX. */
static size_t last_length(struct answer want)
{
    return want.number ? REFUSED : want.listing.len + PAST;
}

/* Every length from 0 up to past the listing, one that is always enough, and null. */
static void call_all(struct bytes text, struct answer want)
{
    for (size_t out_len = 0; out_len <= last_length(want); out_len++)
        call_both(text, want, out_len);
    call_both(text, want, ORDERS_LISTING_MAX);
    call_null(text, want);
}

/* ---- damaged texts ---- */

/* Is this a result that a buffer of ORDERS_LISTING_MAX may give? */
static int fits(uint64_t result, const uint8_t *out)
{
    if (result < ORDERS_LISTED)
        return (result >= ORDERS_PERIOD_RANGE && result <= ORDERS_NO_TASK && result != ORDERS_BUFFER_TOO_SHORT)
               || result == ORDERS_WEIGHT_RANGE;
    size_t len = (size_t)(result - ORDERS_LISTED);
    if (result > ORDERS_LISTED + ORDERS_LISTING_MAX || len < 7 || out[len - 1] != '\n')
        return 0;
    return memcmp(out, "order\t", 6) == 0 || memcmp(out, "core\t", 5) == 0;
}

/* Takes the answer in a large buffer as the one that is due for every length. */
static void call_unknown(struct bytes text)
{
    static uint8_t large[ORDERS_LISTING_MAX];
    unsigned long call = ++calls;
    fill(large, sizeof large, call);
    uint64_t result = orders_solve(text.at, text.len, large, sizeof large);

    struct answer want = { 0, { large, 0 } };
    if (result < ORDERS_LISTED)
        want.number = (unsigned)result;
    else
        want.listing.len = (size_t)(result - ORDERS_LISTED);
    if (!fits(result, large))
        wrong(text, sizeof large, result, "no text has this result or this listing");
    else if (!as_filled(large, want.listing.len, sizeof large, call))
        wrong(text, sizeof large, result, "a byte changed that is not the listing's");
    else
        for (size_t out_len = 0; out_len <= last_length(want); out_len++)
            call_guarded(text, want, out_len);
}

/* Form k of a text: cut after a line, cut anywhere, a byte dropped, a byte changed (to zero too). */
static size_t damage(struct bytes text, uint8_t *form, size_t k)
{
    static const uint8_t other[] = "0123456789\t\ntr \r\f\x80\xff";
    size_t at = draw((uint32_t)text.len);
    memcpy(form, text.at, text.len);
    switch (k % 4) {
    case 0:
        while (at > 0 && text.at[at - 1] != '\n')
            at--;
        return at;
    case 1:
        return at;
    case 2:
        memmove(form + at, form + at + 1, text.len - at - 1);
        return text.len - 1;
    default:
        form[at] = other[draw(sizeof other)];
        return text.len;
    }
}

static void call_damaged(struct bytes text)
{
    if (text.len == 0)
        return;
    uint8_t *form = room(text.len);
    part = "damaged";
    for (size_t k = 0; k < DAMAGED; k++) {
        struct bytes damaged = { form, damage(text, form, k) };
        call_unknown(damaged);
    }
    part = "stored";
    free(form);
}

/* ---- texts with their answers ---- */

/* What a call has to give where `orders` writes this. */
static struct answer answer_of(struct bytes written)
{
    struct bytes rest = written;
    long number = last_number(take_until(&rest, '\n'), "bad\t");
    struct answer want = { number > 0 ? (unsigned)number : 0, { written.at, number > 0 ? 0 : written.len } };
    return want;
}

/* Full sets, with every buffer length. */
static void call_full_order(void)
{
    struct pair made = full_order();
    part = "full order,";
    if (made.answer.len != 885)
        wrong(made.text, 0, 0, "the made listing should have 885 bytes");
    call_all(made.text, answer_of(made.answer));
}

static void call_full_late(void)
{
    struct pair made = full_late();
    part = "full late,";
    if (made.answer.len != 1021)
        wrong(made.text, 0, 0, "the made listing should have 1021 bytes");
    call_all(made.text, answer_of(made.answer));
}

/* A full set whose calls take longer, with a few lengths. */
static void call_full_core(void)
{
    struct pair made = full_core();
    struct answer want = answer_of(made.answer);
    part = "full core,";
    if (want.listing.len != 592)
        wrong(made.text, 0, 0, "the made listing should have 592 bytes");
    for (size_t out_len = 590; out_len <= 594; out_len++)
        call_both(made.text, want, out_len);
    call_both(made.text, want, 0);
    call_both(made.text, want, ORDERS_LISTING_MAX);
}

int main(int argc, char **argv)
{
    if (argc != 3) {
        fprintf(stderr, "usage: buffers TEXTS ANSWERS\n");
        return 2;
    }
    setvbuf(stdout, NULL, _IOLBF, 0);
    signal(SIGSEGV, touched);
    signal(SIGBUS, touched);
    text_region = region();
    out_region = region();
    struct store stored = open_store(argv[1], argv[2]);
    while (stored.more) {
        struct pair next = next_pair(&stored);
        texts++;
        if (next.text.len > REGION) {
            fprintf(stderr, "text %lu is too long for this test\n", texts);
            return 2;
        }
        call_all(next.text, answer_of(next.answer));
        call_damaged(next.text);
    }
    call_full_order();
    call_full_late();
    call_full_core();
    printf("buffers: %lu texts, %lu calls, %lu wrong\n", texts, calls, wrongs);
    return wrongs > 0;
}
