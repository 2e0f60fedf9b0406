/*
 * Texts for the tests in C, each with its answer: stored ones, and full ones,
 * made by formula.
 */
#ifndef TEXTS_H
#define TEXTS_H

#include <stdint.h>
#include <stdio.h>
#include <stdlib.h>
#include <string.h>
#include "orders.h"

/* A stretch of bytes. */
struct bytes {
    const uint8_t *at;
    size_t len;
};

/* A text and what `orders` writes for it. */
struct pair {
    struct bytes text, answer;
};

/* ---- stored texts ---- */

static inline struct bytes load(const char *name)
{
    struct bytes all = { NULL, 0 };
    FILE *in = fopen(name, "rb");
    uint8_t *p = NULL;
    size_t size = 0, got;
    if (!in) {
        perror(name);
        exit(2);
    }
    do {
        if (all.len == size && !(p = realloc(p, size = 2 * size + 65536)))
            exit(2);
        got = fread(p + all.len, 1, size - all.len, in);
        all.len += got;
    } while (got > 0);
    if (ferror(in)) {
        perror(name);
        exit(2);
    }
    fclose(in);
    all.at = p;
    return all;
}

/* Takes off what stands before the next such byte; the byte itself is dropped. */
static inline struct bytes take_until(struct bytes *rest, uint8_t byte)
{
    const uint8_t *end = rest->len ? memchr(rest->at, byte, rest->len) : NULL;
    struct bytes piece = { rest->at, end ? (size_t)(end - rest->at) : rest->len };
    size_t gone = piece.len + (end ? 1 : 0);
    rest->at += gone;
    rest->len -= gone;
    return piece;
}

/* The last number of a line that starts with `word`, or -1. */
static inline long last_number(struct bytes line, const char *word)
{
    char number[16];
    size_t len = strlen(word), from = line.len;
    if (line.len < len || memcmp(line.at, word, len) != 0)
        return -1;
    while (from > 0 && line.at[from - 1] != '\t')
        from--;
    snprintf(number, sizeof number, "%.*s", (int)(line.len - from), (const char *)line.at + from);
    return strtol(number, NULL, 10);
}

/* Takes the next answer off: one `bad` line, or a head line and as many lines as it says, and late lines. */
static inline struct bytes take_answer(struct bytes *rest)
{
    struct bytes answer = { rest->at, 0 }, head = take_until(rest, '\n');
    long lines = last_number(head, "bad\t") > 0 ? 0 : last_number(head, "order\t");
    if (lines < 0 && (lines = last_number(head, "core\t")) < 0) {
        fprintf(stderr, "the stored answers end too early, or hold what is no answer\n");
        exit(2);
    }
    while (lines-- > 0)
        take_until(rest, '\n');
    while (rest->len >= 5 && memcmp(rest->at, "late\t", 5) == 0)
        take_until(rest, '\n');
    answer.len = (size_t)(rest->at - answer.at);
    return answer;
}

/* Texts joined by form feeds, and their answers, one after the other. */
struct store {
    struct bytes texts, answers;
    int more;
};

static inline struct store open_store(const char *texts, const char *answers)
{
    struct store s = { load(texts), load(answers), 1 };
    return s;
}

/* Takes the next text off, with its answer. The last one has no form feed after it. */
static inline struct pair next_pair(struct store *s)
{
    size_t left = s->texts.len;
    struct pair next = { take_until(&s->texts, '\f'), take_answer(&s->answers) };
    s->more = next.text.len < left;
    if (!s->more && s->answers.len > 0) {
        fprintf(stderr, "there are more stored answers than texts\n");
        exit(2);
    }
    return next;
}

/* ---- full texts ---- */

/* Adds to a text or a listing that is being made. */
#define PUT(room, len, ...) ((len) += (size_t)sprintf((char *)(room) + (len), __VA_ARGS__))

/* The end of a task line whose task uses no resource. */
#define NO_SECTIONS "\t0\t0\t0\t0\t0\t0\t0\t0\n"

/*
 * 64 tasks with 128 rules, each task above the next, then above the next but
 * one, and so on. Each has response 1000000: the longest order, 885 bytes. Rule
 * weights rise from 1.
 */
static inline struct pair full_order(void)
{
    static uint8_t text[ORDERS_TEXT_MAX], listing[ORDERS_LISTING_MAX];
    struct pair made = { { text, 0 }, { listing, 0 } };
    int rules = 0;
    PUT(listing, made.answer.len, "order\t64\n");
    for (int k = 0; k < 64; k++) {
        PUT(text, made.text.len, "t\t1\t1000000\t1000000\t%d" NO_SECTIONS, 999999 - 2 * k);
        PUT(listing, made.answer.len, "%d\t%d\t1000000\n", k, k);
    }
    for (int step = 1; rules < 128; step++)
        for (int k = 0; k + step < 64 && rules < 128; k++, rules++)
            PUT(text, made.text.len, "r\t%d\t%d\t%d\n", k, k + step, 1 + rules);
    return made;
}

/*
 * 64 tasks and a circle of 64 rules, twice: the first 64 rules are taken out,
 * and each of the others is needed. 592 bytes. Rule weights fall from 1000.
 */
static inline struct pair full_core(void)
{
    static uint8_t text[ORDERS_TEXT_MAX], listing[ORDERS_LISTING_MAX];
    struct pair made = { { text, 0 }, { listing, 0 } };
    PUT(listing, made.answer.len, "core\t64\n");
    for (int k = 0; k < 64; k++)
        PUT(text, made.text.len, "t\t1\t1000000\t1000000\t0" NO_SECTIONS);
    for (int k = 0; k < 128; k++)
        PUT(text, made.text.len, "r\t%d\t%d\t%d\n", k % 64, (k + 1) % 64, 1000 - k);
    for (int k = 0; k < 64; k++)
        PUT(listing, made.answer.len, "%d\t%d\t%d\n", k + 64, k, (k + 1) % 64);
    return made;
}

/*
 * 64 tasks with 128 rules, each of them late: with all others above it each has
 * response 1000000, its period. The longest listing of late tasks, 1021 bytes.
 */
static inline struct pair full_late(void)
{
    static uint8_t text[ORDERS_TEXT_MAX], listing[ORDERS_LISTING_MAX];
    struct pair made = { { text, 0 }, { listing, 0 } };
    PUT(listing, made.answer.len, "core\t0\n");
    for (int k = 0; k < 64; k++) {
        PUT(text, made.text.len, "t\t15625\t1000000\t1\t0" NO_SECTIONS);
        PUT(listing, made.answer.len, "late\t%d\t1000000\n", k);
    }
    for (int k = 0; k < 128; k++)
        PUT(text, made.text.len, "r\t%d\t%d\t1\n", k % 64, (k + 1) % 64);
    return made;
}

#endif
