#!/usr/bin/env python3
"""Makes the stored texts and their answers.

    make.py PATH/enumerate.py STAGE SEED COUNT DIR

STAGE is the letter of the last request of document 02 that holds, here f. DIR/stdin gets those of COUNT drawn
texts that have at most 1,000 bytes, and then the texts below, joined by form feeds (byte 12); DIR/stdout gets
what `orders` must write for each, one after the other. Every answer is the enumerating program's own: of all
valid orders it gives the greatest, read from the lowest level up. The texts below also carry the answer that
the papers give them, and the two must agree. The stored files have SEED 1 and COUNT 1412.
"""
import importlib.util
import os
import subprocess
import sys

RESOURCES = 8
FIELDS = ("1", "4", "4", "0", *("0" for _ in range(RESOURCES)))  # a good task line: C, T, D, J, and the sections


def line_of(word, *fields):
    return ("\t".join([word, *map(str, fields)]) + "\n").encode("latin-1")


def t(*fields):
    """A task line; the sections that are not given are 0."""
    return line_of("t", *fields, *(0 for _ in range(len(FIELDS) - len(fields))))


def on(resource, section):
    """The sections of a task that uses one resource."""
    return [section if k == resource else 0 for k in range(RESOURCES)]


def r(u, l, weight=1):
    """A rule line."""
    return line_of("r", u, l, weight)


def bad(line, number):
    return "bad\t%d\t%d\n" % (line, number)


def listing(word, *lines):
    return "%s\t%d\n" % (word, len(lines)) + "".join("%d\t%d\t%d\n" % line for line in lines)


def order(*lines):
    return listing("order", *((level, *line) for level, line in enumerate(lines)))


def core(*lines):
    return listing("core", *lines)


def late(*tasks):
    """An empty core: place and response of each task that is left."""
    return core() + "".join("late\t%d\t%d\n" % task for task in tasks)


GOOD = t(*FIELDS)
EASY = t(1, 100, 100, 0)  # any few of these meet their deadlines in every order
A = t(1, 4, 4, 0) + t(2, 6, 6, 0) + t(3, 12, 12, 0)
B = t(2, 10, 4, 0) + t(2, 10, 10, 0) + t(2, 10, 10, 0)
A_ORDER = order((0, 1), (1, 3), (2, 10))


def cases():
    """K1 to K13."""
    yield A, A_ORDER  # K1, K2
    yield A.replace(b"12\t12", b"12\t10"), A_ORDER  # K3
    yield A.replace(b"12\t12", b"12\t9"), late((0, 0), (1, 0), (2, 10))  # K4
    yield A + r(1, 0), order((1, 2), (0, 3), (2, 10))  # K5
    yield A + r(1, 0) + r(2, 0) + r(2, 1), core((2, 2, 1))  # K6
    yield A + r(0, 1) + r(1, 0), core((0, 0, 1), (1, 1, 0))  # K7
    yield B + r(1, 0) + r(2, 0), core((0, 1, 0), (1, 2, 0))  # K8
    yield B + r(1, 0), order((1, 2), (0, 4), (2, 6))  # K9
    yield t(1, 4, 4, 1) + t(2, 6, 6, 0) + r(0, 1), order((0, 2), (1, 3))  # K10
    yield t(1, 4, 4, 2) + t(2, 6, 6, 0) + r(0, 1), order((0, 3), (1, 4))  # K11
    yield t(1, 4, 4, 0, 1) + t(3, 12, 12, 0, 3), order((0, 4), (1, 4))  # K12
    yield t(1, 4, 4, 0, 1) + t(4, 12, 12, 0, 4), late((0, 0))  # K13


def ends():
    """Empty texts, blank lines, and a last piece without a line feed."""
    yield b"", bad(0, 13)
    for front, line in ((b"", 1), (GOOD, 2), (A, 4), (A + r(1, 0), 5)):
        for piece in (b"\n", b"\n\n", b"\n" + GOOD, b"x", b"t", b"r", b"t\t", b"r\t0\t", b"t\t1\t4\t4\t0", b"\t", b"\r", b"\0", b" "):
            yield front + piece, bad(line, 7)
        # good content, and content that its call would refuse by each number
        for whole in (GOOD, t(1, 0, 1, 0), t(5, 4, 4, 0), t(1, 4, 5, 0), t(1, 4, 4, 4), t(1, 4, 4, 0, 2), r(0, 1), r(0, 0), r(0, 9)):
            yield front + whole[:-1], bad(line, 7)


def numbers():
    """Every field of both lines with what is no number, and with numbers of seven digits."""
    wrong = ("", "00", "04", "01", "000", "0000004", "00000004", "+1", "-1", "-0", "+", "-", "1.", "1.0", "1e0", "0x1", "1_0", "a", "1a", " 1", "1 ", "1,0",
             "10000000", "99999999", "4294967297", "18446744073709551617", "1" * 40, "0" * 40)
    for field in wrong:
        for k in range(len(FIELDS)):
            yield t(*FIELDS[:k], field, *FIELDS[k + 1:]), bad(1, 7)
        for line in (r(field, 1), r(0, field), r(0, 1, field)):
            yield A + line, bad(4, 7)
            yield line, bad(1, 7)
        yield A + t(1, field, 4, 0), bad(4, 7)
    for k, number in enumerate((2, 1, 3, 4, *(5 for _ in range(RESOURCES)))):
        for front, line in ((b"", 1), (A, 4)):
            yield front + t(*FIELDS[:k], 9999999, *FIELDS[k + 1:]), bad(line, number)
            yield front + t(*FIELDS[:k], 1000001, *FIELDS[k + 1:]), bad(line, number)
    yield r(0, 1, 9999999), bad(1, 11)
    yield A + r(0, 1, 9999999), bad(4, 15)
    for front, line in ((b"", 1), (A, 4)):
        yield front + r(9999999, 1), bad(line, 11)
        yield front + r(0, 9999999), bad(line, 11)
        yield front + r(9999999, 9999998), bad(line, 11)
        yield front + r(9999999, 9999999), bad(line, 6)


def forms():
    """Tabs, fields and words that a line must not have."""
    rule = r(0, 1)
    for front, line in ((b"", 1), (A, 4)):
        for good in (GOOD, rule):
            fields = good[:-1].split(b"\t")
            yield front + b"\t" + good, bad(line, 7)
            yield front + good[:-1] + b"\t\n", bad(line, 7)
            for k in range(1, len(fields)):
                for between in (b"\t\t", b" ", b"  ", b" \t", b"\t ", b","):
                    yield front + b"\t".join(fields[:k]) + between + b"\t".join(fields[k:]) + b"\n", bad(line, 7)
            for k in range(1, len(fields)):
                yield front + b"\t".join(fields[:k]) + b"\n", bad(line, 7)
            for more in (b"\t0", b"\t0\t0", b"\t0\t0\t0\t0\t0\t0"):
                yield front + good[:-1] + more + b"\n", bad(line, 7)
            for word in (b"", b"T", b"R", b"t1", b"tt", b"rr", b"tr", b"x", b"0", b"task", b"order", b"#", b" t", b"t "):
                yield front + b"\t".join([word, *fields[1:]]) + b"\n", bad(line, 7)
        yield front + b"r" + GOOD[1:], bad(line, 7)
        yield front + b"t" + rule[1:], bad(line, 7)
        yield front + line_of("t", *FIELDS[:5]), bad(line, 7)
        yield front + b"t\t0\t1\n", bad(line, 7)
        yield front + GOOD[:-1] + rule, bad(line, 7)
        yield front + b"bad\t0\t13\n", bad(line, 7)


def odd_bytes():
    """Bytes that are none of a line's, in every kind of position."""
    odd = [0, 1, 8, 11, 13, 31, 32, 33, 34, 43, 45, 46, 47, 58, 84, 82, 115, 117, 120, 127, 128, 137, 138, 160, *range(176, 186), 242, 244, 254, 255]
    rule = r(0, 1)
    for byte in (bytes([b]) for b in odd):
        for text in (byte + GOOD[1:], GOOD[:1] + byte + GOOD[2:], GOOD[:2] + byte + GOOD[3:], GOOD[:-2] + byte + b"\n", GOOD[:-1] + byte + b"\n",
                     GOOD[:-1] + byte):
            yield text, bad(1, 7)
        for text in (rule[:-1] + byte + b"\n", rule[:-2] + byte + b"\n", rule[:-3] + byte + b"1\n", byte + rule, byte + b"\n", byte):
            yield A + text, bad(4, 7)
    yield A.replace(b"\n", b"\r\n"), bad(1, 7)
    yield A.replace(b"\n", b"\r"), bad(1, 7)
    yield b"\xef\xbb\xbf" + A, bad(1, 7)
    yield t("\xd9\xa1", *FIELDS[1:]), bad(1, 7)


def ranges():
    """Each range at its ends, and which refusal comes first."""
    for front, line in ((b"", 1), (GOOD, 2), (A + r(1, 0), 5)):
        for number, rows in ((1, ((1, 0, 1, 0), (1, 1000001, 1, 0), (0, 0, 0, 0), (9, 0, 9, 9, 10))),
                             (2, ((0, 4, 4, 0), (5, 4, 4, 0), (0, 4, 0, 4, 5), (5, 4, 5, 4, 6))),
                             (3, ((1, 4, 0, 0), (1, 4, 5, 0), (4, 4, 0, 4, 5))),
                             (4, ((1, 4, 4, 4), (1, 4, 4, 5), (1, 4, 1, 4, 2))),
                             (5, ((1, 4, 4, 0, 2), (1, 4, 4, 3, 4), (1, 1, 1, 0, 2), *((3, 4, 4, 0, *on(k, 4)) for k in range(RESOURCES))))):
            for row in rows:
                yield front + t(*row), bad(line, number)
                yield front + t(*row) + b"x\n", bad(line, number)
                yield front + t(*row)[:-1] + b"\t\n", bad(line, 7)
    yield t(1, 1, 1, 0), order((0, 1))
    yield t(4, 4, 4, 0), order((0, 4))
    yield t(1, 65536, 65536, 0), order((0, 1))
    yield t(65537, 131072, 131072, 0), order((0, 65537))
    yield t(1, 4, 4, 3), order((0, 4))
    yield t(1, 1000000, 1000000, 999999), order((0, 1000000))
    yield t(1000000, 1000000, 1000000, 0, *(1000000 for _ in range(RESOURCES))), order((0, 1000000))
    yield t(2, 1000000, 1, 999999), late((0, 0))
    yield t(2, 1000000, 1, 999998), late((0, 1000000))


def rule_places():
    """A rule is judged against the tasks that stand before it."""
    yield r(0, 0), bad(1, 6)
    yield r(0, 0) + A, bad(1, 6)
    yield r(0, 1), bad(1, 11)
    yield r(0, 1) + EASY * 2, bad(1, 11)
    yield EASY + r(0, 1) + EASY, bad(2, 11)
    yield EASY + r(1, 0) + EASY, bad(2, 11)
    yield EASY + r(0, 0) + EASY, bad(2, 6)
    yield EASY + r(1, 1), bad(2, 6)
    yield EASY * 2 + r(0, 2) + EASY, bad(3, 11)
    yield EASY * 2 + r(2, 0) + EASY, bad(3, 11)
    yield EASY * 2 + r(2, 2), bad(3, 6)
    yield EASY * 2 + r(2, 3), bad(3, 11)
    yield EASY * 2 + r(1, 0) + EASY + r(2, 1), order((2, 1), (1, 2), (0, 3))
    yield EASY * 2 + r(1, 0) + EASY + r(2, 3), bad(5, 11)
    yield A + r(1, 0) + r(0, 0) + b"x\n", bad(5, 6)
    yield A + r(1, 0) + r(0, 3) + r(0, 0), bad(5, 11)
    yield A + b"x\n" + r(0, 0), bad(4, 7)
    for far in (3, 64, 65, 128, 129, 256, 257, 65536, 65537):
        yield A + r(far, 2), bad(4, 11)
        yield A + r(2, far), bad(4, 11)


def weights():
    """A weight's range at its ends, which refusal comes first, and that it plays no part in a listing."""
    wrong = (0, 1001, 1002, 1024, 1025, 9999, 10000, 65536, 65537, 1000000)
    for front, line in ((EASY * 2, 3), (A, 4), (A + r(1, 0, 1000), 5)):
        for weight in wrong:
            yield front + r(0, 1, weight), bad(line, 15)
            yield front + r(0, 1, weight) + b"x\n", bad(line, 15)
            yield front + r(0, 1, weight)[:-1] + b"\t\n", bad(line, 7)
        for weight in (0, 1001):
            yield front + r(1, 1, weight), bad(line, 6)
            yield front + r(3, 3, weight), bad(line, 6)
            yield front + r(3, 0, weight), bad(line, 11)
            yield front + r(0, 3, weight), bad(line, 11)
            yield front + r(0, 1) + r(0, 1, weight), bad(line + 1, 15)
            yield front + r(0, 1, weight) + r(0, 0), bad(line, 15)
            yield front + r(0, 0) + r(0, 1, weight), bad(line, 6)
            yield front + r(0, 1, weight) + t(1, 0, 1, 0), bad(line, 15)
        yield front + line_of("r", 0, 1), bad(line, 7)
        yield front + line_of("r", 0, 1, 1, 1), bad(line, 7)
    for weight in (0, 1, 1000, 1001):
        yield r(0, 0, weight), bad(1, 6)
        yield r(0, 1, weight), bad(1, 11)
    for weight in (1, 2, 9, 10, 11, 99, 100, 101, 500, 999, 1000):
        yield EASY * 2 + r(1, 0, weight), order((1, 1), (0, 2))
    for weight in (1, 2, 1000):
        yield A + r(1, 0, weight), order((1, 2), (0, 3), (2, 10))
        yield A + r(1, 0, weight) + r(2, 0, 1) + r(2, 1, 1001 - weight), core((2, 2, 1))
        yield A + r(0, 1, weight) + r(1, 0, 1001 - weight), core((0, 0, 1), (1, 1, 0))
        yield A + r(2, 1, weight) + r(2, 1, 1001 - weight), core((1, 2, 1))
        yield A.replace(b"12\t12", b"12\t9") + r(1, 0, weight), late((0, 0), (1, 0), (2, 10))
    yield EASY * 2 + b"".join(r(0, 1, 1 + 7 * k) for k in range(128)) + r(0, 1, 1001), bad(131, 12)


def full_sheets():
    """After 64 tasks and after 128 rules. A taken sheet of 64 tasks has too many orders to write out."""
    longest = t(1000000, 1000000, 1000000, 999999, *(1000000 for _ in range(RESOURCES)))
    full = GOOD * 64
    for more, number in ((GOOD, 10), (GOOD * 2, 10), (GOOD + b"x\n", 10), (b"x\n", 7), (b"\n", 7), (GOOD[:-1], 7), (line_of("t", *FIELDS[:-1]), 7),
                         (t(1, 0, 1, 0), 1), (t(5, 4, 4, 0), 2), (t(1, 4, 5, 0), 3), (t(1, 4, 4, 4), 4), (t(1, 4, 4, 0, 2), 5), (r(63, 64), 11), (r(64, 63), 11), (r(64, 64), 6)):
        yield full + more, bad(65, number)
    yield full + r(63, 0) + r(0, 63) + GOOD, bad(67, 10)
    for task in (GOOD, longest):
        full = task * 64 + r(63, 62) * 128
        yield full + r(63, 62), bad(193, 12)
        yield full + GOOD, bad(193, 10)
        yield full + b"x\n", bad(193, 7)
    rules = EASY * 2 + r(0, 1) * 128
    for more, number in ((r(0, 1), 12), (r(1, 0), 12), (r(0, 1) * 9, 12), (r(0, 1) + b"x\n", 12), (r(0, 0), 6), (r(7, 7), 6), (r(0, 2), 11), (r(2, 0), 11), (r(0, 1)[:-1], 7),
                         (line_of("r", 0), 7), (line_of("r", 0, 1), 7), (line_of("r", 0, 1, 1, 1), 7), (r(0, 1, 0), 12), (r(1, 0, 1001), 12), (r(0, 0, 0), 6), (r(0, 2, 1001), 11), (b"\n", 7), (t(1, 0, 1, 0), 1), (EASY[:-1], 7)):
        yield rules + more, bad(131, number)
    yield rules + EASY + r(2, 0), bad(132, 12)
    yield rules, order((0, 1), (1, 2))
    yield rules + EASY, order((0, 1), (1, 2), (2, 3))
    yield EASY * 2 + (r(0, 1) + r(1, 0)) * 64, core((126, 0, 1), (127, 1, 0))
    yield EASY * 2 + r(1, 0) + r(0, 1) * 127, core((0, 1, 0), (127, 0, 1))
    for line in (9, 10, 11, 99, 100, 101, 130):
        yield EASY * 2 + r(0, 1) * (line - 3) + b"x\n", bad(line, 7)
        yield EASY * 2 + r(0, 1) * (line - 3) + r(0, 2), bad(line, 11)


def sizes():
    """Texts around 16,384 bytes: one byte more is 8, whatever they hold."""
    two = EASY * 2
    fronts = ((b"", 1, 7), (two + r(0, 1) * 129, 131, 12))
    for front, line, number in fronts:
        for size in (16384, 16385):
            answer = bad(line, number) if size == 16384 else bad(0, 8)
            yield front + b"x" * (size - len(front) - 1) + b"\n", answer
    yield b"x" * 16384, bad(1, 7)
    yield b"\n" * 16384, bad(1, 7)
    yield (GOOD * 2000)[:16385], bad(0, 8)


def verdicts():
    """Late rows, equal rules, circles, and responses of every length."""
    for row, response in (((3, 4, 2, 0), 3), ((1, 4, 2, 2), 3), ((1, 4, 2, 3), 4), ((3, 4, 1, 2), 0), ((2, 4, 3, 2), 4), ((3, 4, 2, 0, 3), 3)):
        yield t(*row), late((0, response))
        yield t(*row) + EASY, late((0, response))
        yield EASY + t(*row) + r(0, 1), late((1, response))
        yield EASY + t(*row) + r(0, 1) + r(1, 0), late((1, response))
    whole = t(4, 4, 1, 0)  # leaves no time for any other
    yield whole, late((0, 4))
    yield whole + EASY, late((0, 0), (1, 0))
    yield EASY + whole + r(0, 1), late((0, 0), (1, 0))
    yield EASY + whole + r(0, 1) + r(1, 0), late((0, 0), (1, 0))
    yield t(1, 4, 3, 2), order((0, 3))
    yield t(2, 4, 4, 0) * 2, order((0, 2), (1, 4))
    yield t(2, 4, 4, 0) + t(2, 4, 3, 0), order((1, 2), (0, 4))
    yield A + r(1, 0) * 2, order((1, 2), (0, 3), (2, 10))
    yield A + r(2, 1) * 2, core((1, 2, 1))
    yield A + (r(0, 1) + r(1, 0)) * 2, core((2, 0, 1), (3, 1, 0))
    yield EASY * 3 + r(0, 1) + r(1, 2) + r(2, 0), core((0, 0, 1), (1, 1, 2), (2, 2, 0))
    yield EASY * 3 + r(0, 1) + r(1, 2) + r(0, 2) + r(2, 0), core((2, 0, 2), (3, 2, 0))
    yield EASY * 4 + r(3, 2) + r(2, 1) + r(1, 0), order((3, 1), (2, 2), (1, 3), (0, 4))
    for size in (5, 6, 7):
        circle = [(k, k, (k + 1) % size) for k in range(size)]
        yield EASY * size + b"".join(r(u, l) for _, u, l in circle), core(*circle)
    tight = [(k, k, 6) for k in range(6)]
    yield EASY * 6 + t(1, 100, 6, 0) + b"".join(r(u, l) for _, u, l in tight), core(*tight)
    yield EASY * 8, order(*((k, k + 1) for k in range(8)))
    for response in (9, 10, 99, 100, 999, 1000, 9999, 10000, 99999, 100000, 999999):
        yield t(1, 1000000, 1000000, response - 1), order((0, response))
        yield t(1, 1000000, response - 1, response - 1), late((0, response))


def late_tasks():
    """Late by one, up to the period and past it, beside tasks that have a level, and with rules that play no part."""
    yield t(2, 10, 10, 8), order((0, 10))
    yield t(2, 10, 9, 8), late((0, 10))
    yield t(2, 10, 9, 9), late((0, 0))
    yield t(3, 10, 2, 7), late((0, 10))
    yield t(3, 10, 2, 8), late((0, 0))
    two = t(2, 10, 3, 0) * 2  # one of them must be lower, with response 4
    yield two, late((0, 4), (1, 4))
    yield two + EASY, late((0, 4), (1, 4))
    yield EASY + two + r(0, 1) + r(0, 2), late((1, 4), (2, 4))
    yield EASY + two + r(1, 0) + r(0, 1), late((1, 4), (2, 4))
    yield two + t(2, 10, 4, 0), late((0, 6), (1, 6), (2, 6))
    yield two + t(2, 10, 6, 0), late((0, 4), (1, 4))
    yield two + t(2, 5, 4, 0), late((0, 8), (1, 8), (2, 0))
    yield two + t(1, 100, 6, 0) + EASY + r(3, 2), late((0, 4), (1, 4))
    yield EASY * 6 + two, late((6, 4), (7, 4))


def sections():
    """Who blocks whom, and who does not."""
    for k in range(RESOURCES):
        user = t(1, 4, 4, 0, *on(k, 1))
        yield user + t(3, 12, 12, 0, *on(k, 3)), order((0, 4), (1, 4))
        yield user + t(4, 12, 12, 0, *on(k, 4)), late((0, 0))
        yield user + t(4, 12, 12, 0, *on(k, 3)), order((0, 4), (1, 6))  # a section shorter than C
        yield user + t(4, 12, 12, 0, *on((k + 1) % RESOURCES, 4)), order((0, 1), (1, 6))  # another resource
        yield user + t(1, 6, 6, 0) + t(3, 12, 12, 0, *on(k, 3)), order((0, 4), (1, 6), (2, 6))  # the task between them uses none
    yield t(1, 4, 1, 0) + t(2, 12, 12, 0, 2) * 2, order((0, 1), (1, 6), (2, 6))  # only tasks below use it
    yield t(2, 4, 2, 0, 2), order((0, 2))  # its own section
    yield t(2, 8, 8, 0, 2) + t(1, 8, 3, 0, 1) + r(0, 1), order((0, 3), (1, 3))  # a section of a task above
    yield t(2, 8, 4, 0, 2) * 2, order((0, 4), (1, 4))  # the lowest has nothing below it
    yield t(2, 8, 3, 0, 2) * 2, late((0, 4), (1, 4))
    yield t(1, 8, 4, 0, 1) + t(4, 12, 12, 0, 4), late((0, 5))  # blocked by a task that has a level
    yield t(1, 8, 4, 0, 1) + t(4, 12, 12, 0, 4) + r(0, 1), late((0, 5))
    yield t(1, 9, 3, 0, 1, 1) + t(3, 20, 20, 0, 1, 2) + t(9, 90, 90, 0, 0, 0, 9), order((0, 3), (1, 4), (2, 14))  # the longest of several
    yield t(1, 9, 3, 0, 1, 1) + t(3, 20, 20, 0, 1, 3), late((0, 4))
    yield t(1, 4, 3, 1, 1) + t(2, 12, 12, 0, 2) + r(1, 0), late((0, 4))  # late in either order, with rules or without
    yield t(2, 10, 4, 0, 2) + t(3, 10, 10, 0, 3) + EASY + r(1, 0), late((0, 5))  # above it blocks, below it runs
    yield t(2, 10, 5, 0, 2) + t(3, 10, 10, 0, 3) + EASY + r(1, 0), order((1, 5), (0, 5), (2, 6))


def made():
    for part in (cases, ends, numbers, forms, odd_bytes, ranges, rule_places, weights, full_sheets, sizes, verdicts, late_tasks, sections):
        yield from part()


def check_refusals(answers):
    """Each refusal stands at line 1 and at a later line, where it can."""
    seen = {tuple(map(int, a.split("\t")[1:])) for a in answers if a.startswith("bad")}
    first = {number for line, number in seen if line == 1}
    later = {number for line, number in seen if line > 1}
    if not first >= {1, 2, 3, 4, 5, 6, 7, 11} or not later >= {1, 2, 3, 4, 5, 6, 7, 10, 11, 12, 15} or not seen >= {(0, 8), (0, 13)}:
        sys.exit("make.py: a refusal is missing")


def load(program):
    """The enumerating program, as a module."""
    sys.dont_write_bytecode = True
    spec = importlib.util.spec_from_file_location("enumerating", program)
    enumerating = importlib.util.module_from_spec(spec)
    spec.loader.exec_module(enumerating)
    return enumerating


def store(room, pieces, answers):
    with open(room + "/stdin", "wb") as stdin, open(room + "/stdout", "w") as stdout:
        stdin.write(b"\f".join(pieces))
        stdout.write("".join(answers))


def main(program, stage, seed, count, room):
    os.makedirs(room, exist_ok=True)
    subprocess.run([sys.executable, program, "--stage", stage, "--vectors", seed, count, room], check=True)
    enumerating = load(program)
    with open(room + "/stdin", "rb") as stdin:
        texts = [text for text in stdin.read().split(b"\f")[:int(count)] if len(text) <= 1000]
    drawn = len(texts)
    answers = [enumerating.answer(text, stage) for text in texts]
    for text, want in made():
        got = enumerating.answer(text, stage)
        if got != want or b"\f" in text:
            sys.exit("make.py: %r\nhas the answer %r, and not %r" % (text[:200], got, want))
        texts.append(text)
        answers.append(got)
    check_refusals(answers[drawn:])
    if len(b"\f".join(texts)) > 524288:
        sys.exit("make.py: the texts have more bytes than the program reads")
    store(room, texts, answers)
    print("%d drawn texts and %d made ones" % (drawn, len(texts) - drawn))


if __name__ == "__main__":
    if len(sys.argv) != 6:
        sys.exit("usage: make.py PATH/enumerate.py STAGE SEED COUNT DIR")
    main(*sys.argv[1:])
