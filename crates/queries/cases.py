#!/usr/bin/env python3
"""Makes the stored questions and their answers.

    cases.py PATH/enumerate.py STAGE SEED COUNT DIR

STAGE is the letter of the last request of document 02 that holds, here g. DIR/stdin gets, joined by form feeds
(byte 12), questions of five kinds, of each the drawn ones and then those below; COUNT are drawn of the first two,
a third as many of the third, of the fourth as many as come among three times COUNT with the second, and of the fifth
those with a text of at most 1,000 bytes among three times COUNT. `longest` and `cores` are drawn with the letter f
whatever STAGE is: from g on that program draws others, with `join` among them, and what is stored must stay.
The first line is the question: `trial` and the marks, `longest` and a place, `drop` and a budget, `cores` and the
length of the buffer, or `join` and two places. Then comes the text that it is asked of. DIR/stdout gets the answers.
But for what to drop, refusal 9, and lists of which the script says what each way out drops, they are the enumerating
program's own: of a trial `yes` where one of the orders that meet every deadline keeps the marked rules. The
questions below also carry the answer that is known of them, and the two must agree. What to drop is left free: there
the answers are those of `queries`, built before by `rt run`, and the enumerating program says what is wrong with
each. Of the questions below the least weight is known too, or the whole answer. Anything wrong ends the script. The
stored files have SEED 1 and COUNT 600.
"""
import itertools
import json
import os
import random
import re
import subprocess
import sys
import tempfile
from unittest import mock

sys.dont_write_bytecode = True
sys.path.insert(0, os.path.join(os.path.dirname(os.path.abspath(__file__)), "..", "vectors"))
from make import A, B, EASY, GOOD, RESOURCES, bad, line_of, load, on, r, store, t  # noqa: E402

HERE = os.path.dirname(os.path.abspath(__file__))
QUERIES = os.path.join(HERE, "out", "queries")
RULES = 128  # places for rules, used or not
K4 = A.replace(b"12\t12", b"12\t9")
SHORT, TABLE = 12, 4096  # so many rules, with so great a budget, leave no way but the cheapest
CORES = 924  # a short list has at most so many
BUDGETS = (1, 4095, 4096, 10000)
DRAWN = 1000  # so many bytes a text has at most that is drawn for `drop` or `join`
BEFORE_JOIN = "f"  # with which `longest` and `cores` are drawn


def example(name):
    with open(os.path.join(HERE, "..", "..", "examples", name + ".txt"), "rb") as text:
        return text.read()


def asked(enumerating, stage, marks, text):
    """Does one of the orders that meet every deadline keep the marked rules? Or the refusal of the text."""
    try:
        tasks, rules = enumerating.read(text, stage)
    except enumerating.Refused as refused:
        return bad(*refused.args)
    marked = {k for k in range(len(rules)) if marks[k:k + 1] == "1"}
    return "yes\n" if enumerating.possible(enumerating.all_broken(tasks, rules), marked) else "no\n"


def drawn_trials(enumerating, stage, rng, count):
    for _ in range(count):
        text = enumerating.draw_text(rng, stage, 0.05)
        places = text.count(b"\nr") + rng.choice([0, 0, 1, RULES])  # marks at places without a rule too
        likely = rng.choice([0.3, 0.5, 0.8, 1])
        yield "".join("1" if rng.random() < likely else "0" for _ in range(min(places, RULES))), text


def made_trials():
    """Marks, a text, and the answer."""
    yield "", b"", "yes\n"  # no tasks: the one order is the empty one
    yield "1" * RULES, b"", "yes\n"
    yield "", K4, "no\n"  # no order even without rules
    yield "1" * RULES, A.replace(b"12\t12", b"12\t10"), "yes\n"  # K3
    k6 = A + r(1, 0) + r(2, 0) + r(2, 1)  # rule 1 is a core, and so is rule 2
    k7 = A + r(0, 1) + r(1, 0)
    k8 = B + r(1, 0) + r(2, 0)
    for text, m, cores in ((k6, 3, ("010", "001")), (k7, 2, ("11",)), (k8, 2, ("11",))):
        for marks in itertools.product("01", repeat=m):
            clash = any(all(mark == "1" for mark, wanted in zip(marks, core) if wanted == "1") for core in cores)
            for rest in ("", "1", "0" * (RULES - m), "1" * (RULES - m)):  # whatever is marked without a rule
                yield "".join(marks) + rest, text, "no\n" if clash else "yes\n"
    # rules in every place, the last of which closes a circle with each of the others
    ring = EASY * 2 + r(0, 1) * (RULES - 1) + r(1, 0)
    yield "1" * RULES, ring, "no\n"
    yield "1" * (RULES - 1), ring, "yes\n"
    yield "0" * (RULES - 1) + "1", ring, "yes\n"
    for k in (0, 1, 63, 64, RULES - 2):
        yield "0" * k + "1" + "0" * (RULES - 2 - k) + "1", ring, "no\n"
    yield "1" * RULES, EASY * 2 + r(0, 1) * (RULES - 1), "yes\n"
    for weight in (1, 2, 1000):  # weights play no part
        for marks in ("00", "01", "10", "11"):
            yield marks, A + r(0, 1, weight) + r(1, 0, 1001 - weight), "no\n" if marks == "11" else "yes\n"
    # refused texts, whatever is marked
    for marks in ("", "1" * RULES):
        for weight in (0, 1001):
            yield marks, A + r(1, 0) + r(0, 1, weight), bad(5, 15)
        yield marks, A + b"r\t1\t0\n", bad(4, 7)
        yield marks, GOOD[:-1], bad(1, 7)
        yield marks, t(5, 4, 4, 0), bad(1, 2)
        yield marks, A + r(1, 0) + r(1, 1), bad(5, 6)
        yield marks, A + r(1, 3), bad(4, 11)


def drawn_verbs(program, stage, seed, count):
    """Three times COUNT drawn questions, with their texts and answers, by the word that they begin with."""
    kinds = {}
    with tempfile.NamedTemporaryFile("r") as lines:
        subprocess.run([sys.executable, program, "--stage", stage, "--verb-vectors", seed, str(3 * int(count)), lines.name], check=True)
        for case in map(json.loads, lines):
            kinds.setdefault(case["args"][0], []).append((case["args"], case["text"].encode(), case["answer"]))
    return kinds


def longest(place, figure):
    return line_of("longest", place, figure).decode() if figure else "none\n"


def made_longest():
    """A place, a text, and the answer."""
    # a place without a task is 11, on a set without tasks too
    for text, n in ((b"", 0), (GOOD, 1), (A, 3), (GOOD * 64, 64)):
        for place in sorted({n, n + 1, 64, 65, 128, 65536, 9999999}):
            yield place, text, bad(0, 11)
    # one task: its deadline less its jitter, up to the period
    for period in range(1, 6):
        for deadline in range(1, period + 1):
            for jitter in range(period):
                yield 0, t(1, period, deadline, jitter), longest(0, max(deadline - jitter, 0))
    near = {2 ** k + d for k in range(1, 20) for d in (-1, 0, 1)}
    for deadline in sorted({*near, 999998, 999999, 1000000}):
        yield 0, t(1, 1000000, deadline, 0), longest(0, deadline)
    for deadline in (999998, 999999, 1000000):
        yield 0, t(1, 1000000, deadline, 999997), longest(0, deadline - 999997)
    # from the longest section on, whatever stands in the row
    for own in (5, 6, 100):
        yield 0, t(own, 100, 50, 0, 4, 5), longest(0, 50)
        yield 0, t(own, 100, 6, 1, 5, 1), longest(0, 5)
        yield 0, t(own, 100, 5, 1, 5, 1), longest(0, 0)
    yield 0, t(7, 7, 7, 0, 7), longest(0, 7)
    yield 0, t(7, 7, 6, 0, 7), longest(0, 0)
    # sheet A; where it has no order as it stands, by the task asked of or by another; and K4
    for place, figure in ((0, 1), (1, 3), (2, 5)):
        yield place, A, longest(place, figure)
    yield 0, A.replace(b"1\t4\t4", b"4\t4\t4"), longest(0, 1)
    yield 1, A.replace(b"2\t6\t6", b"6\t6\t6"), longest(1, 3)
    yield 2, A.replace(b"3\t12", b"12\t12"), longest(2, 5)
    for place in (1, 2):
        yield place, A.replace(b"1\t4\t4", b"4\t4\t4"), longest(place, 0)
    for place, figure in ((0, 0), (1, 1), (2, 2)):
        yield place, K4, longest(place, figure)
    # sheet B with rules, a circle of rules, and rules in every place
    for place, figure in ((0, 2), (1, 2), (2, 6)):
        yield place, B + r(1, 0), longest(place, figure)
    for place in (0, 1, 2):
        yield place, B + r(1, 0) + r(2, 0), longest(place, 0)
        yield place, A + r(0, 1) + r(1, 0), longest(place, 0)
    for place in (0, 1):
        yield place, EASY * 2 + r(0, 1) * RULES, longest(place, 99)
        yield place, EASY * 2 + r(0, 1) * (RULES - 1) + r(1, 0), longest(place, 0)
    # weights play no part
    for weight in (1, 2, 1000):
        for place, figure in ((0, 2), (1, 2), (2, 6)):
            yield place, B + r(1, 0, weight), longest(place, figure)
            yield place, A + r(0, 1, weight) + r(1, 0, 1001 - weight), longest(place, 0)
    # blocking does not grow with the execution time
    for k in range(RESOURCES):
        shared = t(1, 4, 4, 0, *on(k, 1)) + t(3, 12, 12, 0, *on(k, 3))
        yield 0, shared, longest(0, 1)
        yield 1, shared, longest(1, 9)
    # the examples
    for name, figures in (("carton-folder", (77, 130, 137, 0)), ("door-drive", (92, 280, 250, 212, 3270, 31990)),
                          ("packing-line", (0, 0, 0, 50, 0, 0, 0))):
        for place, figure in enumerate(figures):
            yield place, example(name), longest(place, figure)
    # refused texts, also where the place has no task
    for place in (0, 1, 64):
        for weight in (0, 1001):
            yield place, A + r(1, 0) + r(0, 1, weight), bad(5, 15)
        yield place, A + b"r\t1\t0\n", bad(4, 7)
        yield place, GOOD[:-1], bad(1, 7)
        yield place, t(5, 4, 4, 0), bad(1, 2)
        yield place, A + r(1, 0) + r(1, 1), bad(5, 6)
        yield place, A + r(1, 3), bad(4, 11)


def drawn_drops(enumerating, stage, rng, count):
    """Those of at most 1,000 bytes."""
    while count:
        (_, budget), text = enumerating.draw_drop(rng, stage)
        if len(text) <= DRAWN:
            yield int(budget), text
            count -= 1


def about(rules, budgets=BUDGETS):
    """Budgets on both sides of what so many rules give a claim on."""
    return sorted({*budgets, *(budget for budget in (rules, rules + 1, 2 * rules, 2 * rules + 1) if budget)})


def ring(size):
    """A circle of rules, the cheapest of which has weight 1; and what each way out drops."""
    return EASY * size + b"".join(r(k, (k + 1) % size, 1 + (5 * k + 3) % size) for k in range(size)), 1, [{k} for k in range(size)]


def circles():
    """64 tasks that any order serves and 128 rules; the least weight; and what each way out drops, of each of five circles a rule
    with its copies."""
    rules, rings, least, first = [], [], 0, 0
    for size in range(2, 7):
        ring_rules = []
        for k in range(size):
            copies = [r(first + k, first + (k + 1) % size, 10 * size - k)] * (1 + k % 2)
            ring_rules.append(frozenset(range(len(rules), len(rules) + len(copies))))
            rules += copies
        rings.append(ring_rules)
        least += min((10 * size - k) * (1 + k % 2) for k in range(size))
        first += size
    for k in range(RULES - len(rules)):  # upward through the other tasks
        u = first + k % 40
        rules.append(r(u, u + 1 + k % 4, 1 + k % 9))
    return EASY * 64 + b"".join(rules), least, [frozenset().union(*way) for way in itertools.product(*rings)]


def made_drops():
    """A budget, a text, and the whole answer or the least weight of what can be dropped; for more than 8 tasks, what each way out
    drops."""
    # no tasks, a budget out of range, and refused texts first
    for budget in (0, 1, 10000, 10001):
        yield budget, b"", bad(0, 13), None
        yield budget, GOOD[:-1], bad(1, 7), None
        yield budget, A + r(1, 3), bad(4, 11), None
        yield budget, A + r(1, 0) + r(0, 1, 1001), bad(5, 15), None
    for budget in (0, 10001, 65537, 9999999):
        for text in (GOOD, K4, A + r(0, 1) + r(1, 0)):
            yield budget, text, bad(0, 16), None
    # no order even without rules
    for budget in BUDGETS:
        for text in (K4, K4 + r(0, 1), K4 + r(0, 1) + r(1, 0), t(2, 4, 1, 0), EASY + t(2, 4, 1, 0) + r(0, 1) * 13, example("carton-folder")):
            yield budget, text, "none\t1\n", None
    # all rules can be had
    for budget in BUDGETS:
        yield budget, GOOD, 0, None
        yield budget, A, 0, None
    for text, rules in ((A + r(1, 0, 1000), 1), (B + r(1, 0, 7), 1), (A + r(1, 0) * 2, 2), (example("door-drive"), 2),
                        (EASY * 8 + b"".join(r(k, k + 1, 100) for k in range(7)), 7)):
        for budget in about(rules, (1, 4096)):
            yield budget, text, 0, None
    yield 10000, EASY * 2 + r(0, 1) * RULES, 0, None
    # K6, K7 and K8, either of two rules being the cheaper one
    for one, other in ((1, 1), (1, 2), (2, 1), (1, 1000), (1000, 999)):
        for budget in about(2, (1, 4095, 4096)):
            yield budget, A + r(0, 1, one) + r(1, 0, other), min(one, other), None
            yield budget, B + r(1, 0, one) + r(2, 0, other), min(one, other), None
        for budget in about(3, (1, 4095, 4096)):
            yield budget, A + r(1, 0, 5) + r(2, 0, one) + r(2, 1, other), one + other, None
    # equal rules: both go, or the one against them; and a rule that alone can't be had, twice
    for weight in (5, 9, 10, 11):
        for budget in about(3, (1, 4095, 4096)):
            yield budget, A + r(0, 1, 4) + r(1, 0, weight) + r(0, 1, 6), min(10, weight), None
    for budget in about(2):
        yield budget, A + r(2, 1, 3) + r(2, 1, 4), 7, None
    # 12 rules with several cores: four circles of two tasks; one of two and two of three; six rules against six
    pairs = EASY * 8 + b"".join(r(2 * k, 2 * k + 1, 3 + k) + r(2 * k + 1, 2 * k, 5 - k) + r(k, k + 2, 9) for k in range(4))
    several = (EASY * 8 + r(0, 1, 5) + r(1, 0, 6) + r(2, 3, 9) + r(3, 4, 8) + r(4, 2, 7) + r(5, 6, 4) + r(6, 7, 3) + r(7, 5, 2)
               + r(0, 2) + r(0, 5) + r(1, 3) + r(2, 5))
    against = EASY * 2 + r(0, 1, 10) * 6 + r(1, 0, 9) * 6
    for budget in about(12, (4095, 4096, 10000)):
        yield budget, pairs, 3 + 4 + 3 + 2, None
        yield budget, several, 5 + 7 + 2, None
        yield budget, against, 54, None
    # 13 rules, one more than are solved whole
    for budget in about(13, (4096, 10000)):
        yield budget, several + r(7, 0, 1), 5 + 7 + 2 + 1, None
        yield budget, against + r(0, 1, 1), 54, None
    # circles of more rules than a short list has, and of fewer
    for size in (9, 12, 13):
        for budget in about(size, (1, 4096, 10000)):
            yield (budget, *ring(size))
    # 64 tasks; and rules in every place: one against all others, half against half, and five circles
    for budget in (65, 10000):
        yield (budget, *ring(64))
    for budget in (128, 129, 10000):
        yield budget, EASY * 2 + r(0, 1) * (RULES - 1) + r(1, 0, 100), 100, None
    for budget in (1, 10000):
        yield budget, EASY * 2 + r(0, 1) * (RULES - 1) + r(1, 0, 200), RULES - 1, None
        yield budget, EASY * 2 + (r(0, 1) + r(1, 0)) * (RULES // 2), RULES // 2, None
    for budget in (129, 10000):
        yield (budget, *circles())
    # an example with a core
    for budget in about(4):
        yield budget, example("packing-line"), 10, None


def every(*cores):
    """The answer with these cores, each the places of its rules."""
    numbered = sorted((sum(1 << place for place in core), core) for core in cores)
    return (line_of("cores", len(cores)) + b"".join(line_of(str(number), *core) for number, core in numbered)).decode()


def made_cores():
    """The length of a buffer, a text, the answer; and what each way out drops, where there are too many orders to write out."""
    # no tasks, a rule too many, and a short buffer, in this order; refused texts before them
    for room in (0, 1, CORES - 1, CORES):
        yield room, b"", bad(0, 13), None
        for rules in (SHORT + 1, SHORT + 2, RULES):
            yield room, EASY * 2 + r(0, 1) * rules, bad(0, 24), None
            yield room, K4 + r(0, 1) * rules, bad(0, 24), None
        yield room, GOOD[:-1], bad(1, 7), None
        yield room, A + r(1, 3), bad(4, 11), None
        yield room, A + r(1, 0) + r(0, 1, 1001), bad(5, 15), None
    for room in (0, 1, 2, SHORT, TABLE // 16, CORES - 1):
        for text in (GOOD, A, K4, A + r(0, 1) + r(1, 0), EASY * 2 + r(0, 1) * SHORT):
            yield room, text, bad(0, 9), None
    for room in (CORES, CORES + 1, 1000):
        # none, and the empty one
        for text in (GOOD, A, B + r(1, 0), EASY * 2 + r(0, 1) * SHORT, example("door-drive")):
            yield room, text, every(), None
        for text in (K4, K4 + r(0, 1) + r(1, 0), t(2, 4, 1, 0), EASY + t(2, 4, 1, 0) + r(0, 1) * SHORT, example("carton-folder")):
            yield room, text, every(()), None
        # K6, K7 and K8
        yield room, A + r(1, 0) + r(2, 0) + r(2, 1), every((1,), (2,)), None
        yield room, A + r(0, 1) + r(1, 0), every((0, 1)), None
        yield room, B + r(1, 0) + r(2, 0), every((0, 1)), None
    # equal rules, apart and against another; weights play no part
    for weight in (1, 2, 1000):
        yield CORES, A + r(2, 1, weight) * 2, every((0,), (1,)), None
        yield CORES, A + r(0, 1, weight) + r(1, 0) + r(0, 1), every((0, 1), (1, 2)), None
        yield CORES, EASY * 2 + r(0, 1, weight) * 6 + r(1, 0) * 6, every(*itertools.product(range(6), range(6, SHORT))), None
    # each place alone, the first and the last with the others, and a circle of all
    for place in range(SHORT):
        yield CORES, A + r(0, 1) * place + r(2, 0) + r(0, 1) * (SHORT - 1 - place), every((place,)), None
    yield CORES, EASY * 2 + r(0, 1) + r(1, 0) * (SHORT - 1), every(*((0, place) for place in range(1, SHORT))), None
    yield CORES, EASY * 2 + r(0, 1) * (SHORT - 1) + r(1, 0), every(*((place, SHORT - 1) for place in range(SHORT - 1))), None
    for size in (2, 5, 8):
        yield CORES, EASY * size + b"".join(r(k, (k + 1) % size) for k in range(size)), every(tuple(range(size))), None
    yield (CORES, EASY * SHORT + b"".join(r(k, (k + 1) % SHORT) for k in range(SHORT)), every(tuple(range(SHORT))),
           [frozenset({place}) for place in range(SHORT)])
    # of 12 rules any 5 can be kept and no 6: as many cores as there can be; and any 6, and any 7
    for kept in (5, 6, 7):
        low = t(1, 100, kept + 1, 0) + t(1, 100, 100, 0) * SHORT + b"".join(r(k + 1, 0) for k in range(SHORT))
        ways = [frozenset(way) for way in itertools.combinations(range(SHORT), SHORT - kept)]
        yield CORES, low, every(*itertools.combinations(range(SHORT), kept + 1)), ways


def listed(enumerating, stage, room, text, ways):
    """The enumerating program's answer; a short buffer is refused last."""
    with mock.patch.object(enumerating, "all_broken", enumerating.all_broken if ways is None else lambda tasks, rules: ways):
        answer = enumerating.answer(text, stage, ("cores",))
    return bad(0, 9) if room < CORES and answer.startswith("cores") else answer


def refused_joins():
    """Two places, a text, and why it is turned away."""
    both = r(0, 1) + r(1, 0)
    # equal places, with a task there or without; then a missing one, or both missing
    for text, n in ((b"", 0), (GOOD, 1), (A, 3), (B, 3)):
        for place in range(n):
            yield place, place, text, bad(0, 6)
        for place in sorted({n, n + 1, 64, 65, 128, 65536, 9999999}):
            yield place, place, text, bad(0, 6)
            for other in (*range(n), 9999998):
                yield other, place, text, bad(0, 11)
    for one, other, number in ((63, 63, 6), (64, 64, 6), (63, 64, 11), (64, 65, 11)):
        yield one, other, GOOD * 64, bad(0, number)
    for one, other, number in ((0, 0, 6), (1, 1, 6), (1, 2, 11), (0, 64, 11)):  # where rules stand both ways and the sum is too long
        yield one, other, t(3, 4, 4, 0) * 2 + both, bad(0, number)
    # different periods, also where rules stand both ways, and where the sum passes one period or the two
    for tasks in (t(1, 4, 4, 0) + t(1, 5, 5, 0), t(1, 4, 4, 0) + t(1, 6, 4, 0), t(2, 4, 4, 0) + t(3, 5, 5, 0), t(4, 4, 4, 0) + t(5, 5, 5, 0),
                  t(1, 999999, 999999, 0) + t(1, 1000000, 999999, 0), t(1, 1, 1, 0) + t(1000000, 1000000, 1000000, 0)):
        for rules in (b"", r(0, 1), r(1, 0), both):
            yield 0, 1, tasks + rules, bad(0, 17)
    for one, other in itertools.combinations(range(3), 2):
        yield one, other, A, bad(0, 17)
        yield one, other, A + r(one, other) + both + r(other, one), bad(0, 17)
    yield 0, 3, example("packing-line"), bad(0, 17)
    # rules both ways, also where the sum passes the period; equal ones, far apart, and among others
    for tasks in (EASY * 2, t(3, 4, 4, 0) * 2, t(1000000, 1000000, 1000000, 0) * 2):
        for rules in (both, r(1, 0) + r(0, 1), r(0, 1, 1000) * 2 + r(1, 0) * 2):
            yield 0, 1, tasks + rules, bad(0, 18)
    for rules in (r(0, 1) * (RULES - 1) + r(1, 0), r(1, 0) + r(0, 1) * (RULES - 1)):
        yield 0, 1, EASY * 2 + rules, bad(0, 18)
    yield 1, 3, EASY * 4 + r(0, 1) + r(1, 3) + r(1, 2) + r(2, 3) + r(3, 1) + r(3, 0), bad(0, 18)
    yield 0, 63, EASY * 64 + r(63, 0) + r(0, 63), bad(0, 18)
    # a sum past the period, by one and by more; rules one way
    for period in (1, 2, 3, 10, 1000000):
        for own in sorted({1, period // 2 + 1, period}):
            for other in sorted({period + 1 - own, period}):
                yield 0, 1, t(own, period, period, 0) + t(other, period, 1, period - 1), bad(0, 2)
    for rules in (r(0, 1), r(1, 0), r(1, 0) * 2, r(0, 2) + r(2, 1)):
        yield 0, 1, t(3, 4, 4, 0) * 2 + GOOD + rules, bad(0, 2)
    # refused texts, also where the places are equal or without a task
    for one, other in ((0, 1), (0, 0), (64, 9999999)):
        for weight in (0, 1001):
            yield one, other, A + r(1, 0) + r(0, 1, weight), bad(5, 15)
        yield one, other, A + b"r\t1\t0\n", bad(4, 7)
        yield one, other, GOOD[:-1], bad(1, 7)
        yield one, other, t(5, 4, 4, 0), bad(1, 2)
        yield one, other, A + r(1, 0) + r(1, 1), bad(5, 6)
        yield one, other, A + r(1, 3), bad(4, 11)


def joined_rows():
    """Two places, a text, and the joined text: what becomes of the figures."""
    # the sum, up to the period, whatever the deadline and the jitter
    for period in (2, 3, 10, 1000000):
        for own in sorted({1, period // 2, period - 1}):
            yield 0, 1, t(own, period, 1, period - 1) + t(period - own, period, 1, period - 1), t(period, period, 1, period - 1)
    yield 0, 1, t(4, 10, 10, 0) + t(5, 10, 10, 0), t(9, 10, 10, 0)
    # the smaller deadline and the larger jitter, of one task or of each one
    for deadline, jitter in itertools.product((1, 49, 51, 100), (0, 29, 31, 99)):
        yield 0, 1, t(1, 100, 50, 30) + t(2, 100, deadline, jitter), t(3, 100, min(deadline, 50), max(jitter, 30))
    # the longer section, per resource
    for k in range(RESOURCES):
        for own, other in ((3, 0), (3, 2), (2, 3), (0, 3), (3, 3)):
            yield 0, 1, t(4, 20, 20, 0, *on(k, own)) + t(5, 20, 20, 0, *on(k, other)), t(9, 20, 20, 0, *on(k, 3))
        yield 0, 1, t(4, 20, 20, 0, *on(k, 1)) + t(5, 20, 20, 0, 1, 2, 3, 4, 5, 4, 3, 2), t(9, 20, 20, 0, 1, 2, 3, 4, 5, 4, 3, 2)
    yield 0, 1, t(8, 20, 20, 0, *range(1, 9)) + t(8, 20, 20, 0, *range(8, 0, -1)), t(16, 20, 20, 0, 8, 7, 6, 5, 5, 6, 7, 8)
    # the greatest figures
    half = t(500000, 1000000, 1000000, 999999, *[500000] * RESOURCES)
    whole = t(1000000, 1000000, 1000000, 999999, *[500000] * RESOURCES)
    yield 0, 1, half * 2, whole
    yield 31, 32, half * 64 + r(33, 63, 1000) * RULES, half * 31 + whole + half * 31 + r(32, 62, 1000) * RULES


def joined_places():
    """Two places, a text, and the joined text: where the others stand, and what becomes of the rules."""
    # tasks before the two, between them and behind them, and a rule for each pair, the earlier task above in all of them or below
    a, b, c, d, e = (t(k, 100, 100 - k, k, *on(k, k)) for k in range(1, 6))
    ab, ae, bd, de = t(3, 100, 98, 2, 0, 1, 2), t(6, 100, 95, 5, 0, 1, 0, 0, 0, 5), t(6, 100, 96, 4, 0, 0, 2, 0, 4), t(9, 100, 95, 5, 0, 0, 0, 0, 4, 5)
    downward = list(itertools.combinations(range(5), 2))

    def ruled(pairs, *places):
        return b"".join(r(places[u], places[l], 1 + 100 * u + l) for u, l in pairs if places[u] != places[l])

    for one, other, tasks, places in ((0, 1, ab + c + d + e, (0, 0, 1, 2, 3)), (0, 4, ae + b + c + d, (0, 1, 2, 3, 0)),
                                      (1, 3, a + bd + c + e, (0, 1, 2, 1, 3)), (3, 4, a + b + c + de, (0, 1, 2, 3, 3))):
        for pairs in (downward, [(u, l) for l, u in downward]):
            yield one, other, a + b + c + d + e + ruled(pairs, *range(5)), tasks + ruled(pairs, *places)
    # rules between the two, in any place, as many as there can be, and all of them
    two = t(2, 100, 100, 0)
    for k in range(4):
        rules = [r(0, 2, 5), r(2, 1, 6), r(2, 0, 7)]
        rules.insert(k, r(0, 1, 8))
        yield 0, 1, EASY * 3 + b"".join(rules), two + EASY + r(0, 1, 5) + r(1, 0, 6) + r(1, 0, 7)
    for many in (0, 1, 2, RULES):
        yield 0, 1, EASY * 2 + r(1, 0) * many, two
    for k in (0, 64, RULES - 1):
        yield 0, 2, EASY * 3 + r(2, 0) * k + r(1, 2, 9) + r(2, 0) * (RULES - 1 - k), two + EASY + r(1, 0, 9)
    # a way round through a third task, rules both ways with one, and between others: none of these turns it away
    for rules, joined in ((r(0, 1) + r(1, 2) + r(2, 0), r(0, 1) + r(1, 0)), (r(0, 1, 3) + r(1, 2, 4), r(0, 1, 3) + r(1, 0, 4)),
                          (r(2, 1) + r(0, 2) * 2 + r(1, 0), r(0, 1) + r(1, 0)), (r(0, 1) + r(1, 0), r(0, 1) + r(1, 0)),
                          (r(0, 3) + r(3, 2) + r(2, 1) + r(1, 0), r(0, 2) + r(2, 0) + r(0, 1) + r(1, 0)), (r(1, 3) + r(3, 1), r(1, 2) + r(2, 1))):
        yield 0, 2, EASY * 4 + rules, two + EASY * 2 + joined
    # equal rules
    for weight in (1, 7, 1000):
        yield 1, 2, EASY * 4 + r(1, 0) + r(2, 3, 7) + r(2, 0) + r(1, 3, weight), EASY + two + EASY + r(1, 0) + r(1, 2, 7) + r(1, 0) + r(1, 2, weight)
    # 64 tasks and 128 rules, none between the two, and one
    tasks, rules = [t(k + 1, 1000, 1000, 0) for k in range(64)], [(k % 64, (k + 7 + k // 64) % 64) for k in range(RULES)]
    for one, other in ((0, 1), (0, 63), (31, 38)):
        places = [one if k == other else k - (other < k) for k in range(64)]
        kept = [tasks[k] for k in range(64) if k != other]
        kept[one] = t(one + other + 2, 1000, 1000, 0)
        yield (one, other, b"".join(tasks + [r(*pair) for pair in rules]),
               b"".join(kept + [r(places[u], places[l]) for u, l in rules if (u, l) != (one, other)]))
    # the examples
    door, folder = (example(name).splitlines(keepends=True) for name in ("door-drive", "carton-folder"))
    yield 1, 3, b"".join(door), b"".join([door[0], t(140, 1000, 300, 10, 8, 10, 4), door[2], *door[4:6], r(2, 1, 50)])
    yield 1, 2, b"".join(folder), b"".join([folder[0], t(273, 2000, 350, 0), folder[3], r(0, 1, 10)])


def made_joins():
    """Two places, a text, and the answer, which is the same for the places in either order."""
    for one, other, text, want in itertools.chain(refused_joins(), joined_rows(), joined_places()):
        for places in sorted({(one, other), (other, one)}):
            yield places, text, want if isinstance(want, str) else want.decode()


def piece(question, text):
    return question.encode() + b"\n" + text


def told(questions):
    """What the built program answers to each of the `drop` questions, in one run."""
    given = subprocess.run([QUERIES], input=b"\f".join(questions), capture_output=True, check=True).stdout.decode("latin-1")
    answers = re.findall(r"^(?:bad|none|drop)\t.*\n(?:(?:rule\t|core\t|\d).*\n)*", given, re.M)
    if len(answers) != len(questions) or "".join(answers) != given:
        sys.exit("cases.py: %d questions have %d answers" % (len(questions), len(answers)))
    return answers


def wrong_drop(enumerating, stage, budget, text, given, ways=None):
    """What is wrong with an answer. `ways` stands for what orders break, where there are too many to write out."""
    if ways is None:
        return enumerating.check_drop(text, stage, budget, given)
    with mock.patch.object(enumerating, "all_broken", lambda tasks, rules: ways):
        return enumerating.check_drop(text, stage, budget, given)


def unlike(budget, text, given, want):
    """How an answer differs from what is known: all of it, or the least weight of what can be dropped."""
    if isinstance(want, str):
        return [] if given == want else ["it must be %r" % want]
    word, *numbers = given.partition("\n")[0].split("\t")
    if word != "drop":
        return ["rules can be dropped"]
    weight, floor = map(int, numbers[:2])
    rules = text.count(b"\nr")
    exact = (rules <= SHORT and budget >= TABLE) or (want == 0 and budget > rules)
    good = weight == floor == want if exact else floor <= want <= weight
    return [] if good else ["the least weight is %d" % want]


def main(program, stage, seed, count, room):
    enumerating = load(program)
    cases = []

    def take(question, text, answer):
        cases.append((question, text, answer))

    def must(good, question, text, got, why):
        if not good or b"\f" in text:
            sys.exit("cases.py: %s of %r\nis answered by %r, but %s" % (question, text[:200], got, why))
        take(question, text, got)

    def known(question, text, got, want):
        must(got == want, question, text, got, "it is %r" % want)

    for marks, text in drawn_trials(enumerating, stage, random.Random(int(seed)), int(count)):
        take("trial\t" + marks, text, asked(enumerating, stage, marks, text))
    for marks, text, want in made_trials():
        known("trial\t" + marks, text, asked(enumerating, stage, marks, text), want)
    earlier = drawn_verbs(program, BEFORE_JOIN, seed, count)
    for question, text, answer in earlier["longest"][:int(count)]:
        take("\t".join(question), text, answer)
    for place, text, want in made_longest():
        question = ("longest", str(place))
        known("\t".join(question), text, enumerating.answer(text, stage, question), want)
    drawn, made = list(drawn_drops(enumerating, stage, random.Random(int(seed)), int(count) // 3)), list(made_drops())
    drops = [("drop\t%d" % budget, text) for budget, text, *_ in drawn + made]
    answers = told([piece(*drop) for drop in drops])
    for (budget, text), drop, got in zip(drawn, drops, answers):
        wrong = wrong_drop(enumerating, stage, budget, text, got)
        must(not wrong, *drop, got, wrong)
    for (budget, text, want, ways), drop, got in zip(made, drops[len(drawn):], answers[len(drawn):]):
        wrong = unlike(budget, text, got, want) + wrong_drop(enumerating, stage, budget, text, got, ways)
        must(not wrong, *drop, got, wrong)
    for _, text, answer in earlier["cores"]:
        take("cores\t%d" % CORES, text, answer)
    for size, text, want, ways in made_cores():
        known("cores\t%d" % size, text, listed(enumerating, stage, size, text, ways), want)
    drawn_joins = [case for case in drawn_verbs(program, stage, seed, count)["join"] if len(case[1]) <= DRAWN]
    for question, text, answer in drawn_joins:
        take("\t".join(question), text, answer)
    for places, text, want in made_joins():
        question = ("join", *map(str, places))
        known("\t".join(question), text, enumerating.answer(text, stage, question), want)
    store(room, [piece(question, text) for question, text, _ in cases], [answer for _, _, answer in cases])
    print("%d cases, of which %d are drawn" % (len(cases), 2 * int(count) + len(drawn) + len(earlier["cores"]) + len(drawn_joins)))


if __name__ == "__main__":
    if len(sys.argv) != 6:
        sys.exit("usage: cases.py PATH/enumerate.py STAGE SEED COUNT DIR")
    main(*sys.argv[1:])
