#!/usr/bin/env python3
"""The work of the verbs over the same columns in numpy. `verbs.py` runs it, and sets its times beside those of the verbs.

Prints one line for each call: what it worked on, its name, its nanoseconds and the sum of what it gave. Needs numpy.
"""

import sys
import time

import numpy

ROUNDS = 5
GROUP_ROUNDS = 1
STEP = numpy.uint64(0x9E37_79B9_7F4A_7C15)
OTHER_STEP = numpy.uint64(0xD1B5_4A32_D192_ED03)


def longs(count, step):
    return (numpy.arange(count, dtype=numpy.uint64) * step).view(numpy.int64)


def integers(count, step):
    return (longs(count, step).view(numpy.uint64) >> numpy.uint64(40)).astype(numpy.int32)


def codes(count):
    return (longs(count, STEP).view(numpy.uint64) >> numpy.uint64(60)).astype(numpy.int64)


def timed(what, name, call):
    start = time.perf_counter_ns()
    found = call()
    took = time.perf_counter_ns() - start
    total = numpy.sum(found, dtype=numpy.int32 if found.dtype == numpy.int32 else numpy.int64)
    print(what, name, took, int(total))


def report(count):
    x, y = longs(count, STEP), longs(count, OTHER_STEP)
    for _ in range(ROUNDS):
        timed("longs", "sum", lambda: x.sum())
        timed("longs", "min", lambda: x.min())
        timed("longs", "max", lambda: x.max())
        timed("longs", "plus", lambda: x + y)
        timed("longs", "above", lambda: x > y)
        timed("longs", "neg", lambda: -x)
        timed("longs", "above_300", lambda: x > 300)
        timed("longs", "plus_300", lambda: x + 300)
        timed("longs", "xbar_300", lambda: x // 300 * 300)
    a, b = integers(count, STEP), integers(count, OTHER_STEP)
    for _ in range(ROUNDS):
        timed("ints", "plus", lambda: a + b)
        timed("ints", "lesser", lambda: numpy.minimum(a, b))
        timed("ints", "neg", lambda: -a)
        timed("ints", "above_300", lambda: a > 300)
        timed("ints", "xbar_300", lambda: a // 300 * 300)
        timed("dates", "above", lambda: a > b)
    few, five = codes(count), numpy.array([2, 3, 5, 7, 11])
    kept = a < 1_677_722
    for _ in range(ROUNDS):
        timed("longs", "filter", lambda: x[numpy.flatnonzero(kept)])
    for _ in range(ROUNDS):
        timed("longs", "in", lambda: numpy.isin(few, five))
        timed("longs", "within", lambda: (few >= 3) & (few <= 10))


def report_symbols(count):
    """The filter of a column of symbols of four bytes, a thousand names, of which a tenth is kept."""
    numbers = (longs(count, STEP).view(numpy.uint64) >> numpy.uint64(32)) % numpy.uint64(1000)
    s = numpy.char.add(b"S", numpy.char.zfill(numpy.arange(1000).astype("S3"), 3)).astype("S4")[numbers]
    kept = integers(count, STEP) < 1_677_722
    for _ in range(ROUNDS):
        start = time.perf_counter_ns()
        found = s[numpy.flatnonzero(kept)]
        took = time.perf_counter_ns() - start
        print("symbols filter", took, len(found))


def by_group(name, keys, items):
    """The groups of keys in ascending order, and aggregates of items by group."""
    for _ in range(GROUP_ROUNDS):
        start = time.perf_counter_ns()
        values, codes = numpy.unique(keys, return_inverse=True)
        took = time.perf_counter_ns() - start
        print("groups", name, took, len(values))
        many = len(values)
        last, greatest = numpy.zeros(many, numpy.int32), numpy.full(many, -(2**31) + 1, numpy.int32)
        timed("sum_by", name, lambda: numpy.bincount(codes, weights=items, minlength=many).astype(numpy.int64).astype(numpy.int32))
        timed("last_by", name, lambda: last_of(last, codes, items))
        timed("max_by", name, lambda: max_of(greatest, codes, items))


def last_of(found, codes, items):
    found[codes] = items
    return found


def max_of(found, codes, items):
    numpy.maximum.at(found, codes, items)
    return found


def report_groups(count):
    items = integers(count, OTHER_STEP)
    numbers = longs(count, STEP).view(numpy.uint64) >> numpy.uint64(32)
    by_group("symbols_100", names(numbers % numpy.uint64(100)), items)
    by_group("symbols_100000", names(numbers % numpy.uint64(100_000)), items)
    by_group("dates", (numbers % numpy.uint64(1000)).astype(numpy.int32), items)


def names(numbers):
    """Symbols of six letters, for the digits of the numbers."""
    letters = numpy.empty((len(numbers), 6), numpy.uint8)
    for place in range(6):
        letters[:, 5 - place] = (numbers // numpy.uint64(10**place)) % numpy.uint64(10) + numpy.uint64(ord("a"))
    return letters.view("S6").ravel()


report(int(sys.argv[1]))
report_symbols(int(sys.argv[2]))
report_groups(int(sys.argv[3]))
