#!/usr/bin/env python3
"""The as-of join of `eval.py` over the same rows in numpy and in pandas. `eval.py` runs it, and sets its times beside those of the plant.

Prints one line for each time: the library, `aj`, nanoseconds and the sum of the bids that were found, each times the number of its
row. Needs numpy and pandas.
"""

import sys
import time

import numpy
import pandas

ROUNDS = 5
STEP = numpy.uint64(0x9E37_79B9_7F4A_7C15)
OTHER_STEP = numpy.uint64(0xD1B5_4A32_D192_ED03)
DAY = 86_400_000_000_000
SYMBOLS = 100


def rows(count, number, step):
    """Times in order, the number of each row's symbol, and numbers."""
    mixed = numpy.arange(count, dtype=numpy.uint64) * step
    return {
        "time": numpy.arange(count, dtype=numpy.int64) * (DAY // count),
        "sym": ((mixed >> numpy.uint64(32)) % numpy.uint64(SYMBOLS)).astype(numpy.int8),
        number: (mixed >> numpy.uint64(54)).astype(numpy.int64) + 10_000,
    }


def frame(columns):
    made = pandas.DataFrame({name: column for name, column in columns.items() if name != "sym"})
    made["sym"] = pandas.Categorical.from_codes(columns["sym"], [f"S{number:02}" for number in range(SYMBOLS)])
    return made


def rows_by_symbol(codes):
    """The rows of each symbol, in order: its part of the first array begins at its item of the second one."""
    order = numpy.argsort(codes, kind="stable")
    return order, numpy.searchsorted(codes[order], numpy.arange(SYMBOLS + 1))


def joined(trades, quotes):
    """The trades, and the bid of the last quote of the symbol up to each one's time; 0 where there is none."""
    bids = numpy.zeros(len(trades["time"]), dtype=numpy.int64)
    left, left_starts = rows_by_symbol(trades["sym"])
    right, right_starts = rows_by_symbol(quotes["sym"])
    for symbol in range(SYMBOLS):
        at = left[left_starts[symbol]:left_starts[symbol + 1]]
        among = right[right_starts[symbol]:right_starts[symbol + 1]]
        place = numpy.searchsorted(quotes["time"][among], trades["time"][at], side="right")
        bids[at[place > 0]] = quotes["bid"][among[place[place > 0] - 1]]
    return {**trades, "bid": bids}


def total(found):
    bids = found["bid"]
    if isinstance(bids, pandas.Series):
        bids = bids.fillna(0).astype(numpy.int64).to_numpy()
    return int((bids * numpy.arange(1, len(bids) + 1)).sum())


def timed(library, call):
    for _ in range(ROUNDS):
        start = time.perf_counter_ns()
        found = call()
        took = time.perf_counter_ns() - start
        print(library, "aj", took, total(found))


def report(trade_count, quote_count):
    trades, quotes = rows(trade_count, "price", STEP), rows(quote_count, "bid", OTHER_STEP)
    timed("numpy", lambda: joined(trades, quotes))
    trade_frame, quote_frame = frame(trades), frame(quotes)
    timed("pandas", lambda: pandas.merge_asof(trade_frame, quote_frame, on="time", by="sym"))


report(int(sys.argv[1]), int(sys.argv[2]))
