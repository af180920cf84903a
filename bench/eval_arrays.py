#!/usr/bin/env python3
"""The queries of `eval.py` over the same rows in numpy and in pandas. `eval.py` runs it, and sets its times beside those of the plant.

Prints one line for each call: the library, a name for the query, nanoseconds and the sum of all numbers of the result. Needs numpy and
pandas.
"""

import sys
import time

import numpy
import pandas

ROUNDS = 5
STEP = numpy.uint64(0x9E37_79B9_7F4A_7C15)
OTHER_STEP = numpy.uint64(0xD1B5_4A32_D192_ED03)
DAY = 86_400_000_000_000
TEN = 36_000_000_000_000
HALF_PAST_TEN = 37_800_000_000_000
FIVE_MINUTES = 300_000_000_000


def numbers(count, least, step):
    return ((numpy.arange(count, dtype=numpy.uint64) * step) >> numpy.uint64(54)).astype(numpy.int64) + least


def mixed(count, symbols):
    """The number of each row's symbol."""
    return ((numpy.arange(count, dtype=numpy.uint64) * STEP) >> numpy.uint64(32)) % numpy.uint64(symbols)


def names(count):
    """The number of each row's symbol, and the symbols."""
    return mixed(count, 100).astype(numpy.int8), [f"S{number:02}" for number in range(100)]


def rows(count):
    codes, symbols = names(count)
    columns = {
        "date": numpy.full(count, 8767, dtype=numpy.int32),
        "time": numpy.arange(count, dtype=numpy.int64) * (DAY // count),
        "sym": numpy.array(symbols, dtype="S3")[codes],
        "price": numbers(count, 10_000, OTHER_STEP),
        "size": numbers(count, 1, STEP),
    }
    frame = pandas.DataFrame({name: column for name, column in columns.items() if name != "sym"})
    frame["sym"] = pandas.Categorical.from_codes(codes, symbols)
    return columns, frame


def total(found):
    """The sum of all numbers, as 64 bits."""
    if isinstance(found, pandas.DataFrame):
        found = {name: found[name].to_numpy() for name in found.columns if name != "sym"}
    if isinstance(found, dict):
        return sum(int(column.sum(dtype=numpy.int64)) for name, column in found.items() if name != "sym")
    return int(found)


def timed(library, name, call):
    for _ in range(ROUNDS):
        start = time.perf_counter_ns()
        found = call()
        took = time.perf_counter_ns() - start
        print(library, name, took, total(found))


def one_symbol(columns):
    kept = numpy.flatnonzero((columns["sym"] == b"S42") & (columns["time"] >= TEN) & (columns["time"] <= HALF_PAST_TEN))
    return {name: column[kept] for name, column in columns.items()}


def bars(frame):
    grouped = frame.groupby([frame["sym"], frame["time"] // FIVE_MINUTES * FIVE_MINUTES], observed=True)
    return grouped.agg(o=("price", "first"), h=("price", "max"), low=("price", "min"), c=("price", "last"), size=("size", "sum"))


def report_groups(count, frame):
    """Queries with `by`, over symbols as categories."""
    timed("pandas", "last_by_sym", lambda: frame.groupby("sym", observed=True)[["price"]].last())
    timed("pandas", "count_by_date", lambda: frame.groupby("date").size().to_frame())
    timed("pandas", "bars", lambda: bars(frame))
    many = frame[["size"]].copy()
    many["sym"] = pandas.Categorical.from_codes(mixed(count, 100_000).astype(numpy.int32), [f"S{number:05}" for number in range(100_000)])
    timed("pandas", "sum_by_many", lambda: many.groupby("sym", observed=True)[["size"]].sum())


def report(count):
    columns, frame = rows(count)
    price, size = columns["price"], columns["size"]
    timed("numpy", "sum_size", lambda: size.sum())
    timed("numpy", "one_symbol", lambda: one_symbol(columns))
    timed("numpy", "count_two", lambda: numpy.count_nonzero((size > 500) & (price < 10250)))
    timed("numpy", "range", lambda: price.max() - price.min())
    timed("pandas", "sum_size", lambda: frame["size"].sum())
    timed("pandas", "one_symbol", lambda: frame[(frame["sym"] == "S42") & frame["time"].between(TEN, HALF_PAST_TEN)])
    timed("pandas", "count_two", lambda: ((frame["size"] > 500) & (frame["price"] < 10250)).sum())
    timed("pandas", "range", lambda: frame["price"].max() - frame["price"].min())
    report_groups(count, frame)


report(int(sys.argv[1]))
