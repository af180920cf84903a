#!/usr/bin/env python3
"""Times the verbs of the query language, compared with numpy and with loops in Rust over the same columns.

Works on columns of longs, ints, dates and symbols. Prints the milliseconds of each call, the best of all rounds, and its
ratio to numpy and to the loop; ends with an error where their results differ. Needs rustc, the kit's `rt` and numpy
(Debian's python3-numpy), and installs nothing.
"""

import argparse
import os
import subprocess
import sys
import tempfile

import programs

# Each call, and how it is written in a query.
CALLS = (
    ("longs", "sum", "sum x"),
    ("longs", "min", "min x"),
    ("longs", "max", "max x"),
    ("longs", "plus", "x+y"),
    ("longs", "above", "x>y"),
    ("longs", "neg", "neg x"),
    ("longs", "above_300", "x>300"),
    ("longs", "plus_300", "x+300"),
    ("longs", "xbar_300", "300 xbar x"),
    ("ints", "plus", "a+b"),
    ("ints", "lesser", "a&b"),
    ("ints", "neg", "neg a"),
    ("ints", "above_300", "a>300"),
    ("ints", "xbar_300", "300 xbar a"),
    ("dates", "above", "date>date"),
    ("longs", "filter", "x where a tenth"),
    ("longs", "in", "x in five"),
    ("longs", "within", "x within 3 10"),
    ("symbols", "equal", "s=t"),
    ("symbols", "equal_one", "s=`S042"),
    ("symbols", "in", "s in five"),
    ("symbols", "in_50", "s in fifty"),
    ("symbols", "like", 's like "S4*"'),
    ("symbols", "order", "iasc s"),
    ("symbols", "filter", "s where a tenth"),
    ("long_symbols", "equal", "l=m"),
    ("long_symbols", "below", "l<m"),
    ("long_symbols", "in_50", "l in fifty"),
    ("long_symbols", "like", 'l like "S4*"'),
    ("long_symbols", "within", "l within two names"),
    ("long_symbols", "distinct", "distinct l"),
    ("long_symbols", "order", "iasc l"),
    ("groups", "symbols_100", "by 100 symbols"),
    ("sum_by", "symbols_100", "sum by them"),
    ("last_by", "symbols_100", "last by them"),
    ("max_by", "symbols_100", "max by them"),
    ("groups", "symbols_100000", "by 100000"),
    ("sum_by", "symbols_100000", "sum by them"),
    ("last_by", "symbols_100000", "last by them"),
    ("max_by", "symbols_100000", "max by them"),
    ("groups", "dates", "by 1000 dates"),
    ("sum_by", "dates", "sum by them"),
)


def main():
    parser = argparse.ArgumentParser(description=__doc__.splitlines()[0])
    parser.add_argument("--longs", type=int, default=10_000_000, metavar="N", help="longs of a column (10000000)")
    parser.add_argument("--symbols", type=int, default=1_000_000, metavar="N", help="symbols of a column (1000000)")
    parser.add_argument("--rows", type=int, default=10_000_000, metavar="N", help="rows that are grouped (10000000)")
    parser.add_argument("--runs", type=int, default=3, metavar="N", help="runs of each program, of five rounds (3)")
    parser.add_argument("--program", help="the program, if it is built already")
    parser.add_argument("--python", default=sys.executable, help="a Python that has numpy (the one that runs this)")
    options = parser.parse_args()
    programs.ask_for_large_pages()
    if min(options.longs, options.symbols, options.rows, options.runs) < 1:
        parser.error("N is at least 1")
    if subprocess.run([options.python, "-c", "import numpy"], stderr=subprocess.DEVNULL).returncode != 0:
        sys.exit("verbs.py: needs numpy, which is Debian's python3-numpy; --python names a Python that has it")
    arguments = [str(options.longs), str(options.symbols), str(options.rows)]
    program = options.program or programs.proved("verbs_bench")
    beside = [options.python, os.path.join(programs.HERE, "verbs_numpy.py"), *arguments]
    own, loops, arrays = {}, {}, {}
    with tempfile.TemporaryDirectory() as folder:
        loop = programs.compiled(folder, "verbs", "-C", "target-cpu=x86-64-v2")
        for _ in range(options.runs):
            programs.best_of([program, *arguments], own)
            programs.best_of(beside, arrays)
            programs.best_of([loop, *arguments], loops)
    counts = {"symbols": options.symbols, "long_symbols": options.symbols, **dict.fromkeys(("groups", "sum_by", "last_by", "max_by"), options.rows)}
    print(f"{'':18} {'rows':>11} {'ms':>9} {'ns/row':>8} {'numpy ms':>9} {'to numpy':>8} {'loop ms':>9} {'to loop':>8}")
    for what, call, shown in CALLS:
        took, total = own[what, call]
        rows = counts.get(what, options.longs)
        times = [took / 1e6, took / rows]
        for other in (arrays, loops):
            other_took, other_total = other.get((what, call), (None, total))
            if total != other_total:
                sys.exit(f"verbs.py: {shown} has differing results: {total} and {other_total}")
            times.append(other_took)
        in_numpy, in_loop = (f"{t / 1e6:9.2f} {took / t:8.2f}" if t else f"{'':18}" for t in times[2:])
        print(f"{shown:18} {rows:11,} {times[0]:9.2f} {times[1]:8.2f} {in_numpy} {in_loop}")


if __name__ == "__main__":
    main()
