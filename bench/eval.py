#!/usr/bin/env python3
"""Times queries over rows of `trade` in memory and as-of joins, compared with numpy and pandas over the same rows.

Prints the milliseconds of each text, the best of all rounds, and its ratio to the faster of the two (texts with `by` are compared with
pandas alone); ends with an error where results differ. Where there is a `clickhouse-server`, texts with `by` have two columns more: its
milliseconds and the ratio to them. Needs the kit's `rt`, numpy and pandas (Debian's python3-numpy and python3-pandas), for ClickHouse
Debian's clickhouse-server, and installs nothing.
"""

import argparse
import os
import shutil
import subprocess
import sys

import programs

# The name of each query in the output of the programs, and its text.
TEXTS = (
    ("sum_size", "exec sum size from trade"),
    ("one_symbol", "select from trade where sym=`S42,time within 0D10 0D10:30"),
    ("count_two", "exec count i from trade where size>500,price<10250"),
    ("range", "exec max price-min price from trade"),
    ("last_by_sym", "select last price by sym from trade"),
    ("count_by_date", "select count i by date from trade"),
    ("bars", "select first, max, min, last price, sum size by sym, 0D00:05 xbar time"),
    ("sum_by_many", "select sum size by sym from trade (100,000 symbols)"),
)

# The trades and the quotes of each join.
JOINS = ((200_000, 1_000_000), (1_000_000, 10_000_000))


def clickhouse_columns(best, name):
    """The last two columns, where ClickHouse was asked at all."""
    if not any(library == "clickhouse" for library, _ in best):
        return ""
    if ("clickhouse", name) not in best:
        return f" {'-':>13} {'-':>6}"
    took = best["clickhouse", name][0]
    return f" {took / 1e6:13.2f} {best['eval', name][0] / took:6.2f}"


def show(best, name, text, rows):
    took, total = best["eval", name]
    others = {library: best[library, name] for library in ("numpy", "pandas", "clickhouse") if (library, name) in best}
    if any(other_total != total for _, other_total in others.values()):
        sys.exit(f"eval.py: {text} has differing results: {total} and {[other_total for _, other_total in others.values()]}")
    shown = [f"{others[library][0] / 1e6:9.2f}" if library in others else f"{'-':>9}" for library in ("numpy", "pandas")]
    ratio = took / min(others[library][0] for library in ("numpy", "pandas") if library in others)
    print(f"{text:74} {rows:11,} {took / 1e6:9.2f} {shown[0]} {shown[1]} {ratio:6.2f}{clickhouse_columns(best, name)}")


def run(commands, runs):
    """The best of all rounds of the commands, which take turns."""
    best = {}
    for _ in range(runs):
        for command in commands:
            programs.best_of(list(map(str, command)), best)
    return best


def script(options, name, *arguments):
    return [options.python, os.path.join(programs.HERE, name), *arguments]


def queries(options, clickhouse):
    program = options.program or programs.proved("eval_bench")
    for rows in options.rows:
        commands = [[program, rows], script(options, "eval_arrays.py", rows)]
        if clickhouse:
            commands.append(script(options, "eval_clickhouse.py", clickhouse, rows, options.clickhouse_threads))
        best = run(commands, options.runs)
        for name, text in TEXTS:
            show(best, name, text, rows)


def joins(options):
    program = options.aj_program or programs.proved("aj_bench")
    for trades, quotes in JOINS:
        best = run([[program, trades, quotes], script(options, "aj_arrays.py", trades, quotes)], options.runs)
        show(best, "aj", f"aj[`sym`time;{trades:,} rows of trade;quote]", quotes)


def found_clickhouse(options):
    """The path of `clickhouse-server`, which Debian puts into /usr/sbin; none where there is no such program."""
    found = shutil.which(options.clickhouse, path=os.environ.get("PATH", "") + os.pathsep + "/usr/sbin")
    if not found:
        print(f"no ClickHouse: {options.clickhouse} isn't there; it is Debian's clickhouse-server, and --clickhouse names another path")
    return found


def main():
    parser = argparse.ArgumentParser(description=__doc__.splitlines()[0])
    parser.add_argument("--rows", type=int, nargs="+", default=[1_000_000, 10_000_000], metavar="N", help="rows (1000000 10000000)")
    parser.add_argument("--runs", type=int, default=3, metavar="N", help="runs of each program, of five rounds (3)")
    parser.add_argument("--program", help="the program of the queries, if it is built already")
    parser.add_argument("--aj-program", help="the program of the joins, if it is built already")
    parser.add_argument("--only-queries", action="store_true", help="no joins")
    parser.add_argument("--only-joins", action="store_true", help="no queries")
    parser.add_argument("--clickhouse", default="clickhouse-server", metavar="PROGRAM", help="the server of ClickHouse (clickhouse-server)")
    parser.add_argument("--clickhouse-threads", type=int, default=1, metavar="N", help="threads of a query of ClickHouse (1)")
    parser.add_argument("--python", default=sys.executable, help="a Python that has numpy and pandas (the one that runs this)")
    options = parser.parse_args()
    programs.ask_for_large_pages()
    if min(options.runs, options.clickhouse_threads, *options.rows) < 1:
        parser.error("N is at least 1")
    if subprocess.run([options.python, "-c", "import numpy, pandas"], stderr=subprocess.DEVNULL).returncode != 0:
        sys.exit("eval.py: needs numpy and pandas, which are Debian's python3-numpy and python3-pandas; --python names a Python that has them")
    clickhouse = None if options.only_joins else found_clickhouse(options)
    more = f" {'ClickHouse ms':>13} {'ratio':>6}" if clickhouse else ""
    print(f"{'':74} {'rows':>11} {'ms':>9} {'numpy ms':>9} {'pandas ms':>9} {'ratio':>6}{more}")
    if not options.only_joins:
        queries(options, clickhouse)
    if not options.only_queries:
        joins(options)


if __name__ == "__main__":
    main()
