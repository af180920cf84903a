#!/usr/bin/env python3
"""Times a date in memory, compared with plain vectors in Rust: its updates, a copy of it, its end, and reading a column.

A column is also compared with the same rows in blocks in Rust, which lie in memory as the plant's do.

Prints a table of times, each the best of all rounds, and a table of memory, from runs of their own. Needs Linux, rustc and
the kit's `rt`, and nothing else but Python 3. Rows for which there isn't enough memory are left out.
"""

import argparse
import sys
import tempfile

import programs

BYTES_PER_ROW = 200  # more than a row takes while a date ends, in any of the programs


def available():
    """The bytes of memory that programs may take now."""
    with open("/proc/meminfo") as file:
        return next(int(line.split()[1]) * 1024 for line in file if line.startswith("MemAvailable:"))


def times(program, loop, rows, size, runs):
    """The least nanoseconds of each step, for the plant's day and for the loop."""
    best = {}
    for _ in range(runs):
        programs.best_of([program, "timed", str(rows), str(size)], best)
        programs.best_of([loop, str(rows), str(size)], best)
    for step in ("log", "read", "sort"):
        if best["day", step][1] != rows or best["loop", step][1] != rows:
            sys.exit(f"day.py: {step} was not of {rows} rows")
    if best["loop", "parts"][1] != rows:
        sys.exit(f"day.py: parts was not of {rows} rows")
    return {key: took for key, (took, _) in best.items()}


def memory(program, state, rows, size, runs):
    """The bytes at the peak and at the end, in the run with the least of each."""
    found = []
    for _ in range(runs):
        words = programs.lines([program, state, str(rows), str(size)])
        said = {line[0]: int(line[1]) * 1024 for line in words if line and line[0] in ("VmHWM:", "VmRSS:")}
        found.append((said["VmHWM:"], said["VmRSS:"]))
    return min(peak for peak, _ in found), min(now for _, now in found)


def show_times(measured):
    print(f"{'rows':>11} {'update':>7} {'make ns':>8} {'log ns':>7} {'loop ns':>8} {'copy us':>8}", end=" ")
    print(f"{'roll ms':>8} {'symbols':>8} {'sort':>7} {'loop sort':>10}", end=" ")
    print(f"{'read ms':>8} {'copy ms':>8} {'ratio':>6} {'parts ms':>9} {'ratio':>6} {'ended ms':>9}")
    for (rows, size), best in measured.items():
        roll = best["day", "order"] + best["day", "close"]
        log, loop_log = ((best[who, "log"] - best[who, "make"]) / rows for who in ("day", "loop"))
        print(f"{rows:11,} {size:7,} {best['day', 'make'] / rows:8.1f} {log:7.1f} {loop_log:8.1f} {best['day', 'copy'] / 1e3:8.1f}", end=" ")
        print(f"{roll / 1e6:8.2f} {best['day', 'symbols'] / 1e6:8.2f} {best['day', 'sort'] / 1e6:7.2f} {best['loop', 'sort'] / 1e6:10.2f}", end=" ")
        read, copied, parts = best["day", "read"], best["loop", "read"], best["loop", "parts"]
        print(f"{read / 1e6:8.3f} {copied / 1e6:8.3f} {read / copied:6.2f}", end=" ")
        print(f"{parts / 1e6:9.3f} {read / parts:6.2f} {best['day', 'ended'] / 1e6:9.2f}")


def show_memory(program, given, runs):
    print(f"\n{'rows':>11} {'update':>7} {'open peak':>10} {'open now':>9} {'ended peak':>11} {'ended now':>10}   bytes per row")
    for rows, size in given:
        shown = []
        for state in ("open", "ended"):
            empty = memory(program, state, 0, size, runs)
            full = memory(program, state, rows, size, runs)
            shown += [(more - less) / rows for more, less in zip(full, empty)]
        print(f"{rows:11,} {size:7,} {shown[0]:10.1f} {shown[1]:9.1f} {shown[2]:11.1f} {shown[3]:10.1f}")


def main():
    parser = argparse.ArgumentParser(description=__doc__.splitlines()[0])
    parser.add_argument("--rows", type=int, nargs="+", default=[10_000, 100_000, 1_000_000], metavar="N", help="rows of the date (10000 100000 1000000)")
    parser.add_argument("--updates", type=int, nargs="+", default=[1, 1000], metavar="N", help="rows of an update, at most 1000 (1 1000)")
    parser.add_argument("--runs", type=int, default=3, metavar="N", help="runs of each program, of five rounds (3)")
    parser.add_argument("--program", help="the program, if it is built already")
    options = parser.parse_args()
    if options.runs < 1 or min(options.updates) < 1 or max(options.updates) > 1000 or any(1000 % size for size in options.updates):
        parser.error("N is at least 1, and 1000 is a multiple of the rows of an update")
    if min(options.rows) < 1000 or any(rows % 1000 for rows in options.rows):
        parser.error("the rows of the date are a multiple of 1000")
    program = options.program or programs.proved("day_bench")
    enough = [rows for rows in options.rows if rows * BYTES_PER_ROW <= available()]
    for rows in sorted(set(options.rows) - set(enough)):
        print(f"day.py: there isn't enough memory for {rows:,} rows", file=sys.stderr)
    given = [(rows, size) for rows in enough for size in options.updates]
    with tempfile.TemporaryDirectory() as folder:
        loop = programs.compiled(folder, "day", "-C", "target-cpu=x86-64-v2")
        show_times({(rows, size): times(program, loop, rows, size, options.runs) for rows, size in given})
    show_memory(program, given, options.runs)


if __name__ == "__main__":
    main()
