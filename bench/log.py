#!/usr/bin/env python3
"""Times logging updates, loading their journal and replaying it, compared with the same loops in Rust.

Works on one million updates of one row and on a thousand of a thousand rows, over a disk in memory. Prints the
milliseconds of each, the best of all runs, and the ratio to the loop. Needs rustc and the kit's `rt`, and nothing else but
Python 3.

With --memory it prints the peak memory of a load, of a load and a replay into a day, and of that day made without a log, and
how far the second is above the sum of the others.
"""

import argparse
import tempfile

import programs
from codec import peak

# Updates, and the rows of each.
SIZES = ((1_000_000, 1), (1_000, 1_000))

CALLS = ("log", "load", "replay")


def show_memory(program):
    for count, rows in SIZES:
        words = str(count), str(rows)
        load, day, made = (peak(program, *words, word) for word in ("load", "day", "made"))
        sizes = ", ".join(f"{name} {size / 2**20:.1f} MiB" for name, size in (("load", load), ("replay", day), ("day", made)))
        print(f"{count:9,} of {rows:5,}: {sizes}, beyond both {day / (load + made) - 1:+.1%}")


def main():
    parser = argparse.ArgumentParser(description=__doc__.splitlines()[0])
    parser.add_argument("--runs", type=int, default=3, metavar="N", help="runs of each program (3)")
    parser.add_argument("--memory", action="store_true", help="print peak memory instead")
    options = parser.parse_args()
    program = programs.proved("log_bench")
    if options.memory:
        return show_memory(program)
    own, other = {}, {}
    with tempfile.TemporaryDirectory() as folder:
        loop = programs.compiled(folder, "log")
        for count, rows in SIZES:
            for _ in range(options.runs):
                programs.best_of([program, str(count), str(rows)], own)
                programs.best_of([loop, str(count), str(rows)], other)
    print(f"{'updates':>9} {'rows':>6} {'call':8} {'ms':>9} {'loop ms':>9} {'to loop':>8}")
    for count, rows in SIZES:
        for call in CALLS:
            took, number = own[str(rows), call]
            loop_took, same = other[str(rows), call]
            if number != same:
                raise SystemExit(f"{count} of {rows}, {call}: another number than the loop's")
            print(f"{count:9,} {rows:6,} {call:8} {took / 1e6:9.2f} {loop_took / 1e6:9.2f} {took / loop_took:8.2f}")


if __name__ == "__main__":
    main()
