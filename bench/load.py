#!/usr/bin/env python3
"""Times logging updates in a plant and loading that plant, compared with loops in Rust over the same bytes.

Works on a hundred thousand updates of one row and on a thousand of a thousand rows, over a disk in memory. Prints the
milliseconds of the updates beside those of the same updates in memory alone, with log records that are made and not written
(`memory`), and beside the loop that writes the same log (`loop`); and those of a load, the best of three, beside the loop that
decodes the log (`decode`) and beside that one and the one that finds its records (`both`). Each is the median of all runs; the
ratios are those within a run: their median, the least and the greatest.
Needs rustc and the kit's `rt`, and nothing else but Python 3.
"""

import argparse
import os
import statistics
import tempfile

import programs

# Updates, and the rows of each.
SIZES = ((100_000, 1), (1_000, 1_000))


def run_once(program, loop, count, rows):
    """The nanoseconds of each call of the plant beside those that it is compared with, in one run of both programs."""
    own, other = {}, {}
    programs.best_of([program, str(count), str(rows)], own)
    programs.best_of([loop, str(count), str(rows)], other)
    own, other = ({name: it for (_, name), it in found.items()} for found in (own, other))
    if own["memory"][1] != count or own["log"][1] != other["log"][1] or own["load"][1] != other["replay"][1]:
        raise SystemExit(f"{count} of {rows}: another log than the loop's")
    log, load = own["log"][0], own["load"][0]
    read, decode = other["load"][0], other["replay"][0]
    return {
        "log, to memory": (log, own["memory"][0]),
        "log, to loop": (log, other["log"][0]),
        "load, to decode": (load, decode),
        "load, to both": (load, read + decode),
    }


def show(count, rows, name, pairs):
    took, beside = (statistics.median(it) / 1e6 for it in zip(*pairs))
    ratios = sorted(one / other for one, other in pairs)
    median = statistics.median(ratios)
    print(f"{count:9,} {rows:6,} {name:16} {took:9.2f} {beside:9.2f} {median:8.2f} {ratios[0]:8.2f} {ratios[-1]:8.2f}")


def main():
    parser = argparse.ArgumentParser(description=__doc__.splitlines()[0])
    parser.add_argument("--runs", type=int, default=5, metavar="N", help="runs of both programs, in turn (5)")
    options = parser.parse_args()
    program = programs.proved("plant_bench")
    print(f"{'updates':>9} {'rows':>6} {'call':16} {'ms':>9} {'other ms':>9} {'ratio':>8} {'least':>8} {'greatest':>8}")
    with tempfile.TemporaryDirectory() as folder:
        loop = programs.compiled(folder, "log")
        for count, rows in SIZES:
            runs = [run_once(program, loop, count, rows) for _ in range(options.runs)]
            for name in runs[0]:
                show(count, rows, name, [run[name] for run in runs])
    print(f"load of the machine at the end: {os.getloadavg()[0]:.1f}")


if __name__ == "__main__":
    main()
