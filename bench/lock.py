#!/usr/bin/env python3
"""Times takes and gives of the plant's lock, a ticket lock and std's Mutex in Rust, by one thread and by four; and updates
through the lock round a plant over a disk in memory, by one thread, two and four, and with readers beside them.

Prints the takes and gives per second, the median of all runs, and the ratio of the plant's time to each of the others,
the median of the ratios within a run. Then the updates per second, and the longest update of a feed in a large day, each
the median, the least and the most of all runs. Needs rustc and the kit's `rt`, and nothing else but Python 3.
"""

import argparse
import os
import statistics
import tempfile

import programs

LOCKS = ("lock", "ticket", "mutex")

# The lines of `plant_shared_bench` with updates, and those with the longest one.
UPDATED = {
    ("solo", 1): "a pass alone, without a lock",
    ("feeds", 1): "one thread",
    ("feeds", 2): "two threads",
    ("feeds", 4): "four threads",
    ("beside", 1): "one, beside a reader",
    ("beside", 2): "two, beside two readers",
}
LONGEST = {0: "longest update, no reader", 1: "longest update, a reader"}


def timed(command, times):
    """Runs a program and adds the nanoseconds of each of its lines."""
    for name, threads, nanoseconds in programs.lines(command):
        times.setdefault((name, int(threads)), []).append(int(nanoseconds))


def taken(takes, runs):
    """Times takes and gives, and prints them."""
    program = programs.proved("lock_bench")
    times = {}
    with tempfile.TemporaryDirectory() as folder:
        loop = programs.compiled(folder, "lock", edition="2024")
        for _ in range(runs):
            timed([program, str(takes)], times)
            timed([loop, str(takes)], times)
    print(f"{'threads':8}" + "".join(f"{name + '/s':>14}" for name in LOCKS) + f"{'to ticket':>12}{'to mutex':>12}")
    for threads in (1, 4):
        rates = [threads * takes * 1e9 / statistics.median(times[name, threads]) for name in LOCKS]
        own = times["lock", threads]
        ratios = [statistics.median(a / b for a, b in zip(own, times[name, threads])) for name in LOCKS[1:]]
        print(f"{threads:<8}" + "".join(f"{rate:14,.0f}" for rate in rates) + "".join(f"{ratio:12.2f}" for ratio in ratios))


def spread(rates):
    """The median, the least and the most of some rates, as they are printed."""
    return "".join(f"{rate:12,.0f}" for rate in (statistics.median(rates), min(rates), max(rates)))


def updated(updates, rows, runs):
    """Times updates through the lock, and prints them."""
    program = programs.proved("plant_shared_bench")
    times = {}
    before = os.getloadavg()[0]
    for _ in range(runs):
        for name, threads, nanoseconds, *number in programs.lines([program, str(updates), str(rows)]):
            times.setdefault((name, int(threads)), []).append((int(nanoseconds), int(number[0]) if number else 0))
    print(f"load of the machine: {before:.1f} before the runs of updates, {os.getloadavg()[0]:.1f} after them")
    print(f"{'updates by':28}{'updates/s':>12}{'least':>12}{'most':>12}{'snapshots/s':>12}{'least':>12}{'most':>12}")
    for (name, threads), label in UPDATED.items():
        took = times[name, threads]
        line = f"{label:28}" + spread([threads * updates * 1e9 / nanoseconds for nanoseconds, _ in took])
        if name == "beside":
            line += spread([number * 1e9 / nanoseconds for nanoseconds, number in took])
        print(line)
    print(f"{'microseconds':28}{'longest':>12}{'least':>12}{'most':>12}")
    for readers, label in LONGEST.items():
        print(f"{label:28}" + spread([nanoseconds / 1e3 for nanoseconds, _ in times["longest", readers]]))


def main():
    parser = argparse.ArgumentParser(description=__doc__.split(";")[0])
    parser.add_argument("--takes", type=int, default=100_000, metavar="N", help="takes and gives of each thread (100000)")
    parser.add_argument("--updates", type=int, default=100_000, metavar="N", help="updates of each thread (100000)")
    parser.add_argument("--rows", type=int, default=1_000_000, metavar="N", help="rows of the large day (1000000)")
    parser.add_argument("--runs", type=int, default=21, metavar="N", help="runs of each program (21)")
    options = parser.parse_args()
    least, most = (it(options.takes, options.updates, options.rows, options.runs) for it in (min, max))
    if least < 1 or most > 4_294_967_295:
        parser.error("N is at least 1, and at most 4294967295")
    taken(options.takes, options.runs)
    updated(options.updates, options.rows, options.runs)


if __name__ == "__main__":
    main()
