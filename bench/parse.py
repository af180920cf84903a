#!/usr/bin/env python3
"""Times the reading of texts: of five forms at three lengths, and of the longest sum and the most columns.

Prints the microseconds of each text, the best of all rounds, and the nanoseconds per byte. Needs the kit's `rt`, and
nothing else but Python 3.
"""

import argparse

import programs


def main():
    parser = argparse.ArgumentParser(description=__doc__.splitlines()[0])
    parser.add_argument("--length", type=int, default=16384, metavar="N", help="bytes of the shortest texts (16384)")
    parser.add_argument("--runs", type=int, default=3, metavar="N", help="runs of the program, of twenty rounds (3)")
    options = parser.parse_args()
    if not 64 <= options.length <= 16384 or options.runs < 1:
        parser.error("the length is 64 to 16384, and N is at least 1")
    program = programs.proved("parse_bench")
    best = {}
    for _ in range(options.runs):
        for what, size, nanoseconds, answer in programs.lines([program, str(options.length)]):
            key = what, int(size), answer
            best[key] = min(best.get(key, int(nanoseconds)), int(nanoseconds))
    print(f"{'text':10} {'bytes':>7} {'microseconds':>13} {'ns/byte':>10}  answer")
    for (what, size, answer), took in best.items():
        print(f"{what:10} {size:7,} {took / 1e3:13,.1f} {took / size:10.1f}  {answer}")


if __name__ == "__main__":
    main()
