#!/usr/bin/env python3
"""Times decoding, encoding and framing, compared with a copy of the same bytes and the same loops in Rust.

Works on a table of trades, on a vector of longs, and on two of symbols: of four bytes, and of 5 to 20. Prints the
milliseconds of each call, the best of all rounds, and its ratios to the copy and to the loop. Needs rustc and the kit's
`rt`, and nothing else but Python 3.
"""

import argparse
import tempfile

import programs

# Each call of the plant, and the loop that it is compared with.
CALLS = (("decode", "decode"), ("encode", "encode"), ("measure", None), ("feed", None))

# The objects, and what is printed of each.
VALUES = (("table", "table"), ("longs", "longs"), ("short", "4 bytes"), ("long", "5 to 20"))


def ratio(own, other):
    return f"{own / other:10.2f}" if other else f"{'':10}"


def main():
    parser = argparse.ArgumentParser(description=__doc__.splitlines()[0])
    parser.add_argument("--rows", type=int, default=1_000_000, metavar="N", help="rows of the table (1000000)")
    parser.add_argument("--longs", type=int, default=10_000_000, metavar="N", help="longs of the vector (10000000)")
    parser.add_argument("--symbols", type=int, default=1_000_000, metavar="N", help="symbols of each vector (1000000)")
    parser.add_argument("--runs", type=int, default=3, metavar="N", help="runs of each program, of five rounds (3)")
    options = parser.parse_args()
    if min(options.rows, options.longs, options.symbols, options.runs) < 1:
        parser.error("N is at least 1")
    arguments = [str(options.rows), str(options.longs), str(options.symbols)]
    program = programs.proved("codec_bench")
    own, other = {}, {}
    with tempfile.TemporaryDirectory() as folder:
        loop = programs.compiled(folder, "codec")
        for _ in range(options.runs):
            programs.best_of([program, *arguments], own)
            programs.best_of([loop, *arguments], other)
    print(f"{'':14} {'bytes':>11} {'ms':>9} {'copy ms':>9} {'loop ms':>9} {'to copy':>10} {'to loop':>10}")
    for what, shown_as in VALUES:
        copy = other[what, "copy"][0]
        for call, compared in CALLS:
            took, size = own[what, call]
            if compared and other[what, compared][1] != size:
                raise SystemExit(f"{what} {call}: other bytes than the loop's")
            loop_took = other[what, compared][0] if compared else None
            shown = f"{loop_took / 1e6:9.2f}" if compared else f"{'':9}"
            print(f"{shown_as + ' ' + call:14} {size:11,} {took / 1e6:9.2f} {copy / 1e6:9.2f} {shown} {ratio(took, copy)} {ratio(took, loop_took)}")


if __name__ == "__main__":
    main()
