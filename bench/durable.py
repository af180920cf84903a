#!/usr/bin/env python3
"""Times updates that are durable before their answer, through `once --dir` over pipes, beside a C program that makes the same
writes and syncs of a file and the same round trips of pipes, and decodes, judges and keeps nothing.

Prints, for updates of one row and of a thousand, the updates and rows per second of the best run, the microseconds of an
update, and the ratio to the C program; and the same of the plant in memory, which syncs nothing. The programs take turns.
Needs a C compiler (cc, or the one that CC names) and what `bin/plant` needs, and nothing else but Python 3.
"""

import argparse
import os
import shutil
import struct
import subprocess
import sys
import tempfile

import programs

HERE = os.path.dirname(os.path.realpath(__file__))
CLOCK = "2024.01.02D09:30:00.000000000"
HALF_PAST_NINE = (9 * 60 + 30) * 60 * 10**9
REPLY = 10  # bytes of the response (::)


def symbol(name):
    return b"\xf5" + name + b"\0"


def listed(items):
    return struct.pack("<BBI", 0, 0, len(items)) + b"".join(items)


def vector(kind, items):
    return struct.pack(f"<BBI{len(items)}q", kind, 0, len(items), *items)


def update(rows):
    """The message of an update of `trade`: a row as atoms, or more rows as vectors (KX, IPC reference)."""
    if rows == 1:
        numbers = [b"\xf9" + struct.pack("<q", number) for number in (10_050, 200)]
        columns = [b"\xf0" + struct.pack("<q", HALF_PAST_NINE), symbol(b"KX"), *numbers]
    else:
        names = struct.pack("<BBI", 11, 0, rows) + b"KX\0" * rows
        columns = [vector(16, [HALF_PAST_NINE] * rows), names, vector(7, [10_050] * rows), vector(7, [200] * rows)]
    body = listed([symbol(b".u.upd"), symbol(b"trade"), listed(columns)])
    return struct.pack("<BBBBI", 1, 1, 0, 0, 8 + len(body)) + body


def record(rows):
    """The bytes that the plant appends for such an update: its size, its payload and a gate (docs/FORMATS.md)."""
    return 4 + 8 + 6 + 5 + 7 + 6 + (6 + 8 * rows) + (6 + 3 * rows) + 2 * (6 + 8 * rows) + 1


def compiled(folder):
    program = os.path.join(folder, "durable")
    subprocess.run([os.environ.get("CC", "cc"), "-O2", "-o", program, os.path.join(HERE, "durable.c")], check=True)
    return program


def asked(durable, count, message, *command):
    """The nanoseconds of this number of updates, one after the other."""
    done = subprocess.run([durable, "ask", str(count), message, str(REPLY), *command], stdout=subprocess.PIPE, text=True, check=True)
    nanoseconds, status = map(int, done.stdout.split())
    if status != 0:
        sys.exit(f"{command[0]} ended with status {status}")
    return nanoseconds


def one_run(durable, plant, folder, rows, count, message):
    """The nanoseconds of the plant over a new folder, of the C program over a new file, and of the plant in memory."""
    data, file = os.path.join(folder, "plant"), os.path.join(folder, "log")
    subprocess.run([plant, "init", "--dir", data], check=True)
    took = [
        asked(durable, count, message, plant, "once", "--dir", data, "--clock", CLOCK),
        asked(durable, count, message, durable, "serve", file, str(record(rows))),
        asked(durable, count, message, plant, "once", "--clock", CLOCK),
    ]
    shutil.rmtree(data)
    os.unlink(file)
    return took


NAMES = ("plant, a folder", "C, the same syncs", "plant, in memory")


def compare(durable, plant, folder, rows, count, runs):
    message = os.path.join(folder, "message")
    with open(message, "wb") as file:
        file.write(update(rows))
    best = [min(took) for took in zip(*(one_run(durable, plant, folder, rows, count, message) for _ in range(runs)))]
    print(f"{'updates of ' + format(rows, ',') + ' rows':24} {'updates/s':>10} {'rows/s':>12} {'microseconds':>13} {'to C':>6}")
    for name, nanoseconds in zip(NAMES, best):
        rate = count / nanoseconds * 1e9
        print(f"{name:24} {rate:10,.0f} {rate * rows:12,.0f} {nanoseconds / count / 1e3:13.1f} {best[1] / nanoseconds:6.2f}")


def main():
    parser = argparse.ArgumentParser(description=__doc__, formatter_class=argparse.RawDescriptionHelpFormatter)
    parser.add_argument("--updates", type=int, default=10_000, metavar="N", help="updates of one row (10000)")
    parser.add_argument("--batches", type=int, default=500, metavar="N", help="updates of a thousand rows (500)")
    parser.add_argument("--runs", type=int, default=5, metavar="N", help="runs of each, of which the best counts (5)")
    parser.add_argument("--folder", default=None, help="where the files are made; it decides which disk is measured")
    parser.add_argument("--program", default=None, help="the plant, where it isn't the one that bin/plant builds")
    options = parser.parse_args()
    if min(options.updates, options.batches, options.runs) < 1:
        parser.error("N is at least 1")
    plant = programs.plant(options.program)
    with tempfile.TemporaryDirectory(dir=options.folder) as folder:
        durable = compiled(folder)
        compare(durable, plant, folder, 1, options.updates, options.runs)
        compare(durable, plant, folder, 1000, options.batches, options.runs)


if __name__ == "__main__":
    main()
