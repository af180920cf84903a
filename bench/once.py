#!/usr/bin/env python3
"""Times one-row updates, and then texts, through `bin/plant once` and through a loop in Rust that reads and writes the same;
and then queries over a day of a million rows, one after the other.

Prints, for each, the messages per second, the seconds, the bytes in and out and the peak memory, and then the ratio; for the
updates also what their log costs: `plant_bench` makes the same updates without a session, with a log and in memory alone; for
the queries of a day, the messages per second, and by how many bytes a row the peak of the memory rose above the day's own: in
all, and for each of the columns that the query reads (at most 24 is wanted).
Needs rustc, a C compiler (gcc, or the one that CC names), the kit's `rt` and what `bin/plant` needs, and nothing else but Python 3.
"""

import argparse
import os
import struct
import subprocess
import sys
import tempfile
import time

HERE = os.path.dirname(os.path.realpath(__file__))
sys.path.insert(0, os.path.join(os.path.dirname(HERE), "clients", "python"))

from plant_client import Client, Vector, plain  # noqa: E402
from programs import best_of, proved  # noqa: E402

PLANT = [os.path.join(os.path.dirname(HERE), "bin", "plant"), "once", "--clock", "2024.01.02D09:30:00.000000000"]

HANDSHAKE = b"u:p\x03\x00"
CAPABILITY = b"\x03"  # the answer to the handshake
ASYNC, SYNC, RESPONSE = 0, 1, 2
HALF_PAST_NINE = (9 * 60 + 30) * 60 * 10**9
DATE = 8767  # 2024.01.02, in days since 2000.01.01
ROWS = 100  # of the table that the texts ask for

# Runs a program and prints its exit status, its nanoseconds and the KiB of its peak memory. It is small itself, so that
# the peak is the program's.
MEASURE = r"""
#define _GNU_SOURCE
#include <stdio.h>
#include <sys/resource.h>
#include <sys/wait.h>
#include <time.h>
#include <unistd.h>

int main(int count, char **arguments) {
    struct timespec from, to;
    struct rusage used;
    int status;
    (void)count;
    clock_gettime(CLOCK_MONOTONIC, &from);
    pid_t child = fork();
    if (child < 0) return 1;
    if (child == 0) {
        execv(arguments[1], arguments + 1);
        _exit(127);
    }
    if (wait4(child, &status, 0, &used) != child) return 1;
    clock_gettime(CLOCK_MONOTONIC, &to);
    fprintf(stderr, "measured %d %lld %ld\n", WIFEXITED(status) ? WEXITSTATUS(status) : 128 + WTERMSIG(status),
            (to.tv_sec - from.tv_sec) * 1000000000LL + (to.tv_nsec - from.tv_nsec), used.ru_maxrss);
    return 0;
}
"""


def message(kind, body):
    return bytes([1, kind, 0, 0]) + struct.pack("<i", 8 + len(body)) + body


def symbol(name):
    return b"\xf5" + name + b"\x00"


def vector(number, form, items):
    return struct.pack("<bBi", number, 0, len(items)) + struct.pack(f"<{len(items)}{form}", *items)


def symbols(names):
    return struct.pack("<bBi", 11, 0, len(names)) + b"".join(name + b"\x00" for name in names)


def update(kind):
    """The message (`.u.upd;`trade;(0D09:30;`KX;10050;200))."""
    time = b"\xf0" + struct.pack("<q", HALF_PAST_NINE)
    numbers = [b"\xf9" + struct.pack("<q", number) for number in (10050, 200)]
    row = struct.pack("<bBi", 0, 0, 4) + time + symbol(b"KX") + b"".join(numbers)
    return message(kind, struct.pack("<bBi", 0, 0, 3) + symbol(b".u.upd") + symbol(b"trade") + row)


def text(query):
    return message(SYNC, struct.pack("<bBi", 10, 0, len(query)) + query)


def table(rows):
    """The response to `select from trade` over as many of these updates as `rows`."""
    names = symbols([b"date", b"time", b"sym", b"price", b"size"])
    columns = [
        vector(14, "i", [DATE] * rows), vector(16, "q", [HALF_PAST_NINE] * rows), symbols([b"KX"] * rows),
        vector(7, "q", [10050] * rows), vector(7, "q", [200] * rows),
    ]
    return message(RESPONSE, b"\x62\x00\x63" + names + struct.pack("<bBi", 0, 0, 5) + b"".join(columns))


def built(folder):
    """The measuring program and the loop."""
    source, measure, loop = (os.path.join(folder, name) for name in ("measure.c", "measure", "loop"))
    with open(source, "w") as file:
        file.write(MEASURE)
    subprocess.run([os.environ.get("CC", "gcc"), "-O2", "-o", measure, source], check=True)
    subprocess.run(["rustc", "--edition", "2021", "-O", "-o", loop, os.path.join(HERE, "once.rs")], check=True)
    return measure, loop


def measured(measure, command, given, taken):
    """Runs the command over the files, and returns the seconds and the KiB."""
    with open(given, "rb") as source, open(taken, "wb") as target:
        done = subprocess.run([measure, *command], stdin=source, stdout=target, stderr=subprocess.PIPE, text=True)
    *said, last = done.stderr.splitlines() or [""]
    for line in said:
        print(line, file=sys.stderr)
    if not last.startswith("measured "):
        sys.exit(f"once.py: {command[0]} was not measured: {last}")
    status, nanoseconds, kib = map(int, last.split()[1:])
    if status != 0:
        sys.exit(f"once.py: {command[0]} ended with exit status {status}")
    return nanoseconds / 1e9, kib


def is_answered(taken, reply, count):
    """Whether the file holds the answer to the handshake and `count` replies, and nothing else."""
    if os.path.getsize(taken) != len(CAPABILITY) + count * len(reply):
        return False
    with open(taken, "rb") as file:
        if file.read(len(CAPABILITY)) != CAPABILITY:
            return False
        while chunk := file.read(4096 * len(reply)):
            if chunk != reply * (len(chunk) // len(reply)):
                return False
    return True


def best(measure, command, files, replies, runs):
    """The quickest of the runs, and the greatest peak."""
    given, taken = files
    seconds, peak = None, 0
    for _ in range(runs):
        took, kib = measured(measure, command, given, taken)
        if not is_answered(taken, *replies):
            sys.exit(f"once.py: {command[0]} gave other replies")
        seconds = took if seconds is None else min(seconds, took)
        peak = max(peak, kib)
    return seconds, peak


def compare(folder, programs, what, front, one, reply, count, runs):
    """Runs both programs over `front` and `count` times `one`, and prints a line for each."""
    measure, loop = programs
    given, taken = os.path.join(folder, "given"), os.path.join(folder, "taken")
    with open(given, "wb") as file:
        file.write(front)
        for _ in range(count):
            file.write(one)
    rows = []
    for name, command in (("plant", PLANT), ("loop in Rust", [loop, reply.hex()])):
        seconds, kib = best(measure, command, (given, taken), (reply, count), runs)
        rows.append((name, seconds, kib))
    sizes = f"{os.path.getsize(given):12,} {os.path.getsize(taken):12,}"
    print(f"{what:14} {'per second':>12} {'seconds':>9} {'bytes in':>12} {'bytes out':>12} {'peak MiB':>9}")
    for name, seconds, kib in rows:
        print(f"{name:14} {count / seconds:12,.0f} {seconds:9.3f} {sizes} {kib / 1024:9.1f}")
    print(f"{'ratio':14} {rows[1][1] / rows[0][1]:12.2f}")
    return rows[0][1]


def show_log(seconds, count, runs):
    """What the log is of the seconds that this many updates take through the plant: its records are made in memory too."""
    program, took = proved("plant_bench"), {}
    for _ in range(runs):
        best_of([program, str(count), "1"], took)
    log = (took["1", "log"][0] - took["1", "memory"][0] + took["1", "records"][0]) / 1e9
    rest = seconds - log
    print(f"{'without a log':14} {count / rest:12,.0f} {rest:9.3f}")
    print(f"{'ratio':14} {rest / seconds:12.2f}")


SYMBOLS = [f"S{k}" for k in range(100)]
BATCH = 1000  # rows of an update of the day
WINDOW = (10 * 3600 * 10**9, 10 * 3600 * 10**9 + 1800 * 10**9)  # 10:00 to 10:30


def day_columns(rows):
    """The columns of a day of `trade`: times from 08:00 to 16:00, symbols in turn, prices and sizes that vary."""
    times = [8 * 3600 * 10**9 + k * (8 * 3600 * 10**9 // rows) for k in range(rows)]
    names = [SYMBOLS[k * 7919 % len(SYMBOLS)] for k in range(rows)]
    return times, names, [10_000 + k * 37 % 500 for k in range(rows)], [1 + k * 13 % 900 for k in range(rows)]


def day_queries(columns):
    """Each query of the day, how many columns it reads, and its answer as a plain value."""
    times, names, prices, sizes = columns
    last = sorted({name: price for name, price in zip(names, prices)}.items())
    kept = [k for k in range(len(times)) if names[k] == "S42" and WINDOW[0] <= times[k] <= WINDOW[1]]
    return [
        ("exec sum size from trade", 1, sum(sizes)),
        ("select last price by sym from trade", 2, [price for _, price in last]),
        ("select from trade where sym=`S42,time within 0D10 0D10:30", 5, [prices[k] for k in kept]),
    ]


def memory(process, word):
    """A count of KiB in the process's status: VmRSS or VmHWM."""
    with open(f"/proc/{process.pid}/status") as file:
        return next(int(line.split()[1]) for line in file if line.startswith(word))


def feed_day(client, columns):
    kinds = ("timespan", "symbol", "long", "long")
    for start in range(0, len(columns[0]), BATCH):
        parts = [column[start : start + BATCH] for column in columns]
        client.update("trade", *(Vector(kind, tuple(part)) for kind, part in zip(kinds, parts)), sync=False)


def ask_day(rows, runs):
    """Queries over one day, one after the other, each compared with what Python makes of the same rows."""
    columns = day_columns(rows)
    print(f"{'a day of ' + format(rows, ','):58} {'per second':>12} {'ms':>9} {'peak bytes a row':>17} {'a column':>9}")
    for query, read, wanted in day_queries(columns):
        with Client.run(PLANT) as client:
            feed_day(client, columns)
            client.query("exec count i from quote")
            before, took = memory(client.process, "VmHWM"), []
            for _ in range(runs):
                start = time.perf_counter()
                answer = client.sync(query.encode())
                took.append(time.perf_counter() - start)
            rose = (memory(client.process, "VmHWM") - before) * 1024 / rows
        answer = plain(answer)
        if (answer if isinstance(answer, int) else answer["price"]) != wanted:
            sys.exit(f"once.py: another answer to {query}")
        print(f"{query:58} {1 / min(took):12,.0f} {min(took) * 1e3:9.3f} {rose:17.1f} {rose / read:9.1f}")


def main():
    parser = argparse.ArgumentParser(description=__doc__.splitlines()[0])
    parser.add_argument("--updates", type=int, default=200_000, metavar="N", help="one-row updates (200000)")
    parser.add_argument("--texts", type=int, default=50_000, metavar="N", help=f"queries of a table of {ROWS} rows (50000)")
    parser.add_argument("--rows", type=int, default=1_000_000, metavar="N", help="rows of the day that is asked about (1000000)")
    parser.add_argument("--runs", type=int, default=3, metavar="N", help="runs of each, of which the best counts (3)")
    options = parser.parse_args()
    if min(options.updates, options.texts, options.rows, options.runs) < 1:
        parser.error("N is at least 1")
    with tempfile.TemporaryDirectory() as folder:
        programs = built(folder)
        # Builds the plant where it isn't built, so that no run includes that.
        subprocess.run(PLANT, stdin=subprocess.DEVNULL, stdout=subprocess.DEVNULL, check=True)
        done = message(RESPONSE, b"\x65\x00")
        seconds = compare(folder, programs, "updates", HANDSHAKE, update(SYNC), done, options.updates, options.runs)
        show_log(seconds, options.updates, options.runs)
        rows = HANDSHAKE + update(ASYNC) * ROWS
        query = text(b"select from trade")
        compare(folder, programs, "texts", rows, query, table(ROWS), options.texts, options.runs)
        ask_day(options.rows, 5 * options.runs)


if __name__ == "__main__":
    main()
