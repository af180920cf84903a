"""Times the subscribers of a plant on a port beside those of Redis: `serve.py --only subscribers`.

One client feeds updates of one row and 1 or 10 others are subscribed to everything; all are in one C program (subscribe.c).
It compares each byte that a subscriber gets with what it has to get, in the order of the feed: what the plant publishes by KX's
documents (docs/FORMATS.md), and from Redis (PUBLISH, SUBSCRIBE) a payload of just these bytes. Each update has its number as its
price. Updates are sent

    one by one           the next when all subscribers have the last, for a second
    1,000 unanswered     at most this many without their answers: how many messages a second reach the subscribers, also with none
    10,000 a second      whether those before are answered or not: how long after the answer a subscriber gets its message

Redis is told to keep all that a subscriber hasn't read yet (client-output-buffer-limit pubsub 0 0 0).

Then the processor time of the plant for updates of a thousand rows without, with 1 and with 10 subscribers of everything.
"""

import os
import statistics
import subprocess
import sys
import tempfile

from durable import HALF_PAST_NINE
from plant_client import IDENTITY, Atom, List, Table, Vector, message

MARK = int.from_bytes(b"\1NUMBER\2", "little")
COLUMNS = {
    "quote": {"time": "timespan", "sym": "symbol", "bid": "long", "ask": "long", "bsize": "long", "asize": "long"},
    "trade": {"time": "timespan", "sym": "symbol", "price": "long", "size": "long"},
}
RATE = 10_000
ROWS = 1000


def symbol(name):
    return Atom("symbol", name)


def empty(table):
    return List((symbol(table), Table(tuple(COLUMNS[table]), tuple(Vector(kind, ()) for kind in COLUMNS[table].values()))))


def response(value):
    sent = message(value, False)
    return sent[:1] + b"\2" + sent[2:]


def columns_fed(rows):
    """The columns of an update of `trade`, whose first price is the mark of its number."""
    cells = {"time": HALF_PAST_NINE, "sym": "KX", "price": 10_050, "size": 200}
    columns = {name: [cell] * rows for name, cell in cells.items()}
    columns["price"][0] = MARK
    return tuple(Vector(kind, tuple(columns[name])) for name, kind in COLUMNS["trade"].items())


def published(rows):
    columns = columns_fed(rows)
    return message(List((symbol("upd"), symbol("trade"), Table(tuple(COLUMNS["trade"]), columns))), False)


def plant_talk(subscribers, rows):
    """What a feed and a subscriber of a plant say and hear: the files of subscribe.c."""
    columns = columns_fed(rows)
    items = columns if rows > 1 else tuple(Atom(column.kind, column.items[0]) for column in columns)
    return {
        "hello": b"u:p\3\0",
        "greeted": b"\3",
        "subscribe": b"u:p\3\0" + message(List((symbol(".u.sub"), symbol(""), symbol(""))), True),
        "subscribed": b"\3" + response(List((empty("quote"), empty("trade")))),
        "update": message(List((symbol(".u.upd"), symbol("trade"), List(items))), True),
        "answer": response(IDENTITY),
        "told": published(rows),
    }


def redis_talk(subscribers, rows):
    """The same of Redis: the payload is what a plant would publish."""
    payload = b"$%d\r\n%s\r\n" % (len(published(rows)), published(rows))
    return {
        "hello": b"",
        "greeted": b"",
        "subscribe": b"*2\r\n$9\r\nSUBSCRIBE\r\n$5\r\ntrade\r\n",
        "subscribed": b"*3\r\n$9\r\nsubscribe\r\n$5\r\ntrade\r\n:1\r\n",
        "update": b"*3\r\n$7\r\nPUBLISH\r\n$5\r\ntrade\r\n" + payload,
        "answer": b":%d\r\n" % subscribers,
        "told": b"*3\r\n$7\r\nmessage\r\n$5\r\ntrade\r\n" + payload,
    }


TALKS = {"kdb": plant_talk, "redis": redis_talk}


class Told:
    """What subscribe.c measured: the updates and messages a second, and the median, the 99th percentile and the longest delay
    of a message from its update's sending and from its answer, in nanoseconds."""

    def __init__(self, server, options, mode, number, subscribers, count, rows=1):
        files = TALKS[server.kind](subscribers, rows)
        with tempfile.TemporaryDirectory(dir=options.scratch) as folder:
            for name, data in files.items():
                with open(os.path.join(folder, name), "wb") as file:
                    file.write(data)
            words = [mode, number, server.port, subscribers, count, folder]
            done = subprocess.run([options.programs["subscribers"], *map(str, words)], stdout=subprocess.PIPE, text=True)
        if done.returncode != 0:
            sys.exit(f"{server.name}'s subscribers failed")
        told, took, *delays = map(int, done.stdout.split())
        self.sent, self.answered = delays[:3], delays[3:]
        self.rate = told / took * 1e9
        self.delivered = self.rate * subscribers
        self.told_bytes = len(files["told"])


def is_better(mode, done, other):
    return done.sent < other.sent if mode == "paced" else done.rate > other.rate


def best_told(servers, options, mode, number, subscribers, count):
    """The best run of each server: the most updates a second, or where they are paced the least median delay from sending."""
    best = {}
    for _ in range(options.runs):
        for kind in servers:
            with tempfile.TemporaryDirectory(dir=options.folder) as folder, kind(folder, False, options.programs) as server:
                done = Told(server, options, mode, number, subscribers, count)
            if kind.name not in best or is_better(mode, done, best[kind.name]):
                best[kind.name] = done
    return best


def print_told(title, best):
    for name, done in best.items():
        delays = " ".join(f"{nanoseconds / 1e3:9,.1f}" if done.delivered else "" for nanoseconds in done.sent[:2] + done.answered[:2])
        print(f"  {title + ', ' + name:42} {done.rate:11,.0f} {done.delivered:12,.0f} {delays}".rstrip(), flush=True)


def processor_seconds(process):
    """The processor time that a process has used, its threads' and the kernel's for it."""
    with open(f"/proc/{process.pid}/stat") as file:
        fields = file.read().rpartition(")")[2].split()
    return sum(int(ticks) for ticks in fields[11:13]) / os.sysconf("SC_CLK_TCK")


def cost_of(kind, options, subscribers, count):
    """The median processor time, in microseconds, of an update of a thousand rows, and the bytes that each subscriber gets."""
    costs, told_bytes = [], 0
    for _ in range(options.runs):
        with tempfile.TemporaryDirectory(dir=options.folder) as folder, kind(folder, False, options.programs) as server:
            before = processor_seconds(server.process)
            told_bytes = Told(server, options, "flood", 4, subscribers, count, ROWS).told_bytes
            costs.append((processor_seconds(server.process) - before) / count * 1e6)
    return statistics.median(costs), told_bytes


def print_costs(kind, options, count):
    print(f"{'an update of 1,000 rows, subscribers':44} {'processor, us':>14} {'beside none':>12} {'in those of 1':>14} {'bytes to each':>14}")
    costs = {subscribers: cost_of(kind, options, subscribers, count) for subscribers in (0, 1, 10)}
    none, one = costs[0][0], costs[1][0]
    for subscribers, (cost, told_bytes) in costs.items():
        more, ratio = cost - none, (cost - none) / (one - none) if one > none else 0
        print(f"  {f'{kind.name}, {subscribers}':42} {cost:14,.1f} {more:12,.1f} {ratio:14.1f} {told_bytes if subscribers else 0:14,}", flush=True)


def print_load(when):
    print(f"load {when}: " + " ".join(f"{load:.1f}" for load in os.getloadavg()), flush=True)


def compare_subscribers(servers, options):
    """Prints all of it, and gives a title, a name and the messages a second of each of those that aren't paced."""
    print_load("before")
    print(f"{'':44} {'':11} {'':12} {'us after sending':>19} {'us after the answer':>19}")
    print(f"{'subscribers of everything':44} {'updates/s':>11} {'messages/s':>12}" + f" {'median':>9} {'99th':>9}" * 2)
    drawn, updates = [], options.told
    for mode, number, count, what in (
        ("turns", 1, updates, "one by one"),
        ("flood", 1000, updates, "1,000 unanswered"),
        ("paced", RATE, updates // 4, f"{RATE:,} a second"),
    ):
        for subscribers in (0, 1, 10) if mode == "flood" else (1, 10):
            best = best_told(servers, options, mode, number, subscribers, count)
            print_told(f"{subscribers}, {what}", best)
            if mode == "flood" and subscribers:
                drawn += [(f"messages to {subscribers} subscribers", name, done.delivered) for name, done in best.items()]
    print()
    print_costs(servers[0], options, updates // 50)
    print_load("after")
    print()
    return drawn
