#!/usr/bin/env python3
"""Times a plant on a port beside Redis and PostgreSQL, with the same clients (serve.c) over connections of 127.0.0.1.

Updates of one row, in memory: one by one over one connection, beside a program that only echoes (what a round trip costs), and
with many unanswered at once. Durable updates: one connection, and eight. Then `select last price by sym from trade` over rows
of a hundred symbols from one and from four connections, alone and while one more feeds, and what the feed loses meanwhile;
that beside PostgreSQL alone. Then subscribers, beside those of Redis (subscribers.py). At the end of each run the rows that a
server has are counted and compared with what was answered, and the last prices with the rows that were sent.

Redis appends a row as one string to a list (RPUSH), with appendfsync=always where it is durable. PostgreSQL inserts it by a
prepared statement, into an unlogged table with fsync off, or where it is durable into a logged one with its standard
settings. The plant is durable in a folder (`serve --dir`), and else in memory.

Needs a C compiler, what `bin/plant` needs, redis-server and postgresql (Debian's packages of these names; what isn't there is
left out, and said), and nothing else but Python 3. It installs nothing. --svg FILE draws the results, --only PART measures
one part: updates, queries or subscribers.
"""

import argparse
import contextlib
import glob
import os
import shutil
import socket
import struct
import subprocess
import sys
import tempfile
import time

HERE = os.path.dirname(os.path.realpath(__file__))
ROOT = os.path.dirname(HERE)
sys.path[:0] = [HERE, os.path.join(ROOT, "clients", "python")]

from bars import draw  # noqa: E402
from durable import update  # noqa: E402
from plant_client import Client, Vector  # noqa: E402
from programs import plant as plant_program  # noqa: E402
from subscribers import compare_subscribers  # noqa: E402

SYMBOLS = 100
BATCH = 1000
ROW = "34200000000000, 'KX', 10050, 200"
QUERY = "select last price by sym from trade"
LAST_PRICES = "select distinct on (sym) sym, price from trade order by sym, id desc"


def free_port():
    with socket.socket() as door:
        door.bind(("127.0.0.1", 0))
        return door.getsockname()[1]


def await_port(port, process):
    for _ in range(600):
        with contextlib.suppress(OSError), socket.create_connection(("127.0.0.1", port), 1):
            return
        if process.poll() is not None:
            sys.exit(f"a server ended with status {process.returncode}")
        time.sleep(0.1)
    sys.exit("a server doesn't listen")


class Server:
    """A server on a port, the bytes that a client of it sends, and the rows that it has."""

    name, kind = "", ""

    def __init__(self, folder, durable, programs):
        self.folder, self.durable, self.programs, self.port = folder, durable, programs, free_port()

    def started(self, command, **more):
        self.process = subprocess.Popen(command, stdout=subprocess.DEVNULL, stderr=subprocess.DEVNULL, **more)
        await_port(self.port, self.process)

    def __enter__(self):
        self.start()
        return self

    def __exit__(self, *_):
        self.process.terminate()
        self.process.wait()

    def hello(self, query):
        return b""


class Plant(Server):
    name, kind = "plant", "kdb"

    def start(self):
        words = ["serve", "--port", str(self.port), "--sessions", "1000000"]
        if self.durable:
            data = os.path.join(self.folder, "plant")
            subprocess.run([self.programs["plant"], "init", "--dir", data], check=True)
            words += ["--dir", data]
        self.started([self.programs["plant"], *words])

    def hello(self, query):
        return b"u:p\x03\0"

    def update(self):
        return update(1)

    def query(self):
        body = struct.pack("<BBI", 10, 0, len(QUERY)) + QUERY.encode()
        return struct.pack("<BBBBI", 1, 1, 0, 0, 8 + len(body)) + body

    def load(self, rows):
        with Client.connect("127.0.0.1", self.port) as client:
            for first in range(0, rows, BATCH):
                numbers = range(first, first + BATCH)
                names = [f"S{i % SYMBOLS}" for i in numbers]
                client.update("trade", Vector("timespan", list(numbers)), Vector("symbol", names), list(numbers), [200] * BATCH)

    def count(self):
        with Client.connect("127.0.0.1", self.port) as client:
            return client.query("exec count i from trade")

    def last_prices(self):
        with Client.connect("127.0.0.1", self.port) as client:
            table = client.query(QUERY)
        names = [sym.decode() for sym in table.keys.vectors[0].items]
        return dict(zip(names, table.values.vectors[0].items))


class Redis(Server):
    name, kind = "Redis", "redis"

    def start(self):
        synced = ["--appendonly", "yes", "--appendfsync", "always"] if self.durable else ["--appendonly", "no"]
        unread = ["--client-output-buffer-limit", "pubsub", "0", "0", "0"]
        words = ["--port", str(self.port), "--bind", "127.0.0.1", "--dir", self.folder, "--save", "", *synced, *unread]
        self.started([self.programs["redis"], *words])

    def update(self):
        row = ROW.replace(", ", " ").replace("'", "").encode()
        return b"*3\r\n$5\r\nRPUSH\r\n$5\r\ntrade\r\n$%d\r\n%s\r\n" % (len(row), row)

    def count(self):
        with socket.create_connection(("127.0.0.1", self.port)) as link:
            link.sendall(b"LLEN trade\r\n")
            return int(link.recv(64)[1:])


class Postgres(Server):
    name, kind = "PostgreSQL", "postgres"

    def ran(self, program, *words, **more):
        at = os.path.join(self.programs["postgres"], program)
        become = ["runuser", "-u", "postgres", "--"] if os.geteuid() == 0 else []
        return [*become, at, *words], dict(stdout=subprocess.DEVNULL, **more)

    def start(self):
        self.data = os.path.join(self.folder, "data")
        if os.geteuid() == 0:
            shutil.chown(self.folder, "postgres")
        command, more = self.ran("initdb", "-D", self.data, "-U", "postgres", "--auth=trust", "-E", "UTF8", "--locale=C")
        subprocess.run(command, check=True, stderr=subprocess.DEVNULL, **more)
        settings = [] if self.durable else ["-c", "fsync=off", "-c", "synchronous_commit=off"]
        words = ["-D", self.data, "-p", str(self.port), "-k", self.folder, "-c", "listen_addresses=127.0.0.1", *settings]
        self.started(self.ran("postgres", *words)[0])
        self.sql(f"create {'' if self.durable else 'unlogged '}table trade (id bigserial, time bigint, sym text, price bigint, size bigint)")

    def sql(self, text, given=None):
        words = ["psql", "-h", "127.0.0.1", "-p", str(self.port), "-U", "postgres", "-qAtc", text]
        return subprocess.run(words, check=True, capture_output=True, text=True, input=given).stdout

    def hello(self, query):
        text = LAST_PRICES if query else f"insert into trade (time, sym, price, size) values ({ROW})"
        start = struct.pack(">I", 196608) + b"user\0postgres\0database\0postgres\0\0"
        parse = b"u\0" + text.encode() + b"\0" + struct.pack(">H", 0)
        return struct.pack(">I", 4 + len(start)) + start + b"P" + struct.pack(">I", 4 + len(parse)) + parse + b"S\0\0\0\x04"

    def update(self):
        bind, execute = b"\0u\0" + struct.pack(">HHHH", 0, 0, 1, 1), b"\0" + struct.pack(">I", 0)
        framed = [kind + struct.pack(">I", 4 + len(body)) + body for kind, body in ((b"B", bind), (b"E", execute), (b"S", b""))]
        return b"".join(framed)

    query = update

    def load(self, rows):
        lines = "".join(f"{i}\tS{i % SYMBOLS}\t{i}\t200\n" for i in range(rows))
        self.sql("copy trade (time, sym, price, size) from stdin", lines)

    def count(self):
        return int(self.sql("select count(*) from trade"))

    def last_prices(self):
        return {sym: int(price) for sym, price in (line.split("|") for line in self.sql(LAST_PRICES).split())}


class Echo(Server):
    name, kind = "echo", "echo"

    def start(self):
        self.started([self.programs["clients"], "echo", str(self.port), str(len(self.update())), "10"])

    def update(self):
        return update(1)

    def count(self):
        return None


class Clients:
    """What clients of a server measured: the replies, the nanoseconds, and the median, 99th percentile and longest wait."""

    def __init__(self, server, folder, clients, window, count, seconds, query=False):
        paths = [os.path.join(folder, f"{server.kind}-{query}-{part}") for part in ("hello", "message")]
        for path, data in zip(paths, (server.hello(query), server.query() if query else server.update())):
            with open(path, "wb") as file:
                file.write(data)
        words = ["ask", server.port, server.kind, clients, window, count, seconds, *paths]
        self.process = subprocess.Popen([server.programs["clients"], *map(str, words)], stdout=subprocess.PIPE, text=True)

    def result(self):
        printed, _ = self.process.communicate()
        if self.process.returncode != 0:
            sys.exit("the clients failed")
        self.answered, self.took, self.median, self.most, self.longest = map(int, printed.split())
        return self

    @property
    def rate(self):
        return self.answered / self.took * 1e9


def best_updates(servers, options, durable, clients, window, count):
    """The best run of each server with this many updates from each of the clients."""
    best = {}
    for _ in range(options.runs):
        for kind in servers:
            with tempfile.TemporaryDirectory(dir=options.folder) as folder, kind(folder, durable, options.programs) as server:
                done = Clients(server, folder, clients, window, count, 600).result()
                if server.count() not in (None, done.answered):
                    sys.exit(f"{server.name} answered {done.answered} updates and has {server.count()} rows")
                if server.name not in best or best[server.name].rate < done.rate:
                    best[server.name] = done
    return best


def print_updates(title, best):
    print(f"{title:44} {'per second':>12} {'median, us':>11} {'99th':>9} {'longest':>9}")
    for name, done in best.items():
        waits = (f"{nanoseconds / 1e3:.1f}" for nanoseconds in (done.median, done.most, done.longest))
        print(f"  {name:42} {done.rate:12,.0f}" + "".join(f" {wait:>9}" if i else f" {wait:>11}" for i, wait in enumerate(waits)))
    print(flush=True)
    return [(title, name, done.rate) for name, done in best.items()]


def queried(server, folder, options, clients, fed):
    """Queries from this many clients for a time, while one more feeds if it is `fed`: both results."""
    seconds = options.seconds
    feed = Clients(server, folder, 1, 1, 10_000_000, seconds) if fed else None
    asked = Clients(server, folder, clients, 1, 1_000_000, seconds, query=True).result() if clients else None
    return asked, feed and feed.result()


def check_rows(server, rows, fed):
    """The rows that were loaded, and after them those that were fed, which are of one more symbol."""
    wanted = {f"S{i}": rows - SYMBOLS + i for i in range(SYMBOLS)} | ({"KX": 10_050} if fed else {})
    if server.count() != rows + fed or server.last_prices() != wanted:
        sys.exit(f"{server.name} has other rows than it was sent")


def queries(kind, options):
    lines = []
    with tempfile.TemporaryDirectory(dir=options.folder) as folder, kind(folder, False, options.programs) as server:
        server.load(options.rows)
        check_rows(server, options.rows, 0)
        fed = 0
        for clients, is_fed in ((0, True), (1, False), (4, False), (1, True), (4, True)):
            asked, feed = queried(server, folder, options, clients, is_fed)
            fed += feed.answered if feed else 0
            lines.append((server.name, clients, asked, feed))
        check_rows(server, options.rows, fed)
    return lines


def print_queries(lines):
    print(f"{QUERY + ', clients':50} {'per second':>11} {'median, ms':>11} {'longest':>9} {'updates/s':>10} {'longest, ms':>12}")
    for name, clients, asked, feed in lines:
        ask = f"{asked.rate:11,.1f} {asked.median / 1e6:11.2f} {asked.longest / 1e6:9.2f}" if asked else f"{'':33}"
        fed = f"{feed.rate:10,.0f} {feed.longest / 1e6:12.2f}" if feed else ""
        print(f"  {name}, {clients}{' and a feed' if feed else '':30}".ljust(52)[:52] + f"{ask} {fed}")
    print(flush=True)
    return [(QUERY, f"{name}, {clients}{' and a feed' if feed else ''}", asked.rate) for name, clients, asked, feed in lines if asked]


def found_programs(options):
    programs = {"plant": plant_program(options.program), "redis": shutil.which("redis-server")}
    folders = sorted(glob.glob("/usr/lib/postgresql/*/bin"), key=lambda at: int(at.split("/")[4]))
    programs["postgres"] = folders[-1] if folders else None
    for name, source in (("clients", "serve.c"), ("subscribers", "subscribe.c")):
        programs[name] = os.path.join(options.scratch, name)
        command = [os.environ.get("CC", "cc"), "-O2", "-pthread", "-o", programs[name], os.path.join(HERE, source)]
        subprocess.run(command, check=True)
    for name in ("redis", "postgres"):
        if programs[name] is None:
            print(f"{name} isn't there, and is left out")
    return programs


def compare_updates(every, options):
    drawn = print_updates("in memory, one by one", best_updates([*every, Echo], options, False, 1, 1, options.updates))
    drawn += print_updates("in memory, 1,000 unanswered", best_updates([*every, Echo], options, False, 1, 1000, options.updates * 10))
    drawn += print_updates("durable, one connection", best_updates(every, options, True, 1, 1, options.durable))
    drawn += print_updates("durable, eight connections", best_updates(every, options, True, 8, 1, options.durable))
    return drawn


def compare(options):
    every = [kind for kind, name in ((Plant, "plant"), (Redis, "redis"), (Postgres, "postgres")) if options.programs[name]]
    drawn = []
    if options.only in (None, "updates"):
        drawn += compare_updates(every, options)
    if options.only in (None, "queries"):
        drawn += print_queries([line for kind in every if kind is not Redis for line in queries(kind, options)])
    if options.only in (None, "subscribers"):
        drawn += compare_subscribers([kind for kind in every if kind is not Postgres], options)
    if options.svg:
        draw(options.svg, drawn)


def main():
    parser = argparse.ArgumentParser(description=__doc__, formatter_class=argparse.RawDescriptionHelpFormatter)
    parser.add_argument("--updates", type=int, default=50_000, metavar="N", help="updates one by one (50000); ten times as many at once")
    parser.add_argument("--durable", type=int, default=3000, metavar="N", help="durable updates of each connection (3000)")
    parser.add_argument("--rows", type=int, default=1_000_000, metavar="N", help="rows that are asked about, in thousands (1000000)")
    parser.add_argument("--seconds", type=float, default=5, metavar="S", help="how long is asked (5)")
    parser.add_argument("--told", type=int, default=100_000, metavar="N", help="updates that subscribers are told (100000)")
    parser.add_argument("--runs", type=int, default=3, metavar="N", help="runs of updates and subscribers, of which the best counts (3)")
    parser.add_argument("--only", choices=("updates", "queries", "subscribers"), help="the part that is measured, where not all are")
    parser.add_argument("--folder", default=None, help="where the files are made; it decides which disk is measured")
    parser.add_argument("--program", default=None, help="the plant, where it isn't the one that bin/plant builds")
    parser.add_argument("--svg", default=None, metavar="FILE", help="draws the results")
    options = parser.parse_args()
    if min(options.updates, options.durable, options.runs) < 1 or options.rows < BATCH or options.rows % BATCH:
        parser.error("N is at least 1, and the rows are whole thousands")
    if options.told < 1000:
        parser.error("subscribers are told at least 1000 updates")
    with tempfile.TemporaryDirectory() as options.scratch:
        options.programs = found_programs(options)
        compare(options)


if __name__ == "__main__":
    main()
