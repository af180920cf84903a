"""Tests of the whole program on a port: several clients over one plant, rows that are there at the next start, and clients
that behave badly. PLANT names the program, else it is bin/plant."""

import datetime
import os
import shutil
import socket
import subprocess
import tempfile
import threading
import time
import unittest

from plant_client import BIG, Client, Error, Vector

ROOT = os.path.join(os.path.dirname(os.path.abspath(__file__)), "..", "..")
PLANT = os.environ.get("PLANT", os.path.join(ROOT, "bin", "plant"))
HALF_PAST_NINE = datetime.timedelta(hours=9, minutes=30)
HANDSHAKE = b"u:p\x03\x00"
# The text `select from trade` (KX, IPC reference).
QUERY = b"\x01\x01\x00\x00\x1f\x00\x00\x00\x0a\x00\x11\x00\x00\x00select from trade"


def free_port():
    with socket.socket() as door:
        door.bind(("127.0.0.1", 0))
        return door.getsockname()[1]


class Served(unittest.TestCase):
    def setUp(self):
        self.base = tempfile.mkdtemp(prefix="plant_served_")
        self.folder = os.path.join(self.base, "plant")
        self.port = free_port()
        self.process = None

    def tearDown(self):
        if self.process is not None:
            self.process.kill()
            self.process.wait()
            self.process.stderr.close()
        shutil.rmtree(self.base, ignore_errors=True)

    def start(self, sessions, *words):
        words = [PLANT, "serve", "--port", str(self.port), "--sessions", str(sessions), *words]
        self.process = subprocess.Popen(words, stderr=subprocess.PIPE)

    def ends(self, status=0, lines=()):
        """The program has served its sessions, and ends so."""
        self.assertEqual(self.process.wait(timeout=60), status)
        self.assertEqual(self.process.stderr.read().decode().splitlines(), list(lines))
        self.process.stderr.close()
        self.process = None

    def connected(self, connect):
        deadline = time.monotonic() + 600
        while True:
            try:
                return connect()
            except ConnectionRefusedError:
                self.assertIsNone(self.process.poll())
                self.assertLess(time.monotonic(), deadline)
                time.sleep(0.01)

    def client(self, **options):
        return self.connected(lambda: Client.connect("127.0.0.1", self.port, timeout=60, **options))

    def raw(self):
        return self.connected(lambda: socket.create_connection(("127.0.0.1", self.port), 60))

    def test_two_clients_over_one_plant(self):
        self.start(2)
        with self.client() as feed, self.client(order=BIG) as other:
            self.assertEqual(other.query("exec count i from trade"), 0)
            feed.update("trade", HALF_PAST_NINE, "KX", 10050, 200)
            self.assertEqual(other.query("exec count i from trade"), 1)
            other.update("trade", HALF_PAST_NINE, "KX", 10060, 100)
            self.assertEqual(feed.query("exec size from trade"), [200, 100])
            with self.assertRaises(Error):
                feed.query("select foo from trade")
        self.ends()

    def test_two_subscribers(self):
        """Each is told every update that it is subscribed to, in order: after its own messages at once, and else when a read
        of the plant times out."""
        self.start(3)
        with self.client() as feed, self.client() as every, self.client(order=BIG) as one:
            everything, rows = every.subscribe(), one.subscribe("trade", ["KX"])
            for size in range(1000):
                feed.update("trade", HALF_PAST_NINE, "AB", 1, size)
                feed.update("trade", [HALF_PAST_NINE] * 2, ["KX", "AB"], [2, 3], [size, size])
            for size in range(1000):
                single, pair = next(everything), next(everything)
                self.assertEqual((single.table, list(single.rows)), ("trade", [(HALF_PAST_NINE, "AB", 1, size)]))
                self.assertEqual(pair.rows["price"], [2, 3])
                self.assertEqual(list(next(rows).rows), [(HALF_PAST_NINE, "KX", 2, size)])
            with self.assertRaises(Error):
                one.subscribe("foo")
            rows = one.subscribe("trade", "AB")
            feed.update("trade", HALF_PAST_NINE, "KX", 4, 1)
            feed.update("trade", HALF_PAST_NINE, "AB", 5, 1)
            self.assertEqual(one.query("exec count i from trade"), 3002)
            self.assertEqual(next(rows).rows["price"], [5])
        self.ends()

    def test_feeds_and_subscribers_at_once(self):
        """Two feeds and three subscribers with filters of their own, each on a thread: what each was told is what the plant
        has logged of its choice, in order, each row once."""
        for words in ((), ("--batch",)):
            with self.subTest(words=words):
                self.feeds_and_subscribers(1000, words)

    def feeds_and_subscribers(self, updates, words):
        self.start(6, *words)
        chosen, got, failures = {"every": "", "set": ["AB", "KX", "end"], "one": ["end"]}, {}, []
        met = threading.Barrier(len(chosen) + 2, timeout=60)

        def feed(number):
            with self.client() as plant:
                met.wait()
                for size in range(updates):
                    plant.update("trade", [HALF_PAST_NINE] * 2, ["AB", f"S{number}"], [number, size], [size, size])
                plant.update("trade", HALF_PAST_NINE, "end", 1, 1)

        def subscribe(name):
            with self.client() as plant:
                told, rows = plant.subscribe("trade", chosen[name]), got.setdefault(name, [])
                met.wait()
                ends = 0
                while ends < 2:
                    came = list(next(told).rows)
                    ends += sum(row[1] == "end" for row in came)
                    rows += came

        def run(talk, argument):
            try:
                talk(argument)
            except Exception as failure:  # told below
                failures.append(failure)

        threads = [threading.Thread(target=run, args=it) for it in [(subscribe, name) for name in chosen] + [(feed, 0), (feed, 1)]]
        for thread in threads:
            thread.start()
        for thread in threads:
            thread.join()
        self.assertEqual(failures, [])
        with self.client() as plant:
            logged = [row[1:] for row in plant.query("select from trade")]
        self.ends()
        self.assertEqual(len(logged), 4 * updates + 2)
        self.assertEqual(got["every"], logged)
        for name in ("set", "one"):
            self.assertEqual(got[name], [row for row in logged if row[1] in chosen[name]])

    def test_rows_are_there_at_the_next_start(self):
        subprocess.run([PLANT, "init", "--dir", self.folder], check=True)
        rows = 100_000
        columns = ([34_200_000_000_000] * rows, ["KX", "AB"] * (rows // 2), list(range(rows)), [7] * rows)
        self.start(2, "--dir", self.folder)
        with self.client() as one, self.client() as other:
            for size in range(500):
                one.update("trade", HALF_PAST_NINE, "one", 1, size)
                other.update("trade", HALF_PAST_NINE, "other", 1, size)
            one.update("trade", *(Vector(kind, tuple(items)) for kind, items in zip(("timespan", "symbol", "long", "long"), columns)))
        self.ends()
        for _ in range(2):
            self.start(1, "--dir", self.folder)
            with self.client() as plant:
                self.assertEqual(plant.query("exec count i from trade"), 1000 + rows)
                for name in ("one", "other"):
                    self.assertEqual(plant.query(f"exec size from trade where sym=`{name}"), list(range(500)))
                self.assertEqual(plant.query("exec sum price from trade where sym=`AB"), sum(range(1, rows, 2)))
            self.ends()

    def test_a_thread_for_each_client(self):
        """Fifty clients, of which each is answered while all others are connected."""
        clients, updates = 50, 20
        self.start(clients + 1)
        met, failures = threading.Barrier(clients, timeout=60), []

        def talk(number):
            try:
                with self.client() as plant:
                    met.wait()
                    for size in range(updates):
                        plant.update("trade", HALF_PAST_NINE, f"S{number}", 1, size)
                        if plant.query(f"exec size from trade where sym=`S{number}") != list(range(size + 1)):
                            failures.append(f"S{number} lacks its update {size}")
                    met.wait()
            except Exception as failure:  # told below
                failures.append(failure)

        threads = [threading.Thread(target=talk, args=(number,)) for number in range(clients)]
        for thread in threads:
            thread.start()
        for thread in threads:
            thread.join()
        self.assertEqual(failures, [])
        with self.client() as plant:
            self.assertEqual(plant.query("exec count i from trade"), clients * updates)
        self.ends()

    def test_a_client_that_goes_within_a_message(self):
        self.start(2)
        with self.client() as plant:
            plant.update("trade", HALF_PAST_NINE, "KX", 10050, 200)
            with self.raw() as gone:
                gone.sendall(HANDSHAKE + QUERY[:20])
            plant.update("trade", HALF_PAST_NINE, "KX", 10060, 100)
            self.assertEqual(plant.query("exec size from trade"), [200, 100])
        self.ends()

    def test_a_client_that_sends_rubbish(self):
        self.start(2)
        with self.client() as plant:
            plant.update("trade", HALF_PAST_NINE, "KX", 10050, 200)
            with self.raw() as stray:
                stray.sendall(HANDSHAKE + b"\xff" * 100)
                self.assertEqual(stray.recv(1), b"\x03")
                try:
                    self.assertEqual(stray.recv(1), b"")
                except ConnectionResetError:
                    pass
            self.assertEqual(plant.query("exec size from trade"), [200])
        self.ends()

    def test_a_client_that_never_reads(self):
        """Its answers fill its own connection; the other client is answered as before."""
        self.start(2)
        rows = 100_000
        with self.client() as plant:
            columns = ([34_200_000_000_000] * rows, ["KX"] * rows, list(range(rows)), [7] * rows)
            plant.update("trade", *(Vector(kind, tuple(items)) for kind, items in zip(("timespan", "symbol", "long", "long"), columns)))
            with self.raw() as slow:
                slow.sendall(HANDSHAKE + QUERY * 20)
                time.sleep(0.5)
                for size in range(100):
                    plant.update("trade", HALF_PAST_NINE, "late", 1, size)
                self.assertEqual(plant.query("exec size from trade where sym=`late"), list(range(100)))
        self.ends()

    def test_a_port_in_use(self):
        with socket.socket() as door:
            door.bind(("127.0.0.1", self.port))
            door.listen()
            self.start(1)
            self.ends(9, ["plant: cannot listen", f"plant: port {self.port}: the port is in use"])

    def test_a_folder_that_is_not_there(self):
        self.start(1, "--dir", self.folder)
        self.ends(6, ["plant: cannot start", f"plant: {self.folder}: there is no such file or folder"])

    def test_faulty_arguments(self):
        for words in (
            ["--sessions", "1"],
            ["--port", "5010"],
            ["--port", "0", "--sessions", "1"],
            ["--port", "65536", "--sessions", "1"],
            ["--port", "5010", "--sessions", "0"],
            ["--port", "5010", "--sessions", "1000001"],
            ["--port", "5010", "--sessions", "1", "--clock", "2024.01.02D09:30:00.000000000"],
        ):
            done = subprocess.run([PLANT, "serve", *words], capture_output=True, timeout=60)
            lines = done.stderr.decode().splitlines()
            self.assertEqual((done.returncode, done.stdout, lines[0], len(lines)), (1, b"", "plant: usage", 2), words)


if __name__ == "__main__":
    unittest.main()
