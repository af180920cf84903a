"""Tests of the client: its codec against KX's published bytes, values as people write them, what it refuses to send, connections
to a port, and a plant run as a process, in both byte orders."""

import datetime
import io
import os
import re
import shutil
import socket
import struct
import subprocess
import sys
import tempfile
import threading
import time
import unittest

from plant_client import (
    BIG, IDENTITY, LITTLE, Atom, BadBytes, Client, Dictionary, EndOfDay, Error, Keyed, List, PlantEnded, Table, Update, Vector,
    decode, encode, message, plain, typed,
)

ROOT = os.path.join(os.path.dirname(os.path.abspath(__file__)), "..", "..")
PLANT = os.environ.get("PLANT", os.path.join(ROOT, "bin", "plant"))
HALF_PAST_NINE = 34_200_000_000_000
DAY = datetime.date(2024, 1, 2)

# KX, IPC reference: the message, and what it holds.
PUBLISHED = [
    ("010000000d000000fa01000000", Atom("int", 1)),
    ("010000001200000006000100000001000000", Vector("int", (1,))),
    (
        "0100000021000000630b0002000000610062000600020000000200000003000000",
        Dictionary(Vector("symbol", (b"a", b"b")), Vector("int", (2, 3))),
    ),
    (
        "010000002f0000006200630b0002000000610062000000020000000600010000000200000006000100000003000000",
        Table(("a", "b"), (Vector("int", (2,)), Vector("int", (3,)))),
    ),
]

TRADES = Table(
    ("date", "time", "sym", "price"),
    (
        Vector("date", (8767, -(2**31))),
        Vector("timespan", (HALF_PAST_NINE, 34_200_000_000_001)),
        Vector("symbol", (b"KX", b"")),
        Vector("long", (10050, -(2**63))),
    ),
)

TRADES_SHOWN = """\
date       time                 sym price
-----------------------------------------
2024.01.02 0D09:30:00.000000000 KX  10050
           0D09:30:00.000000001"""

LAST_PRICES = Keyed(Table(("sym",), (Vector("symbol", (b"a", b"b")),)), Table(("price",), (Vector("long", (21, -5)),)))


class Codec(unittest.TestCase):
    def test_published_messages(self):
        for text, value in PUBLISHED:
            body = bytes.fromhex(text)[8:]
            self.assertEqual(decode(body), value)
            self.assertEqual(encode(value), body)

    def test_both_orders(self):
        table = Table(("s",), (Vector("symbol", (b"x", b"")),))
        other = Table(("n",), (Vector("long", (-1, 2**62)),))
        values = [
            Atom("boolean", True), Atom("byte", 255), Atom("short", -2), Atom("int", -3), Atom("long", -(2**63)),
            Atom("char", b"c"), Atom("symbol", b"KX"), Atom("timestamp", 1), Atom("month", 2), Atom("date", 8767),
            Atom("timespan", HALF_PAST_NINE), Atom("minute", 570), Atom("second", 1), Atom("time", 1),
            Vector("char", (b"a", b"b")), List(()), List((Atom("int", 1), List((IDENTITY,)))),
            table, Keyed(table, other), IDENTITY, Error(b"nyi"),
        ]
        for value in values:
            for order in (LITTLE, BIG):
                self.assertEqual(decode(encode(value, order), order), value)

    def test_refusals(self):
        for text in ("fa0100", "06000100000001", "0600ffffffff", "07", "f70000000000000000", "fa0100000000"):
            with self.assertRaises(BadBytes):
                decode(bytes.fromhex(text))


class Plain(unittest.TestCase):
    def test_sent(self):
        noon = datetime.datetime(2024, 1, 2, 12)
        for value, wanted in [
            (True, Atom("boolean", True)),
            (7, Atom("long", 7)),
            ("KX", Atom("symbol", b"KX")),
            (b"ab", Vector("char", (b"a", b"b"))),
            (DAY, Atom("date", 8767)),
            (noon, Atom("timestamp", 8767 * 86_400_000_000_000 + 43_200_000_000_000)),
            (datetime.timedelta(hours=9, minutes=30), Atom("timespan", HALF_PAST_NINE)),
            ([1, 2], Vector("long", (1, 2))),
            (["a", "b"], Vector("symbol", (b"a", b"b"))),
            ([1, "a"], List((Atom("long", 1), Atom("symbol", b"a")))),
            ([], List(())),
            (None, IDENTITY),
        ]:
            self.assertEqual(typed(value), wanted)

    def test_received(self):
        for value, wanted in [
            (Atom("short", 7), 7),
            (Atom("long", -(2**63)), None),
            (Atom("long", 2**63 - 1), Atom("long", 2**63 - 1)),
            (Atom("date", 8767), DAY),
            (Atom("date", 2**31 - 2), Atom("date", 2**31 - 2)),
            (Atom("timespan", HALF_PAST_NINE), datetime.timedelta(hours=9, minutes=30)),
            (Atom("timespan", 1), Atom("timespan", 1)),
            (Atom("minute", 570), datetime.time(9, 30)),
            (Atom("time", -1), Atom("time", -1)),
            (Vector("char", (b"a", b"b")), b"ab"),
            (Vector("symbol", (b"a", b"")), ["a", ""]),
            (Vector("symbol", (b"\xff",)), [Atom("symbol", b"\xff")]),
            (Dictionary(Vector("symbol", (b"a",)), Vector("long", (1,))), {"a": 1}),
            (IDENTITY, None),
        ]:
            self.assertEqual(plain(value), wanted)

    def test_tables(self):
        self.assertEqual(str(TRADES), TRADES_SHOWN)
        self.assertEqual(len(TRADES), 2)
        self.assertEqual(TRADES["sym"], ["KX", ""])
        self.assertEqual(TRADES.columns[3], [10050, None])
        self.assertEqual(list(TRADES)[0], (DAY, datetime.timedelta(hours=9, minutes=30), "KX", 10050))
        self.assertEqual(str(LAST_PRICES), "sym| price\n---| -----\na  | 21\nb  | -5")
        self.assertEqual(list(LAST_PRICES), [("a", 21), ("b", -5)])
        self.assertEqual(LAST_PRICES["price"], [21, -5])

    def test_shown(self):
        for kind, value, wanted in [
            ("boolean", True, "1"), ("byte", 10, "0a"), ("int", 2**31 - 1, "0W"), ("int", 1 - 2**31, "-0W"), ("char", b"c", "c"),
            ("month", 288, "2024.01"), ("minute", 570, "09:30"), ("second", -1, "-00:00:01"), ("time", 1, "00:00:00.001"),
            ("timestamp", 1, "2000.01.01D00:00:00.000000001"), ("timespan", -1, "-0D00:00:00.000000001"), ("date", -1, "1999.12.31"),
        ]:
            self.assertEqual(str(Atom(kind, value)), wanted)

    def test_pandas(self):
        try:
            import pandas
        except ImportError:
            self.skipTest("pandas isn't there")
        frame = TRADES.to_pandas()
        self.assertEqual(list(frame.columns), ["date", "time", "sym", "price"])
        self.assertEqual(frame["date"][0], pandas.Timestamp(2024, 1, 2))
        self.assertTrue(pandas.isna(frame["date"][1]))
        self.assertEqual(frame["time"][1], pandas.Timedelta(34_200_000_000_001, "ns"))
        self.assertEqual(LAST_PRICES.to_pandas()["price"]["b"], -5)


class Refused(unittest.TestCase):
    def test_nothing_is_sent(self):
        writes = io.BytesIO()
        client = Client(io.BytesIO(b"\x03"), writes)
        before = writes.getvalue()
        moment = datetime.datetime(2024, 1, 2, tzinfo=datetime.timezone.utc)
        for value in (
            "a\0b", Atom("symbol", b"a\0b"), 2**63, Atom("int", 2**31), Atom("byte", -1), Atom("boolean", 2), Atom("float", 1.5), 1.5,
            object(), moment, Atom("symbol", 7), Atom("char", b"ab"), b"x" * (16 * 1024 * 1024 + 1),
            Vector("long", (0,) * (2 * 1024 * 1024)),
        ):
            with self.assertRaises(ValueError):
                client.send(value)
        with self.assertRaises(ValueError):
            client.update("tra\0de", 1)
        self.assertEqual(writes.getvalue(), before)

    def test_plant_that_ends(self):
        with self.assertRaises(PlantEnded):
            Client(io.BytesIO(b""), io.BytesIO())
        client = Client(io.BytesIO(b"\x03\x01\x02"), io.BytesIO())
        with self.assertRaises(PlantEnded) as ended:
            client.query("select from trade")
        self.assertEqual(ended.exception.sent, b"select from trade")
        self.assertIn("select from trade", str(ended.exception))


class Port:
    """A port on which `serve` talks to one client over a socket; it is then closed."""

    def __init__(self, serve):
        self.listener = socket.create_server(("127.0.0.1", 0))
        self.number = self.listener.getsockname()[1]
        self.thread = threading.Thread(target=self.run, args=(serve,))

    def run(self, serve):
        with self.listener, self.listener.accept()[0] as client:
            serve(client, client.makefile("rb"))

    def __enter__(self):
        self.thread.start()
        return self.number

    def __exit__(self, *_):
        self.thread.join()


def read_message(reads):
    """The order, the kind (1 is sync) and the value of the next message; None at the end."""
    header = reads.read(8)
    if len(header) < 8:
        return None
    order = LITTLE if header[0] == 1 else BIG
    (length,) = struct.unpack(f"{order}I", header[4:])
    return order, header[1], decode(reads.read(length - 8), order)


def response(value, order):
    body = encode(value, order)
    return struct.pack(f"{order}BBBBI", 1 if order == LITTLE else 0, 2, 0, 0, len(body) + 8) + body


class Connection(unittest.TestCase):
    def answers(self, order):
        """Both sides of a talk: the server answers a text with its length, and else with an error; it cuts its answers."""
        came = []

        def serve(client, reads):
            came.append(reads.read(5))
            client.sendall(b"\x03")
            while (message := read_message(reads)) is not None:
                came.append(message)
                if message[1] == 1:
                    is_text = isinstance(message[2], Vector)
                    answer = response(Atom("long", len(message[2])) if is_text else Error(b"nyi"), order)
                    for part in (answer[:3], answer[3:]):
                        client.sendall(part)

        with Port(serve) as port:
            with Client.connect("127.0.0.1", port, order=order, user=b"u:p", timeout=30) as plant:
                self.assertEqual(plant.capability, 3)
                self.assertEqual(plant.query("1+1"), 3)
                plant.send(IDENTITY)
                with self.assertRaises(Error) as refused:
                    plant.sync(IDENTITY)
                self.assertEqual(refused.exception.text, b"nyi")
                self.assertEqual(plant.query("x" * 100_000), 100_000)
            self.assertIsNone(plant.status)
        texts = [Vector("char", tuple(bytes([b]) for b in text)) for text in (b"1+1", b"x" * 100_000)]
        self.assertEqual(came, [b"u:p\x03\x00", (order, 1, texts[0]), (order, 0, IDENTITY), (order, 1, IDENTITY), (order, 1, texts[1])])

    def test_little_endian(self):
        self.answers(LITTLE)

    def test_big_endian(self):
        self.answers(BIG)

    def test_publications_before_a_response(self):
        rows = Table(("price",), (Vector("long", (7, 8)),))
        update = List((Atom("symbol", b"upd"), Atom("symbol", b"trade"), rows))
        end = List((Atom("symbol", b".u.end"), Atom("date", 8767)))

        def serve(client, reads):
            reads.read(5)
            client.sendall(b"\x03")
            for _ in range(2):
                read_message(reads)
                client.sendall(message(update, False) + message(end, False) + response(Atom("long", 1), LITTLE))
            client.sendall(message(update, False, BIG))

        with Port(serve) as port, Client.connect("127.0.0.1", port, user=b"u:p", timeout=30) as plant:
            told = plant.subscribe("trade", "KX")
            self.assertEqual(plant.query("2"), 1)
            for _ in range(2):
                self.assertEqual(next(told), Update("trade", Table(("price",), (Vector("long", (7, 8)),))))
                self.assertEqual(next(told), EndOfDay(DAY))
            self.assertEqual(next(told).rows["price"], [7, 8])
            self.assertRaises(StopIteration, next, told)

    def test_nothing_listens(self):
        with socket.create_server(("127.0.0.1", 0)) as listener:
            free = listener.getsockname()[1]
        with self.assertRaises(ConnectionRefusedError):
            Client.connect("127.0.0.1", free)

    def test_the_plant_hangs_up(self):
        with Port(lambda client, reads: None) as port:
            with self.assertRaises(PlantEnded):
                Client.connect("127.0.0.1", port, timeout=30)

        def greet(client, reads):
            reads.read(2)
            client.sendall(b"\x03\x01")
            reads.read(8)

        with Port(greet) as port:
            with Client.connect("127.0.0.1", port, timeout=30) as plant:
                with self.assertRaises(PlantEnded) as ended:
                    plant.query("1+1")
                self.assertEqual(ended.exception.sent, b"1+1")
                with self.assertRaises(PlantEnded):
                    for _ in range(100):
                        plant.send(b"x" * 100_000)

    def test_a_plant_that_does_not_answer(self):
        done = threading.Event()

        def wait(client, reads):
            done.wait(30)

        with Port(wait) as port:
            with self.assertRaises(TimeoutError):
                Client.connect("127.0.0.1", port, timeout=0.2)
            done.set()


class Plant(unittest.TestCase):
    def talk(self, order):
        words = [PLANT, "once", "--clock", "2024.01.02D09:30:00.000000000"]
        half_past_nine = datetime.timedelta(hours=9, minutes=30)
        with Client.run(words, order=order, user=b"u:p") as plant:
            self.assertEqual(plant.capability, 3)
            plant.update("trade", half_past_nine, "KX", 10050, 200)
            plant.update("trade", ["KX", "AB"], [10060, 7], [100, 5], sync=False)
            answer = plant.query("select from trade")
            self.assertEqual(answer.names, ("date", "time", "sym", "price", "size"))
            self.assertEqual(list(answer)[0], (DAY, half_past_nine, "KX", 10050, 200))
            self.assertEqual(answer["price"], [10050, 10060, 7])
            last = plant.query("select last price by sym from trade")
            self.assertEqual(list(last), [("AB", 7), ("KX", 10060)])
            self.assertEqual(plant.query("exec sum size from trade where sym=`KX"), 300)
            self.assertEqual(plant.query(".u.d"), DAY)
            for text, error in (("select foo from trade", b"foo"), ("select from", b"parse"), ("select x:price+sym from trade", b"type")):
                with self.assertRaises(Error) as refused:
                    plant.query(text)
                self.assertEqual(refused.exception.text, error)
            with self.assertRaises(Error) as refused:
                plant.update("foo", 1)
            self.assertEqual(refused.exception.text, b"foo")
        self.assertEqual(plant.status, 0)

    def test_little_endian(self):
        self.talk(LITTLE)

    def test_big_endian(self):
        self.talk(BIG)


def await_port(port):
    """Waits until something listens on the port, for ten minutes at most."""
    for _ in range(6000):
        try:
            return socket.create_connection(("127.0.0.1", port)).close()
        except ConnectionRefusedError:
            time.sleep(0.1)
    raise TimeoutError(f"nothing listens on {port}")


class Readme(unittest.TestCase):
    """The first look of README.md prints what stands there."""

    def blocks(self, language, section="Over standard input and output"):
        with open(os.path.join(ROOT, "README.md")) as file:
            look = file.read().split("## A first look")[1].split("\n## ")[0].split(f"### {section}")[1].split("\n### ")[0]
        (found,) = re.findall(rf"```{language}\n(.*?)```\n.*?```\n(.*?)```", look, re.DOTALL)
        return [block.replace("bin/plant", PLANT) for block in found]

    def setUp(self):
        self.base = tempfile.mkdtemp(prefix="plant_readme_")

    def tearDown(self):
        shutil.rmtree(self.base, ignore_errors=True)

    def test_shell(self):
        script, printed = self.blocks("sh")
        ran = subprocess.run(["sh", "-c", script], cwd=ROOT, capture_output=True, text=True, check=True)
        self.assertEqual(ran.stdout, printed)

    def test_port(self):
        script, printed = self.blocks("python", "On a port")
        with socket.socket() as door:
            door.bind(("127.0.0.1", 0))
            port = door.getsockname()[1]
        # Three sessions: the two of the script, and the first connection, which only waits for the server.
        with subprocess.Popen([PLANT, "serve", "--port", str(port), "--sessions", "3"]) as server:
            try:
                await_port(port)
                script = script.replace("5010", str(port))
                ran = subprocess.run([sys.executable, "-c", script], cwd=ROOT, capture_output=True, text=True, check=True)
                self.assertEqual(ran.stdout, printed)
                self.assertEqual(server.wait(timeout=60), 0)
            finally:
                server.kill()

    def test_python(self):
        script, printed = self.blocks("python")
        script = script.replace('"data"', repr(os.path.join(self.base, "data")))
        ran = subprocess.run([sys.executable, "-c", script], cwd=ROOT, capture_output=True, text=True, check=True)
        self.assertEqual(ran.stdout, printed)


if __name__ == "__main__":
    unittest.main()
