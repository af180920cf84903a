"""Tests of the whole program over real folders: rows that are there at the next start, and each way in which a folder, a
schema or a disk refuses. PLANT names the program, else it is bin/plant."""

import datetime
import os
import resource
import shutil
import signal
import subprocess
import tempfile
import unittest

from plant_client import Client, Error, Vector

ROOT = os.path.join(os.path.dirname(os.path.abspath(__file__)), "..", "..")
PLANT = os.environ.get("PLANT", os.path.join(ROOT, "bin", "plant"))
CLOCK = "2024.01.02D09:30:00.000000000"
MANIFEST = "f0"
HALF_PAST_NINE = datetime.timedelta(hours=9, minutes=30)

TWO_TABLES = """/ two tables of a desk
fills:([]time:`timespan$();sym:`symbol$();size:`long$();side:`symbol$())
marks:([]time:`timespan$();sym:`symbol$();mark:`long$())
"""

# What a text may have at most: 1,024 tokens, and brackets 64 deep (docs/QUERIES.md). Each text here has its expression as
# deep as that allows, with its answer over three rows of the sizes 1, 2 and 4.
DEEP_TEXTS = (
    (f"exec {'neg ' * 1020}size from trade", [1, 2, 4]),
    (f"exec {'not ' * 1020}size from trade", [True, True, True]),
    (f"exec {'sum ' * 1020}size from trade", 7),
    (f"exec {'distinct ' * 1020}size from trade", [1, 2, 4]),
    (f"exec {'size+' * 509}size from trade", [510, 1020, 2040]),
    (f"exec {'100 xbar ' * 510}size from trade", [0, 0, 0]),
    (f"exec {'(' * 64}size{')' * 64} from trade", [1, 2, 4]),
    (f"exec {'neg (' * 64}size{')' * 64} from trade", [1, 2, 4]),
    (f"exec size from trade where size>{'neg ' * 1016}1", [2, 4]),
    (f"exec size from trade where {'not ' * 1016}size>3", [4]),
    (f"exec size from trade where {'not ' * 1014}size in size", [1, 2, 4]),
    (f"exec max {'neg ' * 1016}size by sym from trade", {"KX": 4}),
    (f"exec max price by {'100 xbar ' * 508}size from trade", {0: 10050}),
    # `neg size-x` is `x-size`, so of n of them, the last over `size`, each size comes 1-n times.
    (f"exec {'neg size-' * 340}size from trade", [-339, -678, -1356]),
    (f"exec size from trade where -600>neg neg {'neg size-' * 338}size", [2, 4]),
    (f"exec size from trade where size>1,1000>neg {'neg size-' * 337}size", [2]),
    (f"exec max {'neg size-' * 339}size by sym from trade", {"KX": -338}),
    (f"exec max price by {'neg size-' * 339}size from trade", dict.fromkeys((-1352, -676, -338), 10050)),
)

# Texts as deep that are refused, with what is said of them.
DEEP_REFUSED = (
    (f"exec {'neg (' * 64}size{')' * 63} from trade", "parse"),
    (f"exec {'neg ' * 1020}sizes from trade", "sizes"),
    (f"exec {'neg ' * 1020}sym from trade", "type"),
    (f"exec x:{'neg size-' * 338}sym from trade", "type"),
    (f"exec {'neg size-' * 338}sym from trade", "nyi"),
)

# Texts that end, or go on with a word, where such an expression lacks its last side.
DEEP_UNFINISHED = (
    f"exec {'neg ' * 1020}from trade",
    f"exec {'size+' * 509}from trade",
    f"exec size from trade where {'not ' * 1016}",
)

# An as-of join whose left side has a column that deep.
DEEP_JOIN = f"aj[`sym`time;select sym,time,size:{'neg size-' * 335}size from trade;quote]"


def log_of(date):
    """The file of a date's log, by its days since 2000.01.01 (docs/FORMATS.md)."""
    return f"f{1_000_000 + date}"


class Folders(unittest.TestCase):
    def setUp(self):
        self.base = tempfile.mkdtemp(prefix="plant_program_")
        self.folder = os.path.join(self.base, "plant")
        os.chmod(self.base, 0o755)

    def tearDown(self):
        shutil.rmtree(self.base, ignore_errors=True)

    def run_plant(self, *words, data=b"", **options):
        done = subprocess.run([PLANT, *words], input=data, capture_output=True, timeout=120, **options)
        return done.returncode, done.stdout, done.stderr.decode().splitlines()

    def init(self, *words):
        self.assertEqual(self.run_plant("init", "--dir", self.folder, *words), (0, b"", []))

    def once(self, *words):
        return Client.run([PLANT, "once", "--dir", self.folder, "--clock", CLOCK, *words])

    def refuses(self, words, cause, **options):
        """The program can't start, and says this cause."""
        status, output, lines = self.run_plant(*words, data=b"u:p\x03\x00", **options)
        self.assertEqual((status, output, lines), (6, b"", ["plant: cannot start", cause]))

    def write(self, name, text):
        path = os.path.join(self.base, name)
        with open(path, "wb") as file:
            file.write(text)
        return path

    def test_rows_are_there_at_the_next_start(self):
        self.init()
        with self.once() as plant:
            plant.update("trade", HALF_PAST_NINE, "KX", 10050, 200)
            plant.update("trade", HALF_PAST_NINE, "KX", 10050, 200)
        self.assertEqual(plant.status, 0)
        with self.once() as plant:
            self.assertEqual(plant.query("exec size from trade"), [200, 200])
            times = [HALF_PAST_NINE] * 1000
            plant.update("trade", times, ["a"] * 1000, list(range(1000)), list(range(1000)))
        self.assertEqual(plant.status, 0)
        with self.once() as plant:
            self.assertEqual(plant.query("exec count i from trade"), 1002)
            self.assertEqual(plant.query("exec sum size from trade where sym=`a"), 499_500)
        self.assertEqual(plant.status, 0)

    def test_many_rows_are_there_at_the_next_start(self):
        """A thousand updates of one row and one of a hundred thousand, found by two more starts."""
        self.init()
        rows = 100_000
        kinds = ("timespan", "symbol", "long", "long")
        columns = ([34_200_000_000_000] * rows, ["KX", "AB"] * (rows // 2), list(range(rows)), [7] * rows)
        with self.once() as plant:
            for size in range(1000):
                plant.update("trade", HALF_PAST_NINE, "KX", 10050, size)
            plant.update("trade", *(Vector(kind, tuple(items)) for kind, items in zip(kinds, columns)))
            self.assertEqual(plant.query("exec count i from trade"), 1000 + rows)
        self.assertEqual(plant.status, 0)
        for _ in range(2):
            with self.once() as plant:
                self.assertEqual(plant.query("exec count i from trade"), 1000 + rows)
                self.assertEqual(plant.query("exec sum size from trade"), 499_500 + 7 * rows)
                self.assertEqual(plant.query("exec sum price from trade where sym=`AB"), sum(range(1, rows, 2)))
            self.assertEqual(plant.status, 0)

    def test_a_later_start_ends_the_date(self):
        self.init()
        with self.once() as plant:
            plant.update("trade", HALF_PAST_NINE, "KX", 10050, 200)
        later = [PLANT, "once", "--dir", self.folder, "--clock", "2024.01.07D09:30:00.000000000"]
        with Client.run(later) as plant:
            self.assertEqual(plant.query(".u.d"), datetime.date(2024, 1, 7))
            self.assertEqual(plant.query("exec date from trade"), [datetime.date(2024, 1, 2)])
        self.refuses(["once", "--dir", self.folder, "--clock", CLOCK], f"plant: {self.folder}: it has opened a date that is later than the clock's: 2024.01.07")

    def test_clock_with_a_step(self):
        self.init()
        with self.once("--step", "1000000000") as plant:
            plant.update("trade", "KX", 10050, 200)
            plant.update("trade", "KX", 10050, 201)
            times = plant.query("exec time from trade")
        second = datetime.timedelta(seconds=1)
        self.assertEqual(times, [HALF_PAST_NINE + second, HALF_PAST_NINE + 2 * second])

    def test_without_a_clock_it_is_the_machines(self):
        self.init()
        before = datetime.datetime.now(datetime.timezone.utc).date()
        with Client.run([PLANT, "once", "--dir", self.folder]) as plant:
            date = plant.query(".u.d")
        self.assertIn(date, (before, datetime.datetime.now(datetime.timezone.utc).date()))

    def test_schema_of_two_tables(self):
        schema = self.write("desk.q", TWO_TABLES.encode())
        self.init("--schema", schema)
        with self.once("--schema", schema) as plant:
            plant.update("fills", HALF_PAST_NINE, "KX", 5, "buy")
            plant.update("marks", HALF_PAST_NINE, "KX", 7)
            with self.assertRaises(Error):
                plant.query("select from trade")
        with self.once("--schema", schema) as plant:
            self.assertEqual(plant.query("exec mark from marks"), [7])
        said = f"plant: {self.folder}: it was formatted with another schema, which differs in the table fills"
        self.refuses(["once", "--dir", self.folder, "--clock", CLOCK], said)

    def test_schema_with_a_fault(self):
        schema = self.write("faulty.q", b"t:")
        words = ["once", "--dir", self.folder, "--schema", schema]
        self.refuses(words, f"plant: {schema}: it is no schema: the token can't follow at byte 2")
        absent = os.path.join(self.base, "absent.q")
        self.refuses(["init", "--dir", self.folder, "--schema", absent], f"plant: {absent}: there is no such file or folder")
        self.assertFalse(os.path.exists(self.folder))

    def test_folder_that_is_not_formatted(self):
        self.refuses(["once", "--dir", self.folder], f"plant: {self.folder}: there is no such file or folder")
        os.mkdir(self.folder)
        self.refuses(["once", "--dir", self.folder], f"plant: {self.folder}: it is not formatted, or its manifest f0 is damaged at byte 0")
        file = self.write("file", b"")
        self.refuses(["once", "--dir", file], f"plant: {file}: it is not a folder")

    def test_folder_formatted_twice(self):
        self.init()
        self.refuses(["init", "--dir", self.folder], f"plant: {self.folder}: it is formatted already")

    def test_folder_held_by_another_process(self):
        self.init()
        with self.once() as plant:
            self.assertEqual(plant.query(".u.i"), 0)
            self.refuses(["once", "--dir", self.folder], f"plant: {self.folder}: it is in use by another process")
            self.refuses(["init", "--dir", self.folder], f"plant: {self.folder}: it is in use by another process")
            os.kill(plant.process.pid, signal.SIGKILL)
        with self.once() as plant:
            self.assertEqual(plant.query(".u.i"), 0)

    def test_damaged_files(self):
        self.init()
        with self.once() as plant:
            plant.update("trade", HALF_PAST_NINE, "KX", 10050, 200)
        log = os.path.join(self.folder, log_of(8767))
        size = os.path.getsize(log)
        self.assertEqual(size, 97)
        with open(log, "r+b") as file:
            file.truncate(size - 1)
        words = ["once", "--dir", self.folder, "--clock", CLOCK]
        self.refuses(words, f"plant: {self.folder}: its log of 2024.01.02 is damaged at byte 8, after 0 updates")
        with open(os.path.join(self.folder, MANIFEST), "r+b") as file:
            file.write(b"X")
        self.refuses(words, f"plant: {self.folder}: it is not formatted, or its manifest f0 is damaged at byte 0")

    @unittest.skipUnless(os.geteuid() == 0, "the superuser may write into any folder, so a child gives that up")
    def test_read_only_folder(self):
        self.init()
        os.chmod(self.folder, 0o555)
        for name in os.listdir(self.folder):
            os.chmod(os.path.join(self.folder, name), 0o444)

        def become_nobody():
            os.setgid(65534)
            os.setuid(65534)

        cause = f"plant: {self.folder}: the disk failed as its plant was loaded"
        self.refuses(["once", "--dir", self.folder], cause, preexec_fn=become_nobody)

    def test_limit_on_file_sizes(self):
        self.init()

        def limit():
            resource.setrlimit(resource.RLIMIT_FSIZE, (200, 200))
            signal.signal(signal.SIGXFSZ, signal.SIG_IGN)

        words = [PLANT, "once", "--dir", self.folder, "--clock", CLOCK]
        process = subprocess.Popen(words, stdin=subprocess.PIPE, stdout=subprocess.PIPE, preexec_fn=limit, restore_signals=False)
        plant = Client(process.stdout, process.stdin)
        plant.update("trade", HALF_PAST_NINE, "KX", 10050, 200)
        with self.assertRaises(Error) as refused:
            plant.update("trade", [HALF_PAST_NINE] * 9, ["KX"] * 9, [1] * 9, [2] * 9)
        self.assertEqual(str(refused.exception), "disk")
        self.assertEqual(plant.query("exec size from trade"), [200])
        process.stdin.close()
        self.assertEqual(process.wait(), 0)
        process.stdout.close()
        with self.once() as plant:
            self.assertEqual(plant.query("exec size from trade"), [200])

    @unittest.skipUnless(os.geteuid() == 0, "mounting needs the superuser")
    def test_full_disk(self):
        small = os.path.join(self.base, "small")
        os.mkdir(small)
        mounted = subprocess.run(["mount", "-t", "tmpfs", "-o", "size=64k", "tmpfs", small], capture_output=True)
        if mounted.returncode:
            self.skipTest("no tmpfs can be mounted here")
        try:
            self.folder = os.path.join(small, "plant")
            self.init()
            rows = 1000
            with self.once() as plant:
                plant.update("trade", HALF_PAST_NINE, "KX", 10050, 200)
                with self.assertRaises(Error) as refused:
                    for _ in range(9):
                        plant.update("trade", [HALF_PAST_NINE] * rows, ["KX"] * rows, [1] * rows, [2] * rows)
                self.assertEqual(str(refused.exception), "disk")
                kept = plant.query("exec count i from trade")
            self.assertEqual(plant.status, 0)
            with self.once() as plant:
                self.assertIn(plant.query("exec count i from trade"), (kept, kept + rows))
            full = os.path.join(small, "full")
            with open(os.path.join(small, "filler"), "wb") as file:
                try:
                    file.write(b"x" * 2**20)
                except OSError:
                    pass
            status, output, lines = self.run_plant("init", "--dir", full)
            self.assertEqual((status, output, lines[:1]), (6, b"", ["plant: cannot start"]))
        finally:
            subprocess.run(["umount", small], check=False)

    def test_help_and_faulty_arguments(self):
        status, output, lines = self.run_plant("--help")
        self.assertEqual((status, lines), (0, []))
        self.assertIn(b"once", output)
        self.assertTrue(output.endswith(b"\n") and not output.endswith(b"\n\n"), output[-20:])
        self.assertEqual(self.run_plant("--version")[0], 0)
        for words in (["serve"], ["check"], ["once", "--dir"], ["init"], ["once", "--clock", "2024.13.02D09:30"]):
            status, output, lines = self.run_plant(*words)
            self.assertEqual((status, output, lines[0], len(lines)), (1, b"", "plant: usage", 2), words)

    @unittest.skipUnless(os.path.exists("/dev/full"), "there is no file that is always full")
    def test_help_that_is_not_printed(self):
        for word in ("--help", "--version"):
            with open("/dev/full", "wb") as full:
                done = subprocess.run([PLANT, word], stdout=full, stderr=subprocess.PIPE, timeout=120)
            self.assertEqual((done.returncode, done.stderr), (4, b"plant: link fault\n"))

    @unittest.skipUnless(os.path.exists("/dev/full"), "there is no file that is always full")
    def test_answers_that_are_not_written(self):
        self.init()
        with open("/dev/full", "wb") as full:
            words = [PLANT, "once", "--dir", self.folder, "--clock", CLOCK]
            done = subprocess.run(words, input=b"u:p\x03\x00", stdout=full, stderr=subprocess.PIPE, timeout=120)
        self.assertEqual((done.returncode, done.stderr), (4, b"plant: link fault\n"))

    def test_streams_that_end_badly(self):
        """The statuses of an input that ends within a message, and of bytes that are none."""
        for data, status, line in (
            (b"u:p\x03\x00\x01", 2, "plant: input ends within a message"),
            (b"u:p\x03\x00\x01\x01\x00\x00\x07\x00\x00\x00", 3, "plant: bad message 4 at 9"),
        ):
            self.assertEqual(self.run_plant("once", "--clock", CLOCK, data=data), (status, b"\x03", [line]))

    def test_deepest_texts_on_a_stack_of_256_kibibytes(self):
        """The deepest texts of each form, answered by a program whose stack has 256 KiB: most systems give 8 MiB."""
        for text, answer in DEEP_TEXTS:
            with self.subTest(text=text[:40]):
                with self.on_stack_of(256) as plant:
                    self.push_three_trades(plant)
                    self.assertEqual(plant.query(text), answer)
                self.assertEqual(plant.status, 0)
        with self.on_stack_of(256) as plant:
            self.push_three_trades(plant)
            self.assertEqual(plant.query(DEEP_JOIN)["size"], [-334, -668, -1336])
            for text, why in DEEP_REFUSED:
                with self.subTest(text=text[:40]):
                    self.assert_refused(plant, text, why)
            for text in DEEP_UNFINISHED:
                with self.subTest(text=text[:40]):
                    self.assert_refused(plant, text, "parse")
        self.assertEqual(plant.status, 0)

    def on_stack_of(self, kibibytes):
        """A program in memory whose stack has this size."""
        limited = f'ulimit -s {kibibytes} && exec env -i "$0" "$@"'
        return Client.run(["sh", "-c", limited, PLANT, "once", "--clock", CLOCK])

    def assert_refused(self, plant, text, why):
        with self.assertRaises(Error) as refused:
            plant.query(text)
        self.assertEqual(str(refused.exception), why)

    def push_three_trades(self, plant):
        """Three rows of the sizes 1, 2 and 4."""
        for size in (1, 2, 4):
            plant.update("trade", HALF_PAST_NINE, "KX", 10050, size)


if __name__ == "__main__":
    unittest.main()
