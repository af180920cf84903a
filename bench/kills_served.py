"""Rounds of kills.py over a server: four clients feed it, four ask it, and it is killed."""

import datetime
import os
import signal
import socket
import subprocess
import sys
import threading
import time

sys.path.insert(0, os.path.join(os.path.dirname(os.path.realpath(__file__)), "..", "clients", "python"))

from plant_client import Client  # noqa: E402

FEEDS = ASKS = 4
HALF_PAST_NINE = datetime.timedelta(hours=9, minutes=30)


def free_port():
    with socket.socket() as door:
        door.bind(("127.0.0.1", 0))
        return door.getsockname()[1]


class Server:
    """A server over the folder, of which connections are accepted once it is made."""

    def __init__(self, program, folder):
        self.port = free_port()
        words = [program, "serve", "--port", str(self.port), "--sessions", "1000000", "--dir", folder]
        self.process = subprocess.Popen(words, stderr=subprocess.PIPE)

    def connect(self):
        """A client, once the server listens."""
        deadline = time.monotonic() + 60
        while True:
            try:
                return Client.connect("127.0.0.1", self.port, timeout=60)
            except ConnectionRefusedError:
                assert self.process.poll() is None, f"the server ended: {self.process.stderr.read().decode()}"
                assert time.monotonic() < deadline, "the server doesn't listen"
                time.sleep(0.01)

    def kill(self):
        self.process.send_signal(signal.SIGKILL)
        self.process.wait()
        self.process.stderr.close()


class Talk(threading.Thread):
    """A client on a thread, until the server is gone. `failure` is what it found wrong, if anything."""

    def __init__(self, client):
        super().__init__()
        self.client, self.failure = client, None

    def run(self):
        try:
            with self.client:
                while True:
                    self.once()
        except OSError:  # PlantEnded among them
            pass
        except Exception as failure:  # whoever joins the thread looks at it
            self.failure = failure


class Feed(Talk):
    """Sends numbered updates of one symbol, each when the one before was acknowledged."""

    def __init__(self, client, symbol, first):
        super().__init__(client)
        self.symbol, self.next = symbol, first

    def once(self):
        self.client.update("trade", HALF_PAST_NINE, self.symbol, 10050, self.next)
        self.next += 1


class Ask(Talk):
    """Asks for the number of rows, which never falls."""

    def __init__(self, client):
        super().__init__(client)
        self.rows = 0

    def once(self):
        rows = self.client.query("exec count i from trade")
        assert rows >= self.rows, f"an answer had {self.rows} rows, and the next one {rows}"
        self.rows = rows


class Served:
    """Rounds over a server: the number of updates that are known of each symbol, and the server that the last kill left."""

    def __init__(self, program, folder, chance):
        self.program, self.folder, self.chance = program, folder, chance
        self.known = [0] * FEEDS
        self.server = Server(program, folder)

    def round(self):
        """How many more updates were acknowledged, and how many were found that weren't."""
        feeds = [] if self.chance.random() < 0.1 else self.feeds()
        talks = feeds and feeds + [Ask(self.server.connect()) for _ in range(ASKS)]
        for talk in talks:
            talk.start()
        time.sleep(self.chance.uniform(0.0, 0.3 if talks else 0.01))
        self.server.kill()
        for talk in talks:
            talk.join()
            assert talk.failure is None, talk.failure
        wanted = [feed.next for feed in feeds] or self.known
        done = sum(wanted) - sum(self.known)
        self.server = Server(self.program, self.folder)
        self.known = self.found()
        late = [found - count for found, count in zip(self.known, wanted)]
        assert all(more in (0, 1) for more in late), f"{wanted} acknowledged, {self.known} found"
        assert feeds or not any(late), "an update that was not sent was found"
        return done, sum(late)

    def feeds(self):
        return [Feed(self.server.connect(), f"F{i}", known) for i, known in enumerate(self.known)]

    def found(self):
        """The number of updates of each symbol, which are those that were sent, in order."""
        with self.server.connect() as client:
            sizes = [client.query(f"exec size from trade where sym=`F{i}") for i in range(FEEDS)]
        for i, numbers in enumerate(sizes):
            assert numbers == list(range(len(numbers))), f"F{i} has {numbers[-8:]} at the end of {len(numbers)}"
        return [len(numbers) for numbers in sizes]

    def close(self):
        self.server.kill()
