#!/usr/bin/env python3
"""Kills the plant at random moments and compares what it finds at its next start with what it had acknowledged.

    bench/kills.py [--serve] [--rounds N] [--seed S] [--program PATH]

One folder is formatted. In each round `once --dir` is started on a pipe and fed one-row updates, numbered on from the last
round, some of them before earlier ones are answered; at a random moment the process is killed by SIGKILL. At the next
start every update that was acknowledged must be there, in order, none twice, and after them at most one more. The exit
status is 1 at the first round that fails. A tenth of the rounds kills the process while it starts.

With --serve a server is killed to which four clients feed, each its own symbol, while four others ask: of each symbol every
update that was acknowledged must be found, in order, none twice, and after them at most one more; and each answer of one
client has at least the rows of its answer before.

Needs what `bin/plant` needs, and nothing else but Python 3. A killed process leaves to the system what it wrote, so this
says nothing of a power cut; the proofs do.
"""

import argparse
import os
import random
import select
import shutil
import signal
import struct
import subprocess
import sys
import tempfile
import time

import kills_served

ROOT = os.path.dirname(os.path.dirname(os.path.realpath(__file__)))
HANDSHAKE, CAPABILITY = b"u:p\x03\x00", b"\x03"
ACKNOWLEDGED = bytes.fromhex("010200000a0000006500")  # the response (::)
CLOCK = "2024.01.02D09:30:00.000000000"


def message(body):
    """A synchronous message, little-endian (KX, IPC reference)."""
    return struct.pack("<BBBBI", 1, 1, 0, 0, 8 + len(body)) + body


def symbol(text):
    return b"\xf5" + text + b"\0"


def update(number):
    """The update of one row of `trade` with this size."""
    row = [b"\xf0" + struct.pack("<q", 34_200_000_000_000), symbol(b"KX"), b"\xf9" + struct.pack("<q", 10_050), b"\xf9" + struct.pack("<q", number)]
    columns = struct.pack("<BBI", 0, 0, len(row)) + b"".join(row)
    return message(struct.pack("<BBI", 0, 0, 3) + symbol(b".u.upd") + symbol(b"trade") + columns)


def text(query):
    return message(struct.pack("<BBI", 10, 0, len(query)) + query)


class Session:
    """A session of `once` over the folder."""

    def __init__(self, program, folder):
        words = [program, "once", "--dir", folder, "--clock", CLOCK]
        self.process = subprocess.Popen(words, stdin=subprocess.PIPE, stdout=subprocess.PIPE, stderr=subprocess.PIPE)
        self.output = b""
        self.send(HANDSHAKE)

    def send(self, data):
        try:
            self.process.stdin.write(data)
            self.process.stdin.flush()
        except BrokenPipeError:
            pass

    def take(self, seconds):
        """Reads what comes within the time; whether the output has ended."""
        ready, _, _ = select.select([self.process.stdout], [], [], seconds)
        if not ready:
            return False
        piece = os.read(self.process.stdout.fileno(), 65_536)
        self.output += piece
        return not piece

    def take_all(self):
        while not self.take(60):
            pass

    def kill(self):
        self.process.send_signal(signal.SIGKILL)
        self.take_all()
        self.process.wait()
        self.close()

    def close(self):
        for pipe in (self.process.stdin, self.process.stdout, self.process.stderr):
            try:
                pipe.close()
            except BrokenPipeError:
                pass


def acknowledged(output):
    """How many updates the output acknowledges; the rest may be cut off anywhere."""
    if not output:
        return 0
    assert output[:1] == CAPABILITY, f"not the answer to a handshake: {output[:32]!r}"
    rest = output[1:]
    whole = len(rest) // len(ACKNOWLEDGED)
    assert rest[: whole * len(ACKNOWLEDGED)] == ACKNOWLEDGED * whole, "an update was not acknowledged"
    return whole


def sizes(program, folder):
    """The sizes of all rows, in order of arrival, as a session finds them that ends in order."""
    session = Session(program, folder)
    session.send(text(b"exec size from trade"))
    session.process.stdin.close()
    session.take_all()
    status = session.process.wait()
    complaint = session.process.stderr.read().decode()
    session.process.stdout.close()
    session.process.stderr.close()
    assert status == 0, f"the start after a kill ended with status {status}: {complaint}"
    vector = session.output[9:]
    kind, _, count = struct.unpack_from("<BBI", vector)
    assert kind == 7, f"not a vector of longs: {vector[:32]!r}"
    return list(struct.unpack_from(f"<{count}q", vector, 6))


def feed(session, chance, first, ahead, deadline):
    """Sends numbered updates, at most `ahead` before their acknowledgement, until the deadline; gives how many."""
    sent = 0
    while time.monotonic() < deadline:
        while sent - acknowledged(session.output) < ahead:
            session.send(update(first + sent))
            sent += 1
        if session.take(max(0.0, min(0.001, deadline - time.monotonic()))):
            break
    return sent


def one_round(program, folder, chance, known):
    """One round: kills a session; gives the numbers that are found afterwards, the acknowledged, and the one more."""
    begins = chance.random() < 0.1
    deadline = time.monotonic() + chance.uniform(0.0, 0.01 if begins else 0.15)
    session = Session(program, folder)
    sent = feed(session, chance, len(known), chance.choice([1, 1, 4, 64]), deadline)
    session.kill()
    done = acknowledged(session.output)
    found = sizes(program, folder)
    wanted = list(range(len(known) + done))
    assert found in (wanted, wanted + [len(wanted)]), f"{len(known)} known, {sent} sent, {done} acknowledged, found {found[-8:]} of {len(found)}"
    assert len(found) <= len(known) + sent, "an update that was not sent was found"
    return found, done, len(found) - len(wanted)


class Piped:
    """Rounds over `once`: what is known of the folder, and what a round adds."""

    def __init__(self, program, folder, chance):
        self.program, self.folder, self.chance, self.known = program, folder, chance, []

    def round(self):
        """How many more updates were acknowledged, and how many were found that weren't."""
        self.known, done, more = one_round(self.program, self.folder, self.chance, self.known)
        return done, more

    def close(self):
        pass


def plain_program(program):
    """The program without the script that starts it, which a kill would leave running. It is started once, so that it is built."""
    if os.path.basename(program) != "plant":
        return program
    subprocess.run([program, "--version"], stdout=subprocess.DEVNULL, check=True)
    return os.path.join(ROOT, "crates", "plant_cli", "out", "plant_cli")


def play(rounds, number_of_rounds, plant, seed):
    """Plays the rounds; gives how many updates were acknowledged, and how many were found that weren't."""
    done = more = 0
    for number in range(number_of_rounds):
        try:
            acknowledged_now, late = rounds.round()
        except AssertionError as failure:
            kept = os.path.join(tempfile.gettempdir(), f"plant_kills_failed_{seed}")
            shutil.copytree(plant, kept)
            sys.exit(f"round {number + 1} of seed {seed} failed: {failure}; the folder is kept in {kept}")
        done += acknowledged_now
        more += late
    return done, more


def main():
    parser = argparse.ArgumentParser(description=__doc__, formatter_class=argparse.RawDescriptionHelpFormatter)
    parser.add_argument("--serve", action="store_true", help="kills a server with eight clients")
    parser.add_argument("--rounds", type=int, default=20)
    parser.add_argument("--seed", type=int, default=None)
    parser.add_argument("--program", default=os.path.join(ROOT, "bin", "plant"))
    words = parser.parse_args()
    seed = random.randrange(2**32) if words.seed is None else words.seed
    program = plain_program(words.program)
    folder = tempfile.mkdtemp(prefix="plant_kills_")
    plant = os.path.join(folder, "plant")
    try:
        subprocess.run([program, "init", "--dir", plant], check=True)
        rounds = (kills_served.Served if words.serve else Piped)(program, plant, random.Random(seed))
        try:
            done, more = play(rounds, words.rounds, plant, seed)
        finally:
            rounds.close()
        print(f"{words.rounds} kills, {done} updates acknowledged, all found; {more} more found that were not acknowledged (seed {seed})")
    finally:
        shutil.rmtree(folder, ignore_errors=True)


if __name__ == "__main__":
    main()
