#!/usr/bin/env python3
"""Shows how much memory the plant takes for a message, by what its value is made of.

Sends one sync message to `plant once`, a general list of many short objects, and prints its length, the error that it is
answered with, and the peak of the program's memory above that of a session without messages, in bytes for each byte of the
message: with the message itself, which the plant holds too, and without it. The value may take 20 bytes for each; one that
would take more is answered `wsfull`. Needs the built plant, and nothing else but Python 3.
"""

import argparse
import subprocess

import programs

HANDSHAKE = b"u:p\x03\x00"

# What an object is called, and its bytes (KX, IPC reference).
OBJECTS = (
    ("int", b"\xfa\x01\x00\x00\x00"),
    ("symbol of four bytes", b"\xf5abcd\x00"),
    ("symbol of nine bytes", b"\xf5abcdefghi\x00"),
    ("vector of one boolean", b"\x01\x00\x01\x00\x00\x00\x01"),
    ("empty vector", b"\x06\x00\x00\x00\x00\x00"),
    ("dictionary of an int", b"c\xfa\x01\x00\x00\x00\xfa\x02\x00\x00\x00"),
    ("list of an int", b"\x00\x00\x01\x00\x00\x00\xfa\x01\x00\x00\x00"),
    ("table of one row", b"b\x00c\x0b\x00\x01\x00\x00\x00a\x00\x00\x00\x01\x00\x00\x00\x06\x00\x01\x00\x00\x00\x01\x00\x00\x00"),
    ("(::)", b"e\x00"),
    ("boolean", b"\xff\x01"),
    ("symbol of one byte", b"\xf5a\x00"),
    ("dictionary of (::)", b"ce\x00e\x00"),
    ("error of three bytes", b"\x80abc\x00"),
)


def message(objects):
    """A sync message of a general list of these objects."""
    body = b"\x00\x00" + len(objects).to_bytes(4, "little") + b"".join(objects)
    return b"\x01\x01\x00\x00" + (8 + len(body)).to_bytes(4, "little") + body


def peak_of(process):
    """The peak of a running program's memory, in bytes."""
    with open(f"/proc/{process.pid}/status", encoding="ascii") as lines:
        kilobytes = next(line.split()[1] for line in lines if line.startswith("VmHWM:"))
    return int(kilobytes) * 1024


def served(plant, sent):
    """The body of what a session answers to a message, and the peak of the program's memory then in bytes."""
    with subprocess.Popen([plant, "once"], stdin=subprocess.PIPE, stdout=subprocess.PIPE) as process:
        process.stdin.write(HANDSHAKE + sent)
        process.stdin.flush()
        process.stdout.read(1)
        answer = b""
        if sent:
            length = int.from_bytes(process.stdout.read(8)[4:], "little")
            answer = process.stdout.read(length - 8)
        peak = peak_of(process)
        process.stdin.close()
    return answer, peak


def main():
    parser = argparse.ArgumentParser(description=__doc__.splitlines()[0])
    parser.add_argument("--bytes", type=int, default=16_777_216, metavar="N", help="the most bytes of a message (16,777,216)")
    parser.add_argument("--program", metavar="PATH", help="the plant that is measured, if not this repository's")
    options = parser.parse_args()
    plant = programs.plant(options.program)
    _, least = served(plant, b"")
    print(f"{'object':22} {'bytes':>10} {'answer':>8} {'with it':>8} {'value':>8}")
    for name, one in OBJECTS:
        sent = message([one] * ((options.bytes - 14) // len(one)))
        answer, peak = served(plant, sent)
        error = answer[1:-1].decode() if answer[:1] == b"\x80" else "a value"
        for_each = (peak - least) / len(sent)
        print(f"{name:22} {len(sent):10,} {error:>8} {for_each:8.2f} {for_each - 1:8.2f}")


if __name__ == "__main__":
    main()
