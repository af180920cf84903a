#!/usr/bin/env python3
"""Counts how often an update of a thousand rows is encoded by a plant on a port, without, with 1 and with 10 subscribers of
everything: once for the log, and once for each message.

The plant runs under valgrind, whose callgrind counts the calls of `ipc_codec::writing::put_vector`, the function that encodes a
column, less those of a plant that gets one update: so the plant's start and the answers to subscriptions don't count. Each
subscriber must get exactly what was fed (subscribers.py). Needs valgrind (Debian's package), a C compiler and what `bin/plant`
needs.
"""

import argparse
import glob
import os
import re
import subprocess
import sys
import tempfile

import serve
from subscribers import COLUMNS, ROWS, Told

ENCODER = "ipc_codec::writing::put_vector"


class Counted(serve.Plant):
    """A plant whose calls are counted in a file of its folder."""

    def started(self, command, **more):
        counting = ["valgrind", "--tool=callgrind", f"--callgrind-out-file={self.folder}/calls.%p"]
        super().started([*counting, *command], **more)

    def calls(self):
        """How often the encoder was called; the plant has ended."""
        calls = 0
        for path in glob.glob(f"{self.folder}/calls.*"):
            with open(path) as file:
                text = file.read()
            numbers = re.findall(rf"^c?fn=\((\d+)\) {re.escape(ENCODER)}$", text, re.M)
            for number in numbers:
                calls += sum(int(count) for count in re.findall(rf"^cfn=\({number}\)[^\n]*\n(?:c\w+=[^\n]*\n)*?calls=(\d+)", text, re.M))
        return calls


def calls_for(options, subscribers, updates):
    """The encoder's calls of a plant that gets this many updates."""
    with tempfile.TemporaryDirectory() as folder:
        with Counted(folder, False, options.programs) as server:
            Told(server, options, "flood", 1, subscribers, updates, ROWS)
        return server.calls()


def encodings(options, subscribers):
    """The encodings of each update after the first."""
    calls = calls_for(options, subscribers, options.updates + 1)
    if calls == 0:
        sys.exit(f"the program has no function of the name {ENCODER}")
    return (calls - calls_for(options, subscribers, 1)) / len(COLUMNS["trade"]) / options.updates


def main():
    parser = argparse.ArgumentParser(description=__doc__, formatter_class=argparse.RawDescriptionHelpFormatter)
    parser.add_argument("--updates", type=int, default=100, metavar="N", help="updates (100)")
    parser.add_argument("--program", default=None, help="the plant, where it isn't the one that bin/plant builds")
    options = parser.parse_args()
    with tempfile.TemporaryDirectory() as options.scratch:
        options.programs = serve.found_programs(options)
        for subscribers in (0, 1, 10):
            print(f"{subscribers} subscribers: {encodings(options, subscribers):.2f} encodings of each update", flush=True)


if __name__ == "__main__":
    main()
