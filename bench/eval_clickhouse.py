#!/usr/bin/env python3
"""The queries with `by` of `eval.py` over the same rows in ClickHouse. `eval.py` runs it, and sets its times beside those of the plant.

Prints one line for each call: `clickhouse`, a name for the query, nanoseconds and the sum of all numbers of the result, keys aside.
It starts a server of its own, on a free port of 127.0.0.1 and in a temporary folder, and ends it. A call is a request whose answer
is made and left out (`FORMAT Null`).
"""

import http.client
import os
import socket
import subprocess
import sys
import tempfile
import time

ROUNDS = 5
STEP = 0x9E37_79B9_7F4A_7C15
OTHER_STEP = 0xD1B5_4A32_D192_ED03
DAY = 86_400_000_000_000
FIVE_MINUTES = 300_000_000_000

CONFIG = """<yandex><logger><level>warning</level><console>1</console></logger>
<listen_host>127.0.0.1</listen_host><http_port>{port}</http_port><mark_cache_size>1073741824</mark_cache_size><timezone>UTC</timezone>
<path>{folder}/</path><tmp_path>{folder}/tmp/</tmp_path><users_config>users.xml</users_config>
<default_profile>default</default_profile><default_database>default</default_database></yandex>"""

USERS = """<yandex><profiles><default/></profiles><quotas><default/></quotas><users><default><password></password>
<networks><ip>127.0.0.1</ip></networks><profile>default</profile><quota>default</quota></default></users></yandex>"""

NUMBERS = "toInt64(bitShiftRight(number * toUInt64({step}), 54)) + {least}"
SYMBOL = "concat('S', substring(toString({symbols} + bitShiftRight(number * toUInt64({step}), 32) % {symbols}), 2))"


def start(server, folder):
    """Starts a server, and returns it and a connection to it."""
    with socket.socket() as free:
        free.bind(("127.0.0.1", 0))
        port = free.getsockname()[1]
    for name, text in (("config.xml", CONFIG.format(port=port, folder=folder)), ("users.xml", USERS)):
        with open(os.path.join(folder, name), "w", encoding="ascii") as file:
            file.write(text)
    with open(os.path.join(folder, "log"), "wb") as log:
        started = subprocess.Popen([server, "--config-file=config.xml"], cwd=folder, stdin=subprocess.DEVNULL, stdout=log, stderr=log)
    return started, http.client.HTTPConnection("127.0.0.1", port, timeout=600)


def ready(server, connection):
    """Waits for the server up to a minute, and returns whether it answers."""
    end = time.monotonic() + 60
    while time.monotonic() < end and server.poll() is None:
        try:
            return ask(connection, "SELECT 1", 1) == "1\n"
        except OSError:
            connection.close()
            time.sleep(0.1)
    return False


def ask(connection, text, threads):
    connection.request("POST", f"/?max_threads={threads}&allow_experimental_low_cardinality_type=1", text)
    answer = connection.getresponse()
    found = answer.read().decode()
    if answer.status != 200:
        sys.exit(f"eval_clickhouse.py: {text}: {found}")
    return found


def load(connection, count):
    """Makes the rows of `eval_arrays.py` in memory, with symbols once as numbers of a dictionary and once as three bytes."""
    numbers = NUMBERS.format(step=STEP, least=1)
    few, many = (SYMBOL.format(step=STEP, symbols=symbols) for symbols in (100, 100_000))
    ask(connection, "CREATE TABLE trade (date Date, time Int64, sym LowCardinality(String), bytes FixedString(3), price Int64, size Int64) "
        "ENGINE = Memory", 1)
    ask(connection, f"INSERT INTO trade SELECT toDate('2024-01-02'), toInt64(number * {DAY // count}), {few}, {few}, "
        f"{NUMBERS.format(step=OTHER_STEP, least=10_000)}, {numbers} FROM system.numbers LIMIT {count}", 1)
    ask(connection, "CREATE TABLE many (sym LowCardinality(String), size Int64) ENGINE = Memory", 1)
    ask(connection, f"INSERT INTO many SELECT {many}, {numbers} FROM system.numbers LIMIT {count}", 1)


def texts(threads):
    """The name of each query, its text and how many keys it has. Only one thread meets the rows in the order of their times."""
    first, last = ("any(price)", "anyLast(price)") if threads == 1 else ("argMin(price, time)", "argMax(price, time)")
    bar = f"intDiv(time, {FIVE_MINUTES}) * {FIVE_MINUTES} AS bar"
    return (
        ("last_by_sym", f"SELECT sym, {last} FROM trade GROUP BY sym ORDER BY sym", 1),
        ("count_by_date", "SELECT date, count() FROM trade GROUP BY date ORDER BY date", 1),
        ("bars", f"SELECT bytes, {bar}, {first}, max(price), min(price), {last}, sum(size) FROM trade GROUP BY bytes, bar ORDER BY bytes, bar", 2),
        ("sum_by_many", "SELECT sym, sum(size) FROM many GROUP BY sym ORDER BY sym", 1),
    )


def report(connection, count, threads):
    load(connection, count)
    for name, text, keys in texts(threads):
        found = ask(connection, text + " FORMAT TabSeparated", threads)
        total = sum(int(cell) for line in found.splitlines() for cell in line.split("\t")[keys:])
        for _ in range(ROUNDS):
            begin = time.perf_counter_ns()
            ask(connection, text + " FORMAT Null", threads)
            print("clickhouse", name, time.perf_counter_ns() - begin, total)


def main(server, count, threads):
    with tempfile.TemporaryDirectory() as folder:
        started, connection = start(server, folder)
        try:
            if not ready(started, connection):
                with open(os.path.join(folder, "log"), encoding="utf-8", errors="replace") as log:
                    sys.exit(f"eval_clickhouse.py: {server} doesn't answer\n{log.read()}")
            report(connection, count, threads)
        finally:
            connection.close()
            started.kill()
            started.wait()


main(sys.argv[1], int(sys.argv[2]), int(sys.argv[3]))
