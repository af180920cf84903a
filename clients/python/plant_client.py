"""A client of a plant, over uncompressed kdb+ IPC in either byte order (KX, IPC reference).

    with Client.run(["bin/plant", "once", "--clock", "2024.01.02D09:30:00.000000000"]) as plant:
        plant.update("trade", "KX", 10050, 200)
        print(plant.query("select last price by sym from trade"))

    with Client.connect("127.0.0.1", 5010) as plant:
        print(plant.query("exec count i from trade"))

    with Client.connect("127.0.0.1", 5010) as plant:
        for told in plant.subscribe("trade", ["AAPL", "MSFT"]):
            print(told)                      # Update("trade", <a table>), or EndOfDay(<a date>)

What is sent and what comes back are plain Python values where these are clear:

    bool, int                      boolean, long
    str                            symbol
    bytes                          char vector (a text)
    datetime.date                  date
    datetime.datetime              timestamp (without a time zone)
    datetime.timedelta             timespan
    a list of one of these         a vector; another list is a general list
    None                           (::) when it is sent, a null in an answer

An answer of another numeric kind is an int too, and a second, minute or time within the day a datetime.time. Where a plain
value would lose something (nanoseconds, an infinity, a month), the typed one stands in its place, and typed values can be sent
for any kind:

    Atom(kind, value)        one value, in the unit of its kind; symbols and characters as str or bytes
    Vector(kind, items)      values of one kind
    List(items)              a general list
    Dictionary(keys, values)
    Table(names, vectors)    named columns of one length
    Keyed(keys, values)      a table of keys, and one of the other columns

`Client.query` and `Client.update` take and give plain values, `Client.sync` and `Client.send` typed ones. What a subscription
publishes between two answers is kept for `Client.subscribe`'s iterator. An error that the
plant answers is raised as `Error`. A value that can't be sent is a ValueError, and nothing is sent. Only the standard
library is used.
"""

import collections
import datetime
import socket
import struct
import subprocess
from dataclasses import dataclass

# kind: (type, struct format or None)
KINDS = {
    "boolean": (1, "?"),
    "byte": (4, "B"),
    "short": (5, "h"),
    "int": (6, "i"),
    "long": (7, "q"),
    "char": (10, "c"),
    "symbol": (11, None),
    "timestamp": (12, "q"),
    "month": (13, "i"),
    "date": (14, "i"),
    "timespan": (16, "q"),
    "minute": (17, "i"),
    "second": (18, "i"),
    "time": (19, "i"),
}
BY_TYPE = {number: kind for kind, (number, _) in KINDS.items()}
SIGNED_BITS = {"h": 16, "i": 32, "q": 64}

LITTLE, BIG = "<", ">"

# The longest message that a plant takes, header included.
MAX_MESSAGE = 16 * 1024 * 1024

EPOCH = datetime.date(2000, 1, 1)
EPOCH_TIME = datetime.datetime(2000, 1, 1)
DAY = 86_400_000_000_000
# The parts of a second, minute or day that these kinds count, in nanoseconds.
UNITS = {"minute": 60_000_000_000, "second": 1_000_000_000, "time": 1_000_000}


@dataclass(frozen=True)
class Atom:
    kind: str
    value: object

    def __str__(self):
        return shown(self.kind, self.value)


@dataclass(frozen=True)
class Vector:
    kind: str
    items: tuple

    def __len__(self):
        return len(self.items)

    def plain(self):
        """The items as a list of plain values."""
        return [plain_item(self.kind, item) for item in self.items]


@dataclass(frozen=True)
class List:
    items: tuple


@dataclass(frozen=True)
class Dictionary:
    keys: object
    values: object


@dataclass(frozen=True)
class Table:
    """Named columns of one length. `len` is the number of rows, and iteration gives each row as a tuple of plain values."""

    names: tuple
    vectors: tuple

    @property
    def columns(self):
        """Each column as a list of plain values."""
        return [vector.plain() for vector in self.vectors]

    def __getitem__(self, name):
        """The column of this name, as a list of plain values."""
        return self.vectors[self.names.index(name)].plain()

    def __len__(self):
        return len(self.vectors[0]) if self.vectors else 0

    def __iter__(self):
        return iter(zip(*self.columns))

    def __str__(self):
        return "\n".join(lines_of(cells_of(self)))

    def to_pandas(self):
        """A pandas DataFrame: dates and timestamps as datetime64, timespans and times of day as timedelta64."""
        import pandas

        return pandas.DataFrame({name: series_of(pandas, vector) for name, vector in zip(self.names, self.vectors)})


@dataclass(frozen=True)
class Keyed:
    """A table of keys beside a table of the other columns."""

    keys: Table
    values: Table

    @property
    def names(self):
        return self.keys.names + self.values.names

    @property
    def columns(self):
        """Each column, the keys first, as a list of plain values."""
        return self.keys.columns + self.values.columns

    def __getitem__(self, name):
        return self.keys[name] if name in self.keys.names else self.values[name]

    def __len__(self):
        return len(self.keys)

    def __iter__(self):
        return iter(zip(*self.columns))

    def __str__(self):
        keys = cells_of(self.keys)
        width = sum(map(len, (column[0] for column in keys))) + len(keys) - 1
        sides = zip(lines_of(keys), lines_of(cells_of(self.values)))
        return "\n".join(f"{left.ljust(width)}| {right}".rstrip() for left, right in sides)

    def to_pandas(self):
        """A pandas DataFrame whose index is the keys."""
        whole = Table(self.names, self.keys.vectors + self.values.vectors)
        return whole.to_pandas().set_index(list(self.keys.names))


@dataclass(frozen=True)
class Identity:
    pass


IDENTITY = Identity()


class Error(Exception):
    """An error that the plant sent as an answer."""

    def __init__(self, text):
        super().__init__(text.decode(errors="replace"))
        self.text = text

    def __eq__(self, other):
        return isinstance(other, Error) and other.text == self.text

    def __hash__(self):
        return hash(self.text)


@dataclass(frozen=True)
class Update:
    """Rows of a table that a subscriber was sent, with the table's own columns."""

    table: str
    rows: Table

    def __str__(self):
        return f"{self.table}\n{self.rows}"


@dataclass(frozen=True)
class EndOfDay:
    """The end of a date, which a subscriber was sent: a datetime.date."""

    date: object


def published(value):
    """What an async message of a plant publishes (KX, u.q)."""
    items = value.items if isinstance(value, List) else ()
    head = items[0] if items else None
    if head == Atom("symbol", b"upd") and len(items) == 3 and isinstance(items[2], Table):
        return Update(items[1].value.decode(errors="surrogateescape"), items[2])
    if head == Atom("symbol", b".u.end") and len(items) == 2:
        return EndOfDay(plain(items[1]))
    raise BadBytes(f"a message that publishes nothing: {value!r}")


class BadBytes(Exception):
    """The bytes don't encode an object of the profile."""


class PlantEnded(ConnectionError):
    """The plant ended the link before it had answered. `sent` is what it had been sent."""

    def __init__(self, sent):
        super().__init__(f"the plant ended the link; it had been sent {sent!r}")
        self.sent = sent


# Values as people write them (Q for Mortals, 2).


def is_null(kind, value):
    form = KINDS[kind][1]
    if form in SIGNED_BITS:
        return value == -(1 << (SIGNED_BITS[form] - 1))
    return kind == "symbol" and value == b""


def is_infinite(kind, value):
    form = KINDS[kind][1]
    return form in SIGNED_BITS and abs(value) == (1 << (SIGNED_BITS[form] - 1)) - 1


def date_of(days):
    """A date by its days since 2000.01.01; None beyond the calendar of datetime."""
    try:
        return EPOCH + datetime.timedelta(days=days)
    except OverflowError:
        return None


def clock_of(nanoseconds, digits):
    seconds, part = divmod(nanoseconds, 1_000_000_000)
    text = f"{seconds // 3600:02}:{seconds // 60 % 60:02}:{seconds % 60:02}"
    return f"{text}.{part:09}"[: len(text) + 1 + digits] if digits else text


def shown_time(kind, value):
    if kind == "timespan":
        days, rest = divmod(abs(value), DAY)
        return f"{'-' if value < 0 else ''}{days}D{clock_of(rest, 9)}"
    sign, whole = "-" if value < 0 else "", abs(value) * UNITS[kind]
    text = clock_of(whole, 3 if kind == "time" else 0)
    return sign + (text[:-3] if kind == "minute" else text)


def shown_date(kind, value):
    if kind == "month":
        return f"{2000 + value // 12:04}.{value % 12 + 1:02}"
    days, rest = divmod(value, DAY) if kind == "timestamp" else (value, None)
    date = date_of(days)
    text = f"{date.year:04}.{date.month:02}.{date.day:02}" if date else f"{days}d"
    return text if rest is None else f"{text}D{clock_of(rest, 9)}"


def shown(kind, value):
    """A value in q's form, in a table's cell: a null is blank."""
    if is_null(kind, value):
        return ""
    if is_infinite(kind, value):
        return "0W" if value > 0 else "-0W"
    if kind == "boolean":
        return "1" if value else "0"
    if kind == "byte":
        return f"{value:02x}"
    if kind in ("symbol", "char"):
        return as_bytes(value).decode(errors="replace")
    if kind in ("date", "month", "timestamp"):
        return shown_date(kind, value)
    if kind in ("timespan", "minute", "second", "time"):
        return shown_time(kind, value)
    return str(value)


def cells_of(table):
    """A list for each column: its name, a rule, and its items."""
    made = []
    for name, vector in zip(table.names, table.vectors):
        items = [shown(vector.kind, item) for item in vector.items]
        width = max(map(len, [name, *items]))
        made.append([text.ljust(width) for text in (name, "-" * width, *items)])
    return made


def lines_of(cells):
    """The lines of columns side by side; the rule runs through."""
    lines = [" ".join(row) for row in zip(*cells)]
    if len(lines) > 1:
        lines[1] = "-" * len(lines[1])
    return [line.rstrip() for line in lines]


def series_of(pandas, vector):
    kind, items = vector.kind, vector.items
    scale = {"date": DAY, "timestamp": 1, "timespan": 1, **UNITS}.get(kind)
    if scale is None:
        return vector.plain()
    start = pandas.Timestamp(EPOCH_TIME).value if kind in ("date", "timestamp") else 0
    numbers = [None if is_null(kind, n) or is_infinite(kind, n) else n * scale + start for n in items]
    made = pandas.to_datetime if kind in ("date", "timestamp") else pandas.to_timedelta
    return made(numbers, unit="ns")


# Plain values.


def plain_time(kind, value):
    """A datetime value, or None where there is none for it."""
    if kind == "date":
        return date_of(value)
    if kind == "timestamp" and value % 1000 == 0:
        return EPOCH_TIME + datetime.timedelta(microseconds=value // 1000)
    if kind == "timespan" and value % 1000 == 0:
        return datetime.timedelta(microseconds=value // 1000)
    if kind in UNITS and 0 <= value * UNITS[kind] < DAY:
        return (datetime.datetime.min + datetime.timedelta(microseconds=value * UNITS[kind] // 1000)).time()
    return None


def plain_item(kind, value):
    """A value of a kind as a plain one: None for a null; the typed one where a plain one would lose something."""
    if is_null(kind, value) and kind != "symbol":
        return None
    if is_infinite(kind, value):
        return Atom(kind, value)
    if kind in ("boolean", "byte", "short", "int", "long", "char"):
        return value
    if kind == "symbol":
        try:
            return value.decode()
        except UnicodeDecodeError:
            return Atom(kind, value)
    made = plain_time(kind, value)
    return Atom(kind, value) if made is None else made


def plain(value):
    """An answer with plain values where these are clear."""
    if isinstance(value, Atom):
        return plain_item(value.kind, value.value)
    if isinstance(value, Vector):
        return b"".join(value.items) if value.kind == "char" else value.plain()
    if isinstance(value, List):
        return [plain(item) for item in value.items]
    if isinstance(value, Dictionary):
        keys, values = plain(value.keys), plain(value.values)
        if isinstance(keys, list) and isinstance(values, list) and all(isinstance(key, (str, int)) for key in keys):
            return dict(zip(keys, values))
        return value
    return None if isinstance(value, Identity) else value


PLAIN_KINDS = {
    bool: ("boolean", lambda v: v),
    int: ("long", lambda v: v),
    str: ("symbol", lambda v: v.encode()),
    datetime.date: ("date", lambda v: (v - EPOCH).days),
    datetime.datetime: ("timestamp", lambda v: nanoseconds_of(without_zone(v) - EPOCH_TIME)),
    datetime.timedelta: ("timespan", lambda v: nanoseconds_of(v)),
}
TYPED = (Atom, Vector, List, Dictionary, Table, Keyed, Identity, Error)


def nanoseconds_of(delta):
    return ((delta.days * 86_400 + delta.seconds) * 1_000_000 + delta.microseconds) * 1000


def without_zone(moment):
    if moment.tzinfo is not None:
        raise ValueError(f"a timestamp has no time zone: {moment!r}")
    return moment


def typed(value):
    """The typed form of a plain value."""
    if isinstance(value, TYPED):
        return value
    if value is None:
        return IDENTITY
    if isinstance(value, bytes):
        if len(value) > MAX_MESSAGE:
            raise ValueError(f"a message has at most {MAX_MESSAGE:,} bytes; this text has {len(value):,}")
        return Vector("char", tuple(bytes([b]) for b in value))
    if type(value) in PLAIN_KINDS:
        kind, number = PLAIN_KINDS[type(value)]
        return Atom(kind, number(value))
    if isinstance(value, (list, tuple)):
        return typed_list(value)
    raise ValueError(f"no object of kdb+ IPC stands for {value!r}; give it as Atom(kind, value)")


def typed_list(values):
    items = [typed(value) for value in values]
    kinds = {item.kind if isinstance(item, Atom) else None for item in items}
    if len(kinds) == 1 and None not in kinds:
        return Vector(kinds.pop(), tuple(item.value for item in items))
    return List(tuple(items))


# The codec.


def as_bytes(text):
    return text.encode(errors="surrogateescape") if isinstance(text, str) else text


def kind_of(kind):
    if kind not in KINDS:
        raise ValueError(f"no kind {kind!r}; the kinds are {', '.join(KINDS)}")
    return KINDS[kind]


def _text(what, text):
    data = as_bytes(text)
    if not isinstance(data, bytes):
        raise ValueError(f"{what} is a str or bytes: {text!r}")
    if b"\0" in data:
        raise ValueError(f"{what} holds no 0 byte: {text!r}")
    return data + b"\0"


def _elements(order, kind, items):
    _, form = kind_of(kind)
    if form is None:
        return b"".join(_text("a symbol", item) for item in items)
    if form == "c":
        items = [as_bytes(item) for item in items]
    if form == "?" and any(item not in (False, True) for item in items):
        raise ValueError(f"a boolean is True or False: {items!r}")
    try:
        return struct.pack(f"{order}{len(items)}{form}", *items)
    except struct.error as fault:
        raise ValueError(f"no value of kind {kind} among {items!r}: {fault}") from None


def _counted(order, number, count):
    return struct.pack(f"{order}bBi", number, 0, count)


def encode(value, order=LITTLE):
    """The bytes of a value."""
    if isinstance(value, Atom):
        return struct.pack("b", -kind_of(value.kind)[0]) + _elements(order, value.kind, [value.value])
    if isinstance(value, Vector):
        return _counted(order, kind_of(value.kind)[0], len(value.items)) + _elements(order, value.kind, value.items)
    if isinstance(value, List):
        return _counted(order, 0, len(value.items)) + b"".join(encode(v, order) for v in value.items)
    if isinstance(value, Dictionary):
        return b"\x63" + encode(value.keys, order) + encode(value.values, order)
    if isinstance(value, Table):
        return b"\x62\x00\x63" + encode(Vector("symbol", value.names), order) + encode(List(value.vectors), order)
    if isinstance(value, Keyed):
        return b"\x63" + encode(value.keys, order) + encode(value.values, order)
    if isinstance(value, Identity):
        return b"\x65\x00"
    if isinstance(value, Error):
        return b"\x80" + _text("an error", value.text)
    return encode(typed(value), order)


class _Reader:
    def __init__(self, data, order):
        self.data, self.order, self.at = data, order, 0

    def take(self, count):
        if self.at + count > len(self.data):
            raise BadBytes(f"the bytes end within the object, at {len(self.data)}")
        part = self.data[self.at : self.at + count]
        self.at += count
        return part

    def text(self):
        end = self.data.find(b"\0", self.at)
        if end < 0:
            raise BadBytes(f"the bytes end within the object, at {len(self.data)}")
        part = self.data[self.at : end]
        self.at = end + 1
        return part

    def count(self):
        self.take(1)
        (count,) = struct.unpack(f"{self.order}i", self.take(4))
        if count < 0:
            raise BadBytes(f"a negative count at {self.at - 4}")
        return count

    def elements(self, kind, count):
        form = KINDS[kind][1]
        if form is None:
            return tuple(self.text() for _ in range(count))
        if form == "c":
            return tuple(bytes([b]) for b in self.take(count))
        if form == "?":
            return tuple(b != 0 for b in self.take(count))
        return struct.unpack(f"{self.order}{count}{form}", self.take(count * struct.calcsize(form)))

    def table(self):
        at = self.at - 1
        self.take(1)
        if self.take(1) not in (b"\x63", b"\x7f"):
            raise BadBytes(f"a table without its dictionary at {self.at - 1}")
        names, columns = self.object(), self.object()
        is_table = isinstance(names, Vector) and names.kind == "symbol" and isinstance(columns, List)
        if not is_table or not all(isinstance(column, Vector) for column in columns.items):
            raise BadBytes(f"a table without names or columns at {at}")
        if len(names) != len(columns.items) or len({len(column) for column in columns.items}) != 1:
            raise BadBytes(f"a table of columns that don't fit each other at {at}")
        return Table(tuple(name.decode(errors="surrogateescape") for name in names.items), columns.items)

    def object(self):
        at = self.at
        (number,) = struct.unpack("b", self.take(1))
        if -number in BY_TYPE:
            kind = BY_TYPE[-number]
            return Atom(kind, self.elements(kind, 1)[0])
        if number in BY_TYPE:
            kind = BY_TYPE[number]
            return Vector(kind, self.elements(kind, self.count()))
        if number == 0:
            return List(tuple(self.object() for _ in range(self.count())))
        if number in (99, 127):
            keys, values = self.object(), self.object()
            if isinstance(keys, Table) and isinstance(values, Table):
                return Keyed(keys, values)
            return Dictionary(keys, values)
        if number == 98:
            return self.table()
        if number == 101 and self.take(1) == b"\0":
            return IDENTITY
        if number == -128:
            return Error(self.text())
        raise BadBytes(f"no object of the profile begins at {at}")


def decode(data, order=LITTLE):
    """The value that the bytes encode; nothing may follow it."""
    reader = _Reader(data, order)
    value = reader.object()
    if reader.at != len(data):
        raise BadBytes(f"bytes after the object, at {reader.at}")
    return value


def message(value, sync, order=LITTLE):
    """A request with its header. A message above 16 MiB is a ValueError."""
    body = encode(value, order)
    length = len(body) + 8
    if length > MAX_MESSAGE:
        raise ValueError(f"a message has at most {MAX_MESSAGE:,} bytes; this one would have {length:,}")
    return struct.pack(f"{order}BBBBI", 1 if order == LITTLE else 0, 1 if sync else 0, 0, 0, length) + body


def close_all(*streams):
    """Closes the streams. What could not be written any more is lost."""
    for stream in streams:
        try:
            stream.close()
        except ConnectionError:
            pass


class Client:
    """Talks to a plant over two binary streams, such as the pipes of a process (`run`) or a connection to its port (`connect`).

    As a context manager it closes the streams at the end, and waits for the process that `run` started; its exit status is
    then in `status`.
    """

    def __init__(self, reads, writes, order=LITTLE, user=b"", capability=3):
        self.reads, self.writes, self.order = reads, writes, order
        self.process, self.status = None, None
        self._published = collections.deque()
        greeting = user + bytes([capability]) + b"\0"
        self._write(greeting, greeting)
        self.capability = self._take(1, greeting)[0]

    @classmethod
    def run(cls, words, **options):
        """A client of a plant that is started with these words as its command line."""
        process = subprocess.Popen(words, stdin=subprocess.PIPE, stdout=subprocess.PIPE)
        client = cls(process.stdout, process.stdin, **options)
        client.process = process
        return client

    @classmethod
    def connect(cls, host, port, timeout=None, **options):
        """A client of a plant that listens on this port. A wait of more than `timeout` seconds, if given, is a TimeoutError,
        and the client is of no use after it."""
        connection = socket.create_connection((host, port), timeout)
        connection.setsockopt(socket.IPPROTO_TCP, socket.TCP_NODELAY, 1)
        reads, writes = connection.makefile("rb"), connection.makefile("wb")
        connection.close()  # once both files are closed too
        try:
            return cls(reads, writes, **options)
        except BaseException:
            close_all(writes, reads)
            raise

    def __enter__(self):
        return self

    def __exit__(self, *_):
        self.close()

    def close(self):
        """Ends the link. A plant that `run` started is waited for."""
        close_all(self.writes)
        if self.process is not None:
            self.status = self.process.wait()
        self.reads.close()

    def sync(self, value):
        """Sends a value and waits for its response, a typed value; an error is raised."""
        self._write(message(value, True, self.order), value)
        is_async, answer = self._receive(value)
        while is_async:
            self._published.append(published(answer))
            is_async, answer = self._receive(value)
        if isinstance(answer, Error):
            raise answer
        return answer

    def send(self, value):
        """Sends a value as an async message, which gets no response."""
        self._write(message(value, False, self.order), value)

    def query(self, text):
        """The answer to a text, with plain values where these are clear."""
        return plain(self.sync(text.encode()))

    def update(self, table, *items, sync=True):
        """An update of a table, with an item for each column: a value for one row, or lists of one length."""
        call = List((Atom("symbol", ".u.upd"), Atom("symbol", table), List(tuple(typed(item) for item in items))))
        if sync:
            self.sync(call)
        else:
            self.send(call)

    def subscribe(self, table="", symbols=""):
        """Subscribes to the rows of some symbols (a list, or one symbol) of a table, and gives an iterator over what is
        published from then on: `Update` and `EndOfDay`. No table stands for every table, no symbol for all rows. The former
        choice for these tables is replaced. The iterator waits for the next publication; it ends where the plant ends the
        link, and it is the same for all subscriptions of a client."""
        chosen = Vector("symbol", tuple(symbols)) if isinstance(symbols, (list, tuple)) else Atom("symbol", symbols)
        self.sync(List((Atom("symbol", ".u.sub"), Atom("symbol", table), chosen)))
        return self.publications()

    def publications(self):
        """What is published to the subscriptions of this client, one by one."""
        while True:
            while self._published:
                yield self._published.popleft()
            try:
                _, value = self._receive("a subscription")
            except PlantEnded:
                return
            yield published(value)

    def _receive(self, sent):
        """Whether the next message is async, and its value."""
        header = self._take(8, sent)
        order = LITTLE if header[0] == 1 else BIG
        (length,) = struct.unpack(f"{order}I", header[4:])
        return header[1] == 0, decode(self._take(length - 8, sent), order)

    def _write(self, data, sent):
        try:
            self.writes.write(data)
            self.writes.flush()
        except (BrokenPipeError, ConnectionError):
            raise PlantEnded(sent) from None

    def _take(self, count, sent):
        parts = []
        while count > 0:
            try:
                part = self.reads.read(count)
            except ConnectionError:
                part = b""
            if not part:
                raise PlantEnded(sent)
            parts.append(part)
            count -= len(part)
        return b"".join(parts)
