"""Recordings of one program's ring calls: their settings and calls, and how they are written (docs/RECORDING.md, "The text")."""

import re
from dataclasses import dataclass
from typing import Iterator, List, NamedTuple, Optional, Tuple, Union

RESERVED = 256  # bytes of a chunk in front of the headroom
MOST = 1 << 20  # frames, and places of a ring
MOST_ENDS = 64  # pairs, and sockets
MOST_BYTES = 2048  # of a line, with its line feed
MOST_ENTRIES = 32  # of a line
GOES_ON, METADATA = 1, 2  # XDP_PKT_CONTD, XDP_TX_METADATA


class Ring(NamedTuple):
    """A ring: `fill` and `comp` by pair, `rx` and `tx` by socket."""

    kind: str
    number: int

    def __str__(self):
        return f"{self.kind}.{self.number}"

    @property
    def is_made(self):
        """Whether the program produces it."""
        return self.kind in ("fill", "tx")


class Entry(NamedTuple):
    """An entry of a ring."""

    address: int
    length: int = 0
    options: int = 0

    def __str__(self):
        return f"{self.address}:{self.length}:{self.options}"


GRANTED, REFUSED = "granted", "refused"


@dataclass(frozen=True)
class Reserve:
    """xsk_ring_prod__reserve. The answer is GRANTED, REFUSED, or the number of places that were free."""

    ring: Ring
    count: int
    answer: Union[str, int]

    def __str__(self):
        answer = self.answer if isinstance(self.answer, str) else f"full {self.answer}"
        return f"reserve {self.ring} {self.count} -> {answer}"


@dataclass(frozen=True)
class Free:
    """xsk_prod_nb_free, and the places that it told."""

    ring: Ring
    count: int
    places: int

    def __str__(self):
        return f"free {self.ring} {self.count} -> {self.places}"


@dataclass(frozen=True)
class Submit:
    """xsk_ring_prod__submit of entries."""

    ring: Ring
    entries: Tuple[Entry, ...]

    def __str__(self):
        return f"submit {self.ring} {' '.join(map(str, self.entries))} -> submitted"


@dataclass(frozen=True)
class Peek:
    """xsk_ring_cons__peek, and the entries that it showed."""

    ring: Ring
    count: int
    entries: Tuple[Entry, ...]

    def __str__(self):
        shown = " ".join(["items", *map(str, self.entries)]) if self.entries else "empty"
        return f"peek {self.ring} {self.count} -> {shown}"


@dataclass(frozen=True)
class Release:
    """xsk_ring_cons__release."""

    ring: Ring
    count: int

    def __str__(self):
        return f"release {self.ring} {self.count} -> released"


@dataclass(frozen=True)
class Cancel:
    """xsk_ring_cons__cancel; on FILL and TX places that are given up."""

    ring: Ring
    count: int

    def __str__(self):
        return f"cancel {self.ring} {self.count} -> cancelled"


@dataclass(frozen=True)
class Look:
    """xsk_ring_prod__needs_wakeup, and the flag that it told."""

    ring: Ring
    flag: bool

    def __str__(self):
        return f"look {self.ring} -> {int(self.flag)}"


@dataclass(frozen=True)
class Kick:
    """A wake of the kernel for a ring."""

    ring: Ring

    def __str__(self):
        return f"kick {self.ring} -> 0"


Call = Union[Reserve, Free, Submit, Peek, Release, Cancel]
Wakeup = Union[Look, Kick]  # any kernel may answer so


class Socket(NamedTuple):
    """A socket: its pair, and the sizes of its rings, 0 for none."""

    pair: int
    rx: int
    tx: int


class Setting:
    """A UMEM, its pairs (sizes of FILL and COMPLETION) and sockets, and the switches: what its kernel may do."""

    def __init__(self, frames, chunk, headroom, pairs, sockets, switches=()):
        self.frames, self.chunk, self.headroom = frames, chunk, headroom
        self.pairs, self.sockets = [tuple(pair) for pair in pairs], [Socket(*socket) for socket in sockets]
        self.switches = frozenset(switches)
        self.sg, self.own, self.data, self.metadata = (word in switches for word in SWITCHES)
        self.size, self.pair = {}, {}
        for number, (fill, comp) in enumerate(self.pairs):
            self._ring(Ring("fill", number), fill, number)
            self._ring(Ring("comp", number), comp, number)
        for number, (pair, rx, tx) in enumerate(self.sockets):
            self._ring(Ring("rx", number), rx, pair)
            self._ring(Ring("tx", number), tx, pair)

    def _ring(self, ring, size, pair):
        if size:
            self.size[ring], self.pair[ring] = size, pair

    def fault(self):
        """What makes this no setting: the first of a UMEM's parts, or None."""
        if not 1 <= self.frames <= MOST:
            return "frames"
        if self.headroom + RESERVED >= self.chunk:
            return "chunk"
        if not 1 <= len(self.pairs) <= MOST_ENDS or not all(map(is_size, sum(self.pairs, ()))):
            return "pairs"
        if not 1 <= len(self.sockets) <= MOST_ENDS or not all(map(self._is_socket, self.sockets)):
            return "sockets"
        return None

    def _is_socket(self, socket):
        sizes = [size for size in socket[1:] if size]
        return socket.pair < len(self.pairs) and sizes and all(map(is_size, sizes))

    def frame(self, entry):
        """The frame that an entry names, or None."""
        return entry.address // self.chunk if entry.address < self.frames * self.chunk else None

    def data_of(self, frame):
        """The address at which copy mode lays data in a frame."""
        return frame * self.chunk + self.headroom + RESERVED

    @property
    def payload(self):
        """The bytes of a frame that copy mode fills."""
        return self.chunk - self.headroom - RESERVED

    def is_valid(self, entry):
        """Whether an entry is a valid descriptor."""
        return (self.frame(entry) is not None and entry.length > 0 and entry.address % self.chunk + entry.length <= self.chunk
                and entry.options <= (GOES_ON if self.sg else 0))

    def is_received(self, entry):
        """Whether a kernel may put an entry on RX, but for whose frame it is."""
        if not self.is_valid(entry):
            return False
        laid = entry.address == self.data_of(self.frame(entry)) and (entry.options == 0 or entry.length == self.payload)
        return laid or not self.data

    def header(self):
        """The lines of a header."""
        return ["xsk recording 1", f"umem {self.frames} {self.chunk} {self.headroom}",
                *(f"pair {fill} {comp}" for fill, comp in self.pairs), *(f"socket {pair} {rx} {tx}" for pair, rx, tx in self.sockets),
                " ".join(["kernel", *(word for word in SWITCHES if word in self.switches)]), "calls"]


SWITCHES = ("sg", "own", "data", "metadata")


def is_size(size):
    """Whether a ring may have so many places."""
    return 1 <= size <= MOST and size & (size - 1) == 0


def written(setting, calls):
    """The text of a recording: the i-th call at time i, by thread 1, at line i of a program."""
    lines = setting.header() + [f"{i} 1 a.c:{i} {call}" for i, call in enumerate(calls, 1)]
    return "".join(line + "\n" for line in lines).encode("ascii")


# ---------------------------------------------------------------------------------------------------------------------- how it is read


class Malformed(Exception):
    """A line isn't of the form."""


NUMBER = rb"(0|[1-9][0-9]*)"
RING = rb"(fill|comp|rx|tx)\." + NUMBER
ENTRIES = rb"((?: (?:0|[1-9][0-9]*):(?:0|[1-9][0-9]*):(?:0|[1-9][0-9]*)){1,32})"
STAMP = re.compile(NUMBER + b" " + NUMBER + rb" [^ ]+ ")
FORMS = [(name, re.compile(form + rb"\n", re.DOTALL)) for name, form in (
    ("reserve", b"reserve " + RING + b" " + NUMBER + b" -> (?:granted|(refused)|full " + NUMBER + b")"),
    ("free", b"free " + RING + b" " + NUMBER + b" -> " + NUMBER),
    ("submit", b"submit " + RING + ENTRIES + b" -> submitted"),
    ("peek", b"peek " + RING + b" " + NUMBER + b" -> (?:empty|items" + ENTRIES + b")"),
    ("release", b"release " + RING + b" " + NUMBER + b" -> released"),
    ("cancel", b"cancel " + RING + b" " + NUMBER + b" -> cancelled"),
    ("look", b"look " + RING + b" -> ([01])"),
    ("kick", b"kick " + RING + b" -> 0"),
)]
UMEM = re.compile(b"umem " + NUMBER + b" " + NUMBER + b" " + NUMBER + rb"\n")
PAIR = re.compile(b"pair " + NUMBER + b" " + NUMBER + rb"\n")
SOCKET = re.compile(b"socket " + NUMBER + b" " + NUMBER + b" " + NUMBER + rb"\n")
KERNEL = re.compile(rb"kernel( sg)?( own)?( data)?( metadata)?\n")


def number(digits, bits=32):
    """The number that digits write, below 2^bits."""
    value = int(digits)
    if value >> bits:
        raise Malformed
    return value


def entries_of(words):
    """The entries that stand in words."""
    fields = (word.split(b":") for word in words.split())
    return tuple(Entry(number(address, 64), number(length), number(options)) for address, length, options in fields)


def call_of(line) -> Tuple[int, Union[Call, Wakeup]]:
    """The time of a line and its call, look or wake."""
    stamp = STAMP.match(line)
    if not stamp:
        raise Malformed
    time, _thread = number(stamp[1], 64), number(stamp[2], 64)
    for name, form in FORMS:
        found = form.fullmatch(line, stamp.end())
        if found:
            return time, call_named(name, Ring(found[1].decode(), number(found[2])), found.groups()[2:])
    raise Malformed


def call_named(name, ring, words):
    """The call of this name with what its line's form has found behind the ring."""
    if name == "submit":
        return Submit(ring, entries_of(words[0]))
    if name in ("look", "kick"):
        return Look(ring, words[0] == b"1") if words else Kick(ring)
    count = number(words[0])
    if name == "reserve":
        return Reserve(ring, count, REFUSED if words[1] else number(words[2]) if words[2] else GRANTED)
    if name == "free":
        return Free(ring, count, number(words[1]))
    if name == "peek":
        return Peek(ring, count, entries_of(words[1] or b""))
    return (Release if name == "release" else Cancel)(ring, count)


class Reader:
    """Reads a recording line by line. Behind the kernel's line it has the setting."""

    def __init__(self):
        self.setting = None
        self.is_begun = False
        self._next, self._umem, self._pairs, self._sockets, self._time = "title", None, [], [], 0

    def read(self, line) -> Union[Call, Wakeup, None]:
        """Reads the next line: the call, look or wake that it tells, or None."""
        if len(line) > MOST_BYTES or line[-1:] != b"\n":
            raise Malformed
        if self.is_begun:
            return self._call(line)
        if not getattr(self, "_" + self._next)(line):
            raise Malformed
        return None

    def _call(self, line):
        time, call = call_of(line)
        if time < self._time:
            raise Malformed
        self._time = time
        return call

    def _title(self, line):
        self._next = "umem_line"
        return line == b"xsk recording 1\n"

    def _umem_line(self, line):
        found = UMEM.fullmatch(line)
        self._next, self._umem = "ends", found and [number(word) for word in found.groups()]
        return found

    def _ends(self, line):
        """The line of a pair, of a socket, or of the kernel, in this order."""
        for form, ends, may_come in ((PAIR, self._pairs, not self._sockets), (SOCKET, self._sockets, True)):
            found = form.fullmatch(line)
            if found and may_come and len(ends) < MOST_ENDS:
                ends.append(tuple(number(word) for word in found.groups()))
                return True
        found = KERNEL.fullmatch(line)
        if found and self._sockets:
            self._next = "mark"
            self.setting = Setting(*self._umem, self._pairs, self._sockets, {word.decode().strip() for word in found.groups() if word})
        return found and self._sockets

    def _mark(self, line):
        self.is_begun = line == b"calls\n"
        return self.is_begun


def lines_of(text) -> Iterator[bytes]:
    """The lines of a text, each with its line feed; the last may have none."""
    parts: List[bytes] = text.split(b"\n")
    yield from (part + b"\n" for part in parts[:-1])
    if parts[-1]:
        yield parts[-1]
