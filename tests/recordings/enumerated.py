"""All recordings of small alphabets of calls, up to a length, with their verdicts by all kernels."""

from itertools import product
from typing import NamedTuple

from judge import PROGRAM as BROKE
from judge import Judge, Refused
from kernels import KERNEL, POSSIBLE, PROGRAM, Kernels
from recording import GRANTED, REFUSED, Cancel, Entry, Free, Peek, Release, Reserve, Ring, Setting, Submit

CHUNK, DATA, OUTSIDE = 512, 256, 512 * 9


class Alphabet(NamedTuple):
    """A setting, the entries that come into question on each kind of ring, and how calls are made: of one to `most` entries, with asking
    for each number of `places`, with Cancel, with Free; and the calls that stand before all of them."""

    name: str
    setting: Setting
    entries: dict
    most: int = 2
    places: tuple = (1, 2)
    cancels: bool = False
    asks: bool = False
    before: tuple = ()

    def calls(self):
        """The calls with their replies."""
        for ring in self.setting.size:
            yield from self._gives(ring) if ring.is_made else self._takes(ring)

    def _gives(self, ring):
        for count in self.places:
            for answer in (GRANTED, REFUSED, *range(self.setting.size[ring] + 1)):
                yield Reserve(ring, count, answer)
            if self.asks:
                yield from (Free(ring, count, places) for places in range(self.setting.size[ring] + 1))
        for count in range(1, self.most + 1):
            yield from (Submit(ring, entries) for entries in product(self.entries[ring.kind], repeat=count))
        if self.cancels:
            yield Cancel(ring, 1)

    def _takes(self, ring):
        for asked in range(1, self.most + 1):
            for count in range(asked + 1):
                yield from (Peek(ring, asked, entries) for entries in product(self.entries[ring.kind], repeat=count))
            yield Release(ring, asked)
            if self.cancels:
                yield Cancel(ring, asked)


def on_fill(frames):
    """Their first addresses."""
    return [Entry(frame * CHUNK) for frame in range(frames)]


def on_tx(frames, offset=0):
    """A byte of each."""
    return [Entry(frame * CHUNK + offset, 1) for frame in range(frames)]


def on_rx(frames):
    """A byte of each, as copy mode lays it."""
    return on_tx(frames, DATA)


def alphabets():
    """The settings in which recordings are tried."""
    wide, narrow = [(2, 2)], [(1, 1), (1, 1)]
    outside = [Entry(OUTSIDE)]
    yield Alphabet("FILL and RX, two frames", Setting(2, CHUNK, 0, wide, [(0, 2, 0)]),
                   {"fill": on_fill(2) + outside, "rx": on_rx(2), "comp": []}, asks=True)
    yield Alphabet("FILL and RX, a place on RX", Setting(2, CHUNK, 0, [(2, 1)], [(0, 1, 0)]), {"fill": on_fill(2), "rx": on_rx(2), "comp": []})
    yield Alphabet("FILL and RX, with cancel", Setting(2, CHUNK, 0, wide, [(0, 2, 0)]),
                   {"fill": on_fill(2), "rx": on_rx(2) + [Entry(1, 2)], "comp": []}, cancels=True)
    yield Alphabet("two sockets on a pair", Setting(3, CHUNK, 0, wide, [(0, 1, 0)] * 2), {"fill": on_fill(3), "rx": on_rx(3), "comp": []}, most=1)
    for words in ([], ["own"]):
        yield Alphabet(" ".join(["two pairs", *words]), Setting(2, CHUNK, 0, narrow, [(0, 1, 0), (1, 1, 0)], words),
                       {"fill": on_fill(2), "rx": on_rx(2), "comp": []}, most=1, places=(1,))
    yield Alphabet("packets of frames", Setting(3, CHUNK, 0, [(2, 1)], [(0, 2, 0)], ["sg"]),
                   {"fill": on_fill(3), "rx": on_rx(3) + [Entry(DATA, DATA, 1), Entry(8, 504, 1), Entry(8, 505)], "comp": []}, most=1)
    yield Alphabet("copy mode", Setting(2, CHUNK, 0, wide, [(0, 2, 0)], ["sg", "data"]),
                   {"fill": on_fill(2), "rx": on_rx(2) + [Entry(DATA, DATA, 1), Entry(DATA, 8, 1), Entry(0, 8), Entry(DATA)], "comp": []}, most=1)
    faulty = [Entry(0, 0), Entry(CHUNK, 0), Entry(OUTSIDE, 1)]
    yield Alphabet("TX and COMPLETION", Setting(2, CHUNK, 0, [(1, 2)], [(0, 0, 2)]),
                   {"fill": [], "tx": on_tx(2) + faulty, "comp": on_fill(2) + outside}, asks=True)
    yield Alphabet("TX and COMPLETION, with cancel", Setting(2, CHUNK, 0, [(1, 2)], [(0, 0, 2)], ["sg"]),
                   {"fill": [], "tx": on_tx(2) + [Entry(0, 1, 1)], "comp": on_fill(2) + [Entry(8), Entry(0, 1)]}, cancels=True)
    yield Alphabet("two pairs, completions", Setting(2, CHUNK, 0, narrow, [(0, 0, 1), (1, 0, 1)]),
                   {"fill": [], "tx": on_tx(2) + [Entry(OUTSIDE, 1)], "comp": on_fill(2) + outside}, most=1, places=(1,))
    four = {"fill": on_fill(2), "tx": on_tx(2), "rx": on_rx(2), "comp": on_fill(2)}
    yield Alphabet("all four rings", Setting(2, CHUNK, 0, wide, [(0, 2, 2)]), four, most=1, places=(1,))
    yield Alphabet("all four rings, two sockets", Setting(2, CHUNK, 0, wide, [(0, 1, 1)] * 2), four, most=1, places=(1,))
    yield Alphabet("all four rings, with cancel", Setting(2, CHUNK, 0, [(1, 1)], [(0, 1, 1)]), four, most=1, places=(1,), cancels=True)
    fill, tx = Ring("fill", 0), Ring("tx", 0)
    yield Alphabet("cancel on RX", Setting(2, CHUNK, 0, wide, [(0, 2, 1)]),
                   {"fill": on_fill(1), "tx": on_tx(1), "rx": on_rx(2) + [Entry(DATA, 2)], "comp": []}, places=(1,), cancels=True,
                   before=(Reserve(fill, 2, GRANTED), Submit(fill, tuple(on_fill(2)))))
    yield Alphabet("cancel on COMPLETION", Setting(2, CHUNK, 0, wide, [(0, 0, 2)]),
                   {"fill": on_fill(1), "tx": on_tx(1), "comp": on_fill(2) + [Entry(8)]}, places=(1,), cancels=True,
                   before=(Reserve(tx, 2, GRANTED), Submit(tx, tuple(on_tx(2)))))
    laid = {"fill": on_fill(3), "tx": [Entry(f * CHUNK + DATA, 1, o) for f in range(3) for o in (0, 1)],
            "rx": on_rx(3) + [Entry(f * CHUNK + DATA, DATA, 1) for f in range(3)], "comp": [Entry(f * CHUNK + DATA) for f in range(3)]}
    yield Alphabet("all switches, two sockets", Setting(3, CHUNK, 0, wide, [(0, 2, 2)] * 2, ["sg", "own", "data"]), laid, most=1, places=(1,))


class Tried(NamedTuple):
    """A recording, whether it can be, and what Python's judge says of its last call: None, or why it can't be."""

    calls: tuple
    fault: str
    refused: object


def replayed(setting, calls, first):
    """A judge behind calls, the first of which stands in that line."""
    judge = Judge(setting)
    for judge.line, call in enumerate(calls, first):
        judge.step(call)
    judge.line = first + len(calls)
    return judge


def recordings(alphabet, length, all_of):
    """All recordings of so many calls of an alphabet, or fewer, of which all calls but the last can be. Of those with more than `all_of`
    calls that leave kernels and program in the same states only one goes on."""
    setting, calls = alphabet.setting, list(alphabet.calls())
    kernels = Kernels(setting, {ring: alphabet.entries[ring.kind] for ring in setting.size if not ring.is_made})
    first = len(setting.header()) + 1
    states = kernels.start()
    for call in alphabet.before:
        _, states = kernels.call(states, call)
    front = [(alphabet.before, states)]
    for count in range(1, length + 1):
        behind, seen = [], set()
        for before, states in front:
            for call in calls:
                fault, after = kernels.call(states, call)
                yield Tried(before + (call,), fault, refusal(setting, before, call, first))
                if fault == POSSIBLE and (count <= all_of or after not in seen):
                    seen.add(after)
                    behind.append((before + (call,), after))
        front = behind


def refusal(setting, before, call, first):
    """Why Python's judge refuses a call behind others, or None."""
    try:
        replayed(setting, before, first).step(call)
    except Refused as why:
        return why
    return None


def agrees(tried):
    """Whether Python's judge says of a recording what all kernels do."""
    said = POSSIBLE if tried.refused is None else PROGRAM if tried.refused.who == BROKE else KERNEL
    return said == tried.fault
