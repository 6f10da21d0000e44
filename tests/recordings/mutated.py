"""Random recordings that can be, and such that were changed: in a call, or in the bytes of the text."""

from dataclasses import replace

from judge import Judge
from recording import (GRANTED, REFUSED, RESERVED, SWITCHES, Cancel, Entry, Free, Kick, Look, Peek, Release, Reserve, Ring, Setting, Submit,
                       written)

TELLING = (Submit, Peek, Cancel)  # the calls that are changed most
EDGES = [0, 1, 2**16, 2**31, 2**32 - 1, 2**32, 2**63, 2**64 - 1, 2**64, 10**20]  # numbers of which some have to be refused


def setting(rnd):
    """Some setting of few frames and small rings."""
    headroom = rnd.choice((0, 0, 8))
    chunk = headroom + RESERVED + rnd.choice((1, 4, 100, 256, 3840))
    pairs = [(rnd.choice((1, 2, 4, 8)), rnd.choice((1, 2, 4, 8))) for _ in range(rnd.randint(1, 3))]
    sockets = [(rnd.randrange(len(pairs)), *rnd.choice(((4, 4), (8, 2), (1, 1), (4, 0), (0, 4)))) for _ in range(rnd.randint(1, 4))]
    switches = [word for word in SWITCHES if rnd.random() < 0.4]
    return Setting(rnd.choice((2, 4, 8, 32)), chunk, headroom, pairs, sockets, switches)


class Walk:
    """Makes calls that can be behind those before them, by what the judge keeps."""

    def __init__(self, rnd, made_for):
        self.rnd, self.setting, self.judge = rnd, made_for, Judge(made_for)
        self.calls, self.weights = [], {ring: rnd.random() + 0.1 for ring in made_for.size}

    def go(self, count):
        """So many calls at most: those that come into question at random."""
        rings = list(self.weights)
        for self.judge.line in range(1, count + 1):
            ring = self.rnd.choices(rings, list(self.weights.values()))[0]
            call = self.made(ring) if ring.is_made else self.peeked(ring)
            if call:
                self.judge.step(call)
                self.calls.append(call)
        return self.calls

    def made(self, ring):
        """A call on FILL or TX, or None."""
        end, kind = self.judge.ends[ring], self.rnd.random()
        most, count = end.size - end.room, self.rnd.randint(1, 4)
        if kind < 0.5 and end.room:
            return self.submit(ring, end)
        if kind < 0.55 and end.room:
            return Cancel(ring, self.rnd.randint(1, end.room))
        if kind < 0.65:
            places = self.rnd.randint(min(end.sure, most), most)
            return Free(ring, count, places)
        if count <= most and self.rnd.random() < 0.8:
            return Reserve(ring, count, GRANTED)
        if count > end.sure:
            return Reserve(ring, count, REFUSED if self.rnd.random() < 0.3 else self.rnd.randint(end.sure, min(most, count - 1)))
        return None

    def submit(self, ring, end):
        """Entries in frames of the program, and some in none."""
        mine = [frame for frame in range(self.setting.frames) if self.judge.where(frame).is_mine]
        self.rnd.shuffle(mine)
        entries = [entry(self.rnd, self.setting, ring, frame) for frame in mine[:self.rnd.randint(1, min(3, end.room))]]
        if len(entries) < end.room and self.rnd.random() < 0.1:
            entries.append(entry(self.rnd, self.setting, ring, self.setting.frames + self.rnd.randint(0, 2)))
        return Submit(ring, tuple(entries)) if entries else None

    def peeked(self, ring):
        """A call on RX or COMPLETION, or None."""
        queue, kind = self.judge.queues[ring], self.rnd.random()
        if kind < 0.3:
            return Release(ring, self.rnd.randint(1, len(queue.held))) if queue.held else None
        if kind < 0.45:
            count = self.untouched(ring, queue)
            return Cancel(ring, self.rnd.randint(1, count)) if count else None
        come = self.come(ring)
        self.rnd.shuffle(come)
        shown = (queue.standing + come)[:self.rnd.randint(0 if not queue.standing else 1, 4)][:queue.size - len(queue.held)]
        return Peek(ring, len(shown) + self.rnd.choice((0, 0, 1, 28)) or 1, tuple(shown)) if shown or not queue.standing else None

    def untouched(self, ring, queue):
        """How many of the last entries that are held may be cancelled."""
        for count, (held, number) in enumerate(reversed(queue.held)):
            frame = self.setting.frame(held)
            known = self.judge.where(frame)
            if frame is not None and (known.place, known.ring, known.number) != ("peeked", ring, number):
                return count
        return len(queue.held)

    def come(self, ring):
        """Entries that a kernel can put there."""
        source = "fill" if ring.kind == "rx" else "tx"
        given = [(frame, known.ring) for frame, known in self.judge.known.items() if known.place == "given" and known.ring.kind == source]
        any_pair = ring.kind == "rx" and not self.setting.own
        frames = [frame for frame, by in given if any_pair or self.setting.pair[by] == self.setting.pair[ring]]
        if ring.kind == "rx":
            return [entry(self.rnd, self.setting, ring, frame) for frame in frames]
        stray = [Entry((self.setting.frames + 1) * self.setting.chunk)] if self.judge.strays[ring.number] else []
        return [Entry(frame * self.setting.chunk) for frame in frames] + stray


def entry(rnd, made_for, ring, frame):
    """An entry in a frame, as it may come on a ring."""
    base = frame * made_for.chunk
    if ring.kind in ("fill", "comp"):
        return Entry(base + (rnd.choice((0, 0, 0, 8)) if ring.kind == "fill" else 0))
    goes_on = 1 if made_for.sg and rnd.random() < 0.3 else 0
    if ring.kind == "tx":
        return Entry(base + rnd.choice((0, made_for.headroom + RESERVED)), rnd.choice((1, 1, 1, 1, 0)), goes_on if rnd.random() < 0.95 else rnd.choice((2, 3, 4)))
    if made_for.data or rnd.random() < 0.7:
        return Entry(made_for.data_of(frame), made_for.payload if goes_on else rnd.randint(1, made_for.payload), goes_on)
    start = rnd.randrange(made_for.chunk)
    return Entry(base + start, rnd.randint(1, made_for.chunk - start), goes_on)


def changed(rnd, made_for, calls):
    """The same calls but for one or two."""
    calls = list(calls)
    for _ in range(rnd.choice((1, 1, 2))):
        if not calls:
            break
        at, kind = max((rnd.randrange(len(calls)) for _ in range(3)), key=lambda at: isinstance(calls[at], TELLING)), rnd.random()
        if kind < 0.12:
            del calls[at]
        elif kind < 0.2:
            calls.insert(at, calls[at])
        elif kind < 0.3 and at + 1 < len(calls):
            calls[at], calls[at + 1] = calls[at + 1], calls[at]
        elif kind < 0.35:
            calls[at] = replace(calls[at], ring=rnd.choice(list(made_for.size)))
        else:
            calls[at] = other(rnd, made_for, calls[at])
    return calls


def other(rnd, made_for, call):
    """A call with another number, or other entries."""
    if isinstance(call, Reserve):
        return Reserve(call.ring, max(0, call.count + rnd.choice((-1, 0, 1))), rnd.choice((GRANTED, REFUSED, rnd.randint(0, 3))))
    if isinstance(call, Free):
        return Free(call.ring, call.count, max(0, call.places + rnd.choice((-1, 1))))
    if isinstance(call, (Release, Cancel)):
        return replace(call, count=max(1, call.count + rnd.choice((-1, 1))))
    entries, kind = list(call.entries), rnd.random()
    new = entry(rnd, made_for, call.ring, rnd.randrange(made_for.frames + 1))
    if entries and kind < 0.4:
        entries[rnd.randrange(len(entries))] = new
    elif kind < 0.6:
        entries.insert(rnd.randint(0, len(entries)), new)
    elif entries and kind < 0.8:
        entries.pop(rnd.randrange(len(entries)))
    else:
        rnd.shuffle(entries)
    if isinstance(call, Submit) and not entries:
        return call
    return replace(call, entries=tuple(entries))


def wakened(rnd, made_for, calls):
    """The same calls with looks and wakes between them."""
    often = rnd.choice((0, 0.2, 0.5))
    for call in calls:
        yield call
        while rnd.random() < often:
            ring = Ring(rnd.choice(("tx", "tx", "tx", "fill", "rx")), rnd.randint(0, len(made_for.sockets)))
            yield Look(ring, rnd.random() < 0.7) if rnd.random() < 0.6 else Kick(ring)


def broken(rnd, text):
    """The text with some bytes changed."""
    text, at, kind = bytearray(text), rnd.randrange(len(text)), rnd.random()
    if kind < 0.15:
        return bytes(text[:at])
    if kind < 0.3:
        text[at] = rnd.choice(b" 0123456789:.->\n\r\tx\0\xff")
    elif kind < 0.4:
        del text[at:at + rnd.choice((1, 1, 2, 20))]
    elif kind < 0.5:
        text[at:at] = rnd.choice((b" ", b"0", b"-", b"\n", b"\r\n", b"x" * 2048, b" -> "))
    else:
        return edged(rnd, bytes(text))
    return bytes(text)


def edged(rnd, text):
    """The text with one of its numbers replaced by one at an edge, or with zeros or a sign before it."""
    starts = [at for at in range(1, len(text)) if text[at:at + 1].isdigit() and not text[at - 1:at].isdigit()]
    start = rnd.choice(starts)
    end = start
    while text[end:end + 1].isdigit():
        end += 1
    number = text[start:end]
    new = rnd.choice([*(str(edge).encode() for edge in EDGES), b"0" + number, b"+" + number, b"-" + number, b""])
    return text[:start] + new + text[end:]


def recording(rnd):
    """The bytes of a random recording: as it was made, with calls changed, or with bytes changed."""
    made_for, kind = setting(rnd), rnd.random()
    calls = Walk(rnd, made_for).go(rnd.randint(1, 80))
    if 0.15 <= kind < 0.7:
        calls = changed(rnd, made_for, calls)
    text = written(made_for, wakened(rnd, made_for, calls))
    return text if kind < 0.7 else broken(rnd, text)
