"""What is possible in a recording and surely unwanted, and where all frames are at its end (docs/RECORDING.md, "What is told behind
`possible`"): from the calls and from the judge that has judged them."""

from collections import Counter

from recording import GRANTED, METADATA, Look, Peek, Reserve, Ring, Submit

OUTSIDE, WITHIN = "addresses outside of the UMEM", "addresses that aren't the first of a chunk"
EMPTY, CROSSING, OPTIONS = (f"invalid descriptors ({what})" for what in ("length 0", "across the end of a chunk", "unknown options"))
REFUSED = "refused reserves"
ODD = (OUTSIDE, WITHIN, EMPTY, CROSSING, OPTIONS, REFUSED)


def oddity(setting, ring, entry):
    """What is wrong with an entry that is submitted on a ring, or None."""
    if setting.frame(entry) is None:
        return OUTSIDE
    start = entry.address % setting.chunk
    if ring.kind == "fill":
        return WITHIN if start else None
    if not entry.length:
        return EMPTY
    if start + entry.length > setting.chunk:
        return CROSSING
    if setting.metadata and entry.options >= METADATA:
        entry = entry._replace(options=entry.options - METADATA)
    return None if setting.is_valid(entry) else OPTIONS


class Hints:
    """The lines at which something odd was done on FILL and TX, the last line that peeks each COMPLETION, 0 being the start, of FILL
    which frames are on it, and the lines at which the last of them went; and by ring the line of the last wake, and of the last look
    with its flag."""

    def __init__(self):
        self.odd, self.peeked, self.filled, self.dried, self.count = {}, {}, {}, {}, Counter()
        self.kicked, self.looked = {}, {}

    def woken(self, wakeup, line):
        """A look or a wake of this line."""
        if isinstance(wakeup, Look):
            self.looked[wakeup.ring] = line, wakeup.flag
        else:
            self.kicked[wakeup.ring] = line

    def note(self, setting, call, line):
        """A call of this line, which is possible."""
        ring = call.ring
        if isinstance(call, Peek):
            self.peeked[ring] = line
            self._take([self.filled.pop(setting.frame(entry), None) for entry in call.entries], line)
        elif isinstance(call, Reserve) and call.answer != GRANTED:
            self.odd.setdefault((ring, REFUSED), []).append(line)
        elif isinstance(call, Submit):
            for what in filter(None, (oddity(setting, ring, entry) for entry in call.entries)):
                self.odd.setdefault((ring, what), []).append(line)
            if ring.kind == "fill":
                frames = {setting.frame(entry): ring for entry in call.entries if setting.frame(entry) is not None}
                self.filled.update(frames)
                self.count[ring] += len(frames)

    def _take(self, rings, line):
        """From each of these rings a frame went in a call of this line; None is no ring."""
        for ring in filter(None, rings):
            self.count[ring] -= 1
            if not self.count[ring]:
                self.dried.setdefault(ring, []).append(line)

    def told(self, judge):
        """The lines of the hints, where this judge has judged the calls that were noted."""
        setting = judge.setting
        since = {}
        for known in judge.known.values():
            since.setdefault((known.place, known.ring), []).append(known.since)
        start = setting.frames - len(judge.known) + len(since.get(("start", None), ()))
        if start:
            yield f"frames with the program from the start: {start}"
        for pair in range(len(setting.pairs)):
            yield from self._made(judge, since, Ring("fill", pair))
            yield from shown(judge, since, Ring("comp", pair))
        for number, socket in enumerate(setting.sockets):
            if socket.rx:
                yield from shown(judge, since, Ring("rx", number))
            if socket.tx:
                yield from self._made(judge, since, Ring("tx", number))
                yield from self._unpeeked(since, Ring("tx", number), Ring("comp", socket.pair))
        for ring in (Ring("fill", pair) for pair in range(len(setting.pairs))):
            yield from tallied(ring, "times that no frame was left on it", self.dried.get(ring))
            if ring in self.dried and not self.count[ring]:
                yield f"{ring}: no frame on it from line {self.dried[ring][-1]} to the end"
        for ring in (Ring("tx", number) for number in range(len(setting.sockets))):
            yield from self._unwoken(since, ring)

    def _made(self, judge, since, ring):
        """Of FILL or TX."""
        for what in ODD:
            yield from tallied(ring, what, self.odd.get((ring, what)))
        yield from counted(ring, "places reserved and not filled at the end", judge.ends[ring].room)
        yield from tallied(ring, "frames on it at the end", since.get(("given", ring)))

    def _unpeeked(self, since, ring, completion):
        """Of TX with frames that are there since its COMPLETION was peeked."""
        last, peeked = max(since.get(("given", ring), [0])), self.peeked.get(completion, 0)
        if peeked < last:
            yield f"{completion}: not peeked since line {peeked}, and frames were submitted on {ring} up to line {last}"


    def _unwoken(self, since, ring):
        """Of TX with frames that came behind its last wake, but where the last look behind them says that none is needed."""
        lines = [line for line in since.get(("given", ring), ()) if line > self.kicked.get(ring, 0)]
        if not lines:
            return
        looked, needed = self.looked.get(ring, (0, False))
        if looked < max(lines):
            yield told_of(ring, "frames with no wake behind them", lines) + ", and no look behind the last"
        elif needed:
            yield told_of(ring, "frames with no wake behind them", lines) + f", and the look of line {looked} says that one is needed"


def shown(judge, since, ring):
    """Of RX or COMPLETION."""
    yield from counted(ring, "entries peeked and not released at the end", len(judge.queues[ring].held))
    yield from tallied(ring, "frames of it with the program at the end", since.get(("peeked", ring)))
    yield from tallied(ring, "frames put back into it at the end", since.get(("again", ring)))


def counted(ring, what, count):
    """A line where there is something to count."""
    if count:
        yield f"{ring}: {what}: {count}"


def tallied(ring, what, lines):
    """How many lines, the first and the last, where there is one."""
    if lines:
        yield told_of(ring, what, lines)


def told_of(ring, what, lines):
    """Some lines: how many, the first and the last."""
    first, last = min(lines), max(lines)
    return f"{ring}: {what}: {len(lines)}, " + (f"line {first}" if first == last else f"lines {first} to {last}")
