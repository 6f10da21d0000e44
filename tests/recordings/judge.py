#!/usr/bin/env python3
"""The judge of recordings in Python: which call can't be, and why, in the words of `xsk check`.

    tests/recordings/judge.py FILE      tells what `xsk check FILE` tells, and ends with its status

It keeps what a program's calls and replies leave, and no kernel: where each frame is, and of each ring a few numbers. That these rules are
right is tried against all kernels (kernels.py); that the program keeps them too, by the scripts of this folder.
"""

import re
import sys
from dataclasses import dataclass
from typing import List, Optional, Tuple

from hints import Hints
from recording import GRANTED, REFUSED, Cancel, Free, Kick, Look, Malformed, Reader, Reserve, Ring, Submit, lines_of

PROGRAM, KERNEL = "the program broke a rule", "no kernel answers so"
NO_KERNEL = (b"a call isn't in the recording, an entry was changed after it was submitted, something wrote over the ring, or the kernel is "
             b"wrong")


class Refused(Exception):
    """Why a call can't be: whose fault it is, a word for it, and a text."""

    def __init__(self, who, code, text):
        super().__init__(text)
        self.who, self.code, self.text = who, code, text


@dataclass(frozen=True)
class Known:
    """Where a frame is: `place` is "start", "peeked", "given" or "again", with its ring, and since which line."""

    place: str
    ring: Optional[Ring] = None
    since: int = 0
    number: int = 0  # of the entry by which the program got it

    @property
    def is_mine(self):
        """Whether the program has it."""
        return self.place in ("start", "peeked")

    def __str__(self):
        if self.place == "start":
            return "the program has had it from the start"
        if self.place == "peeked":
            return f"the program has had it since line {self.since} (peek {self.ring})"
        if self.place == "again":
            return f"it stands in {self.ring} again since line {self.since} (cancel)"
        waits = ", and it hasn't come on COMPLETION since" if self.ring.kind == "tx" else ""
        return f"the kernel has had it since line {self.since} (submit {self.ring}){waits}"


START = Known("start")


class End:
    """Of FILL or TX: the places reserved, those that are free for certain, and the line that showed it."""

    def __init__(self, size):
        self.size, self.room, self.sure, self.shown = size, 0, size, 0

    @property
    def as_shown(self):
        """What showed that so many places are free."""
        return f"as line {self.shown} showed" if self.shown else "as all were at the start"


class Queue:
    """Of RX or COMPLETION: the entries that are held, each with its number, those that stand there again, and since which line."""

    def __init__(self, size):
        self.size, self.held, self.standing, self.again, self.count = size, [], [], 0, 0


class Judge:
    """What the calls so far leave. `line` is that of the next call."""

    def __init__(self, setting):
        self.setting, self.line = setting, 0
        self.known = {}  # of frames that aren't where they were at the start
        self.ends = {ring: End(size) for ring, size in setting.size.items() if ring.is_made}
        self.queues = {ring: Queue(size) for ring, size in setting.size.items() if not ring.is_made}
        self.strays = [0] * len(setting.pairs)  # addresses that name no frame, submitted on TX of the pair and not come

    def where(self, frame):
        """Where a frame is."""
        return self.known.get(frame, START)

    def step(self, call):
        """Judges the next call, and keeps what it shows; behind a Refused nothing more may be judged."""
        name, ring = type(call).__name__.lower(), call.ring
        if ring not in self.setting.size:
            raise Refused(PROGRAM, "ring", f"there is no ring {ring}")
        if not isinstance(call, Cancel) and ring.is_made != isinstance(call, (Reserve, Free, Submit)):
            raise Refused(PROGRAM, "side", f"{name} of {ring} is the kernel's call")
        getattr(self, "_" + name)(call)

    # ------------------------------------------------------------------------------------------------------------------- FILL and TX

    def _reserve(self, call):
        ring, count, end = call.ring, call.count, self.ends[call.ring]
        if call.answer == GRANTED:
            self._are_free(call, count, "granted")
            end.shown = end.shown if count <= end.sure else self.line
            end.room, end.sure = end.room + count, max(0, end.sure - count)
        elif call.answer == REFUSED:
            if count <= end.sure:
                raise Refused(KERNEL, "refused", f"{ring}: {count} places are refused, and {end.sure} are free, {end.as_shown}")
        else:
            free, most = call.answer, end.size - end.room
            if free >= count:
                raise Refused(KERNEL, "refused", f"{ring}: {count} places are refused, and {free} are free")
            if free > most:
                raise Refused(KERNEL, "taken", f"{ring}: so many places are free that the kernel gave back {free - most} more than were submitted")
            self._fewer(call, free)
            end.sure, end.shown = free, self.line

    def _free(self, call):
        end, places = self.ends[call.ring], call.places
        self._are_free(call, places, "free")
        if places < call.count:
            self._fewer(call, places)
        if places < call.count or places > end.sure:
            end.sure, end.shown = max(end.sure, places), self.line

    def _are_free(self, call, places, word):
        """So many places at least are granted, or told to be free."""
        end = self.ends[call.ring]
        if end.room + places > end.size:
            raise Refused(KERNEL, "granted", f"{call.ring}: {places} places are {word} with {end.room} reserved, and it has {end.size}")

    def _fewer(self, call, places):
        """So many places are free, and no more."""
        end = self.ends[call.ring]
        if places < end.sure:
            raise Refused(KERNEL, "fewer free", f"{call.ring}: {end.sure - places} places more are free, {end.as_shown}, and nothing but "
                                                "the program's own calls takes places")

    def _submit(self, call):
        ring, end = call.ring, self.ends[call.ring]
        if len(call.entries) > end.room:
            raise Refused(PROGRAM, "places", f"{len(call.entries)} entries are submitted on {ring}, and {end.room} places are reserved")
        frames = [self.setting.frame(entry) for entry in call.entries]
        for at, (frame, entry) in enumerate(zip(frames, call.entries)):
            if frame is None:
                continue
            if frame in frames[:at]:
                raise Refused(PROGRAM, "twice", f"frame {frame} stands twice in this submit of {ring}")
            if not self.where(frame).is_mine:
                raise Refused(PROGRAM, "frame", f"frame {frame} (address {entry.address}) is submitted on {ring}, and isn't the "
                                                f"program's: {self.where(frame)}")
        end.room -= len(frames)
        self.known.update({frame: Known("given", ring, self.line) for frame in frames if frame is not None})
        if ring.kind == "tx":
            self.strays[self.setting.pair[ring]] += frames.count(None)

    # ------------------------------------------------------------------------------------------------------------- RX and COMPLETION

    def _peek(self, call):
        ring, queue, shown = call.ring, self.queues[call.ring], len(call.entries)
        if shown > call.count:
            raise Refused(KERNEL, "more", f"{call.count} entries of {ring} were asked for, and {shown} came")
        if not shown and call.count and queue.standing:
            raise Refused(KERNEL, "empty", f"{ring} is empty, and {len(queue.standing)} entries stand there since line {queue.again}")
        if shown > queue.size - len(queue.held):
            more = "one more entry comes" if shown == 1 else f"{shown} more entries come"
            raise Refused(KERNEL, "full", f"{ring} has {queue.size} places, {len(queue.held)} are held, and {more}")
        for entry, stood in zip(call.entries, queue.standing):
            if entry != stood:
                raise Refused(KERNEL, "other", f"{ring} shows {entry}, and {stood} has stood there since line {queue.again}")
        again = min(len(queue.standing), shown)
        numbered = list(enumerate(call.entries, queue.count))
        for number, entry in numbered[again:]:
            self._comes(ring, entry, number)
        for number, entry in numbered[:again]:
            self._is_shown(ring, entry, number)
        queue.held += [(entry, number) for number, entry in numbered]
        queue.count += shown
        del queue.standing[:again]

    def _is_shown(self, ring, entry, number):
        """The program has the frame of an entry by it."""
        frame = self.setting.frame(entry)
        if frame is not None:
            self.known[frame] = Known("peeked", ring, self.line, number)

    def _comes(self, ring, entry, number):
        """An entry that the kernel puts there."""
        (self._completes if ring.kind == "comp" else self._receives)(ring, entry, self.setting.frame(entry))
        self._is_shown(ring, entry, number)

    def _receives(self, ring, entry, frame):
        if frame is None:
            raise Refused(KERNEL, "outside", f"{ring} shows address {entry.address}, which is outside of the UMEM")
        if not self.setting.is_received(entry):
            raise Refused(KERNEL, "entry", f"{ring} shows {entry}, which no kernel puts there")
        known = self.where(frame)
        if known.place != "given" or known.ring.kind != "fill":
            raise Refused(KERNEL, "not filled", f"frame {frame} comes on {ring}, and isn't on FILL: {known}")
        self._is_of_pair(ring, frame, not self.setting.own)

    def _completes(self, ring, entry, frame):
        if entry.length or entry.options:
            raise Refused(KERNEL, "entry", f"{ring} shows {entry}, which no kernel puts there")
        if frame is None:
            if not self.strays[ring.number]:
                raise Refused(KERNEL, "never sent", f"{ring} shows address {entry.address}, outside of the UMEM, more often than such "
                                                    "addresses were submitted on TX")
            self.strays[ring.number] -= 1
            return
        known = self.where(frame)
        if known.place != "given" or known.ring.kind != "tx":
            raise Refused(KERNEL, "not sent", f"frame {frame} comes on {ring}, and isn't on TX: {known}")
        self._is_of_pair(ring, frame, False)

    def _is_of_pair(self, ring, frame, any_pair):
        """A frame that was given comes on a ring of its pair."""
        known, pair = self.where(frame), self.setting.pair
        if not any_pair and pair[known.ring] != pair[ring]:
            raise Refused(KERNEL, "other pair", f"frame {frame} comes on {ring}, and was submitted on {known.ring}, of another pair, at "
                                                f"line {known.since}")

    def _release(self, call):
        held = self.queues[call.ring].held
        if call.count > len(held):
            raise Refused(PROGRAM, "release", f"{call.count} entries of {call.ring} are released, and {len(held)} are peeked and not released")
        del held[:call.count]

    # ------------------------------------------------------------------------------------------------------------------------ cancel

    def _cancel(self, call):
        if call.ring.is_made:
            end = self.ends[call.ring]
            if call.count > end.room:
                raise Refused(PROGRAM, "cancel", f"{call.count} places of {call.ring} are given up, and {end.room} are reserved")
            end.room, end.sure = end.room - call.count, end.sure + call.count
            return
        queue = self.queues[call.ring]
        if call.count > len(queue.held):
            raise Refused(PROGRAM, "cancel", f"{call.count} entries of {call.ring} are cancelled, and {len(queue.held)} are peeked and "
                                             "not released")
        keep = len(queue.held) - call.count
        back = queue.held[keep:]
        for entry, number in back:
            self._is_untouched(call.ring, entry, number)
        for frame in (self.setting.frame(entry) for entry, _ in back):
            if frame is not None:
                self.known[frame] = Known("again", call.ring, self.line)
        del queue.held[keep:]
        queue.standing[:0] = [entry for entry, _ in back]
        queue.count, queue.again = queue.count - call.count, self.line

    def _is_untouched(self, ring, entry, number):
        """The program has an entry's frame by this very entry."""
        frame = self.setting.frame(entry)
        known = self.where(frame)
        if frame is not None and (known.place, known.ring, known.number) != ("peeked", ring, number):
            raise Refused(PROGRAM, "passed on", f"{entry} of {ring} is cancelled, and its frame {frame} was submitted since it was peeked: "
                                                f"{known}")


# --------------------------------------------------------------------------------------------------------------- the verdict of a text

@dataclass(frozen=True)
class Verdict:
    """What a text deserves: the line that tells it, and the status; of a call that can't be its line, and why; else the hints."""

    first: str
    status: int
    line: int = 0
    why: Optional[Refused] = None
    hints: Tuple[str, ...] = ()


def verdict(text) -> Verdict:
    """The verdict of the bytes of a recording."""
    reader, judge, hints, calls, number = Reader(), None, Hints(), 0, 0
    for number, line in enumerate(lines_of(text), 1):
        try:
            call = reader.read(line)
        except Malformed:
            return Verdict(f"no recording {number}", 15)
        if judge is None and reader.setting:
            if reader.setting.fault():
                return Verdict(f"no setting {number} {reader.setting.fault()}", 15)
            judge = Judge(reader.setting)
        if isinstance(call, (Look, Kick)):
            hints.woken(call, number)
        elif call:
            judge.line = number
            try:
                judge.step(call)
            except Refused as why:
                return Verdict(f"not possible {number}", 14, number, why)
            hints.note(judge.setting, call, number)
            calls += 1
    if calls:
        return Verdict(f"possible {calls}", 0, hints=tuple(hints.told(judge)))
    return Verdict("no calls" if reader.is_begun else f"no recording {number + 1}" if number else "empty", 15)


def told(found: Verdict, text) -> List[bytes]:
    """The lines that `xsk check` tells of a text: the verdict, and the hints where it is possible; of a call that can't be its line, why,
    and the earlier line that this names."""
    lines = [line.encode() for line in (found.first, *found.hints)]
    if found.why:
        lines += [numbered(text, found.line), f"  {found.why.who} ({found.why.code}): {found.why.text}".encode()]
        lines += [b"  " + NO_KERNEL] if found.why.who == KERNEL else []
        lines += [numbered(text, int(line)) for line in re.findall(r"line (\d+)", found.why.text) if int(line) != found.line]
    return lines


def numbered(text, number) -> bytes:
    """A line of a text with its number."""
    return b"  line %d: %s" % (number, text.split(b"\n")[number - 1])


def main():
    """Judges the file that is named."""
    with open(sys.argv[1], "rb") as file:
        text = file.read()
    found = verdict(text)
    sys.stdout.buffer.write(b"".join(line + b"\n" for line in told(found, text)))
    return found.status


if __name__ == "__main__":
    sys.exit(main())
