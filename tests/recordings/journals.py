"""Journals of `simulate` as recordings: the calls of all applications, which are one program, behind those that give FILL its frames."""

import json
import os
import pathlib
import runpy
import subprocess
import tempfile

from recording import GRANTED, MOST_ENTRIES, Entry, Reserve, Ring, Setting, Submit

CASES = pathlib.Path(__file__).resolve().parent.parent / "cases"
JOINED = runpy.run_path(str(CASES / "run"), run_name="cases")["joined"]
SECONDS = 60


def cases():
    """The cases of tests/cases that simulate whole runs."""
    for file in sorted(CASES.glob("*.jsonl")):
        for case in map(json.loads, file.read_text(encoding="utf-8").splitlines()):
            if case["words"][:1] == ["simulate"] and case["status"] == 0 and "stdout_to" not in case:
                yield case


def options_of(words):
    """The words before the one that ends the options."""
    return words[:words.index("--")] if "--" in words else words


def option(words, name, default):
    """The number of an option."""
    for at, word in enumerate(words):
        if word == f"--{name}":
            return int(words[at + 1])
        if word.startswith(f"--{name}="):
            return int(word.split("=", 1)[1])
    return default


def setting_of(words, report):
    """The setting of a command, whose report begins with this line."""
    words, told = options_of(words), report.split()
    ports, queues, sockets, chunk, headroom, frames = map(int, told[1:12:2])
    rx, tx, fill, comp = (option(words, name, 2048) for name in ("rx", "tx", "fill", "comp"))
    pairs = ports * queues
    switches = ["sg"] * ("--sg" in words) + ["own", "data"]
    return Setting(frames, chunk, headroom, [(fill, comp)] * pairs, [(pair, rx, tx) for pair in range(pairs) for _ in range(sockets)], switches)


def opening(setting):
    """The calls that give FILL of each pair its frames."""
    pool = setting.frames // len(setting.pairs)
    for pair in range(len(setting.pairs)):
        ring, entries = Ring("fill", pair), [Entry(frame * setting.chunk) for frame in range(pair * pool, (pair + 1) * pool)]
        yield Reserve(ring, pool, GRANTED)
        for at in range(0, pool, MOST_ENTRIES):
            yield Submit(ring, tuple(entries[at:at + MOST_ENTRIES]))


def simulated(program, case):
    """What a case's command tells, with its journal."""
    words = case["words"] if "--journal" in options_of(case["words"]) else [case["words"][0], "--journal", *case["words"][1:]]
    with tempfile.TemporaryDirectory(prefix="xsk-journal-") as folder:
        for inner in case.get("folders", []):
            os.makedirs(os.path.join(folder, inner))
        for name, pieces in case["files"].items():
            pathlib.Path(folder, name).write_bytes(JOINED(pieces, {}))
        ran = subprocess.run([program, *words], cwd=folder, stdin=subprocess.DEVNULL, stdout=subprocess.PIPE, stderr=subprocess.DEVNULL,
                             timeout=SECONDS, check=False)
    return ran.stdout.decode("ascii").splitlines()


def recordings(program, case):
    """The recording of a case's journal, where it has one, and the number of its calls."""
    lines = simulated(program, case)
    calls = [line.split(" ", 2) for line in lines if line[:1].isdigit()]
    made = [(turn, who, call) for turn, who, call in calls if who[0] == "a" and not call.startswith(("swap ", "look "))]
    if not made:
        return
    setting = setting_of(case["words"], lines[0])
    told = [f"0 0 opening {call}" for call in opening(setting)] + [f"{turn} {who[1:]} simulate {call}" for turn, who, call in made]
    yield "".join(line + "\n" for line in setting.header() + told).encode("ascii"), len(told)
