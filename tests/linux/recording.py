"""Recordings of record/example's forwarder over two ports: correct, and with each of its mistakes."""

import os
import re
import signal
import subprocess
import sys
import tempfile
import time

from cases import case
from linux import Wire, packet, veth

PAGE = "RECORDING.md"
TESTS = os.path.join(os.path.dirname(os.path.abspath(__file__)), "..")
TOP = os.path.join(TESTS, "..", "record")
PROGRAM = os.path.join(TESTS, "..", "crates", "xsk", "out", "xsk")  # what ./test or ./prove left, if it did
JUDGE = os.path.join(TESTS, "recordings", "judge.py")
PACKETS = 400
# Which reason is told of each mistake, or None where it's possible.
MISTAKES = {1: "frame", 2: "frame", 3: None, 4: "places", 5: "release", 6: None, 7: "frame", 8: None, 9: None, 10: None}
# How a line begins that is told of some that are possible, and how none does.
HINTS = {3: ("comp.0: not peeked since line 0, ", "fill.0: frames"), 8: ("tx.0: invalid descriptors (across the end of a chunk): ", "tx.0: frames"),
         9: ("fill.0: no frame on it from line ", "fill.0: frames"), 10: ("tx.0: frames with no wake behind them: ", "comp.")}


def built():
    """Whether the recorder and the example are there, made anew where they are older than their sources."""
    return subprocess.run(["make", "-s", "-C", TOP], stdout=subprocess.DEVNULL, stderr=subprocess.DEVNULL, check=False).returncode == 0


def run(program, folder, *words, ports=2, length=None, ended_by=signal.SIGINT):
    """Runs a forwarder over ports, with packets from all sides: its status and what it told, and the files of its recording."""
    names = [f"v{number}" for number in range(ports)]
    for number, name in enumerate(names):
        veth(name, f"t{number}", mtu=9000 if length else 1500)
    record = os.path.join(folder, "run")
    with subprocess.Popen([os.path.join(TOP, "out", program), *words, *names], stdout=subprocess.PIPE, stderr=subprocess.PIPE, text=True,
                          env={**os.environ, "XSK_RECORD": record}) as process:
        process.stdout.readline()
        wires = [Wire(f"t{number}") for number in range(ports)]
        for number in range(PACKETS):
            for wire in wires:
                content = packet(length or 60 + number, number % 256)
                wire.socket.send(content[:11] + bytes([number % 256]) + content[12:])
            if number % 4 == 3:
                time.sleep(0.001)
        time.sleep(0.5)
        process.send_signal(ended_by)
        out, faults = process.communicate()
    return process.returncode, out, faults, sorted(os.path.join(folder, name) for name in os.listdir(folder) if name.startswith("run."))


def merged(files, folder):
    """The text of a recording's files: xsk-merge's status, and what it told."""
    name = os.path.join(folder, "text")
    with open(name, "w", encoding="ascii") as text:
        done = subprocess.run([os.path.join(TOP, "out", "xsk-merge"), *files], stdout=text, stderr=subprocess.PIPE, text=True, check=False)
    return done.returncode, done.stderr, name


def judged(name):
    """What the judge in Python tells of a text, in lines. Where the program is there, `xsk check` must tell the same."""
    judges = [[sys.executable, "-B", JUDGE, name]] + [[PROGRAM, "check", name]] * os.access(PROGRAM, os.X_OK)
    said = [subprocess.run(judge, stdout=subprocess.PIPE, text=True, check=False) for judge in judges]
    assert len({(judge.returncode, judge.stdout) for judge in said}) == 1, [judge.stdout[:500] for judge in said]
    return said[0].stdout.splitlines()


def reason(lines):
    """The word for why a recording isn't possible, or None."""
    found = re.search(r"\(([a-z ]+)\): ", lines[2]) if lines[0].startswith("not possible") else None
    return found and found[1]


@case(PAGE, "a correct forwarder's recording is possible, and has all its calls")
def correct():
    """No mistake."""
    if not built():
        return
    with tempfile.TemporaryDirectory() as folder:
        status, out, _, files = run("l2fwd-recorded", folder, "-i", "20000")
        yield "status, what was forwarded", (status, out.split()[2:8:2]), (0, [str(PACKETS)] * 3)
        status, told, text = merged(files, folder)
        yield "xsk-merge", (status, told), (0, "")
        yield "the judge", judged(text)[0].split()[0], "possible"
        with open(text, encoding="ascii") as lines:
            sent = sum(len(line.split(" -> ", 1)[0].split()[5:]) for line in lines if " submit tx." in line)
        yield "entries on TX", sent, 2 * PACKETS


@case(PAGE, "each mistake that breaks a rule is told at its first call")
def mistakes():
    """Each mistake."""
    if not built():
        return
    for mistake, wanted in MISTAKES.items():
        with tempfile.TemporaryDirectory() as folder:
            *_, files = run("l2fwd-recorded", folder, "-i", "20000", "-m", str(mistake))
            said = judged(merged(files, folder)[2])
            yield f"mistake {mistake}", (said[0].split()[0], reason(said)), ("not" if wanted else "possible", wanted)
            for words, there in zip(HINTS.get(mistake, ()), (True, False)):
                yield f"mistake {mistake}, '{words}'", any(line.startswith(words) for line in said[1:]), there


@case(PAGE, "XSK_RECORD_ASAN stops where a frame is written to behind submit, and leaves a correct program alone")
def guarded():
    """The forwarder with its frames guarded."""
    if not built():
        return
    with tempfile.TemporaryDirectory() as folder:
        status, _, faults, _ = run("l2fwd-guarded", folder, "-i", "20000")
        yield "correct", (status, "AddressSanitizer" in faults), (0, False)
        status, _, faults, _ = run("l2fwd-guarded", folder, "-i", "20000", "-m", "6")
        yield "mistake 6", (status != 0, "use-after-poison" in faults, "l2fwd.c" in faults), (True, True, True)


@case(PAGE, "what a killed program recorded is there")
def killed():
    """SIGKILL while it forwards."""
    if not built():
        return
    with tempfile.TemporaryDirectory() as folder:
        status, _, _, files = run("l2fwd-recorded", folder, "-i", "20000", ended_by=signal.SIGKILL)
        yield "status", status, -signal.SIGKILL
        status, told, text = merged(files, folder)
        yield "xsk-merge", (status, "didn't come to its exit" in told), (0, True)
        yield "the judge", judged(text)[0].split()[0], "possible"


SETTINGS = {
    "two ports": ([], {}),
    "one port": ([], {"ports": 1}),
    "RX alone": (["-o", "rx"], {}),
    "TX alone": (["-o", "tx"], {}),
    "two sockets on a queue": (["-s", "2"], {"ports": 1}),
    "two threads": (["-t"], {}),
    "four sockets on a queue, with need-wakeup": (["-w", "-s", "4"], {"ports": 1}),
    "XDP_USE_NEED_WAKEUP": (["-w"], {}),
    "XDP_USE_SG with 9,000 bytes": (["-g"], {"length": 9000}),
    "16,384 frames": (["-n", "16384"], {}),
}


@case(PAGE, "a correct program's recording is possible, whatever its settings")
def settings():
    """Each setting: the program's status, xsk-merge's, what the judge tells, and whether packets moved."""
    if not built():
        return
    for name, (words, how) in SETTINGS.items():
        with tempfile.TemporaryDirectory() as folder:
            status, out, _, files = run("settings", folder, *words, **how)
            merge, told, text = merged(files, folder)
            moved = bool(out) and all(max(map(int, line.split()[1::2])) >= PACKETS for line in out.splitlines())
            yield name, (status, merge, told, judged(text)[0].split()[0], moved), (0, 0, "", "possible", True)
