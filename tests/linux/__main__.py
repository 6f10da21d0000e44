"""Tries the cases: the command tests/real says how."""

import json
import os
import platform
import select
import signal
import sys
import traceback

import closing  # noqa: F401
import library  # noqa: F401
import receiving  # noqa: F401
import recording  # noqa: F401
import sending  # noqa: F401
import setting_up  # noqa: F401
from cases import CASES
from linux import bare, own_namespace

SECONDS = 60


def why_not():
    """Why nothing can be tried here, or nothing."""
    if os.geteuid() != 0:
        return "it needs root"
    try:
        bare().close()
    except OSError as error:
        return f"there are no AF_XDP sockets here ({error.strerror})"
    return None


def tell(pipe, function):
    """Makes a case and writes what came of it, a line for each thing."""
    with os.fdopen(pipe, "w", encoding="utf-8") as out:
        try:
            own_namespace()
            for what, seen, said in function():
                print(json.dumps([what, seen, said], default=str), file=out, flush=True)
        except Exception:  # a case that breaks is told like one that differs
            print(json.dumps(["the case broke", traceback.format_exc(limit=-3), ""]), file=out)


def tried(function):
    """What came of a case that runs in a process of its own: lists of what, seen and said."""
    reading, writing = os.pipe()
    child = os.fork()
    if child == 0:
        os.close(reading)
        tell(writing, function)
        os._exit(0)
    os.close(writing)
    text = b""
    with os.fdopen(reading, "rb", buffering=0) as pipe:
        while select.select([pipe], [], [], SECONDS)[0]:
            part = pipe.read(1 << 16)
            if not part:
                break
            text += part
        else:
            os.kill(child, signal.SIGKILL)
            text += json.dumps(["the case", f"gave nothing for {SECONDS} seconds", "an end"]).encode()
    os.waitpid(child, 0)
    return [json.loads(line) for line in text.splitlines()]


def main(words):
    """Tries what the words name."""
    reason = why_not()
    if reason:
        print(f"real: {reason}", file=sys.stderr)
        return 77
    verbose = "-v" in words
    words = [word.lower() for word in words if word != "-v"]
    same = differ = 0
    for page, fact, function in CASES:
        if words and not any(word in f"{page} {fact} {function.__name__}".lower() for word in words):
            continue
        print(f"{page}: {fact}") if verbose else None
        for what, seen, said in tried(function):
            if seen == said:
                same += 1
                print(f"    {what}: {seen}") if verbose else None
            else:
                differ += 1
                print(f"otherwise: {page}: {fact}\n    {what}: the page says {said}, here it is {seen}")
    print(f"Linux {platform.release()}: {same} passed, {differ} failed")
    return 1 if differ else 0


if __name__ == "__main__":
    sys.exit(main(sys.argv[1:]))
