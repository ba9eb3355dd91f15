"""A service that hasn't enough memory for what it is asked."""

import os
import resource
import subprocess
from pathlib import Path

import serving
from serving_files import KV, tried
from serving_pipes import hold_goes_on

PAGE = 4096
STEP = 8 * PAGE
ENOUGH = 1 << 28
REQUESTS = 4000
NOT_STARTED = [127, -9, -11]  # what the system's loader ends with, and signals where there isn't even room for that


def limited(space):
    """What lets a process have so many bytes of address space."""
    return {
        "preexec_fn": lambda: resource.setrlimit(resource.RLIMIT_AS, (space, space)),
        "env": {**os.environ, "MALLOC_TOP_PAD_": "0"},  # the heap grows by pages, and not by 128 KiB
    }


def starts(space):
    run = subprocess.run([serving.PROGRAM, "--help"], capture_output=True, check=False, **limited(space))
    return run.returncode not in NOT_STARTED


def puts():
    """Requests that each put a number under a key of their own."""
    txns = [{"client": n % 5, "number": n, "op": ["put", n, n]} for n in range(REQUESTS)]
    return [serving.asked(KV, txn) for txn in txns], b"".join(map(serving.line_of, txns))


def in_space(journal, space, sent, data):
    """A service in so much address space: whether it had enough."""
    ending = serving.ended(journal, KV, data, **limited(space))
    history = serving.History(KV)
    history.look(journal.read_bytes() if journal.exists() else b"")
    if ending.status == 0:
        serving.hold_ended(history, 0, sent, ending)
        return True
    serving.hold(ending._replace(output=b"") == serving.Ending(4, b"", b"calvin: 1 OutOfMemory\n"), serving.told(ending))
    serving.hold_cut_off(history, 0, sent, ending.output)
    if journal.exists():
        hold_goes_on(journal, history)
    return False


def little_memory():
    """Services in more and more address space, until one of them has enough."""
    (sent, data), enough = puts(), []
    with serving.room(is_disk=False) as room:
        space = next(it for it in range(0, ENOUGH, STEP) if starts(it))
        while not enough and space < ENOUGH:
            journal = Path(room) / f"journal{space}"
            yield tried(f"{space} bytes", lambda: enough.append(1) if in_space(journal, space, sent, data) else None)
            space += STEP
    yield "enough memory", None if enough else "it was never enough"
