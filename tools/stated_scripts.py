"""Scripts of which it is stated how each command has to end on them: the worked cases `broken_scripts`, `script_size_limit` and
`bad_members`, each with every command, and some more that a byte is not enough for."""

import copy
import json
from pathlib import Path

import comparing
from plain_endings import explain_script, refused

EXAMPLES = Path(__file__).resolve().parent.parent / "examples"
EPOCHS = comparing.MOVE
EVENTS = json.loads((EXAMPLES / "check_move.json").read_text(encoding="utf-8"))
MOVED_BY_EVENTS = 0, (EXAMPLES / "check_move.out").read_text(encoding="utf-8"), ""
BAD_JSON, BAD_SCRIPT, TOO_LONG = map(refused, ("90 BadJson", "91 BadScript", "92 ScriptTooLong"))
OF_EPOCHS = ["serial", "sim", "run"]
COMMANDS = {"serial": EPOCHS, "check": EVENTS, "sim": EPOCHS, "run": EPOCHS}
ENDINGS = {"serial": comparing.MOVED, "check": MOVED_BY_EVENTS, "sim": comparing.MOVED, "run": comparing.MOVED}


def compact(script):
    return json.dumps(script, separators=(",", ":")).encode()


def broken_scripts(step):
    """Of the script of the move with every command, and of that of its events with `check`: each proper beginning, and a byte 255
    at each place, or at each so-manieth one; and lists that nest deep."""
    for command, script in [*COMMANDS.items(), ("check", EPOCHS)]:
        data, by = compact(script), step if script is EVENTS else 1
        for at in range(0, len(data), by):
            yield f"the first {at} bytes", command, data[:at], BAD_JSON
        for at in range(0, len(data) + 1, step):
            yield f"a byte 255 at {at}", command, data[:at] + b"\xff" + data[at:], BAD_JSON
        for deep, ending in [(200, BAD_JSON), (127, BAD_JSON), (126, BAD_SCRIPT), (100, BAD_SCRIPT)]:
            nested = b"[" * deep + b"]" * deep
            for name in ("epochs", "events"):
                text = compact({**script, name: "nested"}).replace(b'"nested"', nested)
                yield f"{name} nested {deep} deep", command, text, ending


def script_size_limit():
    for command, script in COMMANDS.items():
        data = compact(script).ljust(explain_script.MOST_BYTES)
        yield "the most bytes", command, data, ENDINGS[command]
        yield "one byte more", command, data + b" ", TOO_LONG
        yield "one byte more, and no JSON", command, b" " + data[:-1] + b"\xff", TOO_LONG


def edited(script, edit):
    """A copy of the script, edited, and the request that stands first in it."""
    script = copy.deepcopy(script)
    edit(script, script["events"][0][3] if "events" in script else script["epochs"][0][0]["txns"][0])
    return compact(script)


# What is done to a script and its first request; to scripts of both kinds, and to those of epochs alone.
BAD_MEMBERS = {
    "a member extra": lambda script, txn: script.update(extra=1),
    "a member extra of a request": lambda script, txn: txn.update(extra=1),
    "client -1": lambda script, txn: txn.update(client=-1),
    "client 2^32": lambda script, txn: txn.update(client=2**32),
    "a get of one key twice": lambda script, txn: txn.update(op=["get", [1, 1]]),
    "reads without writes": lambda script, txn: txn.update(reads=[[0, 1]]),
    "writes without reads": lambda script, txn: txn.update(writes=[[0, 1]]),
    "attempt 256": lambda script, txn: txn.update(attempt=256),
}
BAD_MEMBERS_OF_EPOCHS = {
    "a member extra of a batch": lambda script, txn: script["epochs"][0][0].update(extra=1),
    "a group that is listed twice": lambda script, txn: script["epochs"][0].append({"group": 0, "txns": []}),
    "257 requests in a batch": lambda script, txn: script["epochs"][0][0].update(txns=[txn] * 257),
    "attempt 9": lambda script, txn: txn.update(attempt=9),
    "attempt 0": lambda script, txn: txn.update(attempt=0),
}


def bad_members():
    for command, script in COMMANDS.items():
        for what, edit in {**BAD_MEMBERS, **(BAD_MEMBERS_OF_EPOCHS if script is EPOCHS else {})}.items():
            yield what, command, edited(script, edit), BAD_SCRIPT


def other_scripts():
    """A script of the other kind; a number of 5,000 digits; and more requests of a group than a sequencer has room for, which
    `serial` runs."""
    txn = {"client": 1, "number": 1, "op": ["put", 1, 1]}
    crowd = compact({"partitions": 1, "app": "kv", "epochs": [[{"group": 0, "txns": [txn] * n}] for n in [256] * 16 + [1]]})
    lines = [f"{n // 256}.{n % 256} 1:1 done\n" for n in range(4097)]
    for command, script in COMMANDS.items():
        yield "a script of the other kind", command, compact(EPOCHS if script is EVENTS else EVENTS), BAD_SCRIPT
        yield "a number of 5,000 digits", command, compact(script).replace(b"1", b"1" * 5000, 1), BAD_JSON
        if script is EPOCHS:
            ending = (0, "".join([*lines, "finished 16\n"]), "") if command == "serial" else BAD_SCRIPT
            yield "4,097 requests of a group", command, crowd, ending


def stated_scripts(step):
    """Each with its name, the command, the bytes, and how it has to end."""
    yield from broken_scripts(step)
    yield from script_size_limit()
    yield from bad_members()
    yield from other_scripts()
