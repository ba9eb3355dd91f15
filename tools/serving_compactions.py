"""Journals that are compacted: what the file has then, byte for byte, and how a service goes on from there."""

import random
from concurrent.futures import ThreadPoolExecutor
from pathlib import Path

import journals
import serving
from drawn_scripts import drawn_txn
from serving_files import DAYS, KV, MORE, NOT_A_JOURNAL, hold_found, journal_of, requests, tried

SETTINGS = [journals.Setting(*it) for it in [("kv", 2, False), ("stock", 1, False), ("once", 3, True)]]

# Lines behind the heading that are neither rows nor epochs as they have to be.
NO_STARTS = [
    ("a row too few", b'["rows",3,2]\n[0,1,5]\n'), ("an epoch in the place of a row", b'["rows",3,1]\n[]\n'),
    ("a key twice", b'["rows",3,2]\n[0,1,5]\n[0,1,5]\n'), ("a row of another application", b'["rows",3,1]\n[1,7,["customer",0,null]]\n'),
    ("a row too many", b'["rows",3,1]\n[0,1,5]\n[0,2,5]\n'), ("an epoch above the last", b'["rows",281474976710657,0]\n'),
    ("a start behind an epoch", b'[]\n["rows",1,0]\n'), ("a second start", b'["rows",3,0]\n["rows",3,0]\n'),
    ("a start with more", b'["rows",3,0,0]\n'), ("a start with less", b'["rows",3]\n'), ("a table above the last", b'["rows",3,1]\n[256,1,5]\n'),
    ("a number above the last", b'["rows",3,1]\n[0,1,18446744073709551616]\n'), ("a row with more", b'["rows",3,1]\n[0,1,5,5]\n'),
    ("a negative epoch", b'["rows",-1,0]\n'), ("another name", b'["row",3,0]\n'), ("a row that is no JSON", b'["rows",3,1]\n[0,1\n'),
]  # fmt: skip


def hold_compacted(journal, history):
    """Its journal is compacted, with nothing else to do, and compacted once more: it has just its rows."""
    for _ in range(2):
        hold_found(journal, serving.Ending(0, history.last().encode(), b""), ["--compact"], setting=history.setting)
        history.compact()
        serving.hold(journal.read_bytes() == history.data, f"{serving.shown(journal.read_bytes())}, and not {serving.shown(history.data)}")
    serving.hold_replayed(journal, history)


def goes_on(journal, history, txns, more=()):
    """Requests are answered on the rows that are there."""
    first, sent = len(history.epochs), [serving.asked(history.setting, txn) for txn in txns]
    ending = serving.ended(journal, history.setting, b"".join(serving.line_of(txn) for txn in txns), more)
    if more:
        history.compact()
    history.look(journal.read_bytes())
    serving.hold_ended(history, first, sent, ending)
    serving.hold_replayed(journal, history)


def compacted(journal, setting, data):
    """A journal is compacted and goes on; and again in one start."""
    journal.write_bytes(data)
    history = serving.History(setting)
    history.look(data)
    hold_compacted(journal, history)
    goes_on(journal, history, requests(MORE[setting.app], 100))
    goes_on(journal, history, requests(MORE[setting.app], 200), ["--compact"])
    goes_on(journal, history, requests(MORE[setting.app], 300))
    serving.hold([it.name for it in journal.parent.iterdir()] == [journal.name], "files were left")


def drawn(journal, draw, setting):
    """The same of drawn requests."""
    history = serving.History(setting)
    txns = []
    for n in range(draw.choice([1, 30, 300])):
        txns.append(drawn_txn(draw, setting.app, history.run, n, txns))
    goes_on(journal, history, txns)
    hold_compacted(journal, history)
    goes_on(journal, history, [drawn_txn(draw, setting.app, history.run, n, txns) for n in range(50)])


def cut_at(journal, setting, size):
    """A journal that was compacted, of which so many bytes are left: it goes on behind its whole lines, if its rows are all there."""
    history = serving.History(setting)
    history.look(journal_of(setting))
    history.compact()
    heading, start, rows = journals.heading_of(setting), len(history.data), len(history.run.rows)
    history.look(history.data + b"".join(line + b"\n" for line in journals.epoch_lines(journal_of(setting))))
    data = history.data[:size]
    journal.write_bytes(data)
    lines = journals.whole_of(data).count(b"\n")
    if 1 < lines < 2 + rows:
        hold_found(journal, NOT_A_JOURNAL, setting=setting)
        hold_found(journal, NOT_A_JOURNAL, ["--replay"], setting=setting)
        serving.hold(journal.read_bytes() == data, "the file has other bytes than before")
        return
    left = serving.History(setting)
    if size >= start:
        left.look(journal_of(setting))
        left.compact()
    left.look(data)
    serving.hold(size >= start or journals.whole_of(data) in (b"", heading), "no such beginning")
    if size >= len(heading):
        serving.hold_replayed(journal, left)
    goes_on(journal, left, requests(MORE[setting.app], 100))


def started_wrong(journal, lines):
    """A journal that begins so is refused, and left as it was."""
    data = journals.heading_of(KV) + lines
    journal.write_bytes(data)
    for more in ([], ["--compact"], ["--replay"]):
        hold_found(journal, NOT_A_JOURNAL, more, setting=KV)
        serving.hold(journal.read_bytes() == data, "the file has other bytes than before")


def whole_journals():
    """A journal of each application with some epochs, with none, and with rows alone."""
    for setting in SETTINGS:
        yield f"{setting.app}", setting, journal_of(setting)
        yield f"{setting.app}, no epoch", setting, journals.heading_of(setting)
        yield f"{setting.app}, no byte", setting, b""


def compactions():
    """Everything of journals that are compacted."""
    draw = random.Random(3)
    with serving.room(is_disk=False) as room, ThreadPoolExecutor(2) as pool:
        for n, (what, setting, data) in enumerate(whole_journals()):
            yield tried(what, compacted, folder(room, f"whole{n}"), setting, data)
        for n in range(30):
            setting = journals.Setting(journals.APPS[n % len(journals.APPS)], draw.choice([1, 2, 5, 16]), n % 4 == 0)
            yield tried(f"drawn {n} of {setting}", drawn, folder(room, f"drawn{n}"), draw, setting)
        for n, (what, lines) in enumerate(NO_STARTS):
            yield tried(what, started_wrong, folder(room, f"wrong{n}"), lines)
        for setting in SETTINGS:
            history = serving.History(setting)
            history.look(journal_of(setting))
            size = len(history.compacted()) + sum(len(line) + 1 for line in journals.epoch_lines(journal_of(setting)))
            names = [(f"{setting.app}, {size} bytes", setting, size) for size in range(size + 1)]
            yield from pool.map(lambda it: tried(it[0], cut_at, folder(room, f"cut{it[1].app}{it[2]}"), it[1], it[2]), names)
        yield "both --compact and --replay", both(folder(room, "both"))


def both(journal):
    found = serving.ended(journal, KV, more=["--compact", "--replay"])
    wanted = serving.Ending(2, b"", b"calvin: bad line\n")
    return None if found == wanted and not journal.exists() else f"{found}, and not {wanted}"


def folder(room, name):
    """The path of a journal in a folder of its own."""
    made = Path(room) / name
    made.mkdir()
    return made / "journal"
