"""What stands at the place of a journal when a service starts: one that a crash has torn, something else, or one that is in use."""

import json
import os
import threading
from concurrent.futures import ThreadPoolExecutor
from pathlib import Path

import journals
import serving

NOT_A_JOURNAL = serving.Ending(2, b"", b"calvin: 93 NotAJournal\n")
IN_USE = serving.Ending(5, b"", b"calvin: 94 JournalInUse\n")
FAILED = serving.Ending(5, b"", b"calvin: 97 JournalFailed\n")
NOTHING = serving.Ending(0, b"finished none\n", b"")

KV = journals.Setting("kv", 2, False)

# The requests of a few epochs of each application, an epoch a list.
DAYS = {
    "kv": [
        [["put", 1, 10], ["put", 2, 2**64 - 1]], [["add", 1, 5], ["add", 2, 1], ["move", 1, 3, 7]],
        [["follow", 1], ["get", [1, 2, 3]]],
    ],
    "stock": [
        [["additem", 10, 100, 3], ["open", 7]], [["payin", 7, 500], ["order", 7, 1, [[10, 2]]]], [["settle", 7], ["balance", 7]],
    ],
    "once": [
        [["additem", 10, 100, 3], ["open", 7]], [["payin", 7, 500], ["order", 7, 1, [[10, 2]]]], [["settle", 7], ["balance", 7]],
    ],
}  # fmt: skip
MORE = {"kv": [["add", 1, 1], ["get", [1]]], "stock": [["payin", 7, 1], ["balance", 7]], "once": [["payin", 7, 1], ["balance", 7]]}


def requests(operations, first):
    return [{"client": 5 + n % 3, "number": first + n, "op": op} for n, op in enumerate(operations)]


def journal_of(setting):
    """The bytes of a journal of a few epochs."""
    lines = []
    for number, operations in enumerate(DAYS[setting.app]):
        batches = [[] for _ in range(setting.partitions)]
        for txn in requests(operations, 10 * number):
            batches[txn["client"] % setting.partitions].append(txn)
        listed = [{"group": group, "txns": txns} for group, txns in enumerate(batches) if txns]
        lines.append(json.dumps(listed, separators=(",", ":")).encode() + b"\n")
    return journals.heading_of(setting) + b"".join(lines)


# ---- a journal that is cut off at each of its bytes


def cut_at(journal, setting, data, size):
    """A journal of which so many bytes are left goes on behind its whole lines. Where its heading is whole they are printed again
    before, and the file is left as it is."""
    journal.write_bytes(data[:size])
    history, sent = serving.History(setting), [serving.asked(setting, txn) for txn in requests(MORE[setting.app], 100)]
    history.look(data[:size])
    first = len(history.epochs)
    if history.data:
        hold_found(journal, serving.Ending(0, history.text().encode(), b""), ["--replay"], setting=setting)
        serving.hold(journal.read_bytes() == data[:size], "--replay has changed the file")
    ending = serving.ended(journal, setting, b"".join(serving.line_of(it.txn) for it in sent))
    now = journal.read_bytes()
    serving.hold(now == journals.whole_of(now), "a torn line was left, or came")
    history.look(now)
    serving.hold_ended(history, first, sent, ending)
    serving.hold(len(history.epochs) == first + 1, f"{len(history.epochs)} epochs, and not {first + 1}")


def cuts():
    """Each application's journal, cut off at each of its bytes, from none to all."""
    with serving.room(is_disk=False) as room, ThreadPoolExecutor(2) as pool:
        for app, partitions, scouts in [("kv", 2, False), ("stock", 1, False), ("once", 3, True)]:
            setting = journals.Setting(app, partitions, scouts)
            data = journal_of(setting)

            def outcome(size, setting=setting, data=data):
                try:
                    cut_at(Path(room) / f"{setting.app}{size}", setting, data, size)
                    return f"{setting.app}, {size} of {len(data)} bytes", None
                except serving.Wrong as wrong:
                    return f"{setting.app}, {size} of {len(data)} bytes", str(wrong)

            yield from pool.map(outcome, range(len(data) + 1))


# ---- other files


PUT = b'{"client":1,"number":1,"op":["put",1,1]}'
NO_EPOCHS = [
    ("an empty line", b""), ("a word", b"hello"), ("a byte that isn't UTF-8", b"\xff"), ("a request", PUT), ("an object", b"{}"),
    ("a number", b"1"), ("two epochs", b"[] []"), ("half an epoch", b'[{"group":0,"txns":['), ("a zero byte", b"[]\0"),
    ("a batch without a group", b'[{"txns":[%s]}]' % PUT), ("a batch without requests", b'[{"group":0}]'),
    ("a group that is no partition", b'[{"group":2,"txns":[%s]}]' % PUT),
    ("a group that comes twice", b'[{"group":0,"txns":[]},{"group":0,"txns":[]}]'),
    ("257 requests", b'[{"group":0,"txns":[%s]}]' % b",".join([PUT] * 257)),
    ("a request of another application", b'[{"group":0,"txns":[{"client":1,"number":1,"op":["open",1]}]}]'),
    ("a request with a group", b'[{"group":0,"txns":[{"client":1,"number":1,"op":["put",1,1],"group":0}]}]'),
    ("a request with no key", b'[{"group":0,"txns":[{"client":1,"number":1,"op":["get",[]]}]}]'),
    ("a ninth attempt", b'[{"group":0,"txns":[{"client":1,"number":1,"op":["put",1,1],"attempt":9}]}]'),
    ("the heading", journals.heading_of(KV)[:-1]),
]  # fmt: skip
OTHER_SETTINGS = [("stock", 2, False), ("once", 2, False), ("kv", 1, False), ("kv", 3, False), ("kv", 2, True)]
OTHERS = [journals.Setting(*it) for it in OTHER_SETTINGS]


def other_bytes():
    """Files that are no journal of `kv` with two partitions, by what they are."""
    heading, whole = journals.heading_of(KV), journal_of(KV)
    first, *rest = journals.epoch_lines(whole)
    yield "a text", b"hello\nworld\n"
    yield "a text without a line feed", b"a letter without a line feed"
    yield "all bytes", bytes(range(256))
    yield "zeros", bytes(4096)
    yield "an empty line", b"\n"
    yield "an epoch and no heading", first + b"\n"
    for other in OTHERS:
        yield f"a journal of {other}", journal_of(other)
        yield f"the heading of {other}", journals.heading_of(other)
    yield "a heading of another number", whole.replace(b'"journal":1', b'"journal":2', 1)
    yield "a heading with a space", whole.replace(b'"journal":1', b'"journal": 1', 1)
    yield "a heading with a carriage return", whole.replace(b"\n", b"\r\n", 1)
    yield "a beginning of the heading and a line feed", heading[:20] + b"\n"
    yield "a beginning of the heading and more", heading[:20] + b"x"
    yield "the heading and a byte in the place of its line feed", heading[:-1] + b"x"
    for what, line in NO_EPOCHS:
        yield f"{what} in the midst", heading + b"\n".join([first, line, *rest]) + b"\n"
        yield f"{what} as the last line", heading + line + b"\n"


def other_file(journal, data, more):
    """A file that is no journal is refused, and left as it was."""
    journal.write_bytes(data)
    journal.chmod(0o640)
    found = serving.ended(journal, KV, serving.line_of(requests(MORE["kv"], 1)[0]), more)
    # what epochs before a wrong line were answered may be out
    output = b"" if "--replay" in more else found.output
    serving.hold(found._replace(output=output) == NOT_A_JOURNAL, f"{found}, and not {NOT_A_JOURNAL}")
    serving.hold(journal.read_bytes() == data, "the file has other bytes than before")
    serving.hold(journal.stat().st_mode & 0o777 == 0o640, "the file has other permissions than before")
    serving.hold(os.listdir(journal.parent) == [journal.name], f"files were left: {os.listdir(journal.parent)}")


def tried(name, check, *args):
    try:
        check(*args)
        return name, None
    except serving.Wrong as wrong:
        return name, str(wrong)


def hold_found(journal, wanted, more=(), data=b"", setting=KV):
    found = serving.ended(journal, setting, data, more)
    serving.hold(found == wanted, f"{found}, and not {wanted}")


def other_places(room):
    """What is no file, or can't be opened, and how a service is refused that is to have its journal there, and `--replay`."""
    fifo = room / "fifo"
    os.mkfifo(fifo)
    loop = room / "loop"
    loop.symlink_to(loop)
    (room / "blocked.anew").mkdir()
    (room / "blocked").write_bytes(journal_of(KV))
    (room / "twice").write_bytes(journal_of(KV))
    os.link(room / "twice", room / "again")
    (room / "beside").write_bytes(journal_of(KV))
    (room / "beside.anew").write_bytes(b"a text")
    yield "a folder", room, FAILED, NOT_A_JOURNAL
    yield "/dev/full", Path("/dev/full"), NOT_A_JOURNAL, NOT_A_JOURNAL
    yield "/dev/null", Path("/dev/null"), NOT_A_JOURNAL, NOT_A_JOURNAL
    yield "a FIFO", fifo, NOT_A_JOURNAL, NOT_A_JOURNAL
    yield "a missing folder", room / "missing" / "journal", FAILED, FAILED
    yield "a folder that is a file", Path(__file__) / "journal", FAILED, FAILED
    yield "a link to itself", loop, FAILED, FAILED
    yield "a name that is too long", room / ("x" * 300), FAILED, FAILED
    yield "no name", "", FAILED, FAILED
    yield "a folder in the place of what is written anew", room / "blocked", FAILED, None
    yield "a text in the place of what is written anew", room / "beside", FAILED, None
    yield "a name that ends in .anew", room / "journal.anew", NOT_A_JOURNAL, NOT_A_JOURNAL
    yield "a file with two names", room / "twice", FAILED, None


def other_files():
    """Everything else that may stand in the place of a journal."""
    with serving.room(is_disk=False) as room:
        for n, (what, data) in enumerate(other_bytes()):
            for more in [[], ["--replay"]]:
                folder = Path(room) / f"{n}{'-'.join(more)}"
                folder.mkdir()
                yield tried(" ".join([what, *more]), other_file, folder / "journal", data, more)
        places = Path(room) / "places"
        places.mkdir()
        for what, journal, served, replayed in other_places(places):
            yield tried(what, hold_found, journal, served)
            if replayed:
                yield tried(f"{what} --replay", hold_found, journal, replayed, ["--replay"])
        missing = places / "journal"
        yield tried("no file, --replay", hold_found, missing, FAILED, ["--replay"])
        yield "no file is made by --replay", "a file was made" if missing.exists() else None


# ---- a journal that is in use


def is_in_use(room):
    """While a service runs, no other one gets its journal, by whichever name; when it is killed, the next one does."""
    journal, link = room / "journal", room / "link"
    link.symlink_to("journal")
    with serving.Service(journal, KV) as service:
        service.gathered().send(serving.line_of(requests(MORE["kv"], 1)[0]))
        service.wait_for(1)
        before = journal.read_bytes()
        for other in (journal, link, room / "." / ".." / room.name / "journal"):
            hold_found(other, IN_USE, data=serving.line_of(requests(MORE["kv"], 2)[0]))
            hold_found(other, IN_USE, ["--replay"])
        serving.hold(journal.read_bytes() == before, "the journal has other bytes than before")
        service.send(serving.line_of(requests(MORE["kv"], 3)[0]))
        service.wait_for(2)
        serving.hold(service.end(is_killed=True).output == b"0.0 5:1 value 1\n1.0 5:3 value 2\n", f"answers {service.output}")
    hold_found(link, serving.Ending(0, b"finished 1\n", b""))
    serving.hold(link.is_symlink(), "the link is gone")


def raced(room):
    """Services that start at once: each serves, one after another, or is refused since another one does."""
    journal, history = room / "race", serving.History(KV)
    start, served = threading.Barrier(6), []

    def one(number):
        txn = {"client": number, "number": 1, "op": ["add", 1, 1]}
        start.wait()
        ending = serving.ended(journal, KV, serving.line_of(txn))
        if ending != IN_USE:
            serving.hold(ending.status == 0, f"{ending}")
            served.append((txn, ending.output))

    with ThreadPoolExecutor(6) as pool:
        list(pool.map(one, range(6)))
    history.look(journal.read_bytes())
    serving.hold(served, "none of them served")
    txns = [txn for epoch in history.epochs for batch in epoch for txn in batch["txns"]]
    kept = sorted(txn["client"] for txn in txns)
    serving.hold(kept == sorted(txn["client"] for txn, _ in served), f"{kept} are kept, and {served} were served")
    wanted = sorted(f"{told}finished {epoch}\n".encode() for epoch, told in enumerate(history.told))
    serving.hold(sorted(output for _, output in served) == wanted, f"{served}, and not {wanted}")


def raced_compacting(room):
    """The same of services that compact the journal: it has what those have added that served, and each has seen all before it."""
    journal = room / "race"
    start, served = threading.Barrier(6), []

    def one(number):
        start.wait()
        ending = serving.ended(journal, KV, serving.line_of({"client": number, "number": 1, "op": ["add", 1, 1]}), ["--compact"])
        if ending != IN_USE:
            serving.hold(ending.status == 0, f"{ending}")
            served.append(ending.output.split(b"\n")[0].split(b" ")[-1])

    with ThreadPoolExecutor(6) as pool:
        list(pool.map(one, range(6)))
    serving.hold(served, "none of them served")
    serving.hold(sorted(served) == [b"%d" % n for n in range(1, len(served) + 1)], f"they answered {served}")
    get = serving.line_of({"client": 9, "number": 1, "op": ["get", [1]]})
    found = serving.ended(journal, KV, get).output.split(b"\n")[0]
    serving.hold(found.endswith(b" value %d" % len(served)), f"{found}, and {len(served)} have served")


def in_use():
    with serving.room() as room:
        yield tried("a journal in use", is_in_use, Path(room))
        for n in range(10):
            folder = Path(room) / f"race{n}"
            folder.mkdir()
            yield tried(f"race {n}", raced, folder)
            folder = Path(room) / f"compacting{n}"
            folder.mkdir()
            yield tried(f"race {n} of services that compact", raced_compacting, folder)
