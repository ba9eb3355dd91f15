"""What comes in and goes out of a service: many writers, readers that wait or go away, lines that are no requests; and a disk that
is full."""

import os
import random
import resource
import shutil
import signal
import subprocess
import sys
import threading
import time
from pathlib import Path

import journals
import serving
from serving_files import FAILED, KV, journal_of, tried

# ---- lines


def padded(size, number):
    """A request of client 4 in a line of so many bytes, and the request."""
    txn = {"client": 4, "number": number, "op": ["add", 4, 1]}
    text = serving.line_of(txn)[:-1]
    return text[:-1] + b" " * (size - len(text)) + b"}", txn


def taken_lines():
    """Lines that ask a request of `kv` with two partitions in unusual words, with the group and the request."""
    put = {"client": 1, "number": 1, "op": ["put", 1, 1]}
    yield b'{"op":["put",1,1],"number":1,"client":1}', 1, put
    yield b' { "client" : 1 , "number" : 1 , "op" : [ "put" , 1 , 1 ] } \t\r', 1, put
    yield b'{"client":9,"client":1,"number":1,"op":["put",1,1]}', 1, put
    yield b'{"client":1,"number":1,"op":["put",1,1],"group":1,"group":0}', 0, put
    yield b'{"group":0,"client":1,"number":1,"\\u006fp":["\\u0070ut",1,1]}', 0, put
    yield b'{"client":1,"number":1,"op":["put",1,1],"attempt":8}', 1, {**put, "attempt": 8}
    yield b'{"client":4294967295,"number":4294967295,"op":["put",1,18446744073709551615]}', 1, {
        "client": 2**32 - 1, "number": 2**32 - 1, "op": ["put", 1, 2**64 - 1],
    }  # fmt: skip
    for n, size in enumerate([65_535, 65_536]):
        line, txn = padded(size, n)
        yield line, 0, txn


def refused_lines():
    """Lines that are no request there, and how they are refused."""
    request = b'{"client":1,"number":1,"op":["put",1,1]%s}'
    bad_json = [
        b"", b" ", b"\r", b"hello", request % b"" + b"x", request % b"" * 2, b"\xef\xbb\xbf" + request % b"", b"\xff", b"\0", b"{",
        b"'", request % b"" + b"\0", b"[" * 128 + b"]" * 128, b"x" * 65_536, b"x" * 200_000, padded(65_537, 1)[0],
        padded(1_000_000, 1)[0], *(request % more for more in (b',"\xff":1', b',"x":1e400', b',"\\ud800":1')),
    ]  # fmt: skip
    additions = [
        b'"more":1', b'"group":2', b'"group":-1', b'"group":"1"', b'"group":1.0', b'"group":null', b'"attempt":256',
        b'"attempt":-1', b'"reads":[]', b'"writes":[[0,1]]', b'"reads":[],"writes":[[0,1],[0,1]]', b'"reads":[],"writes":[[256,1]]',
        b'"reads":[],"writes":[%s]' % b",".join(b"[0,%d]" % n for n in range(17)),
    ]  # fmt: skip
    operations = [
        b'["put",[0,1],1]', b'["put",1]', b'["open",1]', b'["get",[1,1]]', b'["put",1,18446744073709551616]', b'["put",1,1.0]',
        b'"put"', b"[" * 17 + b"]" * 17,
    ]  # fmt: skip
    bad_script = [
        b"[]", b"{}", b"1", b"null", b'"x"', *journal_of(KV).split(b"\n")[:2], b"[" * 127 + b"]" * 127,
        b'{"client":1,"op":["put",1,1]}', b'{"client":1,"number":1}', b'{"number":1,"op":["put",1,1]}',
        b'{"client":4294967296,"number":1,"op":["put",1,1]}', b'{"client":1,"number":1.0,"op":["put",1,1]}',
        *(request % (b"," + it) for it in additions), *(b'{"client":1,"number":1,"op":%s}' % it for it in operations),
    ]  # fmt: skip
    no_key = b'{"client":1,"number":1,"op":["get",[]]%s}'
    yield from ((line, "90 BadJson") for line in bad_json)
    yield from ((line, "91 BadScript") for line in bad_script)
    yield from ((no_key % more, "31 EmptySets") for more in (b"", b',"reads":[],"writes":[]', b',"attempt":9'))
    yield from ((request % (b',"attempt":%d' % n), "32 TooManyAttempts") for n in (0, 9, 255))


def drawn_input(draw):
    """All of them in some order, among requests of the usual form: the bytes, and what is sent by them."""
    drawn = [(line, serving.Refused(fault)) for line, fault in refused_lines()]
    drawn += [(line, serving.Asked(group, txn)) for line, group, txn in taken_lines()]
    for n in range(len(drawn)):
        txn = {"client": n, "number": n, "op": draw.choice([["add", n % 3, 1], ["get", [0, 1, 2]]])}
        drawn.append((serving.line_of(txn)[:-1], serving.asked(KV, txn)))
    draw.shuffle(drawn)
    return drawn


def all_at_once(room):
    """Lines that are no requests among others are refused in their turn; the last line may have no line feed."""
    for n in range(10):
        drawn = drawn_input(random.Random(n))
        journal = room / f"lines{n}"
        ending = serving.ended(journal, KV, b"\n".join(line for line, _ in drawn) + (b"\n" if n % 2 else b""))
        if not n % 2 and not drawn[-1][0]:
            drawn.pop()  # no line stands behind the last line feed
        hold_served(journal, [it for _, it in drawn], ending)


def in_pieces(room):
    """The same in pieces of any size, which are cut anywhere."""
    for n in range(3):
        draw, journal = random.Random(n), room / f"pieces{n}"
        drawn = [it for it in drawn_input(draw) if len(it[0]) < 1000]
        data = b"".join(line + b"\n" for line, _ in drawn)
        with serving.Service(journal, KV) as service:
            service.gathered()
            while data:
                size = draw.choice([1, 2, 7, 50, 300])
                service.send(data[:size])
                data = data[size:]
                time.sleep(draw.choice([0, 0.0005]))
            hold_served(journal, [it for _, it in drawn], service.end())


def hold_served(journal, sent, ending):
    history = serving.History(KV)
    history.look(journal.read_bytes())
    serving.hold_ended(history, 0, sent, ending)
    serving.hold_replayed(journal, history)


def torn_input(room):
    """An input that ends in the midst of a line: a whole request is answered, and what is none is refused."""
    txns = [{"client": 2 * n, "number": n, "op": ["add", 1, 1]} for n in range(3)]
    whole = b"".join(map(serving.line_of, txns))
    for size in range(len(whole) + 1):
        lines = whole[:size].split(b"\n")
        sent = [serving.asked(KV, txn) for txn in txns[: len(lines) - 1]]
        if lines[-1] == serving.line_of(txns[len(lines) - 1])[:-1] if len(lines) <= len(txns) else False:
            sent.append(serving.asked(KV, txns[len(lines) - 1]))
        elif lines[-1]:
            sent.append(serving.Refused("90 BadJson"))
        journal = room / f"torn{size}"
        hold_served(journal, sent, serving.ended(journal, KV, whole[:size]))


def lines():
    with serving.room(is_disk=False) as room:
        for check in (all_at_once, in_pieces, torn_input):
            yield tried(check.__name__, check, Path(room))


# ---- pipes

WRITERS, WRITES = 8, 400
WRITER = """
import json, os, sys
client, count = map(int, sys.argv[1:])
for n in range(count):
    line = json.dumps({"client": client, "number": n, "op": ["add", client, 1]})
    os.write(1, line.encode() + b" " * (n * 37 % 900) + b"\\n")
"""


def many_writers(room):
    """Eight processes write to one pipe: each request is answered once, and those of each stay in their order."""
    setting, journal = journals.Setting("kv", WRITERS, False), room / "writers"
    with serving.Service(journal, setting) as service:
        command = [sys.executable, "-c", WRITER]
        writers = [
            subprocess.Popen([*command, str(client), str(WRITES)], stdout=service.process.stdin) for client in range(WRITERS)
        ]
        service.gathered()
        for writer in writers:
            serving.hold(writer.wait(serving.MOST_SECONDS) == 0, "a writer failed")
        ending = service.end()
    history = serving.History(setting)
    history.look(journal.read_bytes())
    found = [[] for _ in range(WRITERS)]
    for epoch in history.epochs:
        for batch in epoch:
            found[batch["group"]] += [(txn["client"], txn["number"]) for txn in batch["txns"]]
    wanted = [[(client, n) for n in range(WRITES)] for client in range(WRITERS)]
    serving.hold(found == wanted, "requests are gone, or in another order")
    serving.hold(ending == serving.Ending(0, history.text().encode(), b""), serving.told(ending))
    serving.hold_replayed(journal, history)


def adds(count):
    txns = [{"client": n % 7, "number": n, "op": ["add", n % 5, 1]} for n in range(count)]
    return [serving.asked(KV, txn) for txn in txns], b"".join(map(serving.line_of, txns))


def waiting_reader(room):
    """A reader that doesn't read for a while has the service wait, and nothing is lost."""
    journal, (sent, data) = room / "waiting", adds(20_000)
    with serving.Service(journal, KV) as service:
        feeder = threading.Thread(target=service.send, args=(data,), daemon=True)
        feeder.start()
        sizes = [0, 1]
        limit = time.monotonic() + serving.MOST_SECONDS
        while sizes[-1] != sizes[-2] and time.monotonic() < limit:
            time.sleep(0.5)
            sizes.append(journal.stat().st_size)
        serving.hold(sizes[-1] < len(data) / 2, f"the journal has {sizes[-1]} bytes, though nobody has read an answer")
        service.gathered()
        feeder.join(serving.MOST_SECONDS)
        hold_served(journal, sent, service.end())


def gone_reader(room):
    """Where the reader is gone the service ends with 96, at the first answer, refusal or last line that it can't write."""
    for name, lines, epochs in [("answer", adds(3)[1], 1), ("refusal", b"hello\n" + adds(3)[1], 0), ("last", b"", 0)]:
        journal = room / f"gone-{name}"
        with serving.Service(journal, KV) as service:
            service.process.stdout.close()
            service.process.stdout = None
            service.send(lines)
            ending = service.end()
        serving.hold(ending == serving.Ending(5, b"", b"calvin: 96 WriteFailed\n"), f"{name}: {ending}")
        history = serving.History(KV)
        history.look(journal.read_bytes())
        serving.hold(len(history.epochs) == epochs, f"{name}: {len(history.epochs)} epochs")
        serving.hold_replayed(journal, history)


def bad_devices(room):
    """An input that can't be read, and an output that can't be written."""
    with open("/dev/full", "wb", buffering=0) as full:
        ending = with_pipes(room / "full", stdout=full, input=adds(1)[1])
        serving.hold(ending[::2] == (5, b"calvin: 96 WriteFailed\n"), f"/dev/full: {ending}")
    folder = os.open(room, os.O_RDONLY)
    ending = with_pipes(room / "folder", stdin=folder)
    os.close(folder)
    serving.hold(ending == (5, b"", b"calvin: 95 ReadFailed\n"), f"a folder: {ending}")


def with_pipes(journal, **pipes):
    """How a service ends that has these, and pipes else."""
    pipes = {"stdout": subprocess.PIPE, "stderr": subprocess.PIPE, **pipes}
    run = subprocess.run(serving.words(journal, KV), timeout=serving.MOST_SECONDS, check=False, **pipes)
    return run.returncode, run.stdout, run.stderr


def closed_devices(room):
    """Where standard input, output or error is closed at the start, nothing but epochs comes into the journal."""
    for closed in [[0], [1], [2], [0, 1], [1, 2], [0, 1, 2]]:
        journal = room / f"closed{''.join(map(str, closed))}"
        journal.write_bytes(journal_of(KV))
        (sent, data), before = adds(3), journal.read_bytes()
        run = subprocess.run(
            serving.words(journal, KV), input=data, capture_output=True, timeout=serving.MOST_SECONDS, check=False,
            preexec_fn=lambda closed=closed: [os.close(it) for it in closed],
        )  # fmt: skip
        what = f"{closed} closed: status {run.returncode}, {serving.shown(run.stdout)} {serving.shown(run.stderr)}"
        serving.hold(run.returncode in (0, 5), what)
        history = serving.History(KV)
        history.look(before)
        first = len(history.epochs)
        history.look(journal.read_bytes())
        serving.hold(history.data == journal.read_bytes(), f"{what}: a torn line is there")
        serving.hold_requests(history, first, [] if 0 in closed else sent)
        serving.hold(1 in closed or b"refused" not in run.stdout, what)
        serving.hold_replayed(journal, history)


def pipes():
    checks = [many_writers, waiting_reader, gone_reader, bad_devices, closed_devices]
    with serving.room() as room:
        for check in checks:
            yield tried(check.__name__, check, Path(room))


# ---- a full disk


def filled(journal, limit):
    """A service whose files may have so many bytes each: it stops as soon as the next epoch doesn't fit."""
    history = serving.History(KV)
    history.look(journal.read_bytes())
    first, before = len(history.epochs), journal.read_bytes()

    def limited():
        signal.signal(signal.SIGXFSZ, signal.SIG_IGN)
        resource.setrlimit(resource.RLIMIT_FSIZE, (limit, limit))

    sent, _ = adds(6)
    with serving.Service(journal, KV, preexec_fn=limited) as service:
        service.gathered()
        for n, it in enumerate(sent, 1):
            if service.send(serving.line_of(it.txn)):
                service.wait_for(n)
        ending = service.end()
    hold_stopped(journal, history, first, sent, ending)
    if limit < len(before):
        serving.hold(journal.read_bytes() == before, "the journal has other bytes than before")
    serving.hold(ending.status == 5 or limit >= len(journal.read_bytes()), "all went well in too little room")
    serving.hold(os.listdir(journal.parent) == [journal.name], f"files were left: {os.listdir(journal.parent)}")
    hold_goes_on(journal, history)


def hold_stopped(journal, history, first, sent, ending):
    """It has stopped since the journal couldn't go on, or has answered all."""
    history.look(journal.read_bytes())
    if ending.status == 0:
        serving.hold_ended(history, first, sent, ending)
    else:
        serving.hold(ending._replace(output=b"") == FAILED, f"{ending}")
        serving.hold_cut_off(history, first, sent, ending.output)


def hold_goes_on(journal, history):
    """With room enough a service goes on where the journal ends."""
    first, (sent, data) = len(history.epochs), adds(2)
    ending = serving.ended(journal, KV, data)
    history.look(journal.read_bytes())
    serving.hold_ended(history, first, sent, ending)


def small_disk(folder, size):
    """Makes a file system of so many bytes in the folder, and says whether the system lets one do so."""
    mount = shutil.which("mount")
    command = [mount, "-t", "tmpfs", "-o", f"size={size}", "tmpfs", str(folder)]
    return bool(mount) and subprocess.run(command, capture_output=True, check=False).returncode == 0


def on_small_disk(folder):
    """A service on a disk that gets full under load; --replay there; and one with more room."""
    journal, history, (sent, data) = folder / "journal", serving.History(KV), adds(20_000)
    with serving.Service(journal, KV) as service:
        service.gathered().send(data)
        ending = service.end()
    serving.hold(ending.status == 5, f"{ending}")
    hold_stopped(journal, history, 0, sent, ending)
    serving.hold_replayed(journal, history)
    before = journal.read_bytes()
    ending = serving.ended(journal, KV, adds(1)[1])
    serving.hold(ending == FAILED, f"on the full disk: {ending}")
    serving.hold(journal.read_bytes() == before, "the journal has other bytes than before")
    subprocess.run([shutil.which("mount"), "-o", "remount,size=4m", str(folder)], check=True)
    hold_goes_on(journal, history)


def full_disk():
    with serving.room(is_disk=False) as room:
        size = len(journal_of(KV))
        for limit in [*range(0, size, 61), *range(size - 2, size + 450, 13)]:
            folder = Path(room) / f"limit{limit}"
            folder.mkdir()
            (folder / "journal").write_bytes(journal_of(KV))
            yield tried(f"files of at most {limit} bytes", filled, folder / "journal", limit)
        folder = Path(room) / "small"
        folder.mkdir()
        if small_disk(folder, 65_536):
            try:
                yield tried("a disk of 65,536 bytes", on_small_disk, folder)
            finally:
                subprocess.run([shutil.which("umount"), str(folder)], check=True)
        else:
            print("a small disk can't be mounted here: none was filled")


# ---- the client of examples/

TOTALS = [f"customer {who}, after 40 payments of 25 cents: cents 1000" for who in (1, 2, 3)]


def client_runs(journal):
    """The client ends with its totals, and its journal is right."""
    command = [sys.executable, serving.proved.ROOT / "examples" / "serve_client.py", str(journal)]
    run = subprocess.run(command, capture_output=True, text=True, timeout=serving.MOST_SECONDS, check=False)
    serving.hold((run.returncode, run.stderr) == (0, ""), f"status {run.returncode}: {run.stderr}")
    lines = run.stdout.splitlines()
    serving.hold(lines[-3:] == TOTALS, f"{lines[-3:]}, and not {TOTALS}")
    serving.hold(sum(line.startswith("killed") for line in lines) == 4, f"{lines}")
    history = serving.History(journals.Setting("once", 1, False))
    history.look(journal.read_bytes())
    serving.hold_replayed(journal, history)


def client():
    with serving.room() as room:
        for what in ("a new journal", "the same once more"):
            yield tried(what, client_runs, Path(room) / "journal")
