"""Runs `calvin serve`, and holds what it answered against its journal and a plain evaluation (tools/plain_serial.py): what the
checks of services have in common."""

import collections
import json
import os
import subprocess
import tempfile
import threading
import time
from pathlib import Path

import journals
import plain_serial
import proved

PROGRAM = proved.program()

# Whatever takes longer counts as failed.
MOST_SECONDS = 60

MEMORY = Path("/dev/shm")

# What a run was ended with: status, standard output, standard error.
Ending = collections.namedtuple("Ending", "status output error")

# A line that was sent: the group and the request, or the refusal of a line that is no request.
Asked = collections.namedtuple("Asked", "group txn")
Refused = collections.namedtuple("Refused", "fault")


class Wrong(Exception):
    """Something isn't as it has to be."""


def hold(condition, why):
    if not condition:
        raise Wrong(why)


def shown(data):
    return data if len(data) <= 300 else f"{data[:150]!r} .. {data[-150:]!r}, {len(data)} bytes"


def told(ending):
    return f"status {ending.status}, {shown(ending.error)}, {shown(ending.output)}"


def room(is_disk=True):
    """A folder for a with statement: on the disk, or in memory where the system has such a place."""
    is_there = MEMORY.is_dir() and os.access(MEMORY, os.W_OK)
    return tempfile.TemporaryDirectory(prefix="serving-", dir=None if is_disk or not is_there else MEMORY)


# ---- lines


def line_of(txn, group=None):
    """The line that asks a request."""
    return json.dumps(txn if group is None else {**txn, "group": group}, separators=(",", ":")).encode() + b"\n"


def asked(setting, txn, group=None):
    """What is sent by the line of a request."""
    return Asked(txn["client"] % setting.partitions if group is None else group, txn)


# ---- runs


def words(journal, setting, *more):
    return [PROGRAM, "serve", "--journal", str(journal), *journals.words_of(setting), *more]


def ended(journal, setting, data=b"", more=(), **options):
    """How a service ends whose input is these bytes."""
    try:
        run = subprocess.run(
            words(journal, setting, *more), input=data, capture_output=True, timeout=MOST_SECONDS, check=False, **options
        )
    except subprocess.TimeoutExpired as e:
        raise Wrong(f"it hasn't ended after {MOST_SECONDS} seconds") from e
    return Ending(run.returncode, run.stdout, run.stderr)


class Service:
    """A service that runs, started by another command if there is one. What it prints is gathered by a thread, once that is asked
    for."""

    def __init__(self, journal, setting, by=(), more=(), **options):
        pipes = {"stdin": subprocess.PIPE, "stdout": subprocess.PIPE, "stderr": subprocess.PIPE, **options}
        self.process = subprocess.Popen([*by, *words(journal, setting, *more)], bufsize=0, **pipes)
        self.output = bytearray()
        self.kill_at = None
        self.gatherer = threading.Thread(target=self.gather, daemon=True)

    def gathered(self, kill_at=None):
        """The service, whose output is gathered from now on; it is killed once so many lines are out, if a number is given."""
        self.kill_at = kill_at
        self.gatherer.start()
        return self

    def gather(self):
        while True:
            data = os.read(self.process.stdout.fileno(), 1 << 16)
            if not data:
                return
            self.output += data
            if self.kill_at is not None and self.lines() >= self.kill_at:
                self.process.kill()

    def send(self, data):
        """Writes to its input, and says whether it was there to read."""
        try:
            for at in range(0, len(data), 1 << 16):
                self.process.stdin.write(data[at : at + (1 << 16)])
        except BrokenPipeError:
            return False
        return True

    def lines(self):
        return self.output.count(b"\n")

    def wait_for(self, lines):
        """Waits until it has printed so many lines, or has ended."""
        limit = time.monotonic() + MOST_SECONDS
        while self.lines() < lines and self.gatherer.is_alive():
            hold(time.monotonic() < limit, f"after {MOST_SECONDS} seconds it has printed {self.lines()} of {lines} lines")
            time.sleep(0.0002)

    def end(self, is_killed=False):
        """How it ends when its input does, or when it is killed."""
        if is_killed:
            self.process.kill()
        elif self.process.stdin:
            self.process.stdin.close()
        try:
            status = self.process.wait(MOST_SECONDS)
        except subprocess.TimeoutExpired as e:
            self.process.kill()
            self.process.wait()
            raise Wrong(f"it hasn't ended {MOST_SECONDS} seconds after its input") from e
        if self.gatherer.ident:
            self.gatherer.join(MOST_SECONDS)
        with self.process.stderr:
            error = self.process.stderr.read()
        return Ending(status, bytes(self.output), error)

    def __enter__(self):
        return self

    def __exit__(self, *_):
        if self.process.poll() is None:
            self.process.kill()
            self.process.wait()
        for pipe in (self.process.stdin, self.process.stdout, self.process.stderr):
            if pipe:
                pipe.close()


# ---- what a journal has to be, and what has to be printed


class History:
    """A journal as it was seen last, and what its epochs are answered by a plain evaluation."""

    def __init__(self, setting):
        self.setting = setting
        self.run = plain_serial.Run(setting.app, setting.scouts)
        self.data = b""
        self.epochs = []
        self.told = []
        self.begun = 0

    def compacted(self):
        """What a journal is that begins with the rows in which its epochs end."""
        return journals.heading_of(self.setting) + journals.start_of(len(self.epochs), self.run.rows)

    def compact(self):
        """From now on the journal is that one."""
        self.data, self.begun = self.compacted(), len(self.epochs)

    def look_compacting(self, data):
        """Looks at what the journal has now, which may have been compacted since."""
        if data.startswith(self.compacted()):
            self.compact()
        self.look(data)

    def look(self, data):
        """Looks at what the journal has now: whole lines more than before, and maybe a torn one."""
        heading = journals.heading_of(self.setting)
        hold(data.startswith(self.data), "whole lines of the journal are gone or others")
        hold(data.startswith(heading) or heading.startswith(data), f"it doesn't begin with its heading: {data[:100]}")
        before, self.data = self.data, journals.whole_of(data)
        for line in self.data[max(len(before), len(heading)) :].split(b"\n")[:-1]:
            try:
                epoch = json.loads(line)
                hold(epoch and all(batch["txns"] for batch in epoch), f"an epoch or a batch has no request: {shown(line)}")
            except (ValueError, TypeError, KeyError) as e:
                raise Wrong(f"a line of the journal is no epoch: {shown(line)}") from e
            self.told.append("".join(self.run.epoch(len(self.epochs), epoch, False)))
            self.epochs.append(epoch)

    def last(self):
        return f"finished {len(self.epochs) - 1}\n" if self.epochs else "finished none\n"

    def text(self):
        """What its epochs are answered since it was compacted, and the last line."""
        return "".join(self.told[self.begun :]) + self.last()


def requests_of(epoch):
    return sum(len(batch["txns"]) for batch in epoch)


def hold_requests(history, first, sent):
    """The epochs from the first one on have the requests that were sent, in their order, as far as they came; each once."""
    epochs = history.epochs[first:]
    count = sum(map(requests_of, epochs))
    requests = [it for it in sent if isinstance(it, Asked)]
    hold(count <= len(requests), f"the journal has {count} requests more, and {len(requests)} were sent")
    by_group = collections.defaultdict(list), collections.defaultdict(list)
    for it in requests[:count]:
        by_group[0][it.group].append(it.txn)
    for epoch in epochs:
        for batch in epoch:
            by_group[1][batch["group"]] += batch["txns"]
    hold(by_group[0] == by_group[1], f"the journal's requests of epochs {first} on aren't the first {count} that were sent")


def pieces_of(history, first, sent):
    """What is printed of the epochs from the first one on: by turns a text of refusals and one of an epoch's answers, a text of
    refusals at the end."""
    refusals, count = [], 0
    for number, it in enumerate(sent, 1):
        if isinstance(it, Refused):
            refusals.append((count, f"line {number} refused {it.fault}\n"))
        else:
            count += 1
    pieces, count = [], 0
    for epoch, told in zip(history.epochs[first:], history.told[first:]):
        due = [text for at, text in refusals if at <= count]
        refusals = refusals[len(due) :]
        count += requests_of(epoch)
        hold(not refusals or refusals[0][0] >= count, "an epoch goes on behind a line that is no request")
        pieces += ["".join(due), told]
    return [*pieces, "".join(text for at, text in refusals if at <= count)]


def hold_cut_off(history, first, sent, output):
    """A service that was cut off has printed a beginning of what is to be printed: all of it up to the answers of the last epoch,
    and maybe those."""
    hold_requests(history, first, sent)
    pieces = pieces_of(history, first, sent)
    is_all = sum(map(requests_of, history.epochs[first:])) == sum(isinstance(it, Asked) for it in sent)
    text = "".join([*pieces, *[history.last()] * is_all]).encode()
    hold(text.startswith(output), f"it has printed {shown(output)}, and not a beginning of {shown(text)}")
    least = len("".join(pieces[:-2]).encode())
    hold(len(output) >= least, f"{len(output)} bytes were printed, and what comes before the last epoch's answers has {least}")


def hold_ended(history, first, sent, ending):
    """A service whose input ended has answered all of it."""
    hold_requests(history, first, sent)
    text = "".join(pieces_of(history, first, sent)) + history.last()
    hold(ending == Ending(0, text.encode(), b""), f"{told(ending)}, and not {shown(text)}")
    count = sum(map(requests_of, history.epochs[first:]))
    hold(count == sum(isinstance(it, Asked) for it in sent), f"{count} requests are in the journal, and more were sent")


def hold_replayed(journal, history):
    """What is printed again is what a plain evaluation says, and what `serial` prints of the journal's script. Says whether the
    journal is a script: it wasn't compacted, and is short enough."""
    text = history.text().encode()
    found = ended(journal, history.setting, more=["--replay"])
    hold(found == Ending(0, text, b""), f"--replay: {told(found)}, and not {shown(text)}")
    try:
        script = journals.script_of(history.data)
    except journals.NoJournal as why:
        hold(history.begun or journals.start_of(0, {}) in history.data, str(why))
        return False
    if len(script) > journals.MOST_SCRIPT_BYTES:
        return False
    serial = [PROGRAM, "serial", *["--scout"] * history.setting.scouts]
    run = subprocess.run(serial, input=script, capture_output=True, timeout=MOST_SECONDS, check=False)
    found = Ending(run.returncode, run.stdout, run.stderr)
    hold(found == Ending(0, text, b""), f"serial: {told(found)}, and not {shown(text)}")
    return True
