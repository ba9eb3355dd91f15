"""A service that is killed at any moment, again and again, under load."""

import collections
import random
import threading
import time
from pathlib import Path

import journals
import serving
from drawn_scripts import drawn_txn

# A journal has this many bytes, or more, before another one begins: it is a script then. One that is compacted ends by its epochs.
MOST_BYTES = 300_000
MOST_EPOCHS = 2000

# How many lines come at once.
CHUNKS = [1, 1, 1, 3, 20, 200, 600]

# What a line is that is no request, and how it is refused.
NO_REQUESTS = [
    (b"\n", "90 BadJson"), (b"{\n", "90 BadJson"), (b"\xff\n", "90 BadJson"), (b"[]\n", "91 BadScript"),
    (b'{"client":1,"number":1,"op":["buy",1]}\n', "91 BadScript"),
]  # fmt: skip


class Stage:
    """A journal that is killed again and again: its history, and the names that were asked."""

    def __init__(self, draw, room, app, number):
        partitions = draw.choice([1, 1, 2, 3, 16])
        self.setting = journals.Setting(app, partitions, draw.randrange(3) == 0)
        self.journal = room / f"{app}{number}"
        self.history = serving.History(self.setting)
        self.asked = []
        self.compacts, self.is_compacting = draw.randrange(2) == 0, False

    def drawn_line(self, draw):
        """A line, and what is sent by it."""
        if draw.randrange(40) == 0:
            line, fault = draw.choice(NO_REQUESTS)
            return line, serving.Refused(fault)
        group = draw.choice([None, None, draw.randrange(self.setting.partitions)])
        txn = drawn_txn(draw, self.setting.app, self.history.run, len(self.asked), self.asked)
        self.asked.append(txn)
        return serving.line_of(txn, group), serving.asked(self.setting, txn, group)

    def drawn_chunks(self, draw, most):
        """What is sent, in pieces that come at once, and their lines' contents."""
        chunks, sent = [], []
        while len(sent) < most:
            drawn = [self.drawn_line(draw) for _ in range(draw.choice(CHUNKS))]
            chunks.append((b"".join(line for line, _ in drawn), len(drawn)))
            sent += [it for _, it in drawn]
        return chunks, sent

    def look(self):
        """Looks at what the journal has now, and says whether a torn line is there."""
        data = self.journal.read_bytes() if self.journal.exists() else b""
        self.history.look_compacting(data) if self.is_compacting else self.history.look(data)
        return len(data) > len(self.history.data)

    def is_full(self):
        return len(self.history.data) > MOST_BYTES or len(self.history.epochs) > MOST_EPOCHS

    def drawn_words(self, draw):
        """Has it compacted or not, where the stage is one of those whose journals are."""
        self.is_compacting = self.compacts and draw.randrange(2) == 0
        return ["--compact"] * self.is_compacting


def feed(service, chunks, window):
    """Sends a piece whenever fewer lines than the window have no answer."""
    lines = 0
    for data, count in chunks:
        while window and lines - service.lines() >= window:
            if service.process.poll() is not None:
                return
            time.sleep(0.0001)
        if not service.send(data):
            return
        lines += count


def killed(draw, stage):
    """Kills a service that is under load. Says what it came to."""
    first = len(stage.history.epochs)
    window = draw.choice([1, 8, 64, 0, 0])
    chunks, sent = stage.drawn_chunks(draw, 60 if window == 1 else 1500)
    at_start, at_once, lines = draw.randrange(5) == 0, draw.randrange(2), 1 + draw.randrange(len(sent))
    begun = stage.history.begun
    with serving.Service(stage.journal, stage.setting, more=stage.drawn_words(draw)) as service:
        service.gathered(lines if at_once else None)
        feeder = threading.Thread(target=feed, args=(service, chunks, window), daemon=True)
        feeder.start()
        if at_start:
            time.sleep(draw.uniform(0, 0.02))
        else:
            service.wait_for(lines)
            time.sleep(draw.uniform(0, 0.003))
        ending = service.end(is_killed=True)
        feeder.join(serving.MOST_SECONDS)
    serving.hold(ending.error == b"" and ending.status in (0, -9), serving.told(ending))
    is_torn = stage.look()
    serving.hold_cut_off(stage.history, first, sent, ending.output)
    answered = len("".join(serving.pieces_of(stage.history, first, sent)[:-1]).encode())
    return collections.Counter({
        "lines answered": len(ending.output.splitlines()),
        "epochs kept": len(stage.history.epochs) - first,
        "kills with an epoch that is kept and not answered": len(ending.output) < answered,
        "kills before the first answer": not ending.output,
        "torn lines": is_torn,
        "kills after a compaction": stage.history.begun > begun,
        "kills before a compaction or in it": stage.is_compacting and first > stage.history.begun,
    })  # fmt: skip


def started_again(draw, stage):
    """Starts the service once more, asks a little, and lets it end."""
    first = len(stage.history.epochs)
    chunks, sent = stage.drawn_chunks(draw, 3)
    ending = serving.ended(stage.journal, stage.setting, b"".join(data for data, _ in chunks), stage.drawn_words(draw))
    serving.hold(not stage.is_compacting or stage.journal.read_bytes().startswith(stage.history.compacted()), "it isn't compacted")
    serving.hold(not stage.look(), "a torn line was left")
    serving.hold_ended(stage.history, first, sent, ending)
    aside = stage.journal.with_name(stage.journal.name + ".anew")
    serving.hold(not aside.exists(), f"{aside.name} was left")


def trial(draw, stage):
    """A kill, and what is found after it."""
    counts = killed(draw, stage)
    if stage.history.data:
        counts["journals compared with serial"] += serving.hold_replayed(stage.journal, stage.history)
    started_again(draw, stage)
    return counts


def kills(trials):
    """Kills a service of each application by turns, on the disk and in memory."""
    draw, stages, counts = random.Random(1), {}, collections.Counter()
    with serving.room() as disk, serving.room(is_disk=False) as memory:
        rooms = [Path(disk), Path(memory)]
        for n in range(trials):
            app = journals.APPS[n % len(journals.APPS)]
            stage = stages.get(app)
            if stage is None or stage.is_full():
                stage = stages[app] = Stage(draw, rooms[n // len(journals.APPS) % 2], app, n)
            try:
                counts += trial(draw, stage)
                yield f"kill {n} of {app}", None
            except serving.Wrong as wrong:
                stages.pop(app)
                yield f"kill {n} of {app}, {stage.setting}", str(wrong)
    print(", ".join(f"{count} {what}" for what, count in sorted(counts.items())))
