"""Checks of copies of the repository's crates, and what they say of each function."""

import contextlib
import heapq
import os
import re
import shutil
import subprocess
import sys
import tempfile
import threading
from pathlib import Path

ROOT = Path(__file__).resolve().parent.parent
PARTS = ("src", "specs", "proofs")

# What antt says where a text names what isn't there any more.
UNFIT = re.compile(r"has no field|is not in scope|has no `|is no name")
# What it says where a proof cites one that is refused.
CITES_REFUSED = re.compile(r"not admitted")


class Spent(Exception):
    """The processor time is spent that checks may take."""


class Lanes:
    """So many checks at a time; of those that wait for a lane, one of the least rank is next."""

    def __init__(self, number):
        self.free, self.asked, self.waiting = number, 0, []
        self.turn = threading.Condition()

    @contextlib.contextmanager
    def lane(self, rank):
        with self.turn:
            self.asked += 1
            own = (rank, self.asked)
            heapq.heappush(self.waiting, own)
            self.turn.wait_for(lambda: self.free > 0 and self.waiting[0] == own)
            heapq.heappop(self.waiting)
            self.free -= 1
            self.turn.notify_all()
        try:
            yield
        finally:
            with self.turn:
                self.free += 1
                self.turn.notify_all()


class Kit:
    """What runs the prover, so many checks at a time, and none that begins once the processor seconds are spent, where
    there is a most of them."""

    def __init__(self, lanes, room, most=float("inf")):
        done = subprocess.run(["rt", "doc"], stdout=subprocess.PIPE, text=True, check=True)
        self.folder = Path(done.stdout.strip()).parent
        self.lanes = Lanes(lanes)
        self.most, self.used, self.running = most, 0, set()
        self.room = Path(room)
        self.uses = {}
        for line in (ROOT / "crates.txt").read_text(encoding="utf-8").splitlines():
            name, colon, uses = line.partition("#")[0].partition(":")
            if colon:
                self.uses[name.split()[0]] = uses.split()

    def below(self, name):
        """The repository's libraries below a crate, lowest first."""
        found = []
        for it in self.uses[name]:
            if it in self.uses:
                found += [dep for dep in [*self.below(it), it] if dep not in found]
        return found

    def words(self, name):
        root = "main" if (ROOT / "crates" / name / "src" / "main.rt").is_file() else "lib"
        words = ["--crate-name", name, f"src/{root}.rt"]
        rlib = self.room / "crates"
        for it in ["std", *self.uses[name]]:
            at = rlib / it / "out/rlib" / f"{it}.rlib" if it in self.uses else self.folder / "rlibs" / f"{it}.rlib"
            words += ["--extern", f"{it}={at}"]
        words += ["-L", f"dependency={self.folder}/rlibs"]
        for it in self.below(name):
            words += ["-L", f"dependency={rlib / it / 'out/rlib'}"]
        words += ["--antt-project", f"{self.folder}/rattle/logic/antt-project.json"]
        words += ["--logic-built", f"{self.folder}/logic_built", "--links", f"{name}=", "--jobs", "1"]
        return words

    def run(self, words, where, rank=0, wanted=0):
        """Runs a command, and returns its status, what it said, and its processor seconds. It isn't begun, which raises
        Spent, where no more of these than are wanted are left."""
        with self.lanes.lane(rank), tempfile.TemporaryFile("w+", errors="replace") as said:
            if self.left() <= wanted:
                raise Spent
            how = {"cwd": where, "stdin": subprocess.DEVNULL, "stdout": said, "stderr": subprocess.STDOUT}
            # (it leads a group of its own, so that what it starts can be ended with it)
            started = subprocess.Popen(words, **how, start_new_session=True)
            with self.lanes.turn:
                self.running.add(started.pid)
            _, status, used = os.wait4(started.pid, 0)
            started.returncode = os.waitstatus_to_exitcode(status)
            seconds = used.ru_utime + used.ru_stime
            with self.lanes.turn:
                self.running.discard(started.pid)
                self.used += seconds
            said.seek(0)
            return started.returncode, said.read(), seconds

    def left(self):
        """The processor seconds that are left, with what the checks have taken that aren't at their end."""
        with self.lanes.turn:
            return self.most - self.used - sum(map(seconds_of, self.running))


def seconds_of(process):
    """The processor seconds of a process, and of those that it waited for."""
    try:
        said = Path(f"/proc/{process}/stat").read_text(encoding="utf-8", errors="replace")
    except OSError:
        return 0
    return sum(map(int, said.rpartition(")")[2].split()[11:15])) / os.sysconf("SC_CLK_TCK")


def newest(folder):
    files = [it for part in PARTS for it in (folder / part).rglob("*") if it.is_file()]
    return max(it.stat().st_mtime for it in files)


def copy_repository(kit, names):
    """Copies what these crates need into the room, with what checks have kept of them, and builds the libraries below
    them that aren't there."""
    libraries = {it for name in names for it in kit.below(name)}
    needed = sorted({*names, *libraries}, key=lambda it: len(kit.below(it)))
    lines = [f"{name}: {' '.join(kit.uses[name])}\n" for name in needed]
    (kit.room / "crates.txt").write_text("".join(lines), encoding="utf-8")
    if (ROOT / "HANDLES").is_file():
        shutil.copy(ROOT / "HANDLES", kit.room)
    for name in needed:
        of, to = ROOT / "crates" / name, kit.room / "crates" / name
        parts = [*PARTS, *(["out/rlib"] if name in libraries else [])]
        parts += ["out/incremental"] if name in names or is_older(of / "out/rlib/stamp", of) else []
        for part in parts:
            if (of / part).is_dir():
                shutil.copytree(of / part, to / part)
    for name in needed:
        of, to = ROOT / "crates" / name, kit.room / "crates" / name
        made, stamp = to / "out/rlib" / f"{name}.rlib", to / "out/rlib/stamp"
        # What rt ci leaves has no stamp. It is used where no source is newer.
        if name not in libraries or made.is_dir() and not stamp.is_file() and not is_older(made, of):
            continue
        status, said, _ = kit.run(["rt", "lib"], to)
        if status:
            sys.exit(f"{said}the library {name} could not be built")


def is_older(file, crate):
    """Whether the file is older than a source of the crate, or isn't there."""
    return not file.exists() or file.stat().st_mtime < newest(crate)


class Said:
    """What a check said of each function."""

    def __init__(self, crate, status, text):
        self.status = status
        self.lines = text.split("\n")
        self.is_judged = bool(re.match(r"only=|logic=", self.last()))
        self.of = {}
        for line in self.lines:
            found = re.match(rf"fn {crate}::(\S+): (.*)", line)
            if found:
                self.of[tuple(found[1].split("::"))] = found[2]

    def last(self):
        return next((it for it in reversed(self.lines) if it), "")

    def first_error(self):
        return next((it for it in self.lines if "error" in it), self.last())[:200]

    def unread(self):
        """The first error in a text of src/ or specs/, which antt could not read."""
        of = re.compile(r"(?:\./)?(?:src|specs)/[^:]+:\d+:\d+: error: (.*)")
        return next((it for it in self.lines if (found := of.match(it)) and UNFIT.search(found[1])), None)

    def goals_told(self):
        """The goals, of whatever item, of which it is told at their place that they aren't proved."""
        told = re.compile(r"note: (src/\S+: it is not proved that .*?)(?:\(`([^`]*)`\))?$")
        return [found[2] or found[1][:120] for found in map(told.match, self.lines) if found]

    def errors(self, name):
        """The errors in the function's own proof files, each as its file, the declaration and the text. None is of a
        proof that only rests on a refused one."""
        folders = "|".join(map(re.escape, folders_of(name)))
        at = re.compile(rf"(?:\./)?((?:{folders})[^:]*):\d+:\d+: error: (?:`([^`]*)`: )?(.*)")
        found = [it.groups(default="") for it in map(at.match, self.lines) if it]
        return [it for it in found if not CITES_REFUSED.search(it[2])]

    def verdict(self, name, dropped=()):
        """Of a function, where the proofs of some goals were dropped: 'open' and which goal where the search leaves another
        one open, 'written' and which where only the proof of a goal that was written by hand doesn't hold, 'no evidence'
        and why, 'passes', or 'waits'."""
        status = self.of.get(name, "could not tell")
        if re.match(r"proved\b", status):
            return "passes", ""
        errors = [] if status.startswith("could not tell") else self.errors(name)
        unfit = [it for it in errors if UNFIT.search(it[2])]
        # (behind its goals stand the functions that it calls and that aren't proved, as those with edits of their own)
        searched = status.partition("`search` did not prove ")[2].partition("; it calls ")[0]
        left = re.findall(r"`([^`]*)`", searched)
        left, written = goals_left(left, unfit, [it for it in errors if it not in unfit])
        path = "::".join(name)
        if found := [it for it in left if it not in dropped]:
            return "open", f"{path}: {found[0]}"
        if written or left:
            return "written", f"{path}: {[*written, *left][0]}"
        if unfit:
            return "no evidence", f"{path}: {unfit[0][2][:140]}"
        return "waits", ""

    def answers(self, name):
        """The written proofs of a function's goals that don't hold, as their names by file."""
        found = {}
        for file, declaration, text in self.errors(name):
            if file.endswith("/Answers.antt") and declaration and not UNFIT.search(text):
                found.setdefault(file, set()).add(declaration)
        return found


def folders_of(name):
    """The folders of a function's proofs: its own, and the one that it has in a ring of functions."""
    return f"proofs/{'/'.join(name)}/", f"proofs/{'/'.join([*name[:-1], f'+{name[-1]}'])}/"


def goals_left(searched, unfit, errors):
    """The goals that are left open by more than a proof's text that doesn't fit: those that were searched for, and those
    whose written proofs don't hold."""
    if any(file.rpartition("/")[2].startswith("Invariants") for file, _, _ in unfit):
        return [], []
    # Where an answer's goal isn't there any more, it may be one that is left to the search now, under another name.
    gone = {kind_of(it.removeprefix("goal.")) for _, it, _ in unfit if it.startswith("goal.")}
    broken = {declaration for _, declaration, _ in unfit}
    written = [it or file.rpartition("/")[2] for file, it, _ in errors if it not in broken]
    return [it for it in searched if kind_of(it) not in gone], written


def kind_of(goal):
    """A goal's name without the branches that lead to it."""
    return re.split(r"-(?=clause-|fits|preserved|entry)", goal, maxsplit=1)[-1]
