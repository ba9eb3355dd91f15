"""What `calvin serve` is measured beside (tools/serve_figures): SQLite behind two pipes, and redis."""

import os
import shutil
import socket
import sqlite3
import subprocess
import sys
import time

KEYS = 1000


class Peer:
    """A process that is asked through one descriptor and answers through another, a line each."""

    def __init__(self, process, asks, answers, requests):
        self.process, self.asks, self.answers, self.requests = process, asks, answers, requests

    def write(self, data):
        while data:
            data = data[os.write(self.asks, data) :]

    def read(self):
        data = os.read(self.answers, 1 << 16)
        if not data:
            raise SystemExit("a process that is measured has ended")
        return data

    def end(self):
        """Ends it, and waits for that."""
        if self.process.stdin:
            self.process.stdin.close()
            self.process.stdout.read()
            self.process.stdout.close()
        else:
            os.close(self.asks)
            self.process.terminate()
        self.process.wait()


# ---- SQLite

ADD = "INSERT INTO numbers VALUES (?, 1) ON CONFLICT (id) DO UPDATE SET number = number + 1"
FIND = "SELECT number FROM numbers WHERE id = ?"


def sqlite_lines(count):
    return [b"%d\n" % (n % KEYS) for n in range(count)]


def answer_lines(path, is_together):
    """Adds one to the number of each key that comes in, a line each, and prints the sum when it is kept."""
    store = sqlite3.connect(path, isolation_level=None)
    store.execute("PRAGMA journal_mode=WAL")
    store.execute("PRAGMA synchronous=FULL")
    store.execute("CREATE TABLE numbers (id INTEGER PRIMARY KEY, number INTEGER NOT NULL) WITHOUT ROWID")
    rest = b""
    while True:
        data = os.read(0, 1 << 16)
        if not data:
            return
        *lines, rest = (rest + data).split(b"\n")
        for group in [lines] if is_together else [[line] for line in lines]:
            said = []
            store.execute("BEGIN IMMEDIATE")
            for line in group:
                key = (int(line),)
                store.execute(ADD, key)
                said.append(b"%d\n" % store.execute(FIND, key).fetchone()[0])
            store.execute("COMMIT")
            os.write(1, b"".join(said))


def sqlite(path, is_together):
    words = [sys.executable, "-B", __file__, str(path), "together" if is_together else "alone"]
    process = subprocess.Popen(words, bufsize=0, stdin=subprocess.PIPE, stdout=subprocess.PIPE)
    return Peer(process, process.stdin.fileno(), process.stdout.fileno(), sqlite_lines)


# ---- redis


def redis_lines(count):
    return [b"INCRBY %d 1\r\n" % (n % KEYS) for n in range(count)]


def redis(path):
    """A redis server of its own, at a socket in the folder of the path; none where redis isn't installed."""
    program, at = shutil.which("redis-server"), path.with_suffix(".socket")
    if not program:
        return None
    words = [program, "--port", "0", "--unixsocket", str(at), "--dir", str(path.parent), "--save", "", "--daemonize", "no"]
    words += ["--appendonly", "yes", "--appendfsync", "always", "--auto-aof-rewrite-percentage", "0"]
    process = subprocess.Popen(words, stdout=subprocess.DEVNULL)
    link = socket.socket(socket.AF_UNIX)
    for _ in range(500):
        try:
            link.connect(str(at))
            break
        except OSError:
            time.sleep(0.01)
    descriptor = link.detach()
    return Peer(process, descriptor, descriptor, redis_lines)


def versions():
    program = shutil.which("redis-server")
    found = subprocess.run([program, "--version"], capture_output=True, text=True, check=False).stdout.split() if program else []
    redis_version = next((f", redis {it[2:]}" for it in found if it.startswith("v=")), "")
    return f"SQLite {sqlite3.sqlite_version}{redis_version}, Python {sys.version.split()[0]}."


if __name__ == "__main__":
    answer_lines(sys.argv[1], sys.argv[2] == "together")
