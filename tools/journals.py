"""Journals of `calvin serve`, from docs/FORMATS.md and nothing else: the first line says what a journal is of; the rows follow
with which it begins, where it was compacted; and each later line is an epoch as a script lists it. What stands behind the last
line feed is a line that a crash has torn, and none."""

import collections
import json

import plain_serial

APPS = list(plain_serial.APPS)
MOST_SCRIPT_BYTES = 1_048_576

# The names of rows of `stock`, by table, and the table of replies that `once` keeps.
TABLES = {1: "customer", 2: "item", 3: "order"}
KEPT_REPLIES = 4

# What a journal is of.
Setting = collections.namedtuple("Setting", "app partitions scouts")


class NoJournal(Exception):
    """The bytes are no journal."""


def heading_of(setting):
    """The first line, with its line feed."""
    partitions, scouts = setting.partitions, json.dumps(setting.scouts)
    return f'{{"journal":1,"partitions":{partitions},"app":"{setting.app}","scout":{scouts}}}\n'.encode()


def words_of(setting):
    """The words of a command line for such a journal."""
    return ["--app", setting.app, "--partitions", str(setting.partitions), *["--scout"] * setting.scouts]


def whole_of(data):
    """The whole lines."""
    return data[: data.rfind(b"\n") + 1]


def setting_of(data):
    """What a journal with a whole first line is of."""
    line = data.partition(b"\n")[0]
    try:
        found = json.loads(line)
        setting = Setting(found["app"], found["partitions"], found["scout"])
    except (ValueError, TypeError, KeyError) as e:
        raise NoJournal("its first line isn't that of a journal") from e
    if setting.app not in APPS or not data.startswith(heading_of(setting)):
        raise NoJournal("its first line isn't that of a journal")
    return setting


def epoch_lines(data):
    """The whole lines behind the first one, without their line feeds."""
    return whole_of(data).split(b"\n")[1:-1]


def row_of(table, row):
    """A row of a plain evaluation (tools/plain_serial.py) as a journal keeps it."""
    if table == KEPT_REPLIES:
        name, *told = row.split(" ")
        return ["reply", [name, *map(int, told)]]
    return [TABLES[table], *row] if table in TABLES else row


def start_of(epoch, rows):
    """What a journal begins with behind its heading that was compacted before an epoch, when these were the rows."""
    lines = [["rows", epoch, len(rows)], *([*key, row_of(key[0], row)] for key, row in sorted(rows.items()))]
    return b"".join(json.dumps(line, separators=(",", ":")).encode() + b"\n" for line in lines)


def script_of(data):
    """The text of the script whose epochs are those of a journal with a whole first line, a line each."""
    setting = setting_of(data)
    if data.startswith(heading_of(setting) + b'["rows",'):
        raise NoJournal("it was compacted, and begins with rows: no script begins so")
    epochs = b",\n".join(epoch_lines(data))
    return f'{{"partitions":{setting.partitions},"app":"{setting.app}","epochs":[\n'.encode() + epochs + b"\n]}\n"
