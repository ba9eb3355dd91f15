"""A plain evaluation of scripts, from the tables of docs/FORMATS.md and nothing else: what a run has to print."""

import collections

WORD = 2**64


class Kv:
    """Numbers by key."""

    @staticmethod
    def needs(txn, row):
        """The keys that are read and those that are written, where `row` gives the row of a key or None."""
        name, *args = txn["op"]
        if name == "put":
            return [], [(0, args[0])]
        if name == "get":
            return sorted((0, k) for k in args[0]), []
        if name == "add":
            return [(0, args[0])], [(0, args[0])]
        if name == "move":
            both = sorted({(0, args[0]), (0, args[1])})
            return both, both
        named = row((0, args[0]))
        return sorted({(0, args[0])} | ({(0, named)} if named is not None else set())), []

    @staticmethod
    def run(txn, row):
        """The answer, and the rows that are written."""
        name, *args = txn["op"]

        def number(k):
            return row((0, k)) or 0

        def value(k):
            found = None if k is None else row((0, k))
            return "none" if found is None else f"value {found}"

        if name == "put":
            return "done", {(0, args[0]): args[1]}
        if name == "get":
            return " ".join(value(k) for k in sorted(args[0])), {}
        if name == "add":
            total = number(args[0]) + args[1]
            return ("limit", {}) if total >= WORD else (f"value {total}", {(0, args[0]): total})
        if name == "move":
            source, target, amount = args
            if number(source) < amount:
                return "short", {}
            if source == target:
                return "done", {}
            if number(target) + amount >= WORD:
                return "limit", {}
            return "done", {(0, source): number(source) - amount, (0, target): number(target) + amount}
        return value(row((0, args[0]))), {}


MOST_PIECES = 10**9
MOST_CENTS = 10**15


class Stock:
    """Customers, items and orders: rows of tables 1, 2 and 3, each a tuple."""

    @staticmethod
    def needs(txn, row):
        name, *args = txn["op"]
        if name in ("additem", "restock"):
            keys = [(2, args[0])]
        elif name == "order":
            keys = sorted([(1, args[0]), (3, args[1])] + [(2, item) for item, _ in args[2]])
        else:
            keys = [(1, args[0])]
        if name == "settle":
            customer = row((1, args[0]))
            if customer and customer[1] is not None:
                keys.append((3, customer[1]))
        return keys, [] if name == "balance" else keys

    @staticmethod
    def run(txn, row):
        name, *args = txn["op"]
        if name in ("additem", "restock"):
            return Stock.run_item(name, args, row((2, args[0])))
        if name == "open":
            return ("exists", {}) if row((1, args[0])) else ("done", {(1, args[0]): (0, None)})
        customer = row((1, args[0]))
        if customer is None:
            return "nocustomer", {}
        if name == "order":
            return Stock.run_order(args, customer, row)
        balance, last = customer
        if name == "payin":
            if balance + args[1] > MOST_CENTS:
                return "limit", {}
            return "done", {(1, args[0]): (balance + args[1], last)}
        if name == "balance":
            return f"cents {balance}", {}
        order = None if last is None else row((3, last))
        if order is None or order[2]:
            return "nothingopen", {}
        if order[1] > balance:
            return "poor", {}
        return f"settled {order[1]}", {(1, args[0]): (balance - order[1], last), (3, last): (order[0], order[1], True)}

    @staticmethod
    def run_item(name, args, item):
        if name == "additem":
            if args[1] > MOST_PIECES or args[2] > MOST_CENTS:
                return "limit", {}
            return ("exists", {}) if item else ("done", {(2, args[0]): (args[1], args[2])})
        if item is None:
            return "noitem", {}
        if item[0] + args[1] > MOST_PIECES:
            return "limit", {}
        return "done", {(2, args[0]): (item[0] + args[1], item[1])}

    @staticmethod
    def run_order(args, customer, row):
        number, lines = args[1:]
        if row((3, number)):
            return "orderexists", {}
        total, written = 0, {}
        for item, pieces in lines:
            found = row((2, item))
            if found is None:
                return "noitem", {}
            if found[0] < pieces:
                return "short", {}
            total += pieces * found[1]
            written[2, item] = (found[0] - pieces, found[1])
        if total > MOST_CENTS:
            return "limit", {}
        return f"ordered {total}", {**written, (3, number): (args[0], total, False), (1, args[0]): (customer[0], number)}


def name_of(txn):
    return txn["client"], txn["number"]


class Once:
    """Stock, with each request's name once: rows are those of Stock and, in table 4, the replies that are kept."""

    @staticmethod
    def kept_key(txn):
        """The key of the kept reply."""
        client, number = name_of(txn)
        return 4, client * 2**32 + number

    @staticmethod
    def needs(txn, row):
        return tuple(sorted({*keys, Once.kept_key(txn)}) for keys in Stock.needs(txn, row))

    @staticmethod
    def run(txn, row):
        key = Once.kept_key(txn)
        kept = row(key)
        if kept is not None:
            return kept, {}
        answer, written = Stock.run(txn, row)
        return answer, {**written, key: answer}


APPS = {"kv": Kv, "stock": Stock, "once": Once}
MOST_KEYS = 16


class BadScript(Exception):
    """A script is refused with 91."""


def is_woven(woven_from, epoch):
    return woven_from is not None and woven_from <= epoch


def in_order(batches, woven):
    """The requests of an epoch's batches, which are listed by ascending group: batch after batch, or woven, by number in the
    batch and then by group."""
    placed = [(n, group, txn) for group, batch in enumerate(batches) for n, txn in enumerate(batch)]
    return [txn for _, _, txn in (sorted(placed, key=lambda it: it[:2]) if woven else placed)]


MOST_LOOKS = 16


def declared_kind(txn):
    """Which of its declared sets name the key of its kept reply, and how many keys they then have: what is counted of a
    request of `once` that declares sets."""
    if not txn["reads"] + txn["writes"]:
        return "no key declared"
    kept = list(Once.kept_key(txn))
    named = {name: kept in map(list, txn[name]) for name in ("reads", "writes")}
    full = [is_named for name, is_named in named.items() if len(txn[name]) + (not is_named) == MOST_KEYS]
    if full:
        return "sixteen keys, the kept one named" if all(full) else "sixteen keys, the kept one added"
    return "kept key named" if all(named.values()) else "kept key named in one set" if any(named.values()) else "kept key added"


# What comes up where each name has its effect once, of names that come again and of declared sets.
REPEATS = {"told again", "told again for another operation", "changed after its reply", "answered after changed"}
DECLARED = {
    "kept key named: answered", "kept key named: changed", "kept key added: answered", "kept key added: changed",
    "kept key named in one set: answered", "no key declared: changed", "sixteen keys, the kept one named: changed",
    "sixteen keys, the kept one added: changed", "seventeen keys",
}  # fmt: skip


class Repeats:
    """Counts what comes up where each name has its effect once."""

    def __init__(self):
        self.answered, self.changed = {}, set()

    def kinds(self, txn, answer):
        """What is counted of the next request, whose answer is this one."""
        name, is_changed = name_of(txn), answer == "changed"
        if name in self.answered:
            same = txn["op"] == self.answered[name]
            yield "changed after its reply" if is_changed else "told again" if same else "told again for another operation"
        elif name in self.changed and not is_changed:
            yield "answered after changed"
        if "reads" in txn:
            yield f"{declared_kind(txn)}: {'changed' if is_changed else 'answered'}"
        if is_changed:
            self.changed.add(name)
        else:
            self.answered.setdefault(name, txn["op"])


class Run:
    """The serial run of a script, one request after another; where it scouts, with `--scout`."""

    def __init__(self, app, scouts=False):
        self.app = APPS[app]
        self.scouts = scouts
        self.rows = {}
        self.rows_before = {}
        self.repeats = Repeats()
        self.counts = collections.Counter()

    def begin_epoch(self):
        """Keeps the rows as they stand before the epoch that begins."""
        self.rows_before = dict(self.rows)

    def first_sets(self, txn):
        """The sets where no row is known."""
        return self.app.needs(txn, lambda key: None)

    def sets(self, txn):
        """The sets of the rows as they are now."""
        return self.app.needs(txn, self.rows.get)

    def scouted_sets(self, txn):
        """The sets that are found over the rows before the epoch."""
        sets = self.first_sets(txn)
        for _ in range(MOST_LOOKS):
            seen = {key: self.rows_before[key] for key in sets[0] if key in self.rows_before}
            more = self.app.needs(txn, seen.get)
            if more == sets:
                return sets
            sets = more
        raise ValueError(f"72 Unsettled: {txn}")

    def answer(self, txn):
        reads, writes = self.declared(txn)

        def seen(key):
            return self.rows.get(key) if key in reads else None

        if self.app.needs(txn, seen) != (reads, writes):
            return "changed"
        answer, written = self.app.run(txn, seen)
        self.rows.update(written)
        return answer

    def declared(self, txn):
        """The sets that a request has."""
        if "reads" not in txn:
            return self.scouted_sets(txn) if self.scouts else self.first_sets(txn)
        added = {Once.kept_key(txn)} if self.app is Once else set()
        sets = tuple(sorted(added.union(map(tuple, txn[name]))) for name in ("reads", "writes"))
        if any(len(keys) > MOST_KEYS for keys in sets):
            raise BadScript(f"a set has more than {MOST_KEYS} keys: {txn}")
        return sets

    def is_found(self, txn):
        """Whether its sets are others than the first ones because they were scouted."""
        return "reads" not in txn and self.declared(txn) != self.first_sets(txn)

    def epoch(self, number, batches, woven):
        """The lines of an epoch."""
        self.begin_epoch()
        listed = sorted(batches, key=lambda batch: batch["group"])
        for n, txn in enumerate(in_order([batch["txns"] for batch in listed], woven)):
            answer = self.answer(txn)
            word = answer.split(" ", maxsplit=1)[0]
            self.counts[f"scouted {word}" if self.is_found(txn) else word] += 1
            if self.app is Once:
                self.counts.update(self.repeats.kinds(txn, answer))
            yield f"{number}.{n} {txn['client']}:{txn['number']} {answer}\n"


def text_of(script, scouts=False):
    """What the program has to print for a script of the right form, with `--scout` where it scouts."""
    run, woven_from = Run(script["app"], scouts), script.get("woven_from")
    epochs = enumerate(script["epochs"])
    lines = [line for number, batches in epochs for line in run.epoch(number, batches, is_woven(woven_from, number))]
    last = len(script["epochs"]) - 1
    return "".join(lines) + (f"finished {last}\n" if last >= 0 else "finished none\n"), run.counts


def ending_of(script, scouts=False):
    """The status, what is on standard output and on standard error, and what came up."""
    try:
        text, counts = text_of(script, scouts)
    except BadScript:
        return (2, "", "calvin: 91 BadScript\n"), collections.Counter(["seventeen keys"])
    return (0, text, ""), counts
