"""Draws scripts of epochs of every application. Requests declare no sets, the sets that they need then, or sets that are stale
or wrong in some other way; keys are few and numbers are often at their limits, so that every answer comes. Half of the scripts
weave nothing; of the others most weave some of their epochs.

Of `once` a third of the requests have a name that came before, with the same or another operation. Sets that are declared name
the key of the kept reply, in both or in one, or don't, and some have sixteen keys with it. One script in twelve has a set that
would have seventeen."""

import plain_serial

KEYS = 5


def drawn_number(draw):
    return draw.choice([0, 1, 2, 3, 4, 5, draw.randrange(20), 2**64 - 2, 2**64 - 1])


def drawn_kv(draw):
    key = draw.randrange(KEYS)
    kind = draw.randrange(9)
    if kind < 3:
        return ["put", key, drawn_number(draw)]
    if kind == 3:
        return ["get", draw.sample(range(KEYS + 12), draw.randrange(1, 17))]
    if kind == 4:
        return ["add", key, drawn_number(draw)]
    if kind < 7:
        return ["move", key, draw.randrange(KEYS), drawn_number(draw)]
    return ["follow", key]


def drawn_stock(draw):
    key, kind = draw.randrange(3), draw.randrange(20)
    pieces = draw.choice([0, 1, 2, 3, 5, 50, 50, 50, 10**9 - 1, 10**9, 10**9 + 1])
    if kind < 3:
        return ["additem", draw.randrange(3), pieces, draw.choice([0, 1, 2, 7, 7, 10**6, 10**15, 10**15 + 1, 2**64 - 1])]
    if kind == 3:
        return ["restock", draw.randrange(4), draw.choice([pieces, 2**64 - 1])]
    if kind < 7:
        return ["open", key]
    if kind < 10:
        return ["payin", key, draw.choice([0, 1, 5, 100, 100, 10**6, 10**15, 2**64 - 1])]
    if kind < 15:
        items = draw.sample(range(4), draw.choice([1, 1, 1, 2, 3, 4]))
        return ["order", key, draw.randrange(6), [[item, draw.choice([1, 1, 2, 3, 10**9])] for item in items]]
    return ["settle" if kind < 18 else "balance", key]


OPERATIONS = {"kv": drawn_kv, "stock": drawn_stock, "once": drawn_stock}
MOST_REQUESTS = {"kv": 6, "stock": 20, "once": 20}
TABLES = {"kv": [0, 1, 2, 3, 255], "stock": [0, 1, 2, 3, 255], "once": [0, 1, 2, 3, 4, 255]}


def other_sets(draw, app, sets):
    """Sets that differ from these in a key that is missing, superfluous or in the other set."""
    reads, writes = ([list(key) for key in keys] for keys in sets)
    one = draw.choice([reads, writes])
    what = draw.randrange(3)
    if what == 0 and one:
        one.remove(draw.choice(one))
    elif what == 1:
        key = [draw.choice(TABLES[app]), draw.randrange(KEYS)]
        if key not in one and len(one) < 16:
            one.append(key)
    else:
        reads, writes = writes, reads
    return reads, writes


def drawn_dependent(draw, app):
    """An operation whose sets depend on rows."""
    return ["follow", draw.randrange(KEYS)] if app == "kv" else ["settle", draw.randrange(3)]


# ---- names that come again, and the keys of their replies


def renamed(draw, asked, txn):
    """The request under a name of its own, or under that of one that was asked, mostly with that one's operation. Client 0 has
    some numbers that others declare by mistake."""
    if asked and draw.randrange(3) == 0:
        before = draw.choice(asked)
        op = before["op"] if draw.randrange(4) else txn["op"]
        return {**txn, "client": before["client"], "number": before["number"], "op": op}
    client, number = draw.choice([0, 0, 1, 2**32 - 1, draw.randrange(2**32)]), len(asked)
    return {**txn, "client": client, "number": draw.choice([number] * 9 + [2**32 - 1])}


def with_kept_key(draw, txn, sets):
    """The sets with the key of the request's kept reply, or without it in both or in one; now and then no key at all, or so many
    that there are sixteen with it."""
    kept, kind = list(plain_serial.Once.kept_key(txn)), draw.randrange(16)
    if kind == 0:
        return [], []
    without = [[key for key in map(list, keys) if key != kept] for keys in sets]
    if kind < 3:
        one = draw.randrange(2)
        without[one] = filled(draw, without[one], kept, 15)
    named = draw.choice([(True, True), (True, True), (False, False), (False, False), (True, False), (False, True)])
    return [keys + [kept] * is_named for keys, is_named in zip(without, named)]


def filled(draw, keys, kept, count):
    """So many keys, these among them, without the kept one."""
    more = [key for key in ([table, number] for table in TABLES["once"] for number in range(KEYS)) if key not in [*keys, kept]]
    return keys + draw.sample(more, count - len(keys))


def with_seventeenth_key(draw, txn):
    """The request with a set of sixteen keys without the one of its kept reply."""
    sets = [filled(draw, [], list(plain_serial.Once.kept_key(txn)), 16), []]
    draw.shuffle(sets)
    return {**txn, "reads": sets[0], "writes": sets[1]}


# ---- scripts


def drawn_txn(draw, app, run, number, asked):
    op = drawn_dependent(draw, app) if run.scouts and draw.randrange(6) == 0 else OPERATIONS[app](draw)
    txn = {"client": draw.randrange(2**32), "number": number, "op": op}
    if app == "once":
        txn = renamed(draw, asked, txn)
    if draw.randrange(4) == 0:
        txn["attempt"] = draw.randrange(1, 9)
    kind = draw.randrange(12 if run.scouts else 5)
    if kind < 3:
        sets = run.first_sets(txn) if kind == 2 else run.sets(txn)
        reads, writes = sets if draw.randrange(4) else other_sets(draw, app, sets)
        if app == "once":
            reads, writes = with_kept_key(draw, txn, (reads, writes))
        if reads or writes or app == "once":
            txn["reads"], txn["writes"] = ([list(key) for key in draw.sample(keys, len(keys))] for keys in (reads, writes))
    return txn


def with_weave(draw, script, epochs):
    """The script, in half of the cases with a first woven epoch: one of the first so many, the next one or a late one."""
    if draw.randrange(2):
        return script
    return {**script, "woven_from": draw.choice([0, 0, 1, draw.randrange(epochs + 1), 2**48 - 1])}


def drawn_epoch(draw, run, groups, script, asked):
    """The batches of the script's next epoch, whose requests are drawn and answered in its order."""
    app, woven = script["app"], plain_serial.is_woven(script.get("woven_from"), len(script["epochs"]))
    run.begin_epoch()
    batches = [[None] * draw.randrange(MOST_REQUESTS[app]) for _ in groups]
    places = [[(batch, n) for n in range(len(batch))] for batch in batches]
    for batch, n in plain_serial.in_order(places, woven):
        batch[n] = drawn_txn(draw, app, run, n, asked)
        asked.append(batch[n])
        run.answer(batch[n])
    return [{"group": group, "txns": batch} for group, batch in zip(groups, batches)]


def drawn_script(draw, app, scouts, partitions=None):
    """A script of so many partitions, or of 1 to 16, whose rows are kept along, so that requests can declare the sets that they
    need."""
    partitions, run, asked = partitions or draw.randrange(1, 17), plain_serial.Run(app, scouts), []
    wanted = draw.randrange(2, 7) if scouts else draw.randrange(1, 5)
    script = {**with_weave(draw, {"partitions": partitions, "app": app}, wanted), "epochs": []}
    for _ in range(wanted):
        groups = sorted(draw.sample(range(partitions), min(partitions, draw.randrange(1, 4))))
        batches = drawn_epoch(draw, run, groups, script, asked)
        draw.shuffle(batches)
        script["epochs"].append(batches)
    if app == "once" and asked and draw.randrange(12) == 0:
        one = draw.choice(asked)
        one |= with_seventeenth_key(draw, one)
    return script
