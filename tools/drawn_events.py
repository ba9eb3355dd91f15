"""Draws lists of events for `calvin check`, with what has to be printed for them, and how they are written.

Events are drawn while a plain world runs along, most of them such as can take effect; in half of the lists most that are
refused are left out, so that more comes about. Half have points, half cold rows and a delay, and half `woven_from`. A quarter
are of `once`: many of their requests have a name that came before, and some of these lists are refused for a set that would have
a seventeenth key. Every other list says which answers it expects: half of these expect the right ones, and half differ in a
line."""

import json

import plain_serial
import plain_world
from drawn_scripts import other_sets, with_kept_key, with_seventeenth_key

KEYS = 6


def drawn_operation(draw, app):
    if app != "kv":
        u = draw.randrange(3)
        return draw.choice([
            ["open", u], ["open", u], ["payin", u, draw.choice([5, 100])], ["additem", u, 50, draw.choice([1, 7])],
            ["order", u, draw.randrange(4), [[draw.randrange(3), draw.randint(1, 3)]]], ["settle", u], ["balance", u],
        ])  # fmt: skip
    key, other = draw.randrange(KEYS), draw.randrange(KEYS)
    return draw.choice([
        ["put", key, other], ["get", draw.sample(range(KEYS), draw.randint(0, 3))], ["add", key, other],
        ["move", key, other, draw.randint(0, 2)], ["follow", key],
    ])  # fmt: skip


def drawn_txn(draw, world, app, number, asked):
    txn = drawn_once(draw, world, number, asked) if app == "once" else drawn_plain(draw, app, number)
    asked.append(txn)
    return txn


def drawn_once(draw, world, number, asked):
    """A request of `once`: of two in five the name came before, mostly with the same operation, and two in five declare sets,
    mostly those that the rows of replica 0 show."""
    before = draw.choice(asked) if asked and draw.random() < 0.4 else None
    client, number = (before["client"], before["number"]) if before else (draw.choice([0, 7, 2**32 - 1]), number)
    op = before["op"] if before and draw.random() < 0.7 else drawn_operation(draw, "once")
    txn = {"client": client, "number": number, "op": op}
    if draw.random() < 0.2:
        txn["attempt"] = draw.choice([0, 1, 2, 8, 9])
    if draw.random() < 0.4:
        rows = {key: row for (r, _), node in world.nodes.items() if r == 0 for key, row in node.rows.items()}
        sets = plain_serial.Once.needs(txn, rows.get)
        sets = with_kept_key(draw, txn, sets if draw.random() < 0.8 else other_sets(draw, "once", sets))
        txn["reads"], txn["writes"] = ([list(key) for key in keys] for keys in sets)
    return txn


def drawn_plain(draw, app, number):
    txn = {"client": 7, "number": number if draw.random() < 0.9 else draw.randint(1, number), "op": drawn_operation(draw, app)}
    if draw.random() < 0.2:
        txn["attempt"] = draw.choice([0, 1, 2, 8, 9])
    if draw.random() < 0.2:
        for name in ("reads", "writes"):
            keys = draw.sample(range(KEYS), draw.randint(0, 3))
            txn[name] = [[draw.choice([0, 0, 0, 1]), key] for key in keys]
    return txn


def drawn_place(draw, node):
    """A place, mostly one that is admitted or begun at the node."""
    places = [place for place in node.order if node.state.get(place) in ("admitted", "begun")]
    if places and draw.random() < 0.8:
        return draw.choice(places[:4])
    if node.order and draw.random() < 0.3:
        return draw.choice(list(node.order))
    return max(node.merged - draw.randint(0, 2), 0), draw.randint(0, 3)


def drawn_epoch(draw, node):
    """An epoch, mostly the least that is closed at the node and undecided."""
    undecided = [epoch for epoch in node.closed if epoch not in node.decided]
    return min(undecided) if undecided and draw.random() < 0.8 else draw.choice(list(node.closed or [0]))


class Past:
    """The requests that were drawn, and how many packets came in turn."""

    def __init__(self):
        self.asked, self.next = [], 0

    def packet(self, draw, packets):
        """The number of a packet: mostly the next one in turn or a late one, once in a while one that isn't there."""
        kind = draw.random()
        if kind < 0.8 and self.next < packets:
            self.next += 1
            return self.next - 1
        if kind < 0.95 and packets:
            return packets - 1 - draw.randrange(min(packets, 20))
        return draw.randrange(packets + 1)


def drawn_end(draw, world, node):
    """An epoch at whose end a snapshot may be taken, or a point opened."""
    return draw.choice([world.stands_at(node) or 0, max(node.merged - 1, 0), draw.randint(0, 3)])


def drawn_snapshot(draw, world, node):
    """The same, and where a point is open, once a later request is done mostly that one's epoch."""
    if not node.point:
        return drawn_end(draw, world, node)
    late = any(place[0] > node.point[0] for place, state in node.state.items() if state == "done")
    return node.point[0] if draw.random() < (0.9 if late else 0.3) else drawn_end(draw, world, node)


def drawn_row(draw, node):
    """A key, mostly one that has a row at the node."""
    keys = sorted(node.rows)
    return list(draw.choice(keys)) if keys and draw.random() < 0.9 else [draw.randint(0, 3), draw.randrange(KEYS)]


def drawn_event(draw, world, app, number, shares, past):
    at = draw.choice(list(world.nodes)) if draw.random() < 0.3 else (0, draw.randrange(world.partitions))
    node, place = world.nodes[at], drawn_place(draw, world.nodes[at])
    restarts, marks, colds = shares
    kinds = {
        "submit": (8, lambda: [*at, drawn_txn(draw, world, app, number, past.asked)]),
        "close": (2, lambda: at),
        "propose": (3, lambda: [*at, drawn_epoch(draw, node)]),
        "deliver": (45, lambda: [past.packet(draw, len(world.packets))]),
        "merge": (7, lambda: at),
        "lock": (10, lambda: at),
        "begin": (14, lambda: [*at, *place]),
        "finish": (14, lambda: [*at, *place]),
        "snapshot": (1 if node.point else 2, lambda: [*at, drawn_snapshot(draw, world, node)]),
        "mark": (marks, lambda: [*at, drawn_end(draw, world, node)]),
        "submitcold": (colds, lambda: [*at, drawn_txn(draw, world, app, number, past.asked)]),
        "cool": (colds, lambda: [*at, drawn_row(draw, node)]),
        "askreads": (2, lambda: [*at, *place, draw.randint(0, world.replicas)]),
        "askbatch": (2, lambda: [
            *at, node.merged + draw.randint(0, 1), draw.randint(0, world.partitions),
            draw.randrange(world.replicas), draw.randrange(world.partitions + (draw.random() < 0.1)),
        ]),
        "restart": (restarts, lambda: at),
    }  # fmt: skip
    name = draw.choices(list(kinds), [weight for weight, _ in kinds.values()])[0]
    event = [name, *kinds[name][1]()]
    if name in ("submit", "close", "mark", "submitcold", "cool") and draw.random() < 0.02:
        event[2] = world.partitions
    return event


def kinds_of(world, event):
    """What an event counts as: its name, and where it is one of them a kind of its own."""
    name, *numbers = event
    yield name
    node = world.nodes.get(tuple(numbers[:2]))
    if name == "deliver" and numbers[0] < len(world.packets):
        _, to, says = world.packets[numbers[0]]
        if says[0] == "warm" and world.nodes[to].cold.intersection(says[1]):
            yield "deliver of cold rows"
    elif name == "restart" and node.held_back:
        yield "restart of held-back requests"
    elif name == "merge" and world.weaves_next(node):
        yield "woven merge"
    elif name == "cool" and numbers[2][0] == 4 and node:
        yield "cool of a kept reply"
    elif name in ("submit", "submitcold") and world.app is plain_serial.Once and "reads" in numbers[2]:
        yield f"submit with {plain_serial.declared_kind(numbers[2])}"
    if name in ("snapshot", "finish", "restart") and node.point:
        marked = node.point[0]
        where = "of" if numbers[2:] == [marked] else "below" if name == "snapshot" and numbers[2] < marked else "above"
        yield f"snapshot {where} a point" if name == "snapshot" else f"{name} over a point"
        if name == "snapshot" and where == "of" and node.point[1] != node.rows:
            yield "snapshot of former rows"


def opened_script(draw, apps):
    """A script without events."""
    partitions, replicas = draw.choice([1, 1, 2, 2, 3]), draw.choice([1, 2, 3, 3, 5])
    script = {"partitions": partitions, "replicas": replicas, "app": draw.choice(apps), "events": []}
    delay, woven_from = draw.choice([0, 1, 1, 2, 3, 16]), draw.choice([0, 0, 1, 2, 2**48 - 1])
    return {**script, **draw.choice([{}, {"delay": delay}]), **draw.choice([{}, {"woven_from": woven_from}])}


def drawn_script(draw, counts, apps=("kv", "kv", "stock", "once"), lengths=(100, 400, 1000)):
    """A script of events, and what has to be printed for it."""
    script, told = opened_script(draw, apps), []
    world, app, events = plain_world.opened(script), script["app"], script["events"]
    shares, past = (draw.choice([0, 0.2, 1]), draw.choice([0, 2]), 4 if "delay" in script else 0), Past()
    left_out = draw.choice([0, 4])
    for number in range(draw.choice(lengths)):
        for left in range(left_out, -1, -1):
            event = drawn_event(draw, world, app, number + 1, shares, past)
            kinds = list(kinds_of(world, event))
            end = next(plain_world.outcomes(world, app, [event])).split(" ", 1)[1]
            if end == "ok" or not left:
                break
        events.append(event)
        counts.update((kind, end.split()[-1]) for kind in kinds)
        told.append(f"{number} {end}")
    if app == "once":
        counts.update((f"reply {kind}", "ok") for kind in repeats(world))
    nodes, answers = plain_world.ending(world)
    return script, [*told, *nodes, *answers], answers


def repeats(world):
    """The kinds of repeats among the requests that were answered."""
    found = plain_serial.Repeats()
    for _, (txn, answer) in plain_world.replies(world):
        yield from found.kinds({name: txn[name] for name in ("client", "number", "op")}, answer)


def with_ending(draw, counts, script, lines, answers):
    """The script, some with the answers that they expect, and some of `once` with a set that would have a seventeenth key; the
    status that it has to end with, and what has to be printed."""
    submits = [event for event in script["events"] if event[0] == "submit"]
    if script["app"] == "once" and submits and draw.randrange(8) == 0:
        submit = draw.choice(submits)
        submit[3] = with_seventeenth_key(draw, submit[3])
        counts["list with seventeen keys", "91"] += 1
        return script, 2, []
    script, status = with_expectation(draw, script, answers)
    return script, status, lines


def with_expectation(draw, script, answers):
    """The script, mostly with the answers that it expects; and the status that it has to end with."""
    kind = draw.randrange(4)
    if kind < 2:
        return script, 0
    expect = list(answers)
    if kind == 3:
        at = draw.randrange(len(expect))
        expect[at : at + 1] = draw.choice([[], [expect[at] + " "], [expect[at], expect[at]], [expect[at] + "\n"]])
    return {**script, "expect": expect}, 3 if kind == 3 else 0


def spelled(draw, counts, script):
    """The bytes of a script: its members in this order or in another, each s escaped, or its partitions given twice, first in a
    wrong form, with which it isn't read in the usual way."""
    way = draw.choice(["plain", "shuffled", "escaped", "doubled"])
    counts["spelling", way] += 1
    names = list(script)
    if way == "shuffled":
        draw.shuffle(names)
    text = json.dumps({name: script[name] for name in names}, indent=draw.choice([None, 1]))
    if way == "escaped":
        text = text.replace("s", "\\u0073")
    if way == "doubled":
        text = '{"partitions":null,' + text[1:]
    return text.encode()
