"""Draws small scripts of epochs and of events that have every form, with numbers at their limits: what a script may be, whether
or not much comes of it."""

import plain_serial
from plain_endings import explain_script


def drawn_key(draw):
    return [draw.choice([0, 0, 0, 1, 255]), draw.randrange(6)]


def drawn_set(draw, most):
    keys = []
    for _ in range(draw.randrange(most)):
        key = drawn_key(draw)
        if key not in keys:
            keys.append(key)
    return keys


def drawn_stock_operation(draw):
    kind = draw.randrange(7)
    if kind == 0:
        return ["additem", draw.randrange(9), draw.randrange(9), draw.choice([0, 7, 10**15 + 1])]
    if kind < 3:
        lines = [[item, draw.choice([0, 1, 1, 2, 10**9, 10**9 + 1])] for item in draw.sample(range(9), draw.randrange(6))]
        return ["order", draw.randrange(9), draw.randrange(9), lines]
    if kind < 5:
        return [draw.choice(["restock", "payin"]), draw.randrange(9), draw.randrange(9)]
    return [draw.choice(["open", "settle", "balance"]), draw.randrange(9)]


def drawn_operation(draw, app):
    if app != "kv":
        return drawn_stock_operation(draw)
    kind = draw.randrange(5)
    if kind == 0:
        return ["put", draw.randrange(9), draw.choice([0, 5, 2**64 - 1])]
    if kind == 1:
        return ["get", draw.sample(range(30), draw.randrange(17))]
    if kind == 2:
        return ["move", draw.randrange(9), draw.randrange(9), draw.randrange(9)]
    if kind == 3:
        return ["follow", draw.randrange(9)]
    return ["add", draw.randrange(9), draw.randrange(9)]


def drawn_request(draw, app):
    request = {"client": draw.randrange(9), "number": draw.randrange(9), "op": drawn_operation(draw, app)}
    if draw.randrange(3) == 0:
        request["attempt"] = draw.randrange(1, 9)
    if draw.randrange(3) == 0:
        request["reads"] = drawn_set(draw, 5)
        request["writes"] = drawn_set(draw, 5)
        if app == "once" and draw.randrange(2) == 0:
            request[draw.choice(["reads", "writes"])] = wide_set(draw, list(plain_serial.Once.kept_key(request)))
    return request


def wide_set(draw, kept):
    """Fifteen keys or sixteen, of which the one of the kept reply may be one."""
    others = [[table, number] for table in (0, 1, 4, 255) for number in range(6)]
    keys = draw.sample([key for key in others if key != kept], draw.choice([15, 16]))
    return keys if draw.randrange(2) else [*keys[1:], kept]


def with_weave(draw, script):
    return {**script, "woven_from": draw.choice([0, 1, 2**48 - 1])} if draw.randrange(3) == 0 else script


APPS = ["kv", "kv", "stock", "once"]


def drawn_script(draw, apps=APPS):
    partitions = draw.randrange(1, 17)
    app = draw.choice(apps)
    epochs = []
    for _ in range(draw.randrange(4)):
        groups = draw.sample(range(partitions), draw.randrange(min(partitions, 3) + 1))
        epochs.append([{"group": g, "txns": [drawn_request(draw, app) for _ in range(draw.randrange(4))]} for g in groups])
    return with_weave(draw, {"partitions": partitions, "app": app, "epochs": epochs})


# the greatest number of each kind that an event has
GREATEST = {"e": 2**48 - 1, "n": 2**32 - 1, "k": 2**64 - 1}


def drawn_part(draw, app, part):
    if part == "KEY":
        return [draw.choice([0, 1, 255]), draw.choice([0, 1, 2**64 - 1])]
    if part != "TXN":
        return draw.choice([0, 0, 1, 2, GREATEST.get(part, 255)])
    request = drawn_request(draw, app)
    if draw.randrange(4) == 0:
        request["attempt"] = draw.choice([0, 9, 255])
    if draw.randrange(4) == 0:
        request["reads"], request["writes"] = [], []
    return request


def drawn_event(draw, app):
    name = draw.choice(["submit", "cool", *explain_script.EVENTS])
    return [name, *(drawn_part(draw, app, part) for part in explain_script.EVENTS[name].split())]


def drawn_script_of_events(draw, apps=APPS):
    app = draw.choice(apps)
    events = [drawn_event(draw, app) for _ in range(draw.randrange(12))]
    script = {"partitions": draw.randrange(1, 17), "replicas": draw.randrange(1, 8), "app": app, "events": events}
    if draw.randrange(3) == 0:
        script["expect"] = draw.choice([[], ["finished none"], ["0.0 7:1 done", "finished 0"]])
    if draw.randrange(3) == 0:
        script["delay"] = draw.choice([0, 1, 16])
    return with_weave(draw, script)
