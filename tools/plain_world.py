"""A plain evaluation of lists of events: what `calvin check` has to print. Each event's case is said as literally as it can be,
over lists that are searched: no queue, no index, no hint."""

import plain_serial

MOST_QUEUED = 4096
MOST_BATCH = 256


class Refused(Exception):
    """An event is refused, with the number of the fault."""


def need(holds, number):
    if not holds:
        raise Refused(number)


def name_of(txn):
    return txn["client"], txn["number"], txn["attempt"]


class Node:
    """Partition p of replica r: its durable record, and the rest."""

    def __init__(self, r, p):
        self.r, self.p = r, p
        self.promises, self.votes, self.used, self.kept = {}, {}, 0, None
        self.lose()

    def lose(self):
        """Sets all but the durable record to what it is at first, over the last snapshot."""
        self.loaded = -1 if self.kept is None else self.kept[0]
        self.rows = {} if self.kept is None else dict(self.kept[1])
        self.seen, self.attempts, self.counted = 0, {}, set()
        self.queue, self.held_back, self.closed, self.decided = [], [], {}, set()
        self.held, self.merged, self.order, self.pending = {}, self.loaded + 1, {}, []
        self.state, self.served, self.came = {}, {}, {}
        self.point, self.cold = None, set()

    def next_epoch(self):
        epoch = self.loaded + 1
        while epoch in self.closed or epoch in self.decided:
            epoch += 1
        return epoch


class World:
    """All nodes, and every packet that was ever sent: its sender, whom it is for (None: a client), and what it says."""

    def __init__(self, app, partitions, replicas, delay=0, woven_from=None):
        self.app, self.partitions, self.replicas = plain_serial.APPS[app], partitions, replicas
        self.delay, self.woven_from = delay, woven_from
        self.packets = []
        self.nodes = {(r, p): Node(r, p) for r in range(replicas) for p in range(partitions)}

    def local(self, keys, p):
        return [key for key in keys if key[1] % self.partitions == p]

    def participants(self, txn):
        return sorted({key[1] % self.partitions for key in txn["reads"] + txn["writes"]})

    def active(self, txn):
        return sorted({key[1] % self.partitions for key in txn["writes"]} | set(self.participants(txn)[:1]))

    def send(self, node, to, *says):
        self.packets.append(((node.r, node.p), to, says))

    def send_group(self, node, *says):
        for r in range(self.replicas):
            self.send(node, (r, node.p), *says)

    def node(self, r, p):
        need((r, p) in self.nodes, 60)
        return self.nodes[r, p]

    def step(self, event):
        """Lets an event happen, or raises Refused and changes nothing."""
        name, *numbers = event
        if name == "deliver":
            need(numbers[0] < len(self.packets), 61)
            self.deliver(*self.packets[numbers[0]])
        else:
            getattr(self, name)(self.node(*numbers[:2]), *numbers[2:])

    # ---- the sequencer

    def take(self, node, txn):
        """The sequencer takes the request, or refuses it."""
        undecided = sum(len(batch) for epoch, batch in node.closed.items() if epoch not in node.decided)
        need(len(node.queue) + len(node.held_back) + undecided < MOST_QUEUED, 30)
        need(txn["reads"] or txn["writes"], 31)
        need(1 <= txn["attempt"] <= 8, 32)

    def submit(self, node, txn):
        self.take(node, txn)
        node.queue.append(txn)

    def submitcold(self, node, txn):
        self.take(node, txn)
        node.held_back.append((txn, 0))
        self.join(node)
        for p in self.participants(txn):
            self.send(node, (node.r, p), "warm", self.local(txn["reads"] + txn["writes"], p))

    def join(self, node):
        """What was held back for long enough joins the queue's end."""
        node.queue += [txn for txn, closings in node.held_back if closings >= self.delay]
        node.held_back = [(txn, closings) for txn, closings in node.held_back if closings < self.delay]

    def close(self, node):
        node.closed[node.next_epoch()], node.queue = node.queue[:MOST_BATCH], node.queue[MOST_BATCH:]
        node.held_back = [(txn, closings + 1) for txn, closings in node.held_back]
        self.join(node)

    def hold(self, node, slot, batch):
        epoch, group = slot
        node.held[slot] = batch
        if group == node.p and epoch not in node.decided:
            node.decided.add(epoch)
            names = [name_of(txn) for txn in batch]
            node.queue = [txn for txn in node.closed.get(epoch, []) if name_of(txn) not in names] + node.queue

    # ---- the synods

    def propose(self, node, epoch):
        need(epoch in node.closed, 35)
        need((epoch, node.p) not in node.held, 36)
        node.used = max(node.used, node.seen) + 1
        node.attempts[epoch] = {"ballot": (node.used, node.r), "from": [], "votes": [], "accepts": False}
        self.send_group(node, "prepare", epoch, (node.used, node.r))

    def deliver(self, sender, to, says):
        need(to is not None, 52)
        kind, *rest = says
        getattr(self, f"on_{kind}")(self.nodes[to], sender, *rest)

    def majority(self):
        return self.replicas // 2 + 1

    def on_prepare(self, node, sender, epoch, ballot):
        if epoch in node.promises and node.promises[epoch] >= ballot:
            self.send(node, sender, "refused", node.promises[epoch])
        else:
            node.promises[epoch] = ballot
            self.send(node, sender, "promise", epoch, ballot, node.votes.get(epoch))

    def on_promise(self, node, sender, epoch, ballot, vote):
        attempt = node.attempts.get(epoch)
        need(attempt and attempt["ballot"] == ballot and not attempt["accepts"] and sender not in attempt["from"], 21)
        attempt["from"].append(sender)
        attempt["votes"] += [vote] if vote else []
        if len(attempt["from"]) == self.majority():
            attempt["accepts"] = True
            voted = max(attempt["votes"], key=lambda vote: vote[0], default=None)
            self.send_group(node, "accept", epoch, ballot, voted[1] if voted else node.closed[epoch])

    def on_accept(self, node, sender, epoch, ballot, batch):
        if epoch in node.promises and node.promises[epoch] > ballot:
            self.send(node, sender, "refused", node.promises[epoch])
        else:
            node.promises[epoch], node.votes[epoch] = ballot, (ballot, batch)
            self.send_group(node, "accepted", epoch, ballot, batch)

    def on_refused(self, node, _sender, promise):
        need(promise[0] > max(node.used, node.seen), 21)
        node.seen = promise[0]

    def on_accepted(self, node, sender, epoch, ballot, batch):
        vote, slot = (sender[0], epoch, ballot), (epoch, node.p)
        need(slot not in node.held and vote not in node.counted, 22)
        node.counted.add(vote)
        if len([it for it in node.counted if it[1:] == vote[1:]]) == self.majority():
            self.hold(node, slot, batch)
            for p in range(self.partitions):
                if p != node.p:
                    self.send(node, (node.r, p), "decided", slot, batch)

    def on_decided(self, node, _sender, slot, batch):
        need(slot not in node.held, 22)
        self.hold(node, slot, batch)

    def askbatch(self, node, epoch, group, r, p):
        self.node(r, p)
        need(group < self.partitions, 60)
        need((epoch, group) not in node.held, 22)
        self.send(node, (r, p), "ask_batch", (epoch, group))

    def on_ask_batch(self, node, sender, slot):
        need(slot in node.held, 23)
        self.send(node, sender, "decided", slot, node.held[slot])

    # ---- the scheduler

    def weaves_next(self, node):
        """Whether the requests of the node's next epoch come in another order than batch after batch."""
        batches = [node.held.get((node.merged, group), []) for group in range(self.partitions)]
        woven = plain_serial.is_woven(self.woven_from, node.merged)
        return plain_serial.in_order(batches, woven) != plain_serial.in_order(batches, False)

    def merge(self, node):
        epoch = node.merged
        need(all((epoch, group) in node.held for group in range(self.partitions)), 34)
        batches = [node.held[epoch, group] for group in range(self.partitions)]
        for n, txn in enumerate(plain_serial.in_order(batches, plain_serial.is_woven(self.woven_from, epoch))):
            node.order[epoch, n] = txn
            node.pending.append((epoch, n))
        node.merged += 1

    def lock(self, node):
        need(node.pending, 48)
        place = node.pending.pop(0)
        if node.p in self.participants(node.order[place]):
            node.state[place], node.came[place] = "admitted", {}

    def is_ready(self, node, place):
        txn = node.order[place]
        for q, state in node.state.items():
            other = node.order[q]
            for key in self.local(txn["reads"] + txn["writes"], node.p):
                conflict = key in other["writes"] or key in other["reads"] and key in txn["writes"]
                if q < place and state != "done" and conflict:
                    return False
        return True

    def begin(self, node, *place):
        need(place in node.state, 41)
        need(node.state[place] == "admitted", 42)
        need(self.is_ready(node, place), 41)
        txn = node.order[place]
        reads = self.local(txn["reads"], node.p)
        node.served[place] = {key: node.rows[key] for key in reads if key in node.rows}
        for p in self.active(txn):
            if reads and p != node.p:
                self.send(node, (node.r, p), "reads", place, node.served[place])
        node.state[place] = "begun" if node.p in self.active(txn) else "done"

    def awaited(self, node, place):
        """The partitions whose rows are still to come."""
        if node.state.get(place) not in ("admitted", "begun") or node.p not in self.active(node.order[place]):
            return []
        sources = {key[1] % self.partitions for key in node.order[place]["reads"]} - {node.p}
        return sorted(sources - set(node.came[place]))

    def on_reads(self, node, sender, place, rows):
        need(sender[1] in self.awaited(node, place), 43)
        node.came[place][sender[1]] = rows

    def askreads(self, node, epoch, n, r):
        need(r < self.replicas, 60)
        awaited = self.awaited(node, (epoch, n))
        need(awaited, 43)
        for p in awaited:
            self.send(node, (r, p), "ask_reads", (epoch, n))

    def on_ask_reads(self, node, sender, place):
        need(place in node.served and self.local(node.order[place]["reads"], node.p), 47)
        self.send(node, sender, "reads", place, node.served[place])

    def finish(self, node, *place):
        need(node.state.get(place) == "begun", 41)
        need(not self.awaited(node, place), 44)
        txn = node.order[place]
        view = dict(node.served[place])
        for rows in node.came[place].values():
            view |= rows
        answer = "changed"
        if self.app.needs(txn, view.get) == (txn["reads"], txn["writes"]):
            answer, written = self.app.run(txn, view.get)
            self.put(node, place, {key: row for key, row in written.items() if self.local([key], node.p)})
        node.state[place] = "done"
        self.send(node, None, "reply", place, txn, answer)

    # ---- rows

    def put(self, node, place, written):
        node.rows |= written
        node.cold -= set(written)
        if node.point and place[0] <= node.point[0]:
            node.point[1].update(written)

    def cool(self, node, key):
        need(node.point is None, 54)
        need(key in node.rows and key not in node.cold, 55)
        node.cold.add(key)

    def on_warm(self, node, _sender, keys):
        node.cold -= set(keys)

    # ---- snapshots

    def stands(self, node, epoch):
        return max(node.loaded, 0) <= epoch < node.merged and all(
            (place[0] <= epoch) == (node.state.get(place) == "done")
            for place, txn in node.order.items()
            if node.p in self.participants(txn)
        )

    def stands_at(self, node):
        return max((epoch for epoch in range(node.merged) if self.stands(node, epoch)), default=None)

    def mark(self, node, epoch):
        need(epoch >= node.loaded and all(place[0] <= epoch for place, state in node.state.items() if state == "done"), 53)
        need(node.point is None, 54)
        node.point = (epoch, dict(node.rows))

    def is_done_to(self, node, epoch):
        """Whether the epochs up to this one are merged, and their requests done here."""
        return epoch < node.merged and all(
            node.state.get(place) == "done"
            for place, txn in node.order.items()
            if place[0] <= epoch and node.p in self.participants(txn)
        )

    def snapshot(self, node, epoch):
        marked = node.point is not None and node.point[0] == epoch
        need(self.is_done_to(node, epoch) if marked else self.stands(node, epoch), 50)
        need(node.kept is None or node.kept[0] < epoch, 51)
        node.kept = (epoch, dict(node.point[1] if marked else node.rows))
        if node.point and node.point[0] <= epoch:
            node.point = None

    def restart(self, node):
        node.lose()


def whole(app, txn):
    """A request with its attempt and its sets."""
    reads, writes = plain_serial.Run(app).declared(txn)
    return {**txn, "attempt": txn.get("attempt", 1), "reads": reads, "writes": writes}


def taken(app, event):
    """The event of a line of a script."""
    if event[0] in ("submit", "submitcold"):
        return [*event[:3], whole(app, event[3])]
    return [*event[:3], tuple(event[3])] if event[0] == "cool" else event


def opened(script):
    """The world that a script is run on, before its first event."""
    return World(script["app"], script["partitions"], script["replicas"], script.get("delay", 0), script.get("woven_from"))


def replies(world):
    """The requests that were answered, with their places and answers, in their order."""
    found = {}
    for _, to, says in world.packets:
        if to is None:
            found.setdefault(says[1], says[2:])
    return sorted(found.items(), key=lambda it: it[0])


def ending(world):
    """The lines of the nodes, then those of the answers and the last line."""
    stands = {at: world.stands_at(node) for at, node in world.nodes.items()}
    nodes = [
        f"node {r}.{p} stands {'none' if stands[r, p] is None else stands[r, p]} rows {len(node.rows)}"
        for (r, p), node in world.nodes.items()
    ]
    answers = [f"{e}.{n} {txn['client']}:{txn['number']} {answer}" for (e, n), (txn, answer) in replies(world)]
    last = None if None in stands.values() else min(stands.values())
    return nodes, [*answers, f"finished {'none' if last is None else last}"]


def outcomes(world, app, events):
    for k, event in enumerate(events):
        try:
            world.step(taken(app, event))
            yield f"{k} ok"
        except Refused as refused:
            yield f"{k} refused {refused.args[0]}"


def lines_of(script):
    """What `calvin check` has to print for a script of the right form, and which of these lines it may expect."""
    world = opened(script)
    told = list(outcomes(world, script["app"], script["events"]))
    nodes, answers = ending(world)
    return told + nodes + answers, answers
