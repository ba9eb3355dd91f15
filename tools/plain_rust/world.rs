//! A plain native `sim` and `check` for the application `kv`: the whole world of
//! R x P nodes (sequencer, synod, merge, lock queues by key, phases, snapshots,
//! restarts) and the list of all packets ever sent, stepped event by event. No
//! proofs, std only, built to be fast: it is the anchor that the verified
//! commands are measured against (docs/SPEED.md). serial.rs beside it reads
//! JSON and prints.
//!
//! Build: rustc --edition 2021 -O -C target-cpu=x86-64-v2 world.rs
//!
//! world sim [--start N] [--steps N] [--replicas N] [--restarts] [--events]
//! world check
//!
//! --events               the events that were stepped, as a script of `check`
//! WORLD_LIMIT=bytes      another greatest script length than 1,048,576
//! WORLD_PHASES=1         times of the phases and counts on standard error

use std::collections::hash_map::{Entry as MapEntry, HashMap};
use std::collections::{BTreeMap, HashSet, VecDeque};
use std::hash::{BuildHasherDefault, Hash, Hasher};
use std::io::{Read, Write};
use std::ops::Range;
use std::process::ExitCode;
use std::rc::Rc;
use std::time::Instant;

#[allow(dead_code)]
#[path = "serial.rs"]
mod serial;

use serial::{ends_with, refusal, Fit, Folded, Op, Output, Reader, Rows, Script, Sets, Span, Unfit};

const SCRIPT_BYTES: u64 = 1_048_576;
const BATCH_REQUESTS: usize = 256;
const QUEUE_REQUESTS: usize = 4_096;
const EPOCHS: u64 = 1 << 48;
const PASSES: u32 = 64;
/// No batch, view, entry or packet.
const NONE: u32 = u32::MAX;

// ------------------------------------------------------------------- words

/// A key with its partition.
#[derive(Clone, Copy, PartialEq, Eq)]
struct Key {
    id: u64,
    table: u8,
    part: u8,
}

impl Hash for Key {
    #[inline]
    fn hash<H: Hasher>(&self, state: &mut H) {
        state.write_u64(self.id ^ u64::from(self.table) << 56);
    }
}

#[derive(Clone, Copy, PartialEq, Eq, PartialOrd, Ord)]
struct Place {
    epoch: u64,
    n: u32,
}

#[derive(Clone, Copy, PartialEq, Eq, PartialOrd, Ord)]
struct Ballot {
    round: u32,
    replica: u8,
}

/// As a script names a node: it need not be there.
#[derive(Clone, Copy)]
struct Id {
    replica: u8,
    partition: u8,
}

/// A request and what its declared sets say. `readers` are the partitions of
/// its read keys, `active` its active participants, one bit each.
struct Txn {
    client: u32,
    number: u32,
    attempt: u8,
    declared: bool,
    op: Op,
    reads: Span,
    writes: Span,
    readers: u16,
    active: u16,
}

/// The requests of a script and the pools that they point into.
struct Input {
    partitions: u8,
    replicas: u8,
    txns: Vec<Txn>,
    /// The participants of each request, one bit each.
    parts: Vec<u16>,
    keys: Vec<Key>,
    ids: Vec<u64>,
}

#[derive(Clone, Copy)]
enum Event {
    Deliver(u64),
    At(Id, Deed),
}

#[derive(Clone, Copy)]
enum Deed {
    Submit(u32),
    Close,
    Propose(u64),
    Merge,
    Lock,
    Begin(Place),
    Finish(Place),
    Snapshot(u64),
    AskReads(Place, u8),
    AskBatch(u64, u8, Id),
    Restart,
}

/// Values in the world's pool; a bit of `present` is off where there is no row.
#[derive(Clone, Copy)]
struct Values {
    start: u32,
    present: u16,
}

#[derive(Clone, Copy)]
enum Answer {
    Done,
    Short,
    Limit,
    Changed,
    Row(Option<u64>),
    Rows(Values, u8),
}

/// Batches and requests go by their numbers. A synod message's slot has the
/// group of its addressee.
#[derive(Clone, Copy)]
enum Message {
    Prepare { epoch: u64, ballot: Ballot },
    Promise { epoch: u64, ballot: Ballot, vote: Option<(Ballot, u32)> },
    Accept { epoch: u64, ballot: Ballot, batch: u32 },
    Refused { promise: Ballot },
    Accepted { epoch: u64, ballot: Ballot, batch: u32 },
    Decided { epoch: u64, group: u8, batch: u32 },
    AskBatch { epoch: u64, group: u8 },
    Reads { place: Place, rows: Values },
    AskReads { place: Place },
    Reply { place: Place, txn: u32, answer: Answer },
}

/// Nodes go by replica times partitions plus partition; a Reply has no addressee.
#[derive(Clone, Copy)]
struct Packet {
    from: u8,
    to: u8,
    message: Message,
}

/// None where the event takes effect, else the number of its refusal.
type Outcome = Result<(), u8>;

#[inline]
fn bit(partition: u8) -> u16 {
    1 << partition
}

/// The element of this epoch, in a list that grows as far as it is asked.
#[inline]
fn at<T: Default>(list: &mut Vec<T>, epoch: u64) -> &mut T {
    let index = epoch as usize;
    if list.len() <= index {
        list.resize_with(index + 1, T::default);
    }
    &mut list[index]
}

// ------------------------------------------------------------------- locks

type Queues = HashMap<Key, Queue, BuildHasherDefault<Folded>>;

/// The unreleased places of one key in their order, as a list through `entries`.
/// What is granted is a beginning of it: one exclusive entry or all shared ones.
struct Queue {
    head: u32,
    tail: u32,
}

struct Entry {
    job: u32,
    key: u32,
    before: u32,
    after: u32,
    exclusive: bool,
    granted: bool,
}

#[derive(Default)]
struct Locks {
    queues: Queues,
    entries: Vec<Entry>,
}

impl Locks {
    /// Joins the key's queue; is it granted at once?
    #[inline]
    fn request(&mut self, keys: &[Key], key: u32, job: u32, exclusive: bool) -> bool {
        let new = self.entries.len() as u32;
        let (before, granted) = match self.queues.entry(keys[key as usize]) {
            MapEntry::Vacant(slot) => {
                slot.insert(Queue { head: new, tail: new });
                (NONE, true)
            }
            MapEntry::Occupied(mut slot) => {
                let last = std::mem::replace(&mut slot.get_mut().tail, new);
                let tail = &mut self.entries[last as usize];
                tail.after = new;
                (last, !exclusive && !tail.exclusive && tail.granted)
            }
        };
        self.entries.push(Entry { job, key, before, after: NONE, exclusive, granted });
        granted
    }

    /// Leaves the queue; `grant` is told each job that is granted by that.
    #[inline]
    fn release(&mut self, keys: &[Key], entry: u32, mut grant: impl FnMut(u32)) {
        let Entry { key, before, after, .. } = self.entries[entry as usize];
        let MapEntry::Occupied(mut slot) = self.queues.entry(keys[key as usize]) else { return };
        if before == NONE && after == NONE {
            slot.remove();
            return;
        }
        match after {
            NONE => slot.get_mut().tail = before,
            _ => self.entries[after as usize].before = before,
        }
        match before {
            NONE => slot.get_mut().head = after,
            _ => self.entries[before as usize].after = after,
        }
        let mut next = slot.get().head;
        let first_shared = !self.entries[next as usize].exclusive;
        while next != NONE {
            let entry = &mut self.entries[next as usize];
            let joins = first_shared && !entry.exclusive || entry.before == NONE;
            if entry.granted || !joins {
                return;
            }
            entry.granted = true;
            grant(entry.job);
            next = entry.after;
        }
    }
}

// ------------------------------------------------------------------- nodes

#[derive(Clone, Copy, PartialEq, Eq)]
enum Status {
    /// Has no key here: it is passed over.
    Foreign,
    Waiting,
    Admitted,
    Begun,
    Done,
}

/// A place that this node has merged. `view` is where its rows stand in
/// `views`, one for each declared read, those of `present` being there.
struct Job {
    txn: u32,
    epoch: u32,
    view: u32,
    locks: u32,
    waits: u8,
    status: Status,
    came: u16,
    present: u16,
}

struct Attempt {
    ballot: Ballot,
    counted: u8,
    sent: bool,
    vote: Option<(Ballot, u32)>,
}

/// What an acceptor keeps of a slot of its group.
#[derive(Default)]
struct Seat {
    promise: Option<Ballot>,
    vote: Option<(Ballot, u32)>,
}

/// What one life of a node knows of a slot of its group.
#[derive(Default)]
struct Desk {
    closed: Option<u32>,
    decided: bool,
    attempt: Option<Attempt>,
    /// The replicas whose votes are counted, by ballot.
    votes: Vec<(Ballot, u8)>,
}

/// What a restart sets anew. Epochs from `first` on are this life's: `bases`
/// has the first job of each merged one, `undone` its requests to be done here.
#[derive(Default)]
struct Life {
    seen: u32,
    desks: Vec<Desk>,
    queue: VecDeque<u32>,
    undecided: usize,
    next_epoch: u64,
    held: Vec<Option<u32>>,
    first: u64,
    merged: u64,
    bases: Vec<u32>,
    undone: Vec<u32>,
    /// The first epoch with something undone, or `merged`.
    low: u64,
    /// One more than the greatest epoch with something done.
    high: u64,
    jobs: Vec<Job>,
    locked: usize,
    locks: Locks,
    rows: Rows<u64>,
    views: Vec<u64>,
    /// Hints for `sim`: jobs that came to be ready, and to be collected.
    ready: VecDeque<u32>,
    full: VecDeque<u32>,
}

struct Node {
    replica: u8,
    part: u8,
    seats: Vec<Seat>,
    used: u32,
    snapshot: Option<(u64, Rc<Rows<u64>>)>,
    life: Life,
}

impl Life {
    /// The job of a place of this life's merged epochs.
    #[inline]
    fn job(&self, place: Place) -> Option<usize> {
        let index = usize::try_from(place.epoch.checked_sub(self.first)?).ok()?;
        let base = *self.bases.get(index)? as usize;
        let end = self.bases.get(index + 1).map_or(self.jobs.len(), |&base| base as usize);
        Some(base + place.n as usize).filter(|&job| job < end)
    }

    fn place(&self, job: u32) -> Place {
        let epoch = self.first + u64::from(self.jobs[job as usize].epoch);
        let base = self.bases[self.jobs[job as usize].epoch as usize];
        Place { epoch, n: job - base }
    }

    #[inline]
    fn stands_at(&self) -> Option<u64> {
        if self.high <= self.low { self.low.checked_sub(1) } else { None }
    }

    /// Not only the greatest epoch: later ones may have nothing done here.
    fn stands(&self, epoch: u64) -> bool {
        epoch < self.low && epoch + 1 >= self.first && self.high <= epoch + 1
    }

    #[inline]
    fn pass_low(&mut self) {
        while self.low < self.merged && self.undone[(self.low - self.first) as usize] == 0 {
            self.low += 1;
        }
    }

    /// Releases the locks of a job, which is done by that.
    #[inline]
    fn end(&mut self, keys: &[Key], job: usize) {
        let Life { locks, jobs, ready, .. } = self;
        let mut entry = jobs[job].locks;
        while locks.entries.get(entry as usize).is_some_and(|entry| entry.job == job as u32) {
            locks.release(keys, entry, |granted| {
                let waits = &mut jobs[granted as usize].waits;
                *waits -= 1;
                if *waits == 0 {
                    ready.push_back(granted);
                }
            });
            entry += 1;
        }
        self.jobs[job].status = Status::Done;
        let epoch = self.jobs[job].epoch;
        self.undone[epoch as usize] -= 1;
        self.high = self.high.max(self.first + u64::from(epoch) + 1);
        self.pass_low();
    }

    /// Where the job's view stands.
    #[inline]
    fn view(&mut self, job: usize, len: usize) -> usize {
        if self.jobs[job].view == NONE {
            self.jobs[job].view = self.views.len() as u32;
            self.views.resize(self.views.len() + len, 0);
        }
        self.jobs[job].view as usize
    }
}

impl Node {
    #[inline]
    fn awaited(&self, txn: &Txn, job: &Job) -> u16 {
        let open = matches!(job.status, Status::Admitted | Status::Begun);
        if open && txn.active & bit(self.part) != 0 {
            txn.readers & !bit(self.part) & !job.came
        } else {
            0
        }
    }
}

// ------------------------------------------------------------------- world

struct World<'a> {
    input: &'a Input,
    majority: u32,
    nodes: Vec<Node>,
    packets: Vec<Packet>,
    batches: Vec<Vec<u32>>,
    values: Vec<u64>,
    stepped: u64,
    took_effect: u64,
    log: Option<Vec<Event>>,
}

impl<'a> World<'a> {
    fn new(input: &'a Input, logs: bool) -> World<'a> {
        let mut nodes = Vec::new();
        for replica in 0..input.replicas {
            for part in 0..input.partitions {
                let life = Life::default();
                nodes.push(Node { replica, part, seats: Vec::new(), used: 0, snapshot: None, life });
            }
        }
        World {
            input,
            majority: u32::from(input.replicas) / 2 + 1,
            nodes,
            packets: Vec::new(),
            batches: Vec::new(),
            values: Vec::new(),
            stepped: 0,
            took_effect: 0,
            log: logs.then(Vec::new),
        }
    }

    #[inline]
    fn number(&self, replica: u8, part: u8) -> u8 {
        replica * self.input.partitions + part
    }

    #[inline]
    fn node(&self, id: Id) -> Result<usize, u8> {
        if id.replica < self.input.replicas && id.partition < self.input.partitions {
            Ok(self.number(id.replica, id.partition) as usize)
        } else {
            Err(60)
        }
    }

    fn id(&self, node: usize) -> Id {
        Id { replica: self.nodes[node].replica, partition: self.nodes[node].part }
    }

    #[inline]
    fn send(&mut self, from: usize, to: u8, message: Message) {
        self.packets.push(Packet { from: from as u8, to, message });
    }

    fn send_group(&mut self, from: usize, message: Message) {
        let part = self.nodes[from].part;
        for replica in 0..self.input.replicas {
            self.send(from, self.number(replica, part), message);
        }
    }

    fn step(&mut self, event: Event) -> Outcome {
        if let Some(log) = &mut self.log {
            log.push(event);
        }
        self.stepped += 1;
        let outcome = match event {
            Event::Deliver(packet) => self.deliver(packet),
            Event::At(id, deed) => self.node(id).and_then(|node| self.act(node, deed)),
        };
        self.took_effect += u64::from(outcome.is_ok());
        outcome
    }

    #[inline]
    fn act(&mut self, node: usize, deed: Deed) -> Outcome {
        match deed {
            Deed::Submit(txn) => self.submit(node, txn),
            Deed::Close => self.close(node),
            Deed::Propose(epoch) => self.propose(node, epoch),
            Deed::Merge => self.merge(node),
            Deed::Lock => self.lock(node),
            Deed::Begin(place) => self.begin(node, place),
            Deed::Finish(place) => self.finish(node, place),
            Deed::Snapshot(epoch) => self.snapshot(node, epoch),
            Deed::AskReads(place, of) => self.ask_reads(node, place, of),
            Deed::AskBatch(epoch, group, of) => self.ask_batch(node, epoch, group, of),
            Deed::Restart => Ok(self.restart(node)),
        }
    }

    // ---- sequencer

    fn submit(&mut self, node: usize, txn: u32) -> Outcome {
        let request = &self.input.txns[txn as usize];
        let life = &mut self.nodes[node].life;
        if life.queue.len() + life.undecided >= QUEUE_REQUESTS {
            return Err(30);
        }
        if self.input.parts[txn as usize] == 0 {
            return Err(31);
        }
        if !(1..=8).contains(&request.attempt) {
            return Err(32);
        }
        life.queue.push_back(txn);
        Ok(())
    }

    fn close(&mut self, node: usize) -> Outcome {
        let life = &mut self.nodes[node].life;
        if life.next_epoch >= EPOCHS {
            return Err(33);
        }
        let taken = life.queue.len().min(BATCH_REQUESTS);
        at(&mut life.desks, life.next_epoch).closed = Some(self.batches.len() as u32);
        self.batches.push(life.queue.drain(..taken).collect());
        life.undecided += taken;
        life.next_epoch += 1;
        self.pass_known(node);
        Ok(())
    }

    /// The next epoch is neither closed here nor known as decided.
    fn pass_known(&mut self, node: usize) {
        let life = &mut self.nodes[node].life;
        while life
            .desks
            .get(life.next_epoch as usize)
            .is_some_and(|desk| desk.closed.is_some() || desk.decided)
        {
            life.next_epoch += 1;
        }
    }

    fn is_held(&self, node: usize, epoch: u64, group: u8) -> Option<u32> {
        let index = epoch * u64::from(self.input.partitions) + u64::from(group);
        self.nodes[node].life.held.get(index as usize).copied().flatten()
    }

    /// Holds a batch; of the own group's slot the sequencer is told.
    fn hold(&mut self, node: usize, epoch: u64, group: u8, batch: u32) {
        let index = epoch * u64::from(self.input.partitions) + u64::from(group);
        let life = &mut self.nodes[node].life;
        *at(&mut life.held, index) = Some(batch);
        if group != self.nodes[node].part {
            return;
        }
        let life = &mut self.nodes[node].life;
        let desk = at(&mut life.desks, epoch);
        if !std::mem::replace(&mut desk.decided, true) {
            if let Some(closed) = desk.closed {
                life.undecided -= self.batches[closed as usize].len();
                if closed != batch {
                    let name = |&txn: &u32| {
                        let txn = &self.input.txns[txn as usize];
                        (txn.client, txn.number, txn.attempt)
                    };
                    let decided: HashSet<_> =
                        self.batches[batch as usize].iter().map(name).collect();
                    for txn in self.batches[closed as usize].iter().rev() {
                        if !decided.contains(&name(txn)) {
                            life.queue.push_front(*txn);
                        }
                    }
                }
            }
            self.pass_known(node);
        }
    }

    // ---- synod

    fn propose(&mut self, node: usize, epoch: u64) -> Outcome {
        let (part, replica) = (self.nodes[node].part, self.nodes[node].replica);
        let round = self.nodes[node].used.max(self.nodes[node].life.seen);
        let round = round.checked_add(1).ok_or(20)?;
        let desk = self.nodes[node].life.desks.get(epoch as usize);
        desk.and_then(|desk| desk.closed).ok_or(35)?;
        if self.is_held(node, epoch, part).is_some() {
            return Err(36);
        }
        let ballot = Ballot { round, replica };
        self.nodes[node].used = round;
        self.nodes[node].life.desks[epoch as usize].attempt =
            Some(Attempt { ballot, counted: 0, sent: false, vote: None });
        self.send_group(node, Message::Prepare { epoch, ballot });
        Ok(())
    }

    fn prepare(&mut self, node: usize, from: u8, epoch: u64, ballot: Ballot) {
        let seat = at(&mut self.nodes[node].seats, epoch);
        let message = match seat.promise {
            Some(promise) if promise >= ballot => Message::Refused { promise },
            _ => {
                seat.promise = Some(ballot);
                Message::Promise { epoch, ballot, vote: seat.vote }
            }
        };
        self.send(node, from, message);
    }

    fn promised(
        &mut self,
        node: usize,
        from: u8,
        epoch: u64,
        ballot: Ballot,
        vote: Option<(Ballot, u32)>,
    ) -> Outcome {
        let sender = 1 << self.nodes[from as usize].replica;
        let desk = self.nodes[node].life.desks.get_mut(epoch as usize).ok_or(21)?;
        let attempt = desk.attempt.as_mut().ok_or(21)?;
        if attempt.ballot != ballot || attempt.sent || attempt.counted & sender != 0 {
            return Err(21);
        }
        attempt.counted |= sender;
        attempt.vote = attempt.vote.max(vote);
        if attempt.counted.count_ones() == self.majority {
            attempt.sent = true;
            if let Some(batch) = attempt.vote.map(|vote| vote.1).or(desk.closed) {
                self.send_group(node, Message::Accept { epoch, ballot, batch });
            }
        }
        Ok(())
    }

    fn accept(&mut self, node: usize, from: u8, epoch: u64, ballot: Ballot, batch: u32) {
        let seat = at(&mut self.nodes[node].seats, epoch);
        match seat.promise {
            Some(promise) if promise > ballot => {
                self.send(node, from, Message::Refused { promise });
            }
            _ => {
                *seat = Seat { promise: Some(ballot), vote: Some((ballot, batch)) };
                self.send_group(node, Message::Accepted { epoch, ballot, batch });
            }
        }
    }

    fn accepted(
        &mut self,
        node: usize,
        from: u8,
        epoch: u64,
        ballot: Ballot,
        batch: u32,
    ) -> Outcome {
        let (part, replica) = (self.nodes[node].part, self.nodes[node].replica);
        if self.is_held(node, epoch, part).is_some() {
            return Err(22);
        }
        let sender = 1 << self.nodes[from as usize].replica;
        let votes = &mut at(&mut self.nodes[node].life.desks, epoch).votes;
        let index = votes.iter().position(|votes| votes.0 == ballot).unwrap_or_else(|| {
            votes.push((ballot, 0));
            votes.len() - 1
        });
        let counted = &mut votes[index].1;
        if *counted & sender != 0 {
            return Err(22);
        }
        *counted |= sender;
        if counted.count_ones() == self.majority {
            self.hold(node, epoch, part, batch);
            for other in (0..self.input.partitions).filter(|&other| other != part) {
                let message = Message::Decided { epoch, group: part, batch };
                self.send(node, self.number(replica, other), message);
            }
        }
        Ok(())
    }

    fn deliver(&mut self, packet: u64) -> Outcome {
        let packet = usize::try_from(packet).ok().and_then(|packet| self.packets.get(packet));
        let &Packet { from, to, message } = packet.ok_or(61)?;
        let node = to as usize;
        match message {
            Message::Prepare { epoch, ballot } => self.prepare(node, from, epoch, ballot),
            Message::Promise { epoch, ballot, vote } => {
                return self.promised(node, from, epoch, ballot, vote);
            }
            Message::Accept { epoch, ballot, batch } => {
                self.accept(node, from, epoch, ballot, batch);
            }
            Message::Refused { promise } => {
                if promise.round <= self.nodes[node].used.max(self.nodes[node].life.seen) {
                    return Err(21);
                }
                self.nodes[node].life.seen = promise.round;
            }
            Message::Accepted { epoch, ballot, batch } => {
                return self.accepted(node, from, epoch, ballot, batch);
            }
            Message::Decided { epoch, group, batch } => {
                if self.is_held(node, epoch, group).is_some() {
                    return Err(22);
                }
                self.hold(node, epoch, group, batch);
            }
            Message::AskBatch { epoch, group } => {
                let batch = self.is_held(node, epoch, group).ok_or(23)?;
                self.send(node, from, Message::Decided { epoch, group, batch });
            }
            Message::Reads { place, rows } => return self.on_reads(node, from, place, rows),
            Message::AskReads { place } => return self.asked_reads(node, from, place),
            Message::Reply { .. } => return Err(52),
        }
        Ok(())
    }

    // ---- merge and scheduler

    fn can_merge(&self, node: usize) -> bool {
        let groups = self.input.partitions as usize;
        let start = self.nodes[node].life.merged as usize * groups;
        let held = self.nodes[node].life.held.get(start..start + groups);
        held.is_some_and(|held| held.iter().all(Option::is_some))
    }

    fn merge(&mut self, node: usize) -> Outcome {
        if !self.can_merge(node) {
            return Err(34);
        }
        let Node { part, life, .. } = &mut self.nodes[node];
        let epoch = (life.merged - life.first) as u32;
        let mut undone = 0;
        life.bases.push(life.jobs.len() as u32);
        for group in 0..self.input.partitions as usize {
            let index = life.merged as usize * self.input.partitions as usize + group;
            let batch = life.held[index].map_or(&[][..], |batch| &self.batches[batch as usize]);
            for &txn in batch {
                let here = self.input.parts[txn as usize] & bit(*part) != 0;
                undone += u32::from(here);
                life.jobs.push(Job {
                    txn,
                    epoch,
                    view: NONE,
                    locks: NONE,
                    waits: 0,
                    status: if here { Status::Waiting } else { Status::Foreign },
                    came: 0,
                    present: 0,
                });
            }
        }
        life.undone.push(undone);
        life.merged += 1;
        life.pass_low();
        Ok(())
    }

    fn lock(&mut self, node: usize) -> Outcome {
        let Node { part, life, .. } = &mut self.nodes[node];
        let Life { jobs, locks, ready, locked, .. } = life;
        let job = jobs.get_mut(*locked).ok_or(48)?;
        let number = *locked as u32;
        *locked += 1;
        if job.status == Status::Foreign {
            return Ok(());
        }
        let txn = &self.input.txns[job.txn as usize];
        job.status = Status::Admitted;
        job.locks = locks.entries.len() as u32;
        let keys = &self.input.keys[..];
        for key in txn.writes.range().filter(|&key| keys[key].part == *part) {
            job.waits += u8::from(!locks.request(keys, key as u32, number, true));
        }
        if txn.reads.start != txn.writes.start || txn.reads.end != txn.writes.end {
            let writes = txn.writes.of(keys);
            for key in txn.reads.range() {
                if keys[key].part == *part && !writes.contains(&keys[key]) {
                    job.waits += u8::from(!locks.request(keys, key as u32, number, false));
                }
            }
        }
        if job.waits == 0 {
            ready.push_back(number);
        }
        Ok(())
    }

    fn begin(&mut self, node: usize, place: Place) -> Outcome {
        let Node { replica, part, life, .. } = &mut self.nodes[node];
        let (replica, part) = (*replica, *part);
        let job = life.job(place).ok_or(41)?;
        match life.jobs[job].status {
            Status::Foreign | Status::Waiting => return Err(41),
            Status::Begun | Status::Done => return Err(42),
            Status::Admitted if life.jobs[job].waits > 0 => return Err(41),
            Status::Admitted => {}
        }
        let txn = &self.input.txns[life.jobs[job].txn as usize];
        let view = life.view(job, txn.reads.len());
        if txn.readers & bit(part) != 0 {
            for (index, key) in txn.reads.of(&self.input.keys).iter().enumerate() {
                if key.part == part && key.table == 0 {
                    if let Some(&row) = life.rows.get(&key.id) {
                        life.views[view + index] = row;
                        life.jobs[job].present |= 1 << index;
                    }
                }
            }
        }
        life.jobs[job].status = Status::Begun;
        if txn.active & bit(part) == 0 {
            life.end(&self.input.keys, job);
        } else if txn.readers & !bit(part) & !life.jobs[job].came == 0 {
            life.full.push_back(job as u32);
        }
        let others = txn.active & !bit(part);
        if txn.readers & bit(part) != 0 && others != 0 {
            let rows = self.served(node, job);
            for other in (0..self.input.partitions).filter(|&other| others & bit(other) != 0) {
                self.send(node, self.number(replica, other), Message::Reads { place, rows });
            }
        }
        Ok(())
    }

    /// The rows that this node read for a begun job, put into the pool.
    fn served(&mut self, node: usize, job: usize) -> Values {
        let Node { part, life, .. } = &self.nodes[node];
        let job = &life.jobs[job];
        let txn = &self.input.txns[job.txn as usize];
        let mut rows = Values { start: self.values.len() as u32, present: 0 };
        for (index, key) in txn.reads.of(&self.input.keys).iter().enumerate() {
            if key.part == *part {
                let there = job.present >> index & 1;
                rows.present |= there << (self.values.len() as u32 - rows.start);
                self.values.push(life.views[job.view as usize + index]);
            }
        }
        rows
    }

    fn on_reads(&mut self, node: usize, from: u8, place: Place, rows: Values) -> Outcome {
        let sender = self.nodes[from as usize].part;
        let number = self.nodes[node].life.job(place).ok_or(43)?;
        let job = &self.nodes[node].life.jobs[number];
        let txn = &self.input.txns[job.txn as usize];
        let awaited = self.nodes[node].awaited(txn, job);
        if awaited & bit(sender) == 0 {
            return Err(43);
        }
        let life = &mut self.nodes[node].life;
        let view = life.view(number, txn.reads.len());
        let mut taken = 0;
        for (index, key) in txn.reads.of(&self.input.keys).iter().enumerate() {
            if key.part == sender {
                life.views[view + index] = self.values[rows.start as usize + taken];
                life.jobs[number].present |= (rows.present >> taken & 1) << index;
                taken += 1;
            }
        }
        life.jobs[number].came |= bit(sender);
        if awaited == bit(sender) && life.jobs[number].status == Status::Begun {
            life.full.push_back(number as u32);
        }
        Ok(())
    }

    fn asked_reads(&mut self, node: usize, from: u8, place: Place) -> Outcome {
        let Node { part, life, .. } = &self.nodes[node];
        let job = life.job(place).ok_or(47)?;
        let begun = matches!(life.jobs[job].status, Status::Begun | Status::Done);
        let txn = &self.input.txns[life.jobs[job].txn as usize];
        if !begun || txn.readers & bit(*part) == 0 {
            return Err(47);
        }
        let rows = self.served(node, job);
        self.send(node, from, Message::Reads { place, rows });
        Ok(())
    }

    fn finish(&mut self, node: usize, place: Place) -> Outcome {
        let number = self.nodes[node].life.job(place).ok_or(41)?;
        let job = &self.nodes[node].life.jobs[number];
        let txn = &self.input.txns[job.txn as usize];
        if job.status != Status::Begun {
            return Err(41);
        }
        if self.nodes[node].awaited(txn, job) != 0 {
            return Err(44);
        }
        let (request, start) = (job.txn, job.view as usize);
        let Node { part, life, .. } = &mut self.nodes[node];
        let view = View {
            keys: txn.reads.of(&self.input.keys),
            rows: &life.views[start..start + txn.reads.len()],
            present: life.jobs[number].present,
        };
        let (answer, writes) = run(self.input, txn, view, &mut self.values);
        for (key, row) in writes.into_iter().flatten() {
            if (key % u64::from(self.input.partitions)) as u8 == *part {
                life.rows.insert(key, row);
            }
        }
        life.end(&self.input.keys, number);
        self.send(node, u8::MAX, Message::Reply { place, txn: request, answer });
        Ok(())
    }

    // ---- snapshots, asks, restarts

    fn snapshot(&mut self, node: usize, epoch: u64) -> Outcome {
        let node = &mut self.nodes[node];
        if !node.life.stands(epoch) {
            return Err(50);
        }
        if node.snapshot.as_ref().is_some_and(|snapshot| snapshot.0 >= epoch) {
            return Err(51);
        }
        node.snapshot = Some((epoch, Rc::new(node.life.rows.clone())));
        Ok(())
    }

    fn ask_reads(&mut self, node: usize, place: Place, of: u8) -> Outcome {
        if of >= self.input.replicas {
            return Err(60);
        }
        let job = &self.nodes[node].life.jobs[self.nodes[node].life.job(place).ok_or(43)?];
        let awaited = self.nodes[node].awaited(&self.input.txns[job.txn as usize], job);
        if awaited == 0 {
            return Err(43);
        }
        for part in (0..self.input.partitions).filter(|&part| awaited & bit(part) != 0) {
            self.send(node, self.number(of, part), Message::AskReads { place });
        }
        Ok(())
    }

    fn ask_batch(&mut self, node: usize, epoch: u64, group: u8, of: Id) -> Outcome {
        let of = self.node(of)?;
        if group >= self.input.partitions {
            return Err(60);
        }
        if self.is_held(node, epoch, group).is_some() {
            return Err(22);
        }
        self.send(node, of as u8, Message::AskBatch { epoch, group });
        Ok(())
    }

    fn restart(&mut self, node: usize) {
        let node = &mut self.nodes[node];
        node.life = Life::default();
        if let Some((epoch, rows)) = &node.snapshot {
            let first = epoch + 1;
            node.life.rows = Rows::clone(rows);
            node.life.first = first;
            (node.life.next_epoch, node.life.merged, node.life.low) = (first, first, first);
        }
    }

    /// The least epoch at which all nodes stand.
    fn finished(&self) -> Option<u64> {
        // An Option is ordered with none first.
        self.nodes.iter().map(|node| node.life.stands_at()).min().flatten()
    }
}

// ---------------------------------------------------------------------- kv

/// A row or none for each of the declared reads.
struct View<'a> {
    keys: &'a [Key],
    rows: &'a [u64],
    present: u16,
}

impl View<'_> {
    #[inline]
    fn row(&self, index: usize) -> Option<u64> {
        (self.present >> index & 1 == 1).then(|| self.rows[index])
    }

    fn index(&self, id: u64) -> Option<usize> {
        self.keys.iter().position(|key| key.table == 0 && key.id == id)
    }

    fn get(&self, id: u64) -> Option<u64> {
        self.index(id).and_then(|index| self.row(index))
    }
}

/// Is the set exactly these ids of table 0? They stand ascending.
fn is_set(keys: &[Key], ids: &[u64]) -> bool {
    keys.len() == ids.len() && keys.iter().zip(ids).all(|(key, &id)| key.table == 0 && key.id == id)
}

/// Are the declared sets those that the request needs on this view?
fn is_fresh(input: &Input, txn: &Txn, view: &View) -> bool {
    if let Op::Follow { key } = txn.op {
        let target = view.get(key).unwrap_or(key);
        let pair = [key.min(target), key.max(target)];
        let needed = if key == target { &pair[1..] } else { &pair[..] };
        return is_set(view.keys, needed) && txn.writes.len() == 0;
    }
    if !txn.declared {
        return true;
    }
    let writes = txn.writes.of(&input.keys);
    match txn.op {
        Op::Put { key, .. } => is_set(view.keys, &[]) && is_set(writes, &[key]),
        Op::Get { keys } => is_set(view.keys, keys.of(&input.ids)) && is_set(writes, &[]),
        Op::Add { key, .. } => is_set(view.keys, &[key]) && is_set(writes, &[key]),
        Op::Move { from, to, .. } => {
            let pair = [from.min(to), from.max(to)];
            let needed = if from == to { &pair[1..] } else { &pair[..] };
            is_set(view.keys, needed) && is_set(writes, needed)
        }
        _ => false,
    }
}

type Writes = [Option<(u64, u64)>; 2];

fn run(input: &Input, txn: &Txn, view: View, values: &mut Vec<u64>) -> (Answer, Writes) {
    if !is_fresh(input, txn, &view) {
        return (Answer::Changed, [None; 2]);
    }
    match txn.op {
        Op::Put { key, value } => (Answer::Done, [Some((key, value)), None]),
        Op::Get { .. } if view.rows.len() == 1 => (Answer::Row(view.row(0)), [None; 2]),
        Op::Get { .. } => {
            let rows = Values { start: values.len() as u32, present: view.present };
            values.extend_from_slice(view.rows);
            (Answer::Rows(rows, view.rows.len() as u8), [None; 2])
        }
        Op::Add { key, amount } => match view.row(0).unwrap_or(0).checked_add(amount) {
            Some(sum) => (Answer::Row(Some(sum)), [Some((key, sum)), None]),
            None => (Answer::Limit, [None; 2]),
        },
        Op::Move { from, to, amount } => {
            match view.get(from).unwrap_or(0).checked_sub(amount) {
                None => (Answer::Short, [None; 2]),
                Some(_) if from == to => (Answer::Done, [None; 2]),
                Some(rest) => match view.get(to).unwrap_or(0).checked_add(amount) {
                    Some(sum) => (Answer::Done, [Some((from, rest)), Some((to, sum))]),
                    None => (Answer::Limit, [None; 2]),
                },
            }
        }
        Op::Follow { key } => (Answer::Row(view.get(key).and_then(|row| view.get(row))), [None; 2]),
        _ => (Answer::Changed, [None; 2]),
    }
}

// --------------------------------------------------------------------- sim

struct Draw(u64);

impl Draw {
    fn below(&mut self, count: usize) -> usize {
        self.0 = self.0.wrapping_add(0x9e37_79b9_7f4a_7c15);
        let mut mixed = (self.0 ^ self.0 >> 30).wrapping_mul(0xbf58_476d_1ce4_e5b9);
        mixed = (mixed ^ mixed >> 27).wrapping_mul(0x94d0_49bb_1331_11eb);
        (u128::from(mixed ^ mixed >> 31) * count as u128 >> 64) as usize
    }
}

struct Sim<'a> {
    world: World<'a>,
    epochs: u64,
    /// Packets to be delivered, by addressee; those sent before `passed` are there.
    inboxes: Vec<Vec<u32>>,
    passed: usize,
    /// Reads of epochs that the addressee hasn't merged.
    parked: Vec<BTreeMap<u64, Vec<u32>>>,
}

impl Sim<'_> {
    /// One drawn event; the packet that took effect by it.
    fn draw(&mut self, draw: &mut Draw, restarts: bool) -> Option<u32> {
        let world = &self.world;
        let node = draw.below(world.nodes.len());
        let id = world.id(node);
        let life = &world.nodes[node].life;
        let epoch = match draw.below(4) {
            0 => draw.below(self.epochs as usize + 1) as u64,
            _ => life.merged + draw.below(2) as u64,
        };
        let kind = draw.below(32);
        let hint = match kind {
            18..=20 => life.ready.front(),
            _ => life.full.front(),
        };
        let place = match hint {
            Some(&job) if draw.below(8) > 0 => life.place(job),
            _ => Place { epoch, n: draw.below(8) as u32 },
        };
        let deed = match kind {
            0 if draw.below(8) == 0 => Deed::Propose(epoch),
            0..=13 => {
                let count = world.packets.len().max(1);
                let near = if draw.below(4) > 0 { count.min(32) } else { count };
                let packet = count - 1 - draw.below(near);
                let took = self.world.step(Event::Deliver(packet as u64)).is_ok();
                return took.then_some(packet as u32);
            }
            14 => Deed::Merge,
            18..=20 => Deed::Begin(place),
            21..=23 => Deed::Finish(place),
            24 => Deed::Snapshot(life.stands_at().unwrap_or(epoch)),
            26 | 27 => {
                let place = match life.locked.min(24) {
                    0 => place,
                    recent => life.place((life.locked - 1 - draw.below(recent)) as u32),
                };
                Deed::AskReads(place, draw.below(world.input.replicas as usize) as u8)
            }
            28 | 29 => {
                let group = draw.below(world.input.partitions as usize) as u8;
                Deed::AskBatch(epoch, group, world.id(draw.below(world.nodes.len())))
            }
            30 if restarts && id.replica > 0 && draw.below(8) == 0 => Deed::Restart,
            _ => Deed::Lock,
        };
        // Replica 0 alone has closed anything.
        let replica = if matches!(deed, Deed::Propose(_)) { 0 } else { id.replica };
        let _ = self.world.step(Event::At(Id { replica, ..id }, deed));
        // A hint that was tried goes to the back.
        let life = &mut self.world.nodes[node].life;
        match deed {
            Deed::Begin(_) => life.ready.rotate_left(usize::from(!life.ready.is_empty())),
            Deed::Finish(_) => life.full.rotate_left(usize::from(!life.full.is_empty())),
            _ => {}
        }
        None
    }

    /// Puts the packets sent since into their addressees' inboxes.
    fn post(&mut self) {
        for (number, packet) in self.world.packets.iter().enumerate().skip(self.passed) {
            if let Some(inbox) = self.inboxes.get_mut(packet.to as usize) {
                inbox.push(number as u32);
            }
        }
        self.passed = self.world.packets.len();
    }

    fn deliver(&mut self, node: usize, packet: u32) -> bool {
        let outcome = self.world.step(Event::Deliver(packet.into()));
        if outcome == Err(43) {
            if let Message::Reads { place, .. } = self.world.packets[packet as usize].message {
                if place.epoch >= self.world.nodes[node].life.merged {
                    self.parked[node].entry(place.epoch).or_default().push(packet);
                }
            }
        }
        outcome.is_ok()
    }

    /// Merges, locks, delivers, begins and finishes what a node can.
    fn work(&mut self, node: usize) -> bool {
        let id = self.world.id(node);
        let before = self.world.took_effect;
        if self.world.can_merge(node) {
            let epoch = self.world.nodes[node].life.merged;
            let _ = self.world.step(Event::At(id, Deed::Merge));
            self.inboxes[node].extend(self.parked[node].remove(&epoch).unwrap_or_default());
        }
        while self.world.nodes[node].life.locked < self.world.nodes[node].life.jobs.len() {
            let _ = self.world.step(Event::At(id, Deed::Lock));
        }
        let mut inbox = std::mem::take(&mut self.inboxes[node]);
        for packet in inbox.drain(..) {
            self.deliver(node, packet);
        }
        self.inboxes[node] = inbox;
        loop {
            let life = &mut self.world.nodes[node].life;
            if let Some(job) = life.full.pop_front() {
                if life.jobs[job as usize].status == Status::Begun {
                    let deed = Deed::Finish(life.place(job));
                    let _ = self.world.step(Event::At(id, deed));
                }
            } else if let Some(job) = life.ready.pop_front() {
                if life.jobs[job as usize].status == Status::Admitted {
                    let deed = Deed::Begin(life.place(job));
                    let _ = self.world.step(Event::At(id, deed));
                }
            } else {
                break;
            }
        }
        self.post();
        self.world.took_effect > before
    }

    /// Asks replica 0 for what it has and this node lacks.
    fn ask(&mut self, node: usize) {
        let (id, parts) = (self.world.id(node), self.world.input.partitions);
        for epoch in self.world.nodes[node].life.merged..self.epochs {
            for group in 0..parts {
                let lacks = self.world.is_held(node, epoch, group).is_none();
                if lacks && self.world.is_held(group as usize, epoch, group).is_some() {
                    let of = Id { replica: 0, partition: group };
                    let _ = self.world.step(Event::At(id, Deed::AskBatch(epoch, group, of)));
                }
            }
        }
        let life = &self.world.nodes[node].life;
        let start = (life.low - life.first) as usize;
        let start = life.bases.get(start).map_or(life.jobs.len(), |&base| base as usize);
        for job in start..self.world.nodes[node].life.locked {
            let Node { life, .. } = &self.world.nodes[node];
            let txn = &self.world.input.txns[life.jobs[job].txn as usize];
            if self.world.nodes[node].awaited(txn, &life.jobs[job]) != 0 {
                let _ = self.world.step(Event::At(id, Deed::AskReads(life.place(job as u32), 0)));
            }
        }
    }

    fn passes(&mut self, mut took: Vec<u32>) {
        took.sort_unstable();
        took.dedup();
        let Sim { inboxes, world, .. } = self;
        for (number, packet) in world.packets.iter().enumerate() {
            if let Some(inbox) = inboxes.get_mut(packet.to as usize) {
                if took.binary_search(&(number as u32)).is_err() {
                    inbox.push(number as u32);
                }
            }
        }
        self.passed = self.world.packets.len();
        for _ in 0..PASSES {
            if self.world.finished().map_or(0, |epoch| epoch + 1) == self.epochs {
                return;
            }
            for node in 0..self.world.nodes.len() {
                self.ask(node);
            }
            for group in 0..self.world.input.partitions {
                for epoch in 0..self.epochs {
                    if self.world.is_held(group as usize, epoch, group).is_none() {
                        let id = Id { replica: 0, partition: group };
                        let _ = self.world.step(Event::At(id, Deed::Propose(epoch)));
                    }
                }
            }
            self.post();
            loop {
                let mut worked = false;
                for node in 0..self.world.nodes.len() {
                    worked |= self.work(node);
                }
                if !worked {
                    break;
                }
            }
        }
    }
}

fn sim<'a>(input: &'a Input, epochs: &[Vec<serial::Batch>], options: &Options) -> World<'a> {
    let mut world = World::new(input, options.events);
    for epoch in epochs {
        let mut batches = epoch.iter().peekable();
        for partition in 0..input.partitions {
            let id = Id { replica: 0, partition };
            if let Some(batch) = batches.next_if(|batch| batch.group == u64::from(partition)) {
                for txn in batch.requests.range() {
                    let _ = world.step(Event::At(id, Deed::Submit(txn as u32)));
                }
            }
            let _ = world.step(Event::At(id, Deed::Close));
        }
    }
    let nodes = world.nodes.len();
    let mut sim = Sim {
        world,
        epochs: epochs.len() as u64,
        inboxes: vec![Vec::new(); nodes],
        passed: 0,
        parked: vec![BTreeMap::new(); nodes],
    };
    let mut draw = Draw(options.start);
    let took = (0..options.steps).filter_map(|_| sim.draw(&mut draw, options.restarts)).collect();
    sim.passes(took);
    sim.world
}

// ------------------------------------------------------------------ printing

fn print_answer(output: &mut Output, answer: Answer, values: &[u64]) {
    match answer {
        Answer::Done => output.text("done"),
        Answer::Short => output.text("short"),
        Answer::Limit => output.text("limit"),
        Answer::Changed => output.text("changed"),
        Answer::Row(row) => output.row(row.as_ref()),
        Answer::Rows(rows, len) => {
            for index in 0..usize::from(len) {
                if index > 0 {
                    output.text(" ");
                }
                let there = rows.present >> index & 1 == 1;
                output.row(there.then(|| &values[rows.start as usize + index]));
            }
        }
    }
}

/// One line for each place below `end` of which a Reply was sent, then the last line.
fn print_replies(output: &mut Output, world: &World, end: u64, finished: Option<u64>) {
    let mut replies: Vec<Vec<u32>> = Vec::new();
    for (number, packet) in world.packets.iter().enumerate() {
        if let Message::Reply { place, .. } = packet.message {
            if place.epoch < end {
                let places = at(&mut replies, place.epoch);
                if places.len() <= place.n as usize {
                    places.resize(place.n as usize + 1, NONE);
                }
                if places[place.n as usize] == NONE {
                    places[place.n as usize] = number as u32;
                }
            }
        }
    }
    for reply in replies.iter().flatten().filter(|&&reply| reply != NONE) {
        if let Message::Reply { place, txn, answer } = world.packets[*reply as usize].message {
            let txn = &world.input.txns[txn as usize];
            output.line_start(place.epoch, place.n.into(), txn.client, txn.number);
            print_answer(output, answer, &world.values);
            output.text("\n");
        }
    }
    match finished {
        Some(epoch) => output.labelled("finished ", epoch),
        None => output.text("finished none"),
    }
    output.text("\n");
}

fn print_nodes(output: &mut Output, world: &World) {
    for node in &world.nodes {
        output.labelled("node ", node.replica.into());
        output.labelled(".", node.part.into());
        match node.life.stands_at() {
            Some(epoch) => output.labelled(" stands ", epoch),
            None => output.text(" stands none"),
        }
        output.labelled(" rows ", node.life.rows.len() as u64);
        output.text("\n");
    }
}

/// The stepped events as a script of `check`.
fn print_events(output: &mut Output, world: &World, text: &[u8], txns: &[Range<usize>]) {
    output.labelled("{\"partitions\":", world.input.partitions.into());
    output.labelled(",\"replicas\":", world.input.replicas.into());
    output.text(",\"app\":\"kv\",\"events\":[");
    for (index, &event) in world.log.iter().flatten().enumerate() {
        output.text(if index > 0 { ",[\"" } else { "[\"" });
        let placed = |place: Place| vec![place.epoch, place.n.into()];
        let pair = |id: Id| vec![u64::from(id.replica), u64::from(id.partition)];
        let (name, numbers) = match event {
            Event::Deliver(packet) => ("deliver", vec![packet]),
            Event::At(id, deed) => {
                let (name, rest) = match deed {
                    Deed::Submit(_) => ("submit", vec![]),
                    Deed::Close => ("close", vec![]),
                    Deed::Propose(epoch) => ("propose", vec![epoch]),
                    Deed::Merge => ("merge", vec![]),
                    Deed::Lock => ("lock", vec![]),
                    Deed::Begin(place) => ("begin", placed(place)),
                    Deed::Finish(place) => ("finish", placed(place)),
                    Deed::Snapshot(epoch) => ("snapshot", vec![epoch]),
                    Deed::AskReads(place, of) => {
                        ("askreads", [placed(place), vec![of.into()]].concat())
                    }
                    Deed::AskBatch(epoch, group, of) => {
                        ("askbatch", [vec![epoch, group.into()], pair(of)].concat())
                    }
                    Deed::Restart => ("restart", vec![]),
                };
                (name, [pair(id), rest].concat())
            }
        };
        output.text(name);
        output.text("\"");
        numbers.iter().for_each(|&number| output.labelled(",", number));
        if let Event::At(_, Deed::Submit(txn)) = event {
            output.text(",");
            output.0.extend_from_slice(&text[txns[txn as usize].clone()]);
        }
        output.text("]");
    }
    output.text("]}\n");
}

// ----------------------------------------------------------------- scripts

fn byte(reader: &mut Reader) -> Fit<u8> {
    u8::try_from(reader.argument()?).map_err(|_| Unfit)
}

fn id(reader: &mut Reader) -> Fit<Id> {
    Ok(Id { replica: byte(reader)?, partition: byte(reader)? })
}

fn epoch(reader: &mut Reader) -> Fit<u64> {
    Some(reader.argument()?).filter(|&epoch| epoch < EPOCHS).ok_or(Unfit)
}

fn place(reader: &mut Reader) -> Fit<Place> {
    let epoch = epoch(reader)?;
    Ok(Place { epoch, n: u32::try_from(reader.argument()?).map_err(|_| Unfit)? })
}

fn event(reader: &mut Reader) -> Fit<Event> {
    reader.take(b'[')?;
    let name = reader.string()?;
    if &*name == b"deliver" {
        let packet = reader.argument()?;
        reader.take(b']')?;
        return Ok(Event::Deliver(packet));
    }
    let at = id(reader)?;
    let deed = match &*name {
        b"submit" => {
            reader.take(b',')?;
            let request = reader.request()?;
            reader.script.requests.push(request);
            Deed::Submit(reader.script.requests.len() as u32 - 1)
        }
        b"close" => Deed::Close,
        b"propose" => Deed::Propose(epoch(reader)?),
        b"merge" => Deed::Merge,
        b"lock" => Deed::Lock,
        b"begin" => Deed::Begin(place(reader)?),
        b"finish" => Deed::Finish(place(reader)?),
        b"snapshot" => Deed::Snapshot(epoch(reader)?),
        b"askreads" => Deed::AskReads(place(reader)?, byte(reader)?),
        b"askbatch" => Deed::AskBatch(epoch(reader)?, byte(reader)?, id(reader)?),
        b"restart" => Deed::Restart,
        _ => return Err(Unfit),
    };
    reader.take(b']')?;
    Ok(Event::At(at, deed))
}

struct CheckScript {
    partitions: u64,
    replicas: u64,
    events: Vec<Event>,
    expect: Option<Vec<Vec<u8>>>,
}

fn check_script(reader: &mut Reader) -> Fit<CheckScript> {
    let (mut partitions, mut replicas, mut app) = (None, None, None);
    let (mut events, mut expect) = (None, None);
    reader.object(|reader, name| {
        match name {
            b"partitions" => partitions = Some(reader.number()?),
            b"replicas" => replicas = Some(reader.number()?),
            b"app" => app = Some(*reader.string()? == *b"kv"),
            b"events" => {
                let mut list = Vec::with_capacity(reader.text.len() / 18);
                reader.script = Script::default();
                reader.list(|reader| Ok(list.push(event(reader)?)))?;
                events = Some(list);
            }
            b"expect" => {
                let mut list = Vec::new();
                reader.list(|reader| {
                    reader.next_byte();
                    Ok(list.push(reader.string()?.into_owned()))
                })?;
                expect = Some(list);
            }
            _ => return Err(Unfit),
        }
        Ok(())
    })?;
    let partitions = partitions.filter(|count| (1..=16).contains(count)).ok_or(Unfit)?;
    let replicas = replicas.filter(|count| (1..=7).contains(count)).ok_or(Unfit)?;
    let sound = app == Some(true) && reader.next_byte().is_none();
    let sound = sound && reader.script.requests.iter().all(|r| r.op.app() == serial::AppName::Kv);
    let events = events.filter(|_| sound).ok_or(Unfit)?;
    Ok(CheckScript { partitions, replicas, events, expect })
}

/// A script of `sim`, read as `serial` reads it; then what only `sim` refuses.
fn sim_script(reader: Reader) -> Fit<(u64, Script)> {
    let (app, partitions, script) = reader.script()?;
    let mut counts = [0; 16];
    for batch in script.epochs.iter().flatten() {
        counts[batch.group as usize] += batch.requests.len();
    }
    let fits = app == serial::AppName::Kv
        && counts.iter().all(|&count| count <= QUEUE_REQUESTS)
        && script.requests.iter().all(|r| !r.empty && (1..=8).contains(&r.attempt));
    if fits { Ok((partitions, script)) } else { Err(Unfit) }
}

impl Input {
    /// The requests with the sets of the empty view where none are declared.
    fn new(script: &Script, partitions: u64, replicas: u64) -> Input {
        let mut input = Input {
            partitions: partitions as u8,
            replicas: replicas as u8,
            txns: Vec::with_capacity(script.requests.len()),
            parts: Vec::with_capacity(script.requests.len()),
            keys: Vec::with_capacity(script.requests.len() + script.keys.len() + script.ids.len()),
            ids: script.ids.clone(),
        };
        for request in &script.requests {
            let start = input.keys.len();
            let mut add = |table: u8, id: u64| {
                input.keys.push(Key { id, table, part: (id % partitions) as u8 });
            };
            let (reads, writes) = match request.sets {
                Sets::Declared { reads, writes } => {
                    reads.of(&script.keys).iter().for_each(|key| add(key.table, key.id));
                    writes.of(&script.keys).iter().for_each(|key| add(key.table, key.id));
                    (0..reads.len(), reads.len()..reads.len() + writes.len())
                }
                Sets::Undeclared { .. } => match request.op {
                    Op::Get { keys } => {
                        keys.of(&script.ids).iter().for_each(|&id| add(0, id));
                        (0..keys.len(), 0..0)
                    }
                    Op::Move { from, to, .. } if from != to => {
                        add(0, from.min(to));
                        add(0, from.max(to));
                        (0..2, 0..2)
                    }
                    Op::Put { key, .. } => {
                        add(0, key);
                        (0..0, 0..1)
                    }
                    Op::Add { key, .. } | Op::Move { from: key, .. } => {
                        add(0, key);
                        (0..1, 0..1)
                    }
                    Op::Follow { key } => {
                        add(0, key);
                        (0..1, 0..0)
                    }
                    _ => (0..0, 0..0),
                },
            };
            let span = |part: Range<usize>| Span {
                start: (start + part.start) as u32,
                end: (start + part.end) as u32,
            };
            let (reads, writes) = (span(reads), span(writes));
            let parts = |set: Span| set.of(&input.keys).iter().fold(0, |all, key| all | bit(key.part));
            let (readers, writers) = (parts(reads), parts(writes));
            let least = (readers | writers) & (readers | writers).wrapping_neg();
            let declared = matches!(request.sets, Sets::Declared { .. });
            let serial::Request { client, number, attempt, op, .. } = *request;
            input.parts.push(readers | writers);
            input.txns.push(Txn {
                client,
                number,
                attempt,
                declared,
                op,
                reads,
                writes,
                readers,
                active: writers | least,
            });
        }
        input
    }
}

// ----------------------------------------------------------------- program

struct Options {
    start: u64,
    steps: u64,
    replicas: u64,
    restarts: bool,
    events: bool,
}

/// None for `check`.
fn line(words: &[String]) -> Option<Option<Options>> {
    let mut words = words.iter().map(String::as_str);
    match words.next()? {
        "check" => return words.next().is_none().then_some(None),
        "sim" => {}
        _ => return None,
    }
    let mut options = Options { start: 1, steps: 1_000, replicas: 3, restarts: false, events: false };
    while let Some(word) = words.next() {
        let mut number = || words.next()?.parse::<u64>().ok();
        match word {
            "--start" => options.start = number()?,
            "--steps" => options.steps = number().filter(|&steps| steps <= 100_000)?,
            "--replicas" => options.replicas = number().filter(|count| (1..=7).contains(count))?,
            "--restarts" => options.restarts = true,
            "--events" => options.events = true,
            _ => return None,
        }
    }
    Some(Some(options))
}

/// The greatest resident size so far, in kB.
fn peak() -> u64 {
    let status = std::fs::read_to_string("/proc/self/status").unwrap_or_default();
    let line = status.lines().find_map(|line| line.strip_prefix("VmHWM:"));
    line.and_then(|line| line.trim().trim_end_matches(" kB").parse().ok()).unwrap_or(0)
}

fn main() -> ExitCode {
    let words: Vec<_> = std::env::args().skip(1).collect();
    let Some(options) = line(&words) else { return ends_with("bad line", 2) };
    let limit = std::env::var("WORLD_LIMIT").ok().and_then(|text| text.parse().ok());
    let limit = limit.unwrap_or(SCRIPT_BYTES);

    let started = Instant::now();
    let mut text = Vec::with_capacity(SCRIPT_BYTES as usize + 1);
    if std::io::stdin().lock().take(limit + 1).read_to_end(&mut text).is_err() {
        return ends_with("95 ReadFailed", 5);
    }
    if text.len() as u64 > limit {
        return ends_with("92 ScriptTooLong", 2);
    }
    let mut times = vec![("read", started.elapsed())];
    let mut passed = |name| times.push((name, started.elapsed()));
    let mut reader = Reader { text: &text, at: 0, script: Script::default() };
    let mut output = Output(Vec::with_capacity(text.len()));
    let mut as_expected = true;
    let (input, world);
    if let Some(options) = &options {
        let Ok((partitions, script)) = sim_script(reader) else {
            return ends_with(refusal(&text), 2);
        };
        input = Input::new(&script, partitions, options.replicas);
        passed("parse");
        world = sim(&input, &script.epochs, options);
        passed("step");
        let finished = world.finished();
        if options.events {
            let texts: Vec<_> = script.requests.iter().map(|request| request.text.clone()).collect();
            print_events(&mut output, &world, &text, &texts);
        } else {
            print_replies(&mut output, &world, finished.map_or(0, |epoch| epoch + 1), finished);
        }
    } else {
        let Ok(script) = check_script(&mut reader) else {
            return ends_with(refusal(&text), 2);
        };
        input = Input::new(&reader.script, script.partitions, script.replicas);
        passed("parse");
        let mut run = World::new(&input, false);
        let outcomes: Vec<_> = script.events.iter().map(|&event| run.step(event)).collect();
        world = run;
        passed("step");
        for (number, outcome) in outcomes.into_iter().enumerate() {
            output.number(number as u64);
            match outcome {
                Ok(()) => output.text(" ok\n"),
                Err(refusal) => {
                    output.labelled(" refused ", refusal.into());
                    output.text("\n");
                }
            }
        }
        print_nodes(&mut output, &world);
        let start = output.0.len();
        print_replies(&mut output, &world, u64::MAX, world.finished());
        if let Some(expect) = &script.expect {
            let lines = output.0[start..].split_inclusive(|&byte| byte == b'\n');
            as_expected = lines.clone().count() == expect.len()
                && lines.zip(expect).all(|(line, text)| line[..line.len() - 1] == text[..]);
        }
    }
    passed("print");
    if std::io::stdout().write_all(&output.0).is_err() {
        return ends_with("96 WriteFailed", 5);
    }
    passed("write");
    if std::env::var_os("WORLD_PHASES").is_some() {
        let mut before = std::time::Duration::ZERO;
        for (name, time) in times {
            eprint!("{name} {} ", (time - before).as_nanos());
            before = time;
        }
        eprintln!(
            "requests {} stepped {} effects {} packets {} peak-kB {}",
            input.txns.len(),
            world.stepped,
            world.took_effect,
            world.packets.len(),
            peak(),
        );
    }
    if as_expected { ExitCode::SUCCESS } else { ends_with("100 NotExpected", 3) }
}
