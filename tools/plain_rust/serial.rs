//! A plain native `serial [--scout]` for the applications `kv` and `stock`:
//! script on standard input, reply lines on standard output, byte for byte
//! what the verified program prints. No proofs, std only, built to be fast:
//! it is the anchor that the verified program is measured against.
//!
//! Its reading and printing serve world.rs beside it, too. By itself it takes
//! a script with an attempt out of range, or a set without keys, that the
//! verified program refuses; else it is the same (docs/SPEED.md).
//!
//! Build: rustc --edition 2021 -O -C target-cpu=x86-64-v2 serial.rs
//!
//! BASELINE_LIMIT=bytes   another greatest script length than 1,048,576 (below 2^32)
//! BASELINE_PHASES=1      nanoseconds of each phase on standard error

use std::borrow::Cow;
use std::collections::HashMap;
use std::hash::{BuildHasherDefault, Hasher};
use std::io::{Read, Write};
use std::ops::Range;
use std::process::ExitCode;
use std::time::Instant;

pub const SCRIPT_BYTES: u64 = 1_048_576;
pub const BATCH_REQUESTS: usize = 256;
pub const SET_KEYS: usize = 16;
pub const CENTS: u64 = 1_000_000_000_000_000;
pub const PIECES: u64 = 1_000_000_000;

// ---------------------------------------------------------------- scripts

#[derive(Clone, Copy, PartialEq, Eq, PartialOrd, Ord)]
pub struct Key {
    pub table: u8,
    pub id: u64,
}

/// A part of one of the script's three pools.
#[derive(Clone, Copy)]
pub struct Span {
    pub start: u32,
    pub end: u32,
}

impl Span {
    /// From this index on to the end of the pool.
    pub fn since<T>(start: usize, pool: &[T]) -> Span {
        Span { start: start as u32, end: pool.len() as u32 }
    }

    pub fn len(self) -> usize {
        (self.end - self.start) as usize
    }

    pub fn range(self) -> Range<usize> {
        self.start as usize..self.end as usize
    }

    pub fn of<T>(self, pool: &[T]) -> &[T] {
        &pool[self.range()]
    }
}

#[derive(Clone, Copy)]
pub enum Op {
    Put { key: u64, value: u64 },
    Get { keys: Span },
    Add { key: u64, amount: u64 },
    Move { from: u64, to: u64, amount: u64 },
    Follow { key: u64 },
    AddItem { item: u64, stock: u64, price: u64 },
    Restock { item: u64, pieces: u64 },
    Open { customer: u64 },
    PayIn { customer: u64, cents: u64 },
    Order { customer: u64, order: u64, lines: Span },
    Settle { customer: u64 },
    Balance { customer: u64 },
}

/// The sets of a request. Undeclared ones need no list: only a dependent
/// operation can find them changed, and they differ by one key at most, the
/// one that its first key's row names.
#[derive(Clone, Copy)]
pub enum Sets {
    Undeclared { named: Option<u64> },
    Declared { reads: Span, writes: Span },
}

#[derive(Clone)]
pub struct Request {
    pub client: u32,
    pub number: u32,
    pub attempt: u8,
    pub empty: bool,
    pub text: Range<usize>,
    pub op: Op,
    pub sets: Sets,
}

pub struct Batch {
    pub group: u64,
    pub requests: Span,
}

#[derive(Default)]
pub struct Script {
    pub requests: Vec<Request>,
    /// The batches of each epoch, by ascending group.
    pub epochs: Vec<Vec<Batch>>,
    pub ids: Vec<u64>,
    pub lines: Vec<(u64, u64)>,
    pub keys: Vec<Key>,
}

#[derive(Clone, Copy, PartialEq, Eq)]
pub enum AppName {
    Kv,
    Stock,
}

// ---------------------------------------------------------------- reading

/// Not a script: `refusal` tells whether it is JSON at all.
pub struct Unfit;
pub type Fit<T> = Result<T, Unfit>;

pub struct Reader<'a> {
    pub text: &'a [u8],
    pub at: usize,
    pub script: Script,
}

impl<'a> Reader<'a> {
    #[inline]
    pub fn next_byte(&mut self) -> Option<u8> {
        while let Some(&byte) = self.text.get(self.at) {
            if !matches!(byte, b' ' | b'\n' | b'\r' | b'\t') {
                return Some(byte);
            }
            self.at += 1;
        }
        None
    }

    #[inline]
    pub fn take(&mut self, wanted: u8) -> Fit<()> {
        if self.next_byte() == Some(wanted) {
            self.at += 1;
            Ok(())
        } else {
            Err(Unfit)
        }
    }

    /// After a comma an item must follow; otherwise the closing byte does.
    #[inline]
    pub fn more(&mut self, close: u8) -> Fit<bool> {
        match self.next_byte() {
            Some(b',') => {
                self.at += 1;
                Ok(true)
            }
            Some(byte) if byte == close => {
                self.at += 1;
                Ok(false)
            }
            _ => Err(Unfit),
        }
    }

    #[inline]
    pub fn list(&mut self, mut item: impl FnMut(&mut Self) -> Fit<()>) -> Fit<()> {
        self.take(b'[')?;
        if self.next_byte() == Some(b']') {
            self.at += 1;
            return Ok(());
        }
        loop {
            item(self)?;
            if !self.more(b']')? {
                return Ok(());
            }
        }
    }

    #[inline]
    pub fn object(&mut self, mut member: impl FnMut(&mut Self, &[u8]) -> Fit<()>) -> Fit<()> {
        self.take(b'{')?;
        if self.next_byte() == Some(b'}') {
            self.at += 1;
            return Ok(());
        }
        loop {
            let name = self.string()?;
            self.take(b':')?;
            member(self, &name)?;
            if !self.more(b'}')? {
                return Ok(());
            }
        }
    }

    #[inline]
    pub fn string(&mut self) -> Fit<Cow<'a, [u8]>> {
        self.take(b'"')?;
        let text = self.text;
        let start = self.at;
        while let Some(&byte) = text.get(self.at) {
            match byte {
                b'"' => {
                    self.at += 1;
                    return Ok(Cow::Borrowed(&text[start..self.at - 1]));
                }
                b'\\' => return self.escaped_string(start),
                0..=0x1f => return Err(Unfit),
                _ => self.at += 1,
            }
        }
        Err(Unfit)
    }

    /// The slow path: the name has a backslash at `self.at`.
    #[cold]
    pub fn escaped_string(&mut self, start: usize) -> Fit<Cow<'a, [u8]>> {
        let mut plain = self.text[start..self.at].to_vec();
        loop {
            let byte = *self.text.get(self.at).ok_or(Unfit)?;
            self.at += 1;
            match byte {
                b'"' => return Ok(Cow::Owned(plain)),
                0..=0x1f => return Err(Unfit),
                b'\\' => {
                    let kind = *self.text.get(self.at).ok_or(Unfit)?;
                    self.at += 1;
                    plain.push(match kind {
                        b'"' | b'\\' | b'/' => kind,
                        b'b' => 0x08,
                        b'f' => 0x0c,
                        b'n' => b'\n',
                        b'r' => b'\r',
                        b't' => b'\t',
                        b'u' => {
                            // No name of a script has a character beyond ASCII.
                            let code = hexadecimal(self.text, self.at).ok_or(Unfit)?;
                            self.at += 4;
                            u8::try_from(code).ok().filter(u8::is_ascii).ok_or(Unfit)?
                        }
                        _ => return Err(Unfit),
                    });
                }
                _ => plain.push(byte),
            }
        }
    }

    #[inline]
    pub fn number(&mut self) -> Fit<u64> {
        let first = self.next_byte().filter(u8::is_ascii_digit).ok_or(Unfit)?;
        self.at += 1;
        let mut value = u64::from(first - b'0');
        while let Some(digit) = self.text.get(self.at).filter(|byte| byte.is_ascii_digit()) {
            if first == b'0' {
                return Err(Unfit);
            }
            let digit = u64::from(digit - b'0');
            value = value.checked_mul(10).and_then(|ten| ten.checked_add(digit)).ok_or(Unfit)?;
            self.at += 1;
        }
        Ok(value)
    }

    #[inline]
    pub fn argument(&mut self) -> Fit<u64> {
        self.take(b',')?;
        self.number()
    }

    pub fn key(&mut self) -> Fit<Key> {
        self.take(b'[')?;
        let table = u8::try_from(self.number()?).map_err(|_| Unfit)?;
        let id = self.argument()?;
        self.take(b']')?;
        Ok(Key { table, id })
    }

    pub fn key_set(&mut self) -> Fit<Span> {
        let start = self.script.keys.len();
        self.list(|reader| {
            let key = reader.key()?;
            reader.script.keys.push(key);
            Ok(())
        })?;
        sort_distinct(&mut self.script.keys[start..])?;
        Ok(Span::since(start, &self.script.keys))
    }

    pub fn order_lines(&mut self) -> Fit<Span> {
        let start = self.script.lines.len();
        self.list(|reader| {
            reader.take(b'[')?;
            let item = reader.number()?;
            let pieces = reader.argument()?;
            reader.take(b']')?;
            let repeated = reader.script.lines[start..].iter().any(|line| line.0 == item);
            if repeated || pieces == 0 || pieces > PIECES {
                return Err(Unfit);
            }
            reader.script.lines.push((item, pieces));
            Ok(())
        })?;
        let lines = Span::since(start, &self.script.lines);
        if (1..=4).contains(&lines.len()) { Ok(lines) } else { Err(Unfit) }
    }

    pub fn ids(&mut self) -> Fit<Span> {
        let start = self.script.ids.len();
        self.list(|reader| {
            let id = reader.number()?;
            reader.script.ids.push(id);
            Ok(())
        })?;
        sort_distinct(&mut self.script.ids[start..])?;
        Ok(Span::since(start, &self.script.ids))
    }

    #[inline]
    pub fn op(&mut self) -> Fit<Op> {
        self.take(b'[')?;
        let name = self.string()?;
        let op = match &*name {
            b"put" => Op::Put { key: self.argument()?, value: self.argument()? },
            b"get" => {
                self.take(b',')?;
                Op::Get { keys: self.ids()? }
            }
            b"add" => Op::Add { key: self.argument()?, amount: self.argument()? },
            b"move" => Op::Move {
                from: self.argument()?,
                to: self.argument()?,
                amount: self.argument()?,
            },
            b"follow" => Op::Follow { key: self.argument()? },
            b"additem" => Op::AddItem {
                item: self.argument()?,
                stock: self.argument()?,
                price: self.argument()?,
            },
            b"restock" => Op::Restock { item: self.argument()?, pieces: self.argument()? },
            b"open" => Op::Open { customer: self.argument()? },
            b"payin" => Op::PayIn { customer: self.argument()?, cents: self.argument()? },
            b"order" => {
                let customer = self.argument()?;
                let order = self.argument()?;
                self.take(b',')?;
                Op::Order { customer, order, lines: self.order_lines()? }
            }
            b"settle" => Op::Settle { customer: self.argument()? },
            b"balance" => Op::Balance { customer: self.argument()? },
            _ => return Err(Unfit),
        };
        self.take(b']')?;
        Ok(op)
    }

    #[inline]
    pub fn request(&mut self) -> Fit<Request> {
        self.next_byte();
        let start = self.at;
        let (mut client, mut number, mut op) = (None, None, None);
        let (mut attempt, mut reads, mut writes) = (1, None, None);
        self.object(|reader, name| {
            match name {
                b"client" => client = Some(reader.number()?),
                b"number" => number = Some(reader.number()?),
                b"op" => op = Some(reader.op()?),
                b"attempt" => attempt = reader.number()?,
                b"reads" => reads = Some(reader.key_set()?),
                b"writes" => writes = Some(reader.key_set()?),
                _ => return Err(Unfit),
            }
            Ok(())
        })?;
        let op = op.ok_or(Unfit)?;
        let (sets, empty) = match (reads, writes) {
            (None, None) => {
                let empty = matches!(op, Op::Get { keys } if keys.len() == 0);
                (Sets::Undeclared { named: None }, empty)
            }
            (Some(reads), Some(writes)) => {
                let empty = reads.len() == 0 && writes.len() == 0;
                (Sets::Declared { reads, writes }, empty)
            }
            _ => return Err(Unfit),
        };
        Ok(Request {
            client: u32::try_from(client.ok_or(Unfit)?).map_err(|_| Unfit)?,
            number: u32::try_from(number.ok_or(Unfit)?).map_err(|_| Unfit)?,
            attempt: u8::try_from(attempt).map_err(|_| Unfit)?,
            empty,
            text: start..self.at,
            op,
            sets,
        })
    }

    pub fn batch(&mut self) -> Fit<Batch> {
        let (mut group, mut requests) = (None, None);
        let start = self.script.requests.len();
        self.object(|reader, name| {
            match name {
                b"group" => group = Some(reader.number()?),
                b"txns" => {
                    reader.script.requests.truncate(start);
                    reader.list(|reader| {
                        let request = reader.request()?;
                        reader.script.requests.push(request);
                        Ok(())
                    })?;
                    requests = Some(Span::since(start, &reader.script.requests));
                }
                _ => return Err(Unfit),
            }
            Ok(())
        })?;
        let requests = requests.ok_or(Unfit)?;
        if requests.len() > BATCH_REQUESTS {
            return Err(Unfit);
        }
        Ok(Batch { group: group.ok_or(Unfit)?, requests })
    }

    pub fn epoch(&mut self) -> Fit<Vec<Batch>> {
        let mut batches = Vec::new();
        self.list(|reader| {
            batches.push(reader.batch()?);
            Ok(())
        })?;
        batches.sort_by_key(|batch| batch.group);
        if batches.windows(2).any(|pair| pair[0].group == pair[1].group) {
            return Err(Unfit);
        }
        Ok(batches)
    }

    pub fn script(mut self) -> Fit<(AppName, u64, Script)> {
        let (mut partitions, mut app, mut epochs) = (None, None, false);
        self.object(|reader, name| {
            match name {
                b"partitions" => partitions = Some(reader.number()?),
                b"app" => {
                    app = Some(match &*reader.string()? {
                        b"kv" => AppName::Kv,
                        b"stock" => AppName::Stock,
                        _ => return Err(Unfit),
                    })
                }
                b"epochs" => {
                    reader.script = Script::default();
                    reader.script.requests.reserve(reader.text.len() / 48);
                    reader.list(|reader| {
                        let epoch = reader.epoch()?;
                        reader.script.epochs.push(epoch);
                        Ok(())
                    })?;
                    epochs = true;
                }
                _ => return Err(Unfit),
            }
            Ok(())
        })?;
        if self.next_byte().is_some() || !epochs {
            return Err(Unfit);
        }
        let partitions = partitions.ok_or(Unfit)?;
        let app = app.ok_or(Unfit)?;
        let script = self.script;
        // The batches stand by ascending group: the last has the greatest.
        let fits = (1..=16).contains(&partitions)
            && script.epochs.iter().filter_map(|epoch| epoch.last()).all(|b| b.group < partitions)
            && script.requests.iter().all(|request| request.op.app() == app);
        if fits { Ok((app, partitions, script)) } else { Err(Unfit) }
    }
}

impl Op {
    pub fn app(self) -> AppName {
        match self {
            Op::Put { .. }
            | Op::Get { .. }
            | Op::Add { .. }
            | Op::Move { .. }
            | Op::Follow { .. } => AppName::Kv,
            _ => AppName::Stock,
        }
    }
}

pub fn sort_distinct<T: Ord>(items: &mut [T]) -> Fit<()> {
    items.sort_unstable();
    let repeated = items.windows(2).any(|pair| pair[0] == pair[1]);
    if repeated || items.len() > SET_KEYS { Err(Unfit) } else { Ok(()) }
}

pub fn hexadecimal(text: &[u8], at: usize) -> Option<u32> {
    let digits = text.get(at..at + 4)?;
    digits.iter().try_fold(0, |code, &digit| Some(code * 16 + char::from(digit).to_digit(16)?))
}

// ------------------------------------------- what is not a script: 90 or 91

pub fn refusal(text: &[u8]) -> &'static str {
    let mut json = Json { text, at: 0 };
    let sound = std::str::from_utf8(text).is_ok() && json.value(127).is_some() && {
        json.space();
        json.at == text.len()
    };
    if sound { "91 BadScript" } else { "90 BadJson" }
}

pub struct Json<'a> {
    pub text: &'a [u8],
    pub at: usize,
}

impl Json<'_> {
    pub fn byte(&self) -> Option<u8> {
        self.text.get(self.at).copied()
    }

    pub fn space(&mut self) {
        while matches!(self.byte(), Some(b' ' | b'\n' | b'\r' | b'\t')) {
            self.at += 1;
        }
    }

    pub fn value(&mut self, depth: u32) -> Option<()> {
        self.space();
        match self.byte()? {
            b'{' => self.items(b'}', depth),
            b'[' => self.items(b']', depth),
            b'"' => self.string(),
            b't' => self.word(b"true"),
            b'f' => self.word(b"false"),
            b'n' => self.word(b"null"),
            _ => self.number(),
        }
    }

    pub fn word(&mut self, word: &[u8]) -> Option<()> {
        self.text[self.at..].starts_with(word).then(|| self.at += word.len())
    }

    pub fn items(&mut self, close: u8, depth: u32) -> Option<()> {
        let inner = depth.checked_sub(1)?;
        self.at += 1;
        self.space();
        if self.byte()? == close {
            self.at += 1;
            return Some(());
        }
        loop {
            if close == b'}' {
                self.space();
                if self.byte()? != b'"' {
                    return None;
                }
                self.string()?;
                self.space();
                self.word(b":")?;
            }
            self.value(inner)?;
            self.space();
            let byte = self.byte()?;
            self.at += 1;
            if byte == close {
                return Some(());
            }
            if byte != b',' {
                return None;
            }
        }
    }

    pub fn string(&mut self) -> Option<()> {
        self.at += 1;
        loop {
            let byte = self.byte()?;
            self.at += 1;
            match byte {
                b'"' => return Some(()),
                0..=0x1f => return None,
                b'\\' => {
                    let kind = self.byte()?;
                    self.at += 1;
                    match kind {
                        b'"' | b'\\' | b'/' | b'b' | b'f' | b'n' | b'r' | b't' => {}
                        b'u' => {
                            let code = hexadecimal(self.text, self.at)?;
                            self.at += 4;
                            match code {
                                0xd800..=0xdbff => {
                                    self.word(b"\\u")?;
                                    let low = hexadecimal(self.text, self.at)?;
                                    self.at += 4;
                                    if !(0xdc00..=0xdfff).contains(&low) {
                                        return None;
                                    }
                                }
                                0xdc00..=0xdfff => return None,
                                _ => {}
                            }
                        }
                        _ => return None,
                    }
                }
                _ => {}
            }
        }
    }

    pub fn digits(&mut self) -> Option<()> {
        let start = self.at;
        while self.byte().is_some_and(|byte| byte.is_ascii_digit()) {
            self.at += 1;
        }
        (self.at > start).then_some(())
    }

    pub fn number(&mut self) -> Option<()> {
        let start = self.at;
        if self.byte()? == b'-' {
            self.at += 1;
        }
        if self.byte()? == b'0' {
            self.at += 1;
        } else {
            self.digits()?;
        }
        if self.byte() == Some(b'.') {
            self.at += 1;
            self.digits()?;
        }
        if matches!(self.byte(), Some(b'e' | b'E')) {
            self.at += 1;
            if matches!(self.byte(), Some(b'+' | b'-')) {
                self.at += 1;
            }
            self.digits()?;
        }
        let text = std::str::from_utf8(&self.text[start..self.at]).ok()?;
        text.parse::<f64>().ok().filter(|value| value.is_finite()).map(|_| ())
    }
}

// ----------------------------------------------------------------- running

/// Folded multiplication: rows are looked up by one u64.
#[derive(Default)]
pub struct Folded(u64);

impl Hasher for Folded {
    fn write(&mut self, _: &[u8]) {
        unreachable!("rows are keyed by u64")
    }

    #[inline]
    fn write_u64(&mut self, id: u64) {
        let wide = u128::from(id ^ 0x9e37_79b9_7f4a_7c15) * 0xd6e8_feb8_6659_fd93;
        self.0 = wide as u64 ^ (wide >> 64) as u64;
    }

    #[inline]
    fn finish(&self) -> u64 {
        self.0
    }
}

pub type Rows<Row> = HashMap<u64, Row, BuildHasherDefault<Folded>>;

pub struct Output(pub Vec<u8>);

/// Text that is written from its end towards its start, so that a line's
/// numbers take one copy.
pub struct Backwards {
    pub bytes: [u8; 72],
    pub at: usize,
}

impl Backwards {
    #[inline]
    pub fn new() -> Backwards {
        Backwards { bytes: [0; 72], at: 72 }
    }

    #[inline]
    pub fn byte(&mut self, byte: u8) {
        self.at -= 1;
        self.bytes[self.at] = byte;
    }

    #[inline]
    pub fn number(&mut self, mut value: u64) {
        while value > 9 {
            self.byte(b'0' + (value % 10) as u8);
            value /= 10;
        }
        self.byte(b'0' + value as u8);
    }
}

impl Output {
    #[inline]
    pub fn text(&mut self, text: &str) {
        self.0.extend_from_slice(text.as_bytes());
    }

    #[inline]
    pub fn number(&mut self, value: u64) {
        let mut text = Backwards::new();
        text.number(value);
        self.0.extend_from_slice(&text.bytes[text.at..]);
    }

    /// `epoch.n client:number `, 54 bytes at most.
    #[inline]
    pub fn line_start(&mut self, epoch: u64, n: u64, client: u32, number: u32) {
        let mut text = Backwards::new();
        text.byte(b' ');
        text.number(number.into());
        text.byte(b':');
        text.number(client.into());
        text.byte(b' ');
        text.number(n);
        text.byte(b'.');
        text.number(epoch);
        self.0.extend_from_slice(&text.bytes[text.at..]);
    }

    #[inline]
    pub fn labelled(&mut self, label: &str, value: u64) {
        self.text(label);
        self.number(value);
    }

    #[inline]
    pub fn row(&mut self, row: Option<&u64>) {
        match row {
            Some(&value) => self.labelled("value ", value),
            None => self.text("none"),
        }
    }
}

pub trait App: Default {
    /// The id that a dependent request's first key names now.
    fn named(&self, op: Op) -> Option<u64>;
    /// Are these the sets that the request needs on the present rows?
    fn needs(&self, script: &Script, op: Op, reads: &[Key], writes: &[Key]) -> bool;
    fn run(&mut self, script: &Script, op: Op, output: &mut Output);
}

pub fn run_all<A: App>(script: &mut Script, scout: bool, output: &mut Output) {
    let mut app = A::default();
    for epoch in 0..script.epochs.len() {
        if scout {
            for batch in &script.epochs[epoch] {
                for request in &mut script.requests[batch.requests.range()] {
                    if let Sets::Undeclared { named } = &mut request.sets {
                        *named = app.named(request.op);
                    }
                }
            }
        }
        let mut n = 0;
        for batch in &script.epochs[epoch] {
            for request in batch.requests.of(&script.requests) {
                output.line_start(epoch as u64, n, request.client, request.number);
                n += 1;
                let current = match request.sets {
                    Sets::Undeclared { named } => named == app.named(request.op),
                    Sets::Declared { reads, writes } => app.needs(
                        script,
                        request.op,
                        reads.of(&script.keys),
                        writes.of(&script.keys),
                    ),
                };
                if current {
                    app.run(script, request.op, output);
                } else {
                    output.text("changed");
                }
                output.text("\n");
            }
        }
    }
    match script.epochs.len() {
        0 => output.text("finished none\n"),
        epochs => {
            output.labelled("finished ", epochs as u64 - 1);
            output.text("\n");
        }
    }
}

// ---------------------------------------------------------------------- kv

#[derive(Default)]
pub struct Kv {
    pub rows: Rows<u64>,
}

impl Kv {
    pub fn key(id: u64) -> Key {
        Key { table: 0, id }
    }

    pub fn value(&self, id: u64) -> u64 {
        self.rows.get(&id).copied().unwrap_or(0)
    }
}

/// Is `set` the one key, or the two in whichever order?
pub fn is_pair(set: &[Key], one: Key, other: Key) -> bool {
    if one == other { set == [one] } else { set == [one.min(other), one.max(other)] }
}

impl App for Kv {
    #[inline]
    fn named(&self, op: Op) -> Option<u64> {
        match op {
            Op::Follow { key } => self.rows.get(&key).copied().filter(|&target| target != key),
            _ => None,
        }
    }

    fn needs(&self, script: &Script, op: Op, reads: &[Key], writes: &[Key]) -> bool {
        match op {
            Op::Put { key, .. } => reads.is_empty() && writes == [Kv::key(key)],
            Op::Get { keys } => {
                let ids = keys.of(&script.ids);
                writes.is_empty() && reads.iter().copied().eq(ids.iter().copied().map(Kv::key))
            }
            Op::Add { key, .. } => reads == [Kv::key(key)] && writes == reads,
            Op::Move { from, to, .. } => {
                is_pair(reads, Kv::key(from), Kv::key(to)) && writes == reads
            }
            Op::Follow { key } => {
                let target = self.named(op).unwrap_or(key);
                writes.is_empty() && is_pair(reads, Kv::key(key), Kv::key(target))
            }
            _ => false,
        }
    }

    #[inline]
    fn run(&mut self, script: &Script, op: Op, output: &mut Output) {
        match op {
            Op::Put { key, value } => {
                self.rows.insert(key, value);
                output.text("done");
            }
            Op::Get { keys } => {
                for (index, id) in keys.of(&script.ids).iter().enumerate() {
                    if index > 0 {
                        output.text(" ");
                    }
                    output.row(self.rows.get(id));
                }
            }
            Op::Add { key, amount } => match self.value(key).checked_add(amount) {
                Some(sum) => {
                    self.rows.insert(key, sum);
                    output.labelled("value ", sum);
                }
                None => output.text("limit"),
            },
            Op::Move { from, to, amount } => match self.value(from).checked_sub(amount) {
                None => output.text("short"),
                Some(_) if from == to => output.text("done"),
                Some(rest) => match self.value(to).checked_add(amount) {
                    Some(sum) => {
                        self.rows.insert(from, rest);
                        self.rows.insert(to, sum);
                        output.text("done");
                    }
                    None => output.text("limit"),
                },
            },
            Op::Follow { key } => match self.rows.get(&key) {
                Some(target) => output.row(self.rows.get(target)),
                None => output.text("none"),
            },
            _ => {}
        }
    }
}

// ------------------------------------------------------------------- stock

pub struct Customer {
    pub balance: u64,
    pub last_order: Option<u64>,
}

pub struct Item {
    pub stock: u64,
    pub price: u64,
}

pub struct Order {
    pub total: u64,
    pub settled: bool,
}

#[derive(Default)]
pub struct Stock {
    pub customers: Rows<Customer>,
    pub items: Rows<Item>,
    pub orders: Rows<Order>,
}

impl Stock {
    pub fn customer(id: u64) -> Key {
        Key { table: 1, id }
    }

    pub fn item(id: u64) -> Key {
        Key { table: 2, id }
    }

    pub fn order(id: u64) -> Key {
        Key { table: 3, id }
    }

    /// The total of an order that can be filled, or why it can't.
    pub fn total(&self, order: u64, lines: &[(u64, u64)]) -> Result<u64, &'static str> {
        if self.orders.contains_key(&order) {
            return Err("orderexists");
        }
        let mut total = 0;
        for (item, pieces) in lines {
            let item = self.items.get(item).ok_or("noitem")?;
            if item.stock < *pieces {
                return Err("short");
            }
            total += u128::from(*pieces) * u128::from(item.price);
        }
        u64::try_from(total).ok().filter(|&total| total <= CENTS).ok_or("limit")
    }
}

/// The sum, where it stays within the limit.
pub fn sum_within(limit: u64, one: u64, other: u64) -> Option<u64> {
    one.checked_add(other).filter(|&sum| sum <= limit)
}

impl App for Stock {
    #[inline]
    fn named(&self, op: Op) -> Option<u64> {
        match op {
            Op::Settle { customer } => self.customers.get(&customer)?.last_order,
            _ => None,
        }
    }

    fn needs(&self, script: &Script, op: Op, reads: &[Key], writes: &[Key]) -> bool {
        match op {
            Op::AddItem { item, .. } | Op::Restock { item, .. } => {
                reads == [Stock::item(item)] && writes == reads
            }
            Op::Open { customer } | Op::PayIn { customer, .. } => {
                reads == [Stock::customer(customer)] && writes == reads
            }
            Op::Order { customer, order, lines } => {
                let lines = lines.of(&script.lines);
                writes == reads
                    && reads.len() == lines.len() + 2
                    && reads.contains(&Stock::customer(customer))
                    && reads.contains(&Stock::order(order))
                    && lines.iter().all(|line| reads.contains(&Stock::item(line.0)))
            }
            Op::Settle { customer } => {
                let first = Stock::customer(customer);
                let last = self.named(op).map_or(first, Stock::order);
                is_pair(reads, first, last) && writes == reads
            }
            Op::Balance { customer } => {
                reads == [Stock::customer(customer)] && writes.is_empty()
            }
            _ => false,
        }
    }

    #[inline]
    fn run(&mut self, script: &Script, op: Op, output: &mut Output) {
        match op {
            Op::AddItem { item, stock, price } => {
                if stock > PIECES || price > CENTS {
                    return output.text("limit");
                }
                if self.items.contains_key(&item) {
                    return output.text("exists");
                }
                self.items.insert(item, Item { stock, price });
                output.text("done");
            }
            Op::Restock { item, pieces } => {
                let Some(item) = self.items.get_mut(&item) else {
                    return output.text("noitem");
                };
                let Some(sum) = sum_within(PIECES, item.stock, pieces) else {
                    return output.text("limit");
                };
                item.stock = sum;
                output.text("done");
            }
            Op::Open { customer } => {
                if self.customers.contains_key(&customer) {
                    return output.text("exists");
                }
                self.customers.insert(customer, Customer { balance: 0, last_order: None });
                output.text("done");
            }
            Op::PayIn { customer, cents } => {
                let Some(customer) = self.customers.get_mut(&customer) else {
                    return output.text("nocustomer");
                };
                let Some(sum) = sum_within(CENTS, customer.balance, cents) else {
                    return output.text("limit");
                };
                customer.balance = sum;
                output.text("done");
            }
            Op::Order { customer, order, lines } => {
                let lines = lines.of(&script.lines);
                if !self.customers.contains_key(&customer) {
                    return output.text("nocustomer");
                }
                let total = match self.total(order, lines) {
                    Ok(total) => total,
                    Err(answer) => return output.text(answer),
                };
                for (item, pieces) in lines {
                    if let Some(item) = self.items.get_mut(item) {
                        item.stock -= pieces;
                    }
                }
                self.orders.insert(order, Order { total, settled: false });
                if let Some(customer) = self.customers.get_mut(&customer) {
                    customer.last_order = Some(order);
                }
                output.labelled("ordered ", total);
            }
            Op::Settle { customer } => {
                let Some(customer) = self.customers.get_mut(&customer) else {
                    return output.text("nocustomer");
                };
                let order = customer.last_order.and_then(|order| self.orders.get_mut(&order));
                let Some(order) = order.filter(|order| !order.settled) else {
                    return output.text("nothingopen");
                };
                let Some(rest) = customer.balance.checked_sub(order.total) else {
                    return output.text("poor");
                };
                customer.balance = rest;
                order.settled = true;
                output.labelled("settled ", order.total);
            }
            Op::Balance { customer } => match self.customers.get(&customer) {
                Some(customer) => output.labelled("cents ", customer.balance),
                None => output.text("nocustomer"),
            },
            _ => {}
        }
    }
}

// ----------------------------------------------------------------- program

pub fn ends_with(line: &str, status: u8) -> ExitCode {
    let _ = writeln!(std::io::stderr(), "calvin: {line}");
    ExitCode::from(status)
}

pub fn main() -> ExitCode {
    let words: Vec<_> = std::env::args().skip(1).collect();
    let scout = match words.iter().map(String::as_str).collect::<Vec<_>>()[..] {
        ["serial"] => false,
        ["serial", "--scout"] => true,
        _ => return ends_with("bad line", 2),
    };
    let limit = std::env::var("BASELINE_LIMIT").ok().and_then(|text| text.parse().ok());
    let limit = limit.unwrap_or(SCRIPT_BYTES);

    let started = Instant::now();
    let mut text = Vec::with_capacity(SCRIPT_BYTES as usize + 1);
    if std::io::stdin().lock().take(limit + 1).read_to_end(&mut text).is_err() {
        return ends_with("95 ReadFailed", 5);
    }
    if text.len() as u64 > limit {
        return ends_with("92 ScriptTooLong", 2);
    }
    let was_read = Instant::now();
    let reader = Reader { text: &text, at: 0, script: Script::default() };
    let Ok((app, _, mut script)) = reader.script() else {
        return ends_with(refusal(&text), 2);
    };
    let was_parsed = Instant::now();
    let mut output = Output(Vec::with_capacity(text.len()));
    match app {
        AppName::Kv => run_all::<Kv>(&mut script, scout, &mut output),
        AppName::Stock => run_all::<Stock>(&mut script, scout, &mut output),
    }
    let was_run = Instant::now();
    if std::io::stdout().write_all(&output.0).is_err() {
        return ends_with("96 WriteFailed", 5);
    }
    if std::env::var_os("BASELINE_PHASES").is_some() {
        eprintln!(
            "read {} parse {} run {} write {} requests {}",
            (was_read - started).as_nanos(),
            (was_parsed - was_read).as_nanos(),
            (was_run - was_parsed).as_nanos(),
            was_run.elapsed().as_nanos(),
            script.requests.len(),
        );
    }
    ExitCode::SUCCESS
}
