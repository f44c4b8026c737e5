//! plain_replay replay [summary | json] < SCRIPT, plain_replay storm N: what `omid` prints for these words, by a plain program of std
//! alone. It is here to be timed beside omid (bench.py --plain), and is not proved. It makes its checks, and knows scripts alone of two
//! nodes in which no store fails, no value has a quote, nothing is refused but a commit for a conflict and a request for the want of a
//! stamp, and a read meets no cell without its shadow but of a transaction that is open and of its term: as those of whole lines, single
//! steps and a hot key, and storms.

use std::collections::BTreeMap;
use std::io::{self, Read, Write};
use std::{env, process};

const KEYS: usize = 4096;
const BUCKETS: usize = 64;
const WIDTH: usize = 4;
const SKEW: u64 = 2;
const STORM: u64 = 20_000;
const ROOM: usize = 1 << 16;

fn fail(line: usize, why: &str) -> ! {
    eprintln!("script line {line}: {why}");
    process::exit(3)
}

/// A value, by where it stands in the script's bytes.
#[derive(Clone, Copy, Default)]
struct Text { at: u32, len: u8 }
impl Text { fn of(self, bytes: &[u8]) -> &[u8] { &bytes[self.at as usize..][..self.len as usize] } }

/// A node and a session, as far as a line or an item has them.
#[derive(Clone, Copy)]
struct Of { node: u8, session: u8 }

/// What a line does: a session writes or reads a key, or an event is made.
#[derive(Clone, Copy)]
enum Verb { Tick(u64), Write(u16, Text), Read(u16), Fetch(u16), Does(fn(&mut System, Of) -> Made) }

struct Line { number: usize, of: Of, verb: Verb }

#[derive(Clone, Copy)]
enum Kind {
    Tick, Take, Renew, Extend, Crash, AskBegin, AskCommit, Accept, DrawStart, DrawCommit, Begin, Write, ReadNone, Read, Placed, Committed,
    Fetch, Absent, Bare, Shadow, Remove, Erase, Conflict, NoStamp,
}

/// An item: whose, of which key or term, two numbers and a value, as far as its kind has them.
struct Item { kind: Kind, of: Of, key: u16, a: u64, b: u64, value: Text }

struct Script { lease: u64, range: u64, lines: Vec<Line>, bytes: Vec<u8> }

fn number(word: &[u8]) -> Option<u64> {
    let plain = word.len() <= 19 && (word.len() == 1 || word.first() != Some(&b'0'));
    let digits = |sum: u64, digit: &u8| digit.is_ascii_digit().then(|| 10 * sum + (digit - b'0') as u64);
    (plain && !word.is_empty()).then(|| word.iter().try_fold(0, digits)).flatten()
}

/// The number behind a letter, below the bound.
fn numbered(word: &[u8], letter: u8, bound: u64) -> Option<u16> {
    let (first, rest) = word.split_first()?;
    (*first == letter).then(|| number(rest)).flatten().filter(|it| *it < bound).map(|it| it as u16)
}

fn action_of(words: &[&[u8]], bytes: &[u8]) -> Option<(Of, Verb)> {
    let (key, session) = (|word| numbered(word, b'k', KEYS as u64), |word| numbered(word, b's', 16).map(|it| it as u8));
    let place = |word: &[u8]| (word.as_ptr() as usize - bytes.as_ptr() as usize) as u32;
    let plain = |word: &[u8]| word.len() <= 64 && !word.iter().any(|it| b"\"\\".contains(it));
    let text = |word| plain(word).then(|| Text { at: place(word), len: word.len() as u8 });
    let by = |word| session(word).map(|session| Of { node: 0, session });
    let at = |word: &[u8], session: Option<u8>| match word {
        [node @ b'a'..=b'b'] => session.map(|session| Of { node: node - b'a', session }),
        _ => None,
    };
    Some(match *words {
        [node, b"take"] => (at(node, Some(0))?, Verb::Does(System::take)),
        [node, b"renew"] => (at(node, Some(0))?, Verb::Does(System::renew)),
        [node, b"crash"] => (at(node, Some(0))?, Verb::Does(System::crash)),
        [node, b"accept", of] => (at(node, session(of))?, Verb::Does(System::accept)),
        [node, b"decide", of] => (at(node, session(of))?, Verb::Does(System::decide)),
        [node, b"put", of] => (at(node, session(of))?, Verb::Does(System::put)),
        [node, b"answer", of] => (at(node, session(of))?, Verb::Does(System::answer)),
        [b"clock", b"tick", count] => (Of { node: 0, session: 0 }, Verb::Tick(number(count)?)),
        [by, b"ask-begin", node] => (at(node, session(by))?, Verb::Does(System::ask::<false>)),
        [by, b"ask-commit", node] => (at(node, session(by))?, Verb::Does(System::ask::<true>)),
        [by, b"begin", node] => (at(node, session(by))?, Verb::Does(System::begin)),
        [by, b"commit", node] => (at(node, session(by))?, Verb::Does(System::commit)),
        [it, b"read", of] => (by(it)?, Verb::Read(key(of)?)),
        [it, b"fetch", of] => (by(it)?, Verb::Fetch(key(of)?)),
        [it, b"write", of, what] => (by(it)?, Verb::Write(key(of)?, text(what)?)),
        [it, b"step"] => (by(it)?, Verb::Does(System::step)),
        _ => return None,
    })
}

fn script_of(bytes: Vec<u8>) -> Script {
    let (mut lease, mut range, mut lines) = (10, 100, Vec::new());
    for (place, line) in bytes.split(|it| *it == b'\n').enumerate() {
        let (mut words, mut count) = ([&line[..0]; 5], 0);
        for word in line.split(|it| matches!(it, b' ' | b'\t')).filter(|it| !it.is_empty()) {
            if count == words.len() || !word.iter().all(u8::is_ascii_graphic) {
                fail(place + 1, "bad words")
            }
            words[count] = word;
            count += 1;
        }
        match &words[..count] {
            [] => {}
            [b"lease", it] if number(it).is_some() => lease = number(it).unwrap(),
            [b"range", it] if number(it).is_some() => range = number(it).unwrap(),
            words => match action_of(words, &bytes) {
                Some((of, verb)) => lines.push(Line { number: place + 1, of, verb }),
                None => fail(place + 1, "no line of plain_replay"),
            },
        }
    }
    Script { lease, range, lines, bytes }
}

macro_rules! put { ($out:ident, $($part:expr),*) => {{ $($part.put($out);)* }} }

/// The script of a storm: four sessions at a time, a renewal behind each group, and a takeover behind fifty of them.
fn storm_of(transactions: u64) -> Script {
    let mut script = Script { lease: 10, range: 100, lines: Vec::new(), bytes: Vec::new() };
    let Script { lines, bytes, .. } = &mut script;
    let mut add = |node, session, verb| lines.push(Line { number: lines.len() + 1, of: Of { node, session: session as u8 }, verb });
    add(0, 0, Verb::Does(System::take));
    for group in 0..transactions.div_ceil(4) {
        let (node, members) = ((group / 50 % 2) as u8, 4 * group..transactions.min(4 * group + 4));
        for it in members.clone() {
            let at = bytes.len();
            put!(bytes, "v", it);
            let value = Text { at: at as u32, len: (bytes.len() - at) as u8 };
            add(node, it % 4, Verb::Does(System::begin));
            add(node, it % 4, Verb::Read((7 * it % 31) as u16));
            add(node, it % 4, Verb::Write((it * it % 31) as u16, value));
        }
        members.for_each(|it| add(node, it % 4, Verb::Does(System::commit)));
        add(node, 0, Verb::Tick(1));
        add(node, 0, Verb::Does(System::renew));
        if (group + 1) % 50 == 0 {
            add(node, 0, Verb::Tick(12));
            add(1 - node, 0, Verb::Does(System::take));
            add(node, 0, Verb::Does(System::crash));
        }
    }
    script
}

struct Cell { version: u64, shadow: Option<u64>, value: Text }

#[derive(Default)]
struct Bucket { kept: Vec<(u64, u16)>, water: u64 }

#[derive(Clone, Copy, PartialEq)]
enum State { Free, Asked(bool), Accepted(bool), Drawn(bool, u64), Settled(u64), Open, Finishing(u64, usize), Undoing(usize) }

/// The node is the one that was asked last, and the epoch that of its oracle at the begin.
struct Session { state: State, node: u8, start: u64, epoch: u64, keys: Vec<u16> }
struct Oracle { term: u16, epoch: u64, until: u64, last: u64, ceiling: u64, buckets: Vec<Bucket> }

#[derive(Default)]
struct Master { term: u16, until: u64, ceiling: u64 }

struct System {
    lease: u64,
    range: u64,
    clock: u64,
    master: Master,
    oracles: [Option<Oracle>; 2],
    sessions: Vec<Session>,
    cells: Vec<Vec<Cell>>,
    table: BTreeMap<u64, u64>,
    items: Vec<Item>,
}

/// Why the event can't be made as one that is granted.
type Made = Result<(), &'static str>;

/// Where the cell of this version is, or would be.
fn place_of(cells: &[Cell], version: u64) -> Result<usize, usize> {
    match cells.last() {
        Some(last) if last.version < version => Err(cells.len()),
        Some(last) if last.version == version => Ok(cells.len() - 1),
        _ => cells.binary_search_by_key(&version, |it| it.version),
    }
}

impl Bucket {
    /// The key's commit above the start, 0 where there is none.
    fn above(&self, key: u16, start: u64) -> Result<u64, &'static str> {
        match self.kept.iter().find(|it| it.1 == key) {
            Some((commit, _)) => Ok(if *commit > start { *commit } else { 0 }),
            None if self.water > start => Err("hidden"),
            None => Ok(0),
        }
    }

    fn record(&mut self, key: u16, commit: u64) {
        match self.kept.iter().position(|it| it.1 == key) {
            Some(place) => self.kept[place].0 = commit,
            None if self.kept.len() < WIDTH => self.kept.push((commit, key)),
            None => {
                let oldest = self.kept.iter_mut().min().expect("a full bucket");
                self.water = oldest.0;
                *oldest = (commit, key);
            }
        }
    }
}

impl System {
    fn tell(&mut self, kind: Kind, of: Of, key: u16, a: u64, b: u64, value: Text) -> Made {
        self.items.push(Item { kind, of, key, a, b, value });
        Ok(())
    }

    fn tell_plain(&mut self, kind: Kind, of: Of, a: u64, b: u64) -> Made { self.tell(kind, of, 0, a, b, Text::default()) }

    fn tell_term(&mut self, kind: Kind, of: Of, term: u16, a: u64, b: u64) -> Made { self.tell(kind, of, term, a, b, Text::default()) }

    fn oracle(&mut self, of: Of) -> Result<&mut Oracle, &'static str> { self.oracles[of.node as usize].as_mut().ok_or("no oracle") }

    fn session(&mut self, of: Of) -> &mut Session { &mut self.sessions[of.session as usize] }

    /// The session's request at the node.
    fn parts(&mut self, of: Of) -> Result<(&mut Oracle, &mut Session), &'static str> {
        let session = &mut self.sessions[of.session as usize];
        let oracle = self.oracles[of.node as usize].as_mut().ok_or("no oracle")?;
        if session.node == of.node { Ok((oracle, session)) } else { Err("no request") }
    }

    fn open(&mut self, of: Of) -> Result<&mut Session, &'static str> {
        Some(self.session(of)).filter(|it| it.state == State::Open).ok_or("no open transaction")
    }

    fn tick(&mut self, of: Of, count: u64) -> Made {
        self.clock += count;
        self.tell_plain(Kind::Tick, of, self.clock, 0)
    }

    fn take(&mut self, of: Of) -> Made {
        let (buckets, epoch) = ((0..BUCKETS).map(|_| Bucket::default()).collect(), self.master.ceiling);
        if self.oracles[of.node as usize].is_some() || (self.master.term > 0 && self.clock < self.master.until + SKEW) {
            return Err("holding, or early");
        }
        let term = self.master.term.checked_add(1).ok_or("too many terms")?;
        let (until, ceiling) = (self.clock + self.lease, epoch + self.range);
        self.master = Master { term, until, ceiling };
        self.oracles[of.node as usize] = Some(Oracle { term, epoch, until, last: epoch, ceiling, buckets });
        self.tell_term(Kind::Take, of, term, until, ceiling)
    }

    /// The term of the node's oracle, which is the record's.
    fn term(&mut self, of: Of) -> Result<u16, &'static str> {
        let term = self.oracle(of)?.term;
        if term == self.master.term { Ok(term) } else { Err("replaced") }
    }

    fn renew(&mut self, of: Of) -> Made {
        let (term, until) = (self.term(of)?, self.master.until.max(self.clock + self.lease));
        self.master.until = until;
        self.oracle(of)?.until = until;
        self.tell_term(Kind::Renew, of, term, self.clock, until)
    }

    fn extend(&mut self, of: Of) -> Made {
        let (term, ceiling) = (self.term(of)?, self.master.ceiling + self.range);
        self.master.ceiling = ceiling;
        self.oracle(of)?.ceiling = ceiling;
        self.tell_term(Kind::Extend, of, term, ceiling, 0)
    }

    fn crash(&mut self, of: Of) -> Made {
        let term = self.oracle(of)?.term;
        let asks = |it: &Session| !matches!(it.state, State::Free | State::Open | State::Finishing(..) | State::Undoing(_));
        if self.sessions.iter().any(|it| it.node == of.node && asks(it)) {
            return Err("a request is lost");
        }
        self.oracles[of.node as usize] = None;
        self.tell_term(Kind::Crash, of, term, 0, 0)
    }

    fn ask<const COMMITS: bool>(&mut self, of: Of) -> Made {
        self.oracle(of)?;
        let session = self.session(of);
        if session.state != if COMMITS { State::Open } else { State::Free } || (COMMITS && session.keys.is_empty()) {
            return Err("busy, or nothing to commit");
        }
        (session.state, session.node) = (State::Asked(COMMITS), of.node);
        let (kind, start) = if COMMITS { (Kind::AskCommit, session.start) } else { (Kind::AskBegin, 0) };
        self.tell_plain(kind, of, start, 0)
    }

    fn accept(&mut self, of: Of) -> Made {
        let reading = self.clock;
        let (oracle, session) = self.parts(of)?;
        let State::Asked(commits) = session.state else { return Err("not asked") };
        if reading >= oracle.until || (commits && session.start <= oracle.epoch) {
            return Err("expired, or of an old epoch");
        }
        session.state = State::Accepted(commits);
        let term = oracle.term;
        self.tell_term(Kind::Accept, of, term, reading, 0)
    }

    /// A commit in conflict is refused, and its cells are to be erased. Where there is no stamp the request stays.
    fn decide(&mut self, of: Of) -> Made {
        let (oracle, session) = self.parts(of)?;
        let State::Accepted(commits) = session.state else { return Err("not accepted") };
        let (start, last, term) = (session.start, oracle.last, oracle.term);
        for key in session.keys.iter().filter(|_| commits) {
            let (key, by) = (*key, oracle.buckets[*key as usize % BUCKETS].above(*key, start)?);
            if by > 0 {
                session.state = State::Undoing(0);
                return self.tell(Kind::Conflict, of, key, by, 0, Text::default());
            }
        }
        if last == oracle.ceiling {
            return self.tell_plain(Kind::NoStamp, of, last, 0);
        }
        oracle.last += 1;
        session.state = State::Drawn(commits, last + 1);
        if !commits {
            return self.tell_term(Kind::DrawStart, of, term, last + 1, 0);
        }
        session.keys.iter().for_each(|key| oracle.buckets[*key as usize % BUCKETS].record(*key, last + 1));
        self.tell_term(Kind::DrawCommit, of, term, start, last + 1)
    }

    fn put(&mut self, of: Of) -> Made {
        let (_, session) = self.parts(of)?;
        let State::Drawn(true, commit) = session.state else { return Err("no commit that was drawn") };
        session.state = State::Settled(commit);
        let start = session.start;
        if self.table.insert(start, commit).is_some() {
            return Err("a mark");
        }
        self.tell_plain(Kind::Placed, of, start, commit)
    }

    /// A begin waits for all commits that were drawn below it.
    fn answer(&mut self, of: Of) -> Made {
        let (oracle, session) = self.parts(of)?;
        let epoch = oracle.epoch;
        match session.state {
            State::Settled(commit) => {
                session.state = State::Finishing(commit, 0);
                let start = session.start;
                self.tell_plain(Kind::Committed, of, start, commit)
            }
            State::Drawn(false, start) => {
                let is_below = |it: &Session| matches!(it.state, State::Drawn(true, commit) if commit < start) && it.node == of.node;
                if self.sessions.iter().any(is_below) {
                    return Err("not yet");
                }
                let session = self.session(of);
                (session.state, session.start, session.epoch) = (State::Open, start, epoch);
                session.keys.clear();
                self.tell_plain(Kind::Begin, of, start, 0)
            }
            _ => Err("not settled"),
        }
    }

    /// A request up to its stamp, for which the node asks for a range where it has none left.
    fn request<const COMMITS: bool>(&mut self, of: Of) -> Made {
        self.ask::<COMMITS>(of)?;
        self.accept(of)?;
        self.decide(of)?;
        if let State::Accepted(_) = self.session(of).state {
            self.extend(of)?;
            self.decide(of)?;
        }
        Ok(())
    }

    fn begin(&mut self, of: Of) -> Made {
        self.request::<false>(of)?;
        self.answer(of)
    }

    fn commit(&mut self, of: Of) -> Made {
        self.request::<true>(of)?;
        if let State::Drawn(..) = self.session(of).state {
            self.put(of)?;
            self.answer(of)?;
        }
        while self.session(of).state != State::Free {
            self.step(of)?;
        }
        Ok(())
    }

    fn write(&mut self, of: Of, key: u16, value: Text) -> Made {
        let session = self.open(of)?;
        let start = session.start;
        if !session.keys.contains(&key) {
            if session.keys.len() == 64 {
                return Err("too many keys");
            }
            session.keys.push(key);
        }
        let cells = &mut self.cells[key as usize];
        match place_of(cells, start) {
            Ok(place) => cells[place].value = value,
            Err(place) => cells.insert(place, Cell { version: start, shadow: None, value }),
        }
        self.tell(Kind::Write, of, key, start, 0, value)
    }

    /// A whole read asks what became of a cell without its shadow, and passes over it where its transaction is open.
    fn read(&mut self, of: Of, key: u16, whole: bool) -> Made {
        let Session { start, epoch, .. } = *self.open(of)?;
        let cells = &self.cells[key as usize];
        let upto = place_of(cells, start).map_or_else(|place| place, |place| place + 1);
        self.tell(Kind::Fetch, of, key, upto as u64, 0, Text::default())?;
        for place in (0..upto).rev() {
            let Cell { version, shadow, value } = self.cells[key as usize][place];
            if version == start || shadow.is_some_and(|commit| commit < start) {
                return self.tell(Kind::Read, of, key, start, version, value);
            }
            if shadow.is_none() {
                if !whole || version <= epoch || self.table.contains_key(&version) {
                    return Err("a cell to resolve");
                }
                self.tell_plain(Kind::Absent, of, version, 0)?;
                self.tell(Kind::Bare, of, key, version, 0, Text::default())?;
            }
        }
        self.tell(Kind::ReadNone, of, key, start, 0, Text::default())
    }

    /// A shadow for each key that was written, and then the record goes; or each cell is erased.
    fn step(&mut self, of: Of) -> Made {
        let session = self.session(of);
        let (txn, state, last) = (session.start, session.state, session.keys.len());
        let (State::Finishing(_, done) | State::Undoing(done)) = state else { return Err("idle") };
        let Some(key) = session.keys.get(done).copied() else {
            session.state = State::Free;
            self.table.remove(&txn);
            return self.tell_plain(Kind::Remove, of, txn, 0);
        };
        session.state = match state {
            State::Finishing(commit, _) => State::Finishing(commit, done + 1),
            _ if done + 1 == last => State::Free,
            _ => State::Undoing(done + 1),
        };
        let cells = &mut self.cells[key as usize];
        let place = place_of(cells, txn).map_err(|_| "a cell that is gone")?;
        let State::Finishing(commit, _) = state else {
            cells.remove(place);
            return self.tell(Kind::Erase, of, key, txn, 0, Text::default());
        };
        cells[place].shadow = Some(commit);
        self.tell(Kind::Shadow, of, key, txn, commit, Text::default())
    }

    fn carry_out(&mut self, line: &Line) -> Made {
        match line.verb {
            Verb::Tick(count) => self.tick(line.of, count),
            Verb::Write(key, value) => self.write(line.of, key, value),
            Verb::Read(key) => self.read(line.of, key, true),
            Verb::Fetch(key) => self.read(line.of, key, false),
            Verb::Does(event) => event(self, line.of),
        }
    }
}

trait Part { fn put(&self, out: &mut Vec<u8>); }
impl Part for &str { fn put(&self, out: &mut Vec<u8>) { out.extend_from_slice(self.as_bytes()) } }
impl Part for &[u8] { fn put(&self, out: &mut Vec<u8>) { out.extend_from_slice(self) } }
impl Part for u8 { fn put(&self, out: &mut Vec<u8>) { out.push(*self) } }
impl Part for u64 {
    fn put(&self, out: &mut Vec<u8>) {
        if *self < 10 {
            return out.push(b'0' + *self as u8);
        }
        let (mut digits, mut at, mut rest) = ([0; 20], 20, *self);
        while rest > 0 {
            at -= 1;
            digits[at] = b'0' + (rest % 10) as u8;
            rest /= 10;
        }
        out.extend_from_slice(&digits[at..])
    }
}

fn print_text(out: &mut Vec<u8>, item: &Item, script: &Script) {
    let node = b'a' + item.of.node;
    let (s, k, a, b, text) = (item.of.session as u64, item.key as u64, item.a, item.b, item.value.of(&script.bytes));
    match item.kind {
        Kind::Tick => put!(out, "tick ", a, "\n"),
        Kind::Take => {
            let (reading, epoch) = (a - script.lease, b - script.range);
            put!(out, "take ", node, " reading=", reading, " term=", k, " epoch=", epoch, " until=", a, " ceiling=", b, "\n")
        }
        Kind::Renew => put!(out, "renew ", node, " reading=", a, " term=", k, " until=", b, "\n"),
        Kind::Extend => put!(out, "extend ", node, " term=", k, " ceiling=", a, "\n"),
        Kind::Crash => put!(out, "crash ", node, " term=", k, "\n"),
        Kind::AskBegin => put!(out, "ask-begin s", s, " ", node, "\n"),
        Kind::AskCommit => put!(out, "ask-commit s", s, " ", node, " start=", a, "\n"),
        Kind::Accept => put!(out, "accept s", s, " ", node, " term=", k, " reading=", a, "\n"),
        Kind::DrawStart => put!(out, "draw s", s, " ", node, " term=", k, " start=", a, "\n"),
        Kind::DrawCommit => put!(out, "draw s", s, " ", node, " term=", k, " start=", a, " commit=", b, "\n"),
        Kind::Begin => put!(out, "begin s", s, " start=", a, "\n"),
        Kind::Write => put!(out, "write s", s, " start=", a, " k", k, " ", text, "\n"),
        Kind::ReadNone => put!(out, "read s", s, " start=", a, " k", k, " none\n"),
        Kind::Read => put!(out, "read s", s, " start=", a, " k", k, " from=", b, " ", text, "\n"),
        Kind::Placed => put!(out, "placed start=", a, " commit=", b, "\n"),
        Kind::Committed => put!(out, "committed s", s, " start=", a, " commit=", b, "\n"),
        Kind::Fetch => put!(out, "step s", s, " fetch k", k, " cells=", a, "\n"),
        Kind::Absent => put!(out, "step s", s, " get ", a, " absent\n"),
        Kind::Bare => put!(out, "step s", s, " look k", k, " ", a, " none\n"),
        Kind::Shadow => put!(out, "step s", s, " shadow k", k, " ", a, " ", b, "\n"),
        Kind::Remove => put!(out, "step s", s, " remove ", a, "\n"),
        Kind::Erase => put!(out, "step s", s, " erase k", k, " ", a, "\n"),
        Kind::Conflict => put!(out, "refused s", s, " conflict key=k", k, " by=", a, "\n"),
        Kind::NoStamp => put!(out, "refused s", s, " no-stamp last=", a, "\n"),
    }
}

fn print_json(out: &mut Vec<u8>, item: &Item, script: &Script) {
    let node = b'a' + item.of.node;
    let (s, k, a, b, text) = (item.of.session as u64, item.key as u64, item.a, item.b, item.value.of(&script.bytes));
    match item.kind {
        Kind::Tick => put!(out, r#"{"kind":"tick","to":"#, a),
        Kind::Take => {
            let (reading, epoch) = (a - script.lease, b - script.range);
            put!(out, r#"{"ceiling":"#, b, r#","epoch":"#, epoch, r#","kind":"take","node":""#, node, r#"","reading":"#, reading);
            put!(out, r#","term":"#, k, r#","until":"#, a)
        }
        Kind::Renew => put!(out, r#"{"kind":"renew","node":""#, node, r#"","reading":"#, a, r#","term":"#, k, r#","until":"#, b),
        Kind::Extend => put!(out, r#"{"ceiling":"#, a, r#","kind":"extend","node":""#, node, r#"","term":"#, k),
        Kind::Crash => put!(out, r#"{"kind":"crash","node":""#, node, r#"","term":"#, k),
        Kind::AskBegin => put!(out, r#"{"kind":"ask-begin","node":""#, node, r#"","session":"s"#, s, "\""),
        Kind::AskCommit => put!(out, r#"{"kind":"ask-commit","node":""#, node, r#"","session":"s"#, s, r#"","start":"#, a),
        Kind::Accept => {
            put!(out, r#"{"kind":"accept","node":""#, node, r#"","reading":"#, a, r#","session":"s"#, s, r#"","term":"#, k)
        }
        Kind::DrawStart => {
            put!(out, r#"{"kind":"draw","node":""#, node, r#"","session":"s"#, s, r#"","start":"#, a, r#","term":"#, k)
        }
        Kind::DrawCommit => {
            put!(out, r#"{"commit":"#, b, r#","kind":"draw","node":""#, node, r#"","session":"s"#, s, r#"","start":"#, a, r#","term":"#, k)
        }
        Kind::Begin => put!(out, r#"{"kind":"begin","session":"s"#, s, r#"","start":"#, a),
        Kind::Write => put!(out, r#"{"key":"k"#, k, r#"","kind":"write","session":"s"#, s, r#"","start":"#, a, r#","value":""#, text, "\""),
        Kind::ReadNone => put!(out, r#"{"key":"k"#, k, r#"","kind":"read","session":"s"#, s, r#"","start":"#, a),
        Kind::Read => {
            put!(out, r#"{"from":"#, b, r#","key":"k"#, k, r#"","kind":"read","session":"s"#, s, r#"","start":"#, a, r#","value":""#, text, "\"")
        }
        Kind::Placed => put!(out, r#"{"commit":"#, b, r#","kind":"placed","start":"#, a),
        Kind::Committed => put!(out, r#"{"commit":"#, b, r#","kind":"committed","session":"s"#, s, r#"","start":"#, a),
        Kind::Fetch => put!(out, r#"{"actor":"s"#, s, r#"","kind":"step","text":"fetch k"#, k, " cells=", a, "\""),
        Kind::Absent => put!(out, r#"{"actor":"s"#, s, r#"","kind":"step","text":"get "#, a, " absent\""),
        Kind::Bare => put!(out, r#"{"actor":"s"#, s, r#"","kind":"step","text":"look k"#, k, " ", a, " none\""),
        Kind::Shadow => put!(out, r#"{"actor":"s"#, s, r#"","kind":"step","text":"shadow k"#, k, " ", a, " ", b, "\""),
        Kind::Remove => put!(out, r#"{"actor":"s"#, s, r#"","kind":"step","text":"remove "#, a, "\""),
        Kind::Erase => put!(out, r#"{"actor":"s"#, s, r#"","kind":"step","text":"erase k"#, k, " ", a, "\""),
        Kind::Conflict => put!(out, r#"{"actor":"s"#, s, r#"","kind":"refused","text":"conflict key=k"#, k, " by=", a, "\""),
        Kind::NoStamp => put!(out, r#"{"actor":"s"#, s, r#"","kind":"refused","text":"no-stamp last="#, a, "\""),
    }
    put!(out, "}\n")
}

fn summarize(system: &System) {
    let (mut begun, mut committed, mut conflict, mut other) = (0, 0, 0, 0);
    for item in &system.items {
        match item.kind {
            Kind::Begin => begun += 1,
            Kind::Committed => committed += 1,
            Kind::Conflict => conflict += 1,
            Kind::NoStamp => other += 1,
            _ => {}
        }
    }
    println!("transactions={begun} committed={committed} conflict={conflict} hidden=0 other={other} items={}", system.items.len());
}

fn carried_out(script: &Script) -> System {
    let session = || Session { state: State::Free, node: 0, start: 0, epoch: 0, keys: Vec::new() };
    let mut system = System {
        lease: script.lease,
        range: script.range,
        clock: 0,
        master: Master::default(),
        oracles: [None, None],
        sessions: (0..16).map(|_| session()).collect(),
        cells: (0..KEYS).map(|_| Vec::new()).collect(),
        table: BTreeMap::new(),
        items: Vec::new(),
    };
    for line in &script.lines {
        if let Err(why) = system.carry_out(line) {
            fail(line.number, why)
        }
    }
    system
}

fn read_script() -> io::Result<Script> {
    let mut bytes = Vec::new();
    io::stdin().lock().read_to_end(&mut bytes)?;
    Ok(script_of(bytes))
}

fn main() -> io::Result<()> {
    let words: Vec<String> = env::args().skip(1).collect();
    let print = match words.iter().map(String::as_str).collect::<Vec<_>>()[..] {
        ["replay"] => print_text,
        ["replay", "json"] => print_json,
        ["replay", "summary"] => return Ok(summarize(&carried_out(&read_script()?))),
        ["storm", count] => match number(count.as_bytes()).filter(|it| (1..=STORM).contains(it)) {
            Some(transactions) => return Ok(summarize(&carried_out(&storm_of(transactions)))),
            None => fail(0, "a storm has 1 to 20000 transactions"),
        },
        _ => fail(0, "usage: plain_replay replay [json | summary] | storm N"),
    };
    let script = read_script()?;
    let system = carried_out(&script);
    let mut out = Vec::with_capacity(ROOM + 1024);
    for item in &system.items {
        print(&mut out, item, &script);
        if out.len() >= ROOM {
            io::stdout().write_all(&out)?;
            out.clear();
        }
    }
    io::stdout().write_all(&out)
}
