//! plain_audit audit [strict] < HISTORY: what `omid` prints for these words, and its status, by a plain program of std alone. It is here
//! to be timed beside omid (bench.py --plain), and is not proved. It reads both formats. One line of JSON it takes for no item that
//! omid reads: where a member is repeated and is neither a text nor a whole number before the last time.

use std::collections::HashMap;
use std::hash::{BuildHasherDefault, Hasher};
use std::io::{self, Read as _};
use std::{array, env, process, str};

const BYTES: usize = 16 * 1024 * 1024;
const KEYS: usize = 4096;
const SESSIONS: usize = 16;
/// The bytes that stand for themselves in a text of JSON, but for those of several bytes.
static PLAIN: [bool; 256] = plain_bytes();

const fn plain_bytes() -> [bool; 256] {
    let (mut plain, mut byte) = ([false; 256], b' ');
    while byte <= b'~' {
        plain[byte as usize] = byte != b'"' && byte != b'\\';
        byte += 1;
    }
    plain
}

/// What is left of a text.
#[derive(Clone, Copy)]
struct Words<'a>(&'a [u8]);

impl<'a> Words<'a> {
    fn text(&mut self, text: &[u8]) -> Option<()> {
        self.0 = self.0.strip_prefix(text)?;
        Some(())
    }

    fn byte(&mut self) -> Option<u8> {
        let (first, rest) = self.0.split_first()?;
        self.0 = rest;
        Some(*first)
    }

    /// The bytes in front that are of this kind.
    fn run(&mut self, is: impl Fn(u8) -> bool) -> &'a [u8] {
        let (run, rest) = self.0.split_at(self.0.iter().position(|it| !is(*it)).unwrap_or(self.0.len()));
        self.0 = rest;
        run
    }

    fn number(&mut self) -> Option<u64> {
        let digits = |text: &'a [u8]| text.iter().map(|it| it.wrapping_sub(b'0') as u64).take_while(|it| *it < 10);
        let (sum, len) = digits(self.0).fold((0u64, 0), |(sum, len), it| (sum.wrapping_mul(10).wrapping_add(it), len + 1));
        let (text, plain) = (self.0, len == 1 || (len > 1 && self.0[0] != b'0'));
        self.0 = &text[len..];
        match len {
            0..=19 => plain.then_some(sum),
            _ => digits(text).try_fold(0u64, |sum, it| sum.checked_mul(10)?.checked_add(it)).filter(|_| plain),
        }
    }

    fn field(&mut self, before: &[u8]) -> Option<u64> { self.text(before).and_then(|()| self.number()) }
    fn stamp(&mut self, before: &[u8]) -> Option<u64> { self.field(before).and_then(stamp) }
    fn session(&mut self) -> Option<u64> { self.field(b"s").filter(|it| *it < SESSIONS as u64) }
    fn key(&mut self) -> Option<u64> { self.field(b"k").filter(|it| *it < KEYS as u64) }
    fn node(&mut self) -> Option<()> { self.byte().filter(|it| matches!(it, b'a'..=b'h')).map(drop) }
    fn word(&mut self) -> &'a [u8] { self.run(|it| matches!(it, b'a'..=b'z' | b'-')) }
    fn one_of(&mut self, words: &[&[u8]]) -> Option<()> { words.contains(&self.word()).then_some(()) }
    fn value(&mut self) -> Option<&'a [u8]> { Some(self.run(|it| matches!(it, b'!'..=b'~'))).filter(|it| (1..=64).contains(&it.len())) }
    fn ends(&self) -> bool { matches!(self.0.first(), None | Some(b'\n')) }

    fn name(&mut self) -> Option<()> {
        (1..=16).contains(&self.run(|it| it.is_ascii_alphanumeric() || it == b'-').len()).then_some(())
    }

    fn actor(&mut self) -> Option<()> {
        match self.0.first()? {
            b's' => self.session().map(drop),
            _ if self.text(b"clock").is_some() || self.text(b"janitor").is_some() => Some(()),
            _ => self.node(),
        }
    }

    fn mark(&mut self) -> Option<()> { self.text(b" invalid").or_else(|| self.stamp(b" committed=").map(drop)) }

    /// A step on the stores, and the transaction whose keys it lists.
    fn step(&mut self) -> Option<Option<u64>> {
        let word = self.word();
        self.text(b" ")?;
        match word {
            b"fetch" => (self.key()?, self.field(b" cells=")?).1,
            b"shadow" => (self.key()?, self.stamp(b" ")?, self.stamp(b" ")?).1,
            b"remove" => self.stamp(b"")?,
            b"get" => (self.stamp(b"")?, self.text(b" absent").or_else(|| self.mark())?).0,
            b"mark" => (self.stamp(b"")?, self.mark()?).0,
            b"look" => {
                (self.key()?, self.stamp(b" ")?);
                self.text(b" none").or_else(|| self.text(b" gone")).or_else(|| self.stamp(b" commit=").map(drop))?;
                0
            }
            b"erase" => (self.key()?, self.stamp(b" ")?).1,
            b"keys" => return Some(Some((self.stamp(b"")?, self.field(b" count=")?).0)),
            b"put" => (self.stamp(b"")?, self.text(b" invalid")?).0,
            b"handed" => (self.stamp(b"")?, self.stamp(b" ")?).0,
            _ => return None,
        };
        Some(None)
    }

    fn cause(&mut self) -> Option<()> {
        match self.word() {
            b"no-transaction" | b"busy" | b"too-many-keys" | b"gone" | b"idle" => {}
            b"conflict" => _ = (self.text(b" key=")?, self.key()?, self.stamp(b" by=")?),
            b"hidden" => _ = (self.text(b" key=")?, self.key()?, self.field(b" water=")?),
            b"old-epoch" | b"undecided" => _ = (self.stamp(b" start=")?, self.field(b" epoch=")?),
            b"expired" | b"early" => _ = (self.field(b" reading=")?, self.field(b" until=")?),
            b"invalid" | b"open" => _ = self.stamp(b" start=")?,
            b"not-yet" => _ = self.stamp(b" commit=")?,
            b"replaced" => _ = self.field(b" found=")?,
            b"spent" => _ = self.field(b" ceiling=")?,
            b"no-stamp" => _ = self.field(b" last=")?,
            b"full" => _ = self.field(b" in-flight=")?,
            b"holding" => _ = self.field(b" term=").filter(|it| *it > 0)?,
            b"no-request" => _ = (self.text(b" session=")?, self.session()?),
            b"no-oracle" => _ = (self.text(b" node=")?, self.node()?),
            b"crashed" => _ = (self.text(b" node=")?, self.node()?, self.field(b" term=").filter(|it| *it > 0)?),
            _ => return None,
        }
        Some(())
    }

    fn blanks(&mut self) {
        while let Some(b'\t' | b'\r' | b' ') = self.0.first().filter(|it| **it <= b' ') {
            self.0 = &self.0[1..];
        }
    }

    /// A text of JSON. One with an escape is kept until the program ends.
    fn quoted(&mut self) -> Option<&'a [u8]> {
        self.text(b"\"")?;
        let plain = self.run(|it| PLAIN[it as usize]);
        if self.text(b"\"").is_some() { Some(plain) } else { self.unescaped(plain) }
    }

    #[cold]
    fn unescaped(&mut self, front: &[u8]) -> Option<&'a [u8]> {
        let mut text = front.to_vec();
        loop {
            match self.byte()? {
                b'"' => break,
                b'\\' => match self.byte()? {
                    it @ (b'"' | b'\\' | b'/') => text.push(it),
                    b'u' => text.extend(self.letter()?.bytes()),
                    it => text.push(b"\x08\x0c\n\r\t"[b"bfnrt".iter().position(|name| *name == it)?]),
                },
                0..=31 => return None,
                it => text.push(it),
            }
        }
        str::from_utf8(&text).is_ok().then(|| &*text.leak())
    }

    /// A letter by one unit, or by two.
    fn letter(&mut self) -> Option<String> {
        let mut units = vec![self.unit()?];
        if matches!(units[0], 0xd800..0xdc00) {
            self.text(b"\\u")?;
            units.push(self.unit()?);
        }
        String::from_utf16(&units).ok()
    }

    fn unit(&mut self) -> Option<u16> {
        (0..4).try_fold(0, |sum, _| Some(16 * sum + (self.byte()? as char).to_digit(16)? as u16))
    }
}

fn stamp(number: u64) -> Option<u64> { (1..=1 << 62).contains(&number).then_some(number) }

/// The fields that items have, by their names in JSON.
#[derive(Clone, Copy)]
enum Field { Actor, Ceiling, Commit, Epoch, From, How, Key, Kind, Name, Node, Note, Reading, Session, Start, Store, Term, Text, To, Until, Value }

const FIELDS: usize = Field::Value as usize + 1;

fn field_of(name: &[u8]) -> Option<Field> {
    Some(match name {
        [b'a', ..] if name == b"actor" => Field::Actor,
        [b'c', b'e', ..] if name == b"ceiling" => Field::Ceiling,
        [b'c', ..] if name == b"commit" => Field::Commit,
        [b'e', ..] if name == b"epoch" => Field::Epoch,
        [b'f', ..] if name == b"from" => Field::From,
        [b'h', ..] if name == b"how" => Field::How,
        [b'k', b'e', ..] if name == b"key" => Field::Key,
        [b'k', ..] if name == b"kind" => Field::Kind,
        [b'n', b'a', ..] if name == b"name" => Field::Name,
        [b'n', b'o', b'd', ..] if name == b"node" => Field::Node,
        [b'n', ..] if name == b"note" => Field::Note,
        [b'r', ..] if name == b"reading" => Field::Reading,
        [b's', b'e', ..] if name == b"session" => Field::Session,
        [b's', b't', b'a', ..] if name == b"start" => Field::Start,
        [b's', ..] if name == b"store" => Field::Store,
        [b't', b'e', b'r', ..] if name == b"term" => Field::Term,
        [b't', b'e', ..] if name == b"text" => Field::Text,
        [b't', ..] if name == b"to" => Field::To,
        [b'u', ..] if name == b"until" => Field::Until,
        [b'v', ..] if name == b"value" => Field::Value,
        _ => return None,
    })
}

/// An item's line, of which each field is taken once.
trait Line<'a> {
    fn kind(&mut self) -> Option<&'a [u8]>;

    /// A number, which in a line of text stands behind these bytes.
    fn number(&mut self, field: Field, before: &[u8]) -> Option<u64>;

    /// What is read of a text, which in a line of text stands behind a blank.
    fn words<T>(&mut self, field: Field, read: impl FnOnce(&mut Words<'a>) -> Option<T>) -> Option<T>;

    fn has(&self, field: Field, before: &[u8]) -> bool;

    /// Whether these bytes follow in a line of text.
    fn says(&mut self, text: &[u8]) -> Option<()>;

    /// Whether nothing is left.
    fn is_over(&self) -> bool;

    fn start(&mut self) -> Option<u64> { stamp(self.number(Field::Start, b" start=")?) }
    fn commit(&mut self) -> Option<u64> { stamp(self.number(Field::Commit, b" commit=")?) }
    fn term(&mut self) -> Option<u64> { self.number(Field::Term, b" term=").filter(|it| *it > 0) }

    /// The session that asked, and the node.
    fn asked(&mut self) -> Option<u64> {
        let session = self.words(Field::Session, Words::session)?;
        self.words(Field::Node, Words::node).map(|()| session)
    }
}

impl<'a> Line<'a> for Words<'a> {
    fn kind(&mut self) -> Option<&'a [u8]> { Some(self.word()) }
    fn number(&mut self, _: Field, before: &[u8]) -> Option<u64> { self.field(before) }
    fn has(&self, _: Field, before: &[u8]) -> bool { self.0.starts_with(before) }
    fn says(&mut self, text: &[u8]) -> Option<()> { self.text(text) }
    fn is_over(&self) -> bool { self.ends() }

    fn words<T>(&mut self, _: Field, read: impl FnOnce(&mut Words<'a>) -> Option<T>) -> Option<T> {
        self.text(b" ")?;
        read(self)
    }
}

/// The members of an object: each is there as a text, as a number, or not.
struct Members<'a> { texts: [&'a [u8]; FIELDS], numbers: [u64; FIELDS], are_texts: u32, are_numbers: u32 }

impl<'a> Members<'a> {
    fn read(&mut self, words: &mut Words<'a>) -> Option<()> {
        (self.are_texts, self.are_numbers) = (0, 0);
        words.blanks();
        words.text(b"{")?;
        loop {
            words.blanks();
            let field = field_of(words.quoted()?)? as usize;
            words.blanks();
            words.text(b":")?;
            words.blanks();
            let is_text = words.0.first() == Some(&b'"');
            if is_text { self.texts[field] = words.quoted()? } else { self.numbers[field] = words.number()? }
            self.are_texts = self.are_texts & !(1 << field) | (is_text as u32) << field;
            self.are_numbers = self.are_numbers & !(1 << field) | (!is_text as u32) << field;
            words.blanks();
            if words.text(b"}").is_some() {
                break;
            }
            words.text(b",")?;
        }
        words.blanks();
        words.ends().then_some(())
    }

    fn text(&mut self, field: Field) -> Option<&'a [u8]> {
        let there = self.are_texts & 1 << field as u32 != 0;
        self.are_texts &= !(1 << field as u32);
        there.then_some(self.texts[field as usize])
    }
}

impl<'a> Line<'a> for Members<'a> {
    fn kind(&mut self) -> Option<&'a [u8]> { self.text(Field::Kind) }
    fn has(&self, field: Field, _: &[u8]) -> bool { (self.are_texts | self.are_numbers) & 1 << field as u32 != 0 }
    fn says(&mut self, _: &[u8]) -> Option<()> { Some(()) }
    fn is_over(&self) -> bool { self.are_texts | self.are_numbers == 0 }

    fn number(&mut self, field: Field, _: &[u8]) -> Option<u64> {
        let there = self.are_numbers & 1 << field as u32 != 0;
        self.are_numbers &= !(1 << field as u32);
        there.then_some(self.numbers[field as usize])
    }

    fn words<T>(&mut self, field: Field, read: impl FnOnce(&mut Words<'a>) -> Option<T>) -> Option<T> {
        let mut words = Words(self.text(field)?);
        read(&mut words).filter(|_| words.0.is_empty())
    }
}

type Answer<'a> = Option<(u64, &'a [u8])>;

/// What an item tells the judge.
enum Told<'a> { Ask(u64), Begin(u64, u64), Write(u64, u64, &'a [u8]), Read(u64, u64, Answer<'a>), Placed(u64, u64), Listed(u64), Else }

fn item_of<'a, L: Line<'a>>(line: &mut L) -> Option<Told<'a>> {
    use Field::*;
    let told = match line.kind()? {
        b"step" => {
            line.words(Actor, Words::actor)?;
            line.words(Text, Words::step)?.map_or(Told::Else, Told::Listed)
        }
        b"ask-begin" => Told::Ask(line.asked()?),
        b"begin" => Told::Begin(line.words(Session, Words::session)?, line.start()?),
        b"write" => {
            line.words(Session, Words::session)?;
            Told::Write(line.start()?, line.words(Key, Words::key)?, line.words(Value, Words::value)?)
        }
        b"read" => {
            line.words(Session, Words::session)?;
            let (start, key) = (line.start()?, line.words(Key, Words::key)?);
            let answer = match line.has(From, b" from=") {
                true => Some((stamp(line.number(From, b" from=")?)?, line.words(Value, Words::value)?)),
                false => line.says(b" none").map(|()| None)?,
            };
            Told::Read(start, key, answer)
        }
        b"placed" => Told::Placed(line.start()?, line.commit()?),
        kind => {
            silent(kind, line)?;
            Told::Else
        }
    };
    line.is_over().then_some(told)
}

/// An item that tells the judge nothing.
fn silent<'a, L: Line<'a>>(kind: &[u8], line: &mut L) -> Option<()> {
    use Field::*;
    match kind {
        b"accept" => _ = (line.asked()?, line.term()?, line.number(Reading, b" reading=")?),
        b"draw" => {
            (line.asked()?, line.term()?, line.start()?);
            if line.has(Commit, b" commit=") {
                line.commit()?;
            }
        }
        b"ask-commit" => _ = (line.asked()?, line.start()?),
        b"committed" => _ = (line.words(Session, Words::session)?, line.start()?, line.commit()?),
        b"tick" => _ = line.number(To, b" ")?,
        b"take" => {
            (line.words(Node, Words::node)?, line.number(Reading, b" reading=")?, line.term()?);
            (line.number(Epoch, b" epoch=")?, line.number(Until, b" until=")?, line.number(Ceiling, b" ceiling=")?);
        }
        b"renew" => {
            (line.words(Node, Words::node)?, line.number(Reading, b" reading=")?, line.term()?, line.number(Until, b" until=")?);
        }
        b"extend" => _ = (line.words(Node, Words::node)?, line.term()?, line.number(Ceiling, b" ceiling=")?),
        b"crash" => _ = (line.words(Node, Words::node)?, line.term()?),
        b"refused" => _ = (line.words(Actor, Words::actor)?, line.words(Text, Words::cause)?),
        b"mark" => _ = (line.words(Actor, Words::actor)?, line.start()?),
        b"end" => {
            (line.words(Session, Words::session)?, line.start()?);
            line.words(How, |it| it.one_of(&[b"read-only", b"aborted", b"dead"]))?
        }
        b"vanish" => _ = line.words(Session, Words::session)?,
        b"fault" => {
            line.words(Actor, Words::actor)?;
            line.words(Store, |it| it.one_of(&[b"cells", b"table", b"master"]))?
        }
        b"note" => {
            line.words(Actor, Words::actor)?;
            match line.words(Note, |it| Some(it.word()))? {
                b"post" | b"await" => line.words(Name, Words::name)?,
                b"hold" | b"free" => line.words(Name, |it| it.one_of(&[b"request", b"persist", b"reply"]))?,
                _ => return None,
            }
        }
        _ => return None,
    }
    Some(())
}

/// Spreads a number over all bits.
#[derive(Default)]
struct Spread(u64);
impl Hasher for Spread {
    fn write(&mut self, bytes: &[u8]) { bytes.iter().for_each(|it| self.write_u64(*it as u64)) }
    fn write_u64(&mut self, number: u64) { self.0 = (self.0 ^ number).wrapping_mul(0x9e37_79b9_7f4a_7c15).rotate_left(32) }
    fn finish(&self) -> u64 { self.0 }
}
type Map = HashMap<u64, u32, BuildHasherDefault<Spread>>;

/// The places of two items, from 0. The least pair is the one that is told.
type Pair = (u32, u32);

fn least(pairs: [Option<Pair>; 3]) -> Option<Pair> { pairs.iter().flatten().min().copied() }

/// Commit 0 stands for none.
struct Txn { start: u64, commit: u64, placed: u32, listed: bool }
struct Write<'a> { place: u32, txn: u32, key: u16, value: &'a [u8] }

/// A read, with the transaction's last write of the key before it, and whether its keys were listed before.
struct Read<'a> { place: u32, txn: u32, key: u16, own: Option<u32>, listed: bool, answer: Answer<'a> }

/// A committed transaction and its last write of a key.
struct Version { commit: u64, start: u64, placed: u32, write: u32 }

#[derive(Default)]
struct History<'a> {
    items: u32,
    seats: Map,
    txns: Vec<Txn>,
    writes: Vec<Write<'a>>,
    reads: Vec<Read<'a>>,
    // the last write of a transaction and a key
    last: Map,
    // starts of begins and commits, with their places
    stamps: Vec<(u64, u32)>,
    // commits above all before, with their places
    rises: Vec<(u64, u32)>,
    // the greatest commit before each session's last ask
    asked: [Option<u64>; SESSIONS],
    // begins that are not above all commits before their asks
    stale: Vec<(u64, u32)>,
    crowded: Option<Pair>,
}

impl<'a> History<'a> {
    fn seat(&mut self, start: u64) -> u32 {
        let txns = &mut self.txns;
        *self.seats.entry(start).or_insert_with(|| {
            txns.push(Txn { start, commit: 0, placed: 0, listed: false });
            txns.len() as u32 - 1
        })
    }

    fn greatest(&self) -> u64 { self.rises.last().map_or(0, |it| it.0) }

    fn note(&mut self, told: Told<'a>) {
        let place = self.items;
        self.items += 1;
        match told {
            Told::Else => {}
            Told::Ask(session) => self.asked[session as usize] = Some(self.greatest()),
            Told::Begin(session, start) => {
                self.stamps.push((start, place));
                if start <= self.asked[session as usize].unwrap_or(self.greatest()) {
                    self.stale.push((start, place));
                }
            }
            Told::Write(start, key, value) => {
                let txn = self.seat(start);
                self.last.insert(KEYS as u64 * txn as u64 + key, self.writes.len() as u32);
                self.writes.push(Write { place, txn, key: key as u16, value });
            }
            Told::Read(start, key, answer) => {
                let txn = self.seat(start);
                let own = self.last.get(&(KEYS as u64 * txn as u64 + key)).copied();
                self.reads.push(Read { place, txn, key: key as u16, own, listed: self.txns[txn as usize].listed, answer });
            }
            Told::Placed(start, commit) => self.place(place, start, commit),
            Told::Listed(start) => {
                let txn = self.seat(start);
                self.txns[txn as usize].listed = true;
            }
        }
    }

    fn place(&mut self, place: u32, start: u64, commit: u64) {
        let seat = self.seat(start) as usize;
        let txn = &mut self.txns[seat];
        let twice = (txn.commit > 0).then_some((txn.placed, place));
        let low = (commit <= start).then_some((place, place));
        self.crowded = least([self.crowded, twice, low]);
        (txn.commit, txn.placed) = (commit, place);
        self.stamps.push((commit, place));
        if commit > self.greatest() {
            self.rises.push((commit, place));
        }
    }

    fn stamped(&mut self) -> Option<Pair> {
        if self.stamps.is_sorted_by(|one, other| one.0 < other.0) {
            return self.crowded;
        }
        self.stamps.sort();
        let met = self.stamps.windows(2).filter(|it| it[0].0 == it[1].0).map(|it| (it[0].1, it[1].1)).min();
        least([self.crowded, met, None])
    }

    /// The versions of each key, by their commits.
    fn versions(&self) -> Vec<Vec<Version>> {
        let mut lists: Vec<Vec<Version>> = (0..KEYS).map(|_| Vec::new()).collect();
        for (number, write) in self.writes.iter().enumerate() {
            let (txn, list, write) = (&self.txns[write.txn as usize], &mut lists[write.key as usize], number as u32);
            match list.last_mut() {
                _ if txn.commit == 0 => {}
                Some(last) if last.start == txn.start => last.write = write,
                _ => list.push(Version { commit: txn.commit, start: txn.start, placed: txn.placed, write }),
            }
        }
        for list in &mut lists {
            if !list.is_sorted_by(|one, other| one.commit < other.commit) {
                list.sort_by_key(|it| (it.commit, it.write));
                list.dedup_by(|later, kept| later.start == kept.start && { kept.write = later.write; true });
            }
        }
        lists
    }

    fn apart(&self, versions: &[Vec<Version>]) -> Option<Pair> {
        let takes_turns = |list: &Vec<Version>| list.windows(2).all(|it| it[0].commit < it[1].start);
        let crossed: Vec<_> = versions.iter().filter(|list| !takes_turns(list)).collect();
        let first = crossed.iter().filter_map(|list| {
            let mut start_behind = u64::MAX;
            let overlaps = |place: usize| {
                let before = place > 0 && list[place - 1].commit >= list[place].start;
                let behind = start_behind <= list[place].commit;
                start_behind = start_behind.min(list[place].start);
                (before || behind).then_some(list[place].placed)
            };
            (0..list.len()).rev().filter_map(overlaps).min()
        }).min()?;
        let seconds = crossed.iter().filter_map(|list| {
            let one = list.iter().find(|it| it.placed == first)?;
            let overlaps = |it: &&Version| it.placed != first && it.start <= one.commit && one.start <= it.commit;
            list.iter().filter(overlaps).map(|it| it.placed).min()
        });
        Some((first, seconds.min()?))
    }

    fn wrong_read(&self, versions: &[Vec<Version>]) -> Option<Pair> {
        self.reads.iter().find_map(|read| {
            let (start, list) = (self.txns[read.txn as usize].start, &versions[read.key as usize]);
            let seen = || list[..list.partition_point(|it| it.commit < start)].last().map(|it| (it.start, &self.writes[it.write as usize]));
            let is_right = |it: Option<(u64, &Write)>| read.answer == it.map(|(from, write)| (from, write.value));
            match read.own.map(|it| &self.writes[it as usize]) {
                Some(own) if is_right(Some((start, own))) || (read.listed && is_right(seen())) => None,
                Some(own) => Some((read.place, own.place)),
                None => Some(seen()).filter(|it| !is_right(*it)).map(|it| (read.place, it.map_or(read.place, |it| it.1.place))),
            }
        })
    }

    fn stale_begin(&self) -> Option<Pair> {
        let first = |start: u64| self.rises[self.rises.partition_point(|it| it.0 < start)].1;
        self.stale.iter().map(|(start, place)| (first(*start), *place)).min()
    }

    fn crossing(&self, versions: &[Vec<Version>]) -> Option<Pair> {
        self.reads.iter().filter(|read| read.own.is_none()).find_map(|read| {
            let (txn, list) = (&self.txns[read.txn as usize], &versions[read.key as usize]);
            let above = &list[list.partition_point(|it| it.commit <= txn.start)..];
            above.iter().take_while(|it| it.commit < txn.commit).map(|it| (read.place, it.placed)).min()
        })
    }
}

fn history_of(bytes: &[u8]) -> Result<History<'_>, u32> {
    let (mut history, mut rest, mut line) = (History::default(), Words(bytes), 0u32);
    let mut members = Members { texts: array::from_fn(|_| &bytes[..0]), numbers: [0; FIELDS], are_texts: 0, are_numbers: 0 };
    let is_json = bytes.iter().find(|it| **it != b'\n') == Some(&b'{');
    if bytes.len() > BYTES {
        return Err(0);
    }
    while !rest.0.is_empty() {
        line += 1;
        if rest.text(b"\n").is_some() {
            continue;
        }
        let told = if is_json { members.read(&mut rest).and_then(|()| item_of(&mut members)) } else { item_of(&mut rest) };
        history.note(told.ok_or(line)?);
        _ = rest.text(b"\n");
    }
    Ok(history)
}

/// What is said of the history, and the status.
fn report(bytes: &[u8], strict: bool) -> (String, i32) {
    let mut history = match history_of(bytes) {
        Ok(history) => history,
        Err(line) => return (format!("history line {line}: not an item"), 3),
    };
    if let Some(pair) = history.stamped() {
        return broken("stamped", pair);
    }
    let versions = history.versions();
    let rules = [
        ("apart", history.apart(&versions)),
        ("read", history.wrong_read(&versions)),
        ("fresh", history.stale_begin()),
        ("serial", if strict { history.crossing(&versions) } else { None }),
    ];
    let first = rules.iter().find_map(|(rule, pair)| pair.map(|it| broken(rule, it)));
    first.unwrap_or_else(|| (format!("isolated items={}", history.items), 0))
}

fn broken(rule: &str, pair: Pair) -> (String, i32) { (format!("not isolated: {rule} {} {}", pair.0 + 1, pair.1 + 1), 7) }

fn main() -> io::Result<()> {
    let words: Vec<String> = env::args().skip(1).collect();
    let strict = match words.iter().map(String::as_str).collect::<Vec<_>>()[..] {
        ["audit"] => false,
        ["audit", "strict"] => true,
        _ => {
            eprintln!("usage: plain_audit audit [strict]");
            process::exit(2)
        }
    };
    let mut bytes = Vec::new();
    io::stdin().lock().take(BYTES as u64 + 1).read_to_end(&mut bytes)?;
    let (text, status) = report(&bytes, strict);
    println!("{text}");
    process::exit(status)
}
