//! plain_check snapshot|serializable: judges a trace by the algorithm of omid_check, as a plain program of std alone. It is here to
//! be timed beside omid_check (bench/time_traces.py), and says no more than its verdict: no anomaly, no cycle. It is not proved.

use std::collections::HashMap;
use std::io::Read;
use std::process::exit;

#[derive(Clone, Copy, PartialEq)]
enum Fate {
    Committed,
    Aborted,
    Open,
}

#[derive(Clone, Copy)]
enum Operation {
    Read { txn: usize, key: u64, answer: Option<(usize, u64)> },
    Write { txn: usize, key: u64, value: u64 },
}

#[derive(Clone, Copy)]
struct Reading {
    txn: usize,
    key: u64,
    from: Option<usize>,
}

#[derive(Clone, Copy)]
struct Writing {
    txn: usize,
    key: u64,
}

#[derive(Clone, Copy)]
struct Edge {
    from: usize,
    to: usize,
}

// ---- reading

/// An operation as it was recorded: whether it writes, its key, and its value or what it found.
type Said = (bool, u64, Option<u64>);

struct Event {
    kind: u8,
    process: u64,
    said: Vec<Said>,
}

/// One object a line, or one array of objects.
struct Parser<'a> {
    bytes: &'a [u8],
    at: usize,
    names: HashMap<Vec<u8>, u64>,
}

impl Parser<'_> {
    fn fail(&self) -> ! {
        println!("trace byte {}: no trace", self.at);
        exit(3)
    }

    fn blanks(&mut self) {
        while self.at < self.bytes.len() && self.bytes[self.at].is_ascii_whitespace() {
            self.at += 1;
        }
    }

    fn peek(&mut self) -> u8 {
        self.blanks();
        if self.at < self.bytes.len() { self.bytes[self.at] } else { 0 }
    }

    fn take(&mut self, byte: u8) {
        if self.peek() != byte {
            self.fail()
        }
        self.at += 1;
    }

    /// Whether a list goes on: takes the comma, or the end.
    fn goes_on(&mut self, end: u8) -> bool {
        match self.peek() {
            b',' => {
                self.at += 1;
                true
            }
            byte if byte == end => {
                self.at += 1;
                false
            }
            _ => self.fail(),
        }
    }

    fn text(&mut self) -> Vec<u8> {
        self.take(b'"');
        let mut text = Vec::new();
        while self.at < self.bytes.len() && self.bytes[self.at] != b'"' {
            if self.bytes[self.at] == b'\\' {
                self.at += 1;
            }
            text.push(self.bytes[self.at]);
            self.at += 1;
        }
        self.take(b'"');
        text
    }

    fn digits(&mut self) -> Vec<u8> {
        let from = self.at;
        while self.at < self.bytes.len() && self.bytes[self.at].is_ascii_digit() {
            self.at += 1;
        }
        if from == self.at {
            self.fail()
        }
        self.bytes[from..self.at].to_vec()
    }

    /// The number of a text or a whole number.
    fn name(&mut self) -> u64 {
        let name = if self.peek() == b'"' { self.text() } else { self.digits() };
        let next = self.names.len() as u64;
        *self.names.entry(name).or_insert(next)
    }

    fn answer(&mut self) -> Option<u64> {
        if self.peek() == b'n' {
            self.at += 4;
            return None;
        }
        Some(self.name())
    }

    fn said(&mut self) -> Said {
        self.take(b'[');
        let writes = match self.text().as_slice() {
            b"r" => false,
            b"w" => true,
            _ => self.fail(),
        };
        self.take(b',');
        let key = self.name();
        self.take(b',');
        let value = self.answer();
        self.take(b']');
        (writes, key, value)
    }

    /// Passes over a value that counts for nothing.
    fn pass(&mut self) {
        match self.peek() {
            b'"' => drop(self.text()),
            b'[' | b'{' => self.fail(),
            _ => {
                while self.at < self.bytes.len() && !b",}".contains(&self.bytes[self.at]) {
                    self.at += 1;
                }
            }
        }
    }

    fn event(&mut self) -> Event {
        let mut event = Event { kind: 0, process: 0, said: Vec::new() };
        self.take(b'{');
        loop {
            let member = self.text();
            self.take(b':');
            match member.as_slice() {
                b"type" => event.kind = self.text()[1],
                b"process" => event.process = self.name(),
                b"value" => {
                    self.take(b'[');
                    if self.peek() == b']' {
                        self.at += 1;
                    } else {
                        loop {
                            let said = self.said();
                            event.said.push(said);
                            if !self.goes_on(b']') {
                                break;
                            }
                        }
                    }
                }
                _ => self.pass(),
            }
            if !self.goes_on(b'}') {
                return event;
            }
        }
    }
}

/// The transactions: what became of each, and what it said.
fn attempts_of(bytes: &[u8]) -> Vec<(Fate, Vec<Said>)> {
    let mut parser = Parser { bytes, at: 0, names: HashMap::new() };
    let array = parser.peek() == b'[';
    if array {
        parser.at += 1;
    }
    let mut attempts = Vec::new();
    let mut waiting: HashMap<u64, Vec<Said>> = HashMap::new();
    while parser.peek() == b'{' {
        let event = parser.event();
        // the second letter of invoke, ok, fail, info
        let fate = match event.kind {
            b'k' => Fate::Committed,
            b'a' => Fate::Aborted,
            _ => Fate::Open,
        };
        let invoked = event.kind == b'n' && event.said.iter().all(|said| said.0 || said.2.is_none());
        if invoked {
            if let Some(said) = waiting.insert(event.process, event.said) {
                attempts.push((Fate::Open, said));
            }
        } else {
            waiting.remove(&event.process);
            attempts.push((fate, event.said));
        }
        if array && parser.peek() == b',' {
            parser.at += 1;
        }
    }
    attempts.extend(waiting.into_values().map(|said| (Fate::Open, said)));
    attempts
}

/// Each read with the writer of what it found.
fn operations_of(attempts: &[(Fate, Vec<Said>)]) -> Vec<Operation> {
    let mut writers = HashMap::new();
    for (txn, (_, said)) in attempts.iter().enumerate() {
        for &(writes, key, value) in said {
            if let (true, Some(value)) = (writes, value) {
                if writers.insert((key, value), txn).is_some() {
                    println!("a value is written twice");
                    exit(3);
                }
            }
        }
    }
    let mut operations = Vec::new();
    for (txn, (fate, said)) in attempts.iter().enumerate() {
        for &(writes, key, value) in said {
            match (writes, value) {
                (true, Some(value)) => operations.push(Operation::Write { txn, key, value }),
                (true, None) => exit(3),
                (false, _) if *fate == Fate::Aborted => {}
                (false, None) if *fate == Fate::Open => {}
                (false, None) => operations.push(Operation::Read { txn, key, answer: None }),
                (false, Some(value)) => match writers.get(&(key, value)) {
                    None => {
                        println!("a value is read and written by nobody");
                        exit(3);
                    }
                    Some(from) => operations.push(Operation::Read { txn, key, answer: Some((*from, value)) }),
                },
            }
        }
    }
    operations
}

/// Whether each transaction counts as committed: it was, or it is open and one that counts read from it.
fn flags_of(attempts: &[(Fate, Vec<Said>)], operations: &[Operation]) -> Vec<bool> {
    let mut flags: Vec<bool> = attempts.iter().map(|attempt| attempt.0 == Fate::Committed).collect();
    let mut changed = true;
    while changed {
        changed = false;
        for operation in operations {
            if let Operation::Read { txn, answer: Some((from, _)), .. } = *operation {
                if flags[txn] && !flags[from] && attempts[from].0 == Fate::Open {
                    flags[from] = true;
                    changed = true;
                }
            }
        }
    }
    flags
}

// ---- who read and wrote what

/// The reads of others and the versions, or None where a read is wrong.
fn sources_of(flags: &[bool], operations: &[Operation]) -> Option<(Vec<Reading>, Vec<Writing>)> {
    let mut last = HashMap::new();
    let mut readings = Vec::new();
    let mut answers = Vec::new();
    for operation in operations {
        match *operation {
            Operation::Write { txn, key, value } => {
                last.insert((txn, key), value);
            }
            Operation::Read { txn, key, answer } if flags[txn] => match last.get(&(txn, key)) {
                Some(own) if answer != Some((txn, *own)) => return None,
                Some(_) => {}
                None => {
                    readings.push(Reading { txn, key, from: answer.map(|found| found.0) });
                    answers.push(answer);
                }
            },
            Operation::Read { .. } => {}
        }
    }
    for (reading, answer) in readings.iter().zip(&answers) {
        if let Some((from, value)) = *answer {
            if !flags[from] || last.get(&(from, reading.key)) != Some(&value) {
                return None;
            }
        }
    }
    let mut writings = Vec::new();
    for operation in operations {
        if let Operation::Write { txn, key, value } = *operation {
            if flags[txn] && last.get(&(txn, key)) == Some(&value) {
                writings.push(Writing { txn, key });
            }
        }
    }
    Some((readings, writings))
}

// ---- numbers that rise along edges

/// For each node the last edge to it, and for each edge the one before it to the same node: places and one, or 0.
fn chained(nodes: usize, edges: &[Edge]) -> (Vec<usize>, Vec<usize>) {
    let mut heads = vec![0; nodes];
    let mut nexts = vec![0; edges.len()];
    for (place, edge) in edges.iter().enumerate() {
        nexts[place] = heads[edge.to];
        heads[edge.to] = place + 1;
    }
    (heads, nexts)
}

/// Numbers of the nodes, or an edge of a cycle.
fn numbered(nodes: usize, edges: &[Edge]) -> Result<Vec<usize>, Edge> {
    let (heads, nexts) = chained(nodes, edges);
    // 0 once numbered, two more than the head before it is come to, else one more than what is left of its chain
    let mut ahead: Vec<usize> = heads.iter().map(|head| head + 2).collect();
    let mut numbers = vec![0; nodes];
    let mut path = Vec::new();
    let mut count = 0;
    for root in 0..nodes {
        if ahead[root] == heads[root] + 2 {
            path.push(root);
            ahead[root] = heads[root] + 1;
        }
        while let Some(&node) = path.last() {
            if ahead[node] == 1 {
                count += 1;
                numbers[node] = count;
                ahead[node] = 0;
                path.pop();
                continue;
            }
            let place = ahead[node] - 2;
            let from = edges[place].from;
            if ahead[from] == 0 {
                ahead[node] = nexts[place] + 1;
            } else if ahead[from] == heads[from] + 2 {
                path.push(from);
                ahead[from] = heads[from] + 1;
            } else {
                return Err(edges[place]);
            }
        }
    }
    Ok(numbers)
}

// ---- paths

struct Paths {
    heads: Vec<usize>,
    nexts: Vec<usize>,
    searches: Vec<usize>,
    search: usize,
    came: Vec<usize>,
    left: usize,
}

impl Paths {
    fn new(nodes: usize, edges: &[Edge]) -> Paths {
        let (heads, nexts) = chained(nodes, edges);
        let left = edges.len() * 4 + 65_536;
        Paths { heads, nexts, searches: vec![0; nodes], search: 0, came: Vec::new(), left }
    }

    /// Whether a short path of edges leads from one node to the other.
    fn lead(&mut self, edges: &[Edge], numbers: &[usize], from: usize, to: usize) -> bool {
        self.came.clear();
        if numbers[from] >= numbers[to] {
            return false;
        }
        self.search += 1;
        self.came.push(to);
        for turn in 0..64 {
            if turn >= self.came.len() {
                return false;
            }
            let mut head = self.heads[self.came[turn]];
            for _ in 0..32 {
                if head == 0 || self.left == 0 {
                    break;
                }
                self.left -= 1;
                let start = edges[head - 1].from;
                if start == from {
                    return true;
                }
                if numbers[from] <= numbers[start] && self.searches[start] != self.search {
                    self.searches[start] = self.search;
                    self.came.push(start);
                }
                head = self.nexts[head - 1];
            }
        }
        false
    }
}

// ---- the judge

struct Judge {
    starts: usize,
    nodes: usize,
    readings: Vec<Reading>,
    order: Vec<Writing>,
    edges: Vec<Edge>,
    laid: HashMap<(usize, usize), ()>,
    news: bool,
}

fn first_where(order: &[Writing], before: impl Fn(&Writing) -> bool) -> usize {
    order.partition_point(before)
}

impl Judge {
    fn lay(&mut self, from: usize, to: usize) {
        self.edges.push(Edge { from, to });
    }

    fn sort(&mut self, numbers: &[usize]) {
        self.order.sort_unstable_by_key(|version| (version.key, numbers.get(version.txn).copied().unwrap_or(0)));
    }

    fn stands(&self) -> HashMap<(usize, u64), usize> {
        self.order.iter().enumerate().map(|(place, version)| ((version.txn, version.key), place)).collect()
    }

    fn place_of(&self, stands: &HashMap<(usize, u64), usize>, reading: Reading) -> usize {
        match reading.from {
            None => first_where(&self.order, |version| version.key < reading.key),
            Some(from) => stands.get(&(from, reading.key)).copied().unwrap_or(self.order.len()),
        }
    }

    /// The places of all readings in the order.
    fn places(&self) -> Vec<usize> {
        let stands = self.stands();
        self.readings.iter().map(|reading| self.place_of(&stands, *reading)).collect()
    }

    fn other_at(&self, place: usize, reading: Reading) -> Option<Writing> {
        let version = *self.order.get(place)?;
        (version.key == reading.key && version.txn != reading.txn).then_some(version)
    }

    /// The edges that hold in all stamps, before any order is known.
    fn lay_sure(&mut self, flags: &[bool]) {
        let starts = self.starts;
        if starts > 0 {
            for txn in (0..flags.len()).filter(|txn| flags[*txn]) {
                self.lay(txn, starts + txn);
            }
        }
        let stands = self.stands();
        let readers: HashMap<_, _> =
            self.readings.iter().enumerate().map(|(i, reading)| ((reading.txn, reading.key), i)).collect();
        let source = |version: &Writing| {
            readers.get(&(version.txn, version.key)).and_then(|i: &usize| self.readings[*i].from)
        };
        let mut heirs: HashMap<(usize, u64), (usize, usize)> = HashMap::new();
        for (place, version) in self.order.iter().enumerate() {
            if let Some(from) = source(version) {
                heirs.entry((from, version.key)).or_insert((place, place)).1 = place;
            }
        }
        let mut edges = Vec::new();
        for reading in &self.readings {
            if let Some(from) = reading.from {
                edges.push(Edge { from: starts + from, to: reading.txn });
            }
        }
        for reading in &self.readings {
            let next = match reading.from {
                None => {
                    let first = self.place_of(&stands, *reading);
                    let own = self.order.get(first).is_some_and(|version| version.txn == reading.txn);
                    if own { first + 1 } else { first }
                }
                Some(from) => match heirs.get(&(from, reading.key)) {
                    None => continue,
                    Some((first, last)) if self.order[*first].txn == reading.txn => *last,
                    Some((first, _)) => *first,
                },
            };
            let Some(version) = self.other_at(next, *reading) else { continue };
            edges.push(Edge { from: reading.txn, to: starts + version.txn });
            if stands.contains_key(&(reading.txn, reading.key)) {
                edges.push(Edge { from: starts + reading.txn, to: version.txn });
            }
        }
        self.edges.append(&mut edges);
    }

    fn lay_new(&mut self, from: usize, to: usize) {
        self.laid.insert((from, to), ());
        self.news = true;
        self.lay(from, to);
    }

    /// Lays the edge where a path leads between these nodes.
    fn lay_where(&mut self, paths: &mut Paths, numbers: &[usize], edge: (usize, usize), path: (usize, usize)) {
        if !self.laid.contains_key(&edge) && paths.lead(&self.edges, numbers, path.0, path.1) {
            self.lay_new(edge.0, edge.1);
        }
    }

    /// The edges that follow of those which are sure.
    fn add_orders(&mut self, numbers: &[usize]) {
        let starts = self.starts;
        let places = self.places();
        let mut paths = Paths::new(self.nodes, &self.edges);
        for place in 1..self.order.len() {
            let (a, b) = (self.order[place - 1], self.order[place]);
            if a.key == b.key && a.txn != b.txn {
                self.lay_where(&mut paths, numbers, (starts + a.txn, b.txn), (a.txn, starts + b.txn));
            }
        }
        for i in 0..self.readings.len() {
            let reading = self.readings[i];
            let number = numbers[reading.txn];
            let behind = first_where(&self.order, |version| {
                version.key < reading.key || version.key == reading.key && numbers[version.txn] < number
            });
            let place = places[i];
            let looks = [place, place + 1, place + 2, place.saturating_sub(1), behind.saturating_sub(1), behind.saturating_sub(2)];
            for at in looks {
                let Some(version) = self.other_at(at, reading) else { continue };
                match reading.from {
                    None => {
                        if !self.laid.contains_key(&(reading.txn, starts + version.txn)) {
                            self.lay_new(reading.txn, starts + version.txn);
                        }
                    }
                    Some(from) if version.txn != from => {
                        self.lay_where(&mut paths, numbers, (reading.txn, starts + version.txn), (starts + from, version.txn));
                        self.lay_where(&mut paths, numbers, (starts + version.txn, from), (starts + version.txn, reading.txn));
                    }
                    Some(_) => {}
                }
            }
        }
    }

    /// The edges of the order of versions that is tried.
    fn lay_tried(&mut self, places: &[usize]) {
        let starts = self.starts;
        for next in 1..self.order.len() {
            let (a, b) = (self.order[next - 1], self.order[next]);
            if a.key == b.key {
                self.lay(starts + a.txn, b.txn);
            }
        }
        for i in 0..self.readings.len() {
            let reading = self.readings[i];
            let next = if reading.from.is_some() { places[i] + 1 } else { places[i] };
            if let Some(version) = self.other_at(next, reading) {
                self.lay(reading.txn, starts + version.txn);
            }
        }
    }

    /// Whether the numbers rise along all edges between neighbours of the order.
    fn are_right(&self, flags: &[bool], places: &[usize], numbers: &[usize]) -> bool {
        let starts = self.starts;
        let own = starts == 0 || (0..flags.len()).all(|txn| !flags[txn] || numbers[txn] < numbers[starts + txn]);
        let nexts = self.order.windows(2).all(|pair| {
            pair[0].key < pair[1].key || pair[0].key == pair[1].key && numbers[starts + pair[0].txn] < numbers[pair[1].txn]
        });
        own && nexts
            && self.readings.iter().zip(places).all(|(reading, place)| {
                let start = numbers[reading.txn];
                let (seen, next) = match reading.from {
                    None => (*place == 0 || self.order[place - 1].key < reading.key, *place),
                    Some(from) => {
                        let version = self.order[*place];
                        (version.key == reading.key && version.txn == from && numbers[starts + from] < start, place + 1)
                    }
                };
                seen && self.other_at(next, *reading).is_none_or(|version| start < numbers[starts + version.txn])
            })
    }
}

/// The line of the verdict, and its status.
fn judge(snapshot: bool, flags: &[bool], operations: &[Operation]) -> (&'static str, i32) {
    let Some((readings, order)) = sources_of(flags, operations) else {
        return ("refused: a wrong read", 7);
    };
    let starts = if snapshot { flags.len() } else { 0 };
    let nodes = starts + flags.len();
    let mut judge =
        Judge { starts, nodes, readings, order, edges: Vec::new(), laid: HashMap::new(), news: true };
    judge.sort(&[]);
    judge.lay_sure(flags);
    for _ in 0..8 {
        if !judge.news {
            break;
        }
        judge.news = false;
        match numbered(nodes, &judge.edges) {
            Err(_) => return ("refused: a cycle", 7),
            Ok(numbers) => {
                judge.sort(&numbers);
                judge.add_orders(&numbers);
            }
        }
    }
    match numbered(nodes, &judge.edges) {
        Err(_) => return ("refused: a cycle", 7),
        Ok(numbers) => judge.sort(&numbers),
    }
    let places = judge.places();
    judge.lay_tried(&places);
    match numbered(nodes, &judge.edges) {
        Ok(numbers) if judge.are_right(flags, &places, &numbers) => ("holds", 0),
        _ => ("not decided", 8),
    }
}

fn main() {
    let snapshot = match std::env::args().nth(1).as_deref() {
        Some("snapshot") => true,
        Some("serializable") => false,
        _ => {
            println!("usage: plain_check snapshot | serializable");
            exit(2)
        }
    };
    let mut bytes = Vec::new();
    if std::io::stdin().lock().read_to_end(&mut bytes).is_err() {
        exit(4);
    }
    let attempts = attempts_of(&bytes);
    drop(bytes);
    let operations = operations_of(&attempts);
    let flags = flags_of(&attempts, &operations);
    let (line, status) = judge(snapshot, &flags, &operations);
    println!("{line} transactions={}", flags.len());
    exit(status)
}
