//! The forms `check`, `rank`, `gen`, `decode` and `encode` in plain Rust, with std alone and without
//! proofs: a yardstick for speed, and not for answers.
//!
//! rustc -O -C target-cpu=x86-64 -C panic=abort plain.rs
//!
//! It reads a plan through a reader of whole TOML documents (dates and floats are passed over as
//! values of another kind). Refusals of plans are told without their place.

use std::collections::HashMap;
use std::fmt::Write as _;
use std::io::Write as _;
use std::process::exit;

// ---- TOML

enum Value {
    Text(String),
    Integer(i64),
    Other,
    Array(Vec<Value>),
    Table(Table),
}

#[derive(Default)]
struct Table {
    entries: Vec<(String, Value)>,
}

impl Table {
    fn get(&self, key: &str) -> Option<&Value> {
        self.entries.iter().find(|e| e.0 == key).map(|e| &e.1)
    }
    fn place(&self, key: &str) -> Option<usize> {
        self.entries.iter().position(|e| e.0 == key)
    }
    fn put(&mut self, key: String, value: Value) -> Option<()> {
        if self.place(&key).is_some() {
            return None;
        }
        self.entries.push((key, value));
        Some(())
    }
}

struct Reader<'a> {
    text: &'a [u8],
    at: usize,
}

impl<'a> Reader<'a> {
    fn peek(&self) -> u8 {
        *self.text.get(self.at).unwrap_or(&0)
    }
    fn blanks(&mut self) {
        while matches!(self.peek(), b' ' | b'\t') {
            self.at += 1;
        }
    }
    fn take(&mut self, byte: u8) -> Option<()> {
        (self.at < self.text.len() && self.peek() == byte).then(|| self.at += 1)
    }
    fn starts(&self, front: &[u8]) -> bool {
        self.text[self.at..].starts_with(front)
    }
    /// Blanks, and a comment up to the end of the line.
    fn rest_of_line(&mut self) -> Option<()> {
        self.blanks();
        if self.peek() == b'#' {
            while self.at < self.text.len() && self.peek() != b'\n' {
                self.at += 1;
            }
        }
        if self.at == self.text.len() {
            return Some(());
        }
        if self.peek() == b'\r' {
            self.at += 1;
        }
        self.take(b'\n')
    }
    fn space(&mut self) -> Option<()> {
        loop {
            self.blanks();
            match self.peek() {
                b'#' | b'\n' | b'\r' => self.rest_of_line()?,
                _ => return Some(()),
            }
        }
    }
    fn key(&mut self) -> Option<String> {
        match self.peek() {
            b'"' => self.basic(),
            b'\'' => self.literal(),
            _ => {
                let start = self.at;
                while self.peek().is_ascii_alphanumeric() || matches!(self.peek(), b'_' | b'-') {
                    self.at += 1;
                }
                if start == self.at {
                    return None;
                }
                Some(String::from_utf8_lossy(&self.text[start..self.at]).into_owned())
            }
        }
    }
    fn keys(&mut self) -> Option<Vec<String>> {
        let mut keys = Vec::new();
        loop {
            self.blanks();
            keys.push(self.key()?);
            self.blanks();
            if self.take(b'.').is_none() {
                return Some(keys);
            }
        }
    }
    /// Passes the opening quote, and where two more follow these and a line end behind them.
    fn opens_many(&mut self, two_more: &[u8]) -> bool {
        self.at += 1;
        if !self.starts(two_more) {
            return false;
        }
        self.at += 2;
        if self.starts(b"\r\n") {
            self.at += 2;
        } else if self.peek() == b'\n' {
            self.at += 1;
        }
        true
    }
    fn literal(&mut self) -> Option<String> {
        let many = self.opens_many(b"''");
        let end: &[u8] = if many { b"'''" } else { b"'" };
        let start = self.at;
        while !self.starts(end) {
            if self.at >= self.text.len() || (!many && self.peek() == b'\n') {
                return None;
            }
            self.at += 1;
        }
        let text = String::from_utf8(self.text[start..self.at].to_vec()).ok()?;
        self.at += end.len();
        Some(text)
    }
    fn basic(&mut self) -> Option<String> {
        let many = self.opens_many(b"\"\"");
        let end: &[u8] = if many { b"\"\"\"" } else { b"\"" };
        let mut text = Vec::new();
        while !self.starts(end) {
            if self.at >= self.text.len() || (!many && self.peek() == b'\n') {
                return None;
            }
            if self.peek() == b'\\' {
                self.at += 1;
                self.escape(&mut text, many)?;
            } else {
                text.push(self.peek());
                self.at += 1;
            }
        }
        self.at += end.len();
        String::from_utf8(text).ok()
    }
    fn escape(&mut self, text: &mut Vec<u8>, many: bool) -> Option<()> {
        let sign = self.peek();
        self.at += 1;
        let digits = match sign {
            b'b' => return Some(text.push(8)),
            b't' => return Some(text.push(b'\t')),
            b'n' => return Some(text.push(b'\n')),
            b'f' => return Some(text.push(12)),
            b'r' => return Some(text.push(b'\r')),
            b'e' => return Some(text.push(27)),
            b'"' | b'\\' => return Some(text.push(sign)),
            b'x' => 2,
            b'u' => 4,
            b'U' => 8,
            b' ' | b'\t' | b'\n' | b'\r' if many => {
                while matches!(self.peek(), b' ' | b'\t' | b'\n' | b'\r') {
                    self.at += 1;
                }
                return Some(());
            }
            _ => return None,
        };
        let digits = self.text.get(self.at..self.at + digits)?;
        self.at += digits.len();
        let code = u32::from_str_radix(std::str::from_utf8(digits).ok()?, 16).ok()?;
        let mut buffer = [0; 4];
        text.extend_from_slice(char::from_u32(code)?.encode_utf8(&mut buffer).as_bytes());
        Some(())
    }
    fn value(&mut self) -> Option<Value> {
        match self.peek() {
            b'"' => Some(Value::Text(self.basic()?)),
            b'\'' => Some(Value::Text(self.literal()?)),
            b'[' => self.array(),
            b'{' => self.inline(),
            _ => self.bare(),
        }
    }
    fn array(&mut self) -> Option<Value> {
        self.at += 1;
        let mut values = Vec::new();
        loop {
            self.space()?;
            if self.take(b']').is_some() {
                return Some(Value::Array(values));
            }
            values.push(self.value()?);
            self.space()?;
            if self.take(b',').is_none() {
                self.take(b']')?;
                return Some(Value::Array(values));
            }
        }
    }
    fn inline(&mut self) -> Option<Value> {
        self.at += 1;
        let mut table = Table::default();
        loop {
            self.space()?;
            if self.take(b'}').is_some() {
                return Some(Value::Table(table));
            }
            self.entry(&mut table)?;
            self.space()?;
            if self.take(b',').is_none() {
                self.take(b'}')?;
                return Some(Value::Table(table));
            }
        }
    }
    fn bare(&mut self) -> Option<Value> {
        let start = self.at;
        while self.peek().is_ascii_alphanumeric() || matches!(self.peek(), b'_' | b'-' | b'+' | b'.' | b':') {
            self.at += 1;
        }
        let word = std::str::from_utf8(&self.text[start..self.at]).ok()?;
        if word.is_empty() {
            return None;
        }
        let plain: String = word.chars().filter(|c| *c != '_').collect();
        let number = match plain.get(..2) {
            Some("0x") => i64::from_str_radix(&plain[2..], 16).ok(),
            Some("0o") => i64::from_str_radix(&plain[2..], 8).ok(),
            Some("0b") => i64::from_str_radix(&plain[2..], 2).ok(),
            _ => plain.parse().ok(),
        };
        Some(number.map_or(Value::Other, Value::Integer))
    }
    fn entry(&mut self, table: &mut Table) -> Option<()> {
        let mut keys = self.keys()?;
        self.take(b'=')?;
        self.blanks();
        let value = self.value()?;
        let last = keys.pop()?;
        let mut table = table;
        for key in keys {
            table = inner(table, key, false)?;
        }
        table.put(last, value)
    }
    fn document(&mut self) -> Option<Table> {
        let mut root = Table::default();
        let mut path: Vec<String> = Vec::new();
        loop {
            self.space()?;
            if self.at == self.text.len() {
                return Some(root);
            }
            if self.peek() != b'[' {
                let mut table = &mut root;
                for key in &path {
                    table = inner(table, key.clone(), false)?;
                }
                // all entries up to the next head
                while self.peek() != b'[' && self.at < self.text.len() {
                    self.entry(table)?;
                    self.rest_of_line()?;
                    self.space()?;
                }
                continue;
            }
            self.at += 1;
            let many = self.take(b'[').is_some();
            path = self.keys()?;
            self.take(b']')?;
            if many {
                self.take(b']')?;
            }
            self.rest_of_line()?;
            let (last, front) = path.split_last()?;
            let mut table = &mut root;
            for key in front {
                table = inner(table, key.clone(), false)?;
            }
            inner(table, last.clone(), many)?;
        }
    }
}

/// The table under a key; of an array the last, and one more where `many` asks for it.
fn inner(table: &mut Table, key: String, many: bool) -> Option<&mut Table> {
    let place = match table.place(&key) {
        Some(place) => place,
        None => {
            let new = if many { Value::Array(Vec::new()) } else { Value::Table(Table::default()) };
            table.entries.push((key, new));
            table.entries.len() - 1
        }
    };
    match &mut table.entries[place].1 {
        Value::Table(inner) if !many => Some(inner),
        Value::Array(all) => {
            if many {
                all.push(Value::Table(Table::default()));
            }
            match all.last_mut()? {
                Value::Table(inner) => Some(inner),
                _ => None,
            }
        }
        _ => None,
    }
}

// ---- levels

/// Name, SSM code, enhanced code.
type Row = (&'static str, u8, u8);

const ONE: [Row; 9] = [
    ("QL-ePRTC", 2, 0x21),
    ("QL-PRTC", 2, 0x20),
    ("QL-ePRC", 2, 0x23),
    ("QL-PRC", 2, 0xff),
    ("QL-SSU-A", 4, 0xff),
    ("QL-SSU-B", 8, 0xff),
    ("QL-eEEC", 11, 0x22),
    ("QL-SEC", 11, 0xff),
    ("QL-DNU", 15, 0xff),
];

const TWO: [Row; 13] = [
    ("QL-ePRTC", 1, 0x21),
    ("QL-PRTC", 1, 0x20),
    ("QL-ePRC", 1, 0x23),
    ("QL-PRS", 1, 0xff),
    ("QL-STU", 0, 0xff),
    ("QL-ST2", 7, 0xff),
    ("QL-TNC", 4, 0xff),
    ("QL-ST3E", 13, 0xff),
    ("QL-eEEC", 10, 0x22),
    ("QL-ST3", 10, 0xff),
    ("QL-SMC", 12, 0xff),
    ("QL-PROV", 14, 0xff),
    ("QL-DUS", 15, 0xff),
];

fn levels(option: &str) -> &'static [Row] {
    if option == "I" { &ONE } else { &TWO }
}

// ---- plans

struct Link {
    name: String,
    ends: [usize; 2],
    priorities: [u8; 2],
    bundle: usize,
}

#[derive(Default)]
struct Plan {
    elements: Vec<String>,
    links: Vec<Link>,
}

impl Plan {
    fn lines(&self) -> usize {
        2 * self.links.len()
    }
    /// Line 2k runs from end a to end b of link k, line 2k + 1 back.
    fn from(&self, line: usize) -> usize {
        self.links[line / 2].ends[line % 2]
    }
    fn to(&self, line: usize) -> usize {
        self.links[line / 2].ends[1 - line % 2]
    }
    fn nominated(&self, line: usize) -> bool {
        self.links[line / 2].priorities[1 - line % 2] != 0
    }
    fn bundle(&self, line: usize) -> usize {
        self.links[line / 2].bundle
    }
    fn hop(&self, line: usize, next: usize) -> bool {
        self.nominated(line)
            && self.nominated(next)
            && self.to(line) == self.from(next)
            && self.bundle(line) != self.bundle(next)
    }
    fn put_name(&self, text: &mut String, line: usize) {
        text.push_str(&self.links[line / 2].name);
        text.push('>');
        text.push_str(&self.elements[self.to(line)]);
    }
}

const KEYS: [(&str, &[&str], &[&str]); 3] = [
    ("element", &["name"], &["own", "floor", "holdoff", "wtr"]),
    (
        "link",
        &["name", "a", "b"],
        &["priority_a", "priority_b", "delay_a", "delay_b", "bundle"],
    ),
    ("source", &["name", "at", "level"], &["priority"]),
];

fn stop(status: i32, text: &str) -> ! {
    let _ = std::io::stdout().write_all(text.as_bytes());
    exit(status)
}

fn bad_plan(number: u32) -> ! {
    stop(3, &format!("bad plan {number}\n"))
}

fn text<'a>(table: &'a Table, key: &str) -> Option<&'a str> {
    match table.get(key)? {
        Value::Text(text) => Some(text),
        _ => bad_plan(24),
    }
}

fn integer(table: &Table, key: &str, default: i64) -> i64 {
    match table.get(key) {
        Some(Value::Integer(n)) => *n,
        Some(_) => bad_plan(24),
        None => default,
    }
}

fn is_name(name: &str) -> bool {
    (1..=32).contains(&name.len()) && name.bytes().all(|b| b.is_ascii_alphanumeric() || matches!(b, b'_' | b'-'))
}

fn rows<'a>(root: &'a Table, kind: usize) -> Vec<&'a Table> {
    let (section, wanted, more) = KEYS[kind];
    let entries = match root.get(section) {
        None => return Vec::new(),
        Some(Value::Array(entries)) => entries,
        Some(_) => bad_plan(24),
    };
    let table = |entry: &'a Value| match entry {
        Value::Table(row) => {
            let known = |key: &str| wanted.contains(&key) || more.contains(&key);
            if !row.entries.iter().all(|e| known(&e.0)) || !wanted.iter().all(|key| row.get(key).is_some()) {
                bad_plan(23)
            }
            row
        }
        _ => bad_plan(24),
    };
    entries.iter().map(table).collect()
}

fn level_named(option: &str, name: Option<&str>, least: usize) {
    if let Some(name) = name {
        let table = levels(option);
        if !table[..table.len() - least].iter().any(|row| row.0 == name) {
            bad_plan(25)
        }
    }
}

fn number_in(n: i64, low: i64, high: i64) -> i64 {
    if n < low || n > high { bad_plan(25) } else { n }
}

fn read_plan(bytes: &[u8]) -> Plan {
    let Some(root) = std::str::from_utf8(bytes).ok().and_then(|_| Reader { text: bytes, at: 0 }.document()) else {
        bad_plan(22)
    };
    let head = ["version", "option", "element", "link", "source"];
    if !root.entries.iter().all(|e| head.contains(&e.0.as_str())) {
        bad_plan(23)
    }
    let option = text(&root, "option").unwrap_or("I");
    if !(1..=2).contains(&integer(&root, "version", 1)) || !matches!(option, "I" | "II") {
        bad_plan(24)
    }
    let mut plan = Plan::default();
    let mut numbers: HashMap<&str, usize> = HashMap::new();
    for row in rows(&root, 0) {
        let name = text(row, "name").unwrap();
        if !is_name(name) || numbers.insert(name, plan.elements.len()).is_some() {
            bad_plan(25)
        }
        number_in(integer(row, "holdoff", 300), 300, 1800);
        number_in(integer(row, "wtr", 5), 0, 12);
        level_named(option, text(row, "own"), 1);
        level_named(option, text(row, "floor"), 1);
        plan.elements.push(name.to_string());
    }
    let mut names: HashMap<&str, usize> = HashMap::new();
    let mut bundles: HashMap<&str, usize> = HashMap::new();
    let mut inputs = vec![0u32; plan.elements.len()];
    let mut take_input = |e: usize| {
        inputs[e] += 1;
        if inputs[e] > 64 {
            bad_plan(25)
        }
    };
    for row in rows(&root, 1) {
        let number = plan.links.len();
        let name = text(row, "name").unwrap();
        if !is_name(name) || names.insert(name, number).is_some() {
            bad_plan(25)
        }
        let end = |key| *numbers.get(text(row, key).unwrap()).unwrap_or_else(|| bad_plan(25));
        let ends = [end("a"), end("b")];
        if ends[0] == ends[1] {
            bad_plan(25)
        }
        let priority = |key| number_in(integer(row, key, 0), 0, 255) as u8;
        let priorities = [priority("priority_a"), priority("priority_b")];
        number_in(integer(row, "delay_a", 1), 1, 2000);
        number_in(integer(row, "delay_b", 1), 1, 2000);
        let bundle = text(row, "bundle").map_or(number, |name| *bundles.entry(name).or_insert(number));
        for side in 0..2 {
            if priorities[side] != 0 {
                take_input(ends[side]);
            }
        }
        plan.links.push(Link { name: name.to_string(), ends, priorities, bundle });
    }
    for row in rows(&root, 2) {
        let name = text(row, "name").unwrap();
        if !is_name(name) || names.insert(name, 0).is_some() {
            bad_plan(25)
        }
        let at = *numbers.get(text(row, "at").unwrap()).unwrap_or_else(|| bad_plan(25));
        let priority = number_in(integer(row, "priority", 1), 0, 255);
        level_named(option, text(row, "level"), 0);
        if priority != 0 {
            take_input(at);
        }
    }
    plan
}

// ---- certificates and ranks

fn bad_certificate(number: u32) -> ! {
    stop(4, &format!("bad certificate {number}\n"))
}

fn read_ranks(plan: &Plan, bytes: &[u8]) -> Vec<Option<u64>> {
    let Ok(text) = std::str::from_utf8(bytes) else {
        bad_certificate(34)
    };
    let mut lines = text.lines().filter(|line| !line.is_empty());
    if lines.next() != Some("line,rank") {
        bad_certificate(34)
    }
    let links: HashMap<&str, usize> = plan.links.iter().enumerate().map(|(k, l)| (l.name.as_str(), k)).collect();
    let mut ranks = vec![None; plan.lines()];
    for row in lines {
        let (name, rank) = row.split_once(',').unwrap_or_else(|| bad_certificate(35));
        let rank: u64 = rank.parse().unwrap_or_else(|_| bad_certificate(35));
        let line = name.split_once('>').and_then(|(link, to)| {
            let k = *links.get(link)?;
            (2 * k..2 * k + 2).find(|line| plan.elements[plan.to(*line)] == to)
        });
        match line {
            Some(line) if plan.nominated(line) => {
                if ranks[line].replace(rank).is_some() {
                    bad_certificate(37)
                }
            }
            _ => bad_certificate(36),
        }
    }
    if (0..plan.lines()).any(|line| plan.nominated(line) && ranks[line].is_none()) {
        bad_certificate(38)
    }
    ranks
}

/// The nominated lines out of each element.
fn outputs(plan: &Plan) -> Vec<Vec<usize>> {
    let mut outputs = vec![Vec::new(); plan.elements.len()];
    for line in (0..plan.lines()).filter(|line| plan.nominated(*line)) {
        outputs[plan.from(line)].push(line);
    }
    outputs
}

fn check(plan: &Plan, ranks: &[Option<u64>]) -> (i32, String) {
    let outputs = outputs(plan);
    for line in 0..plan.lines() {
        for next in &outputs[plan.to(line)] {
            if plan.hop(line, *next) && ranks[line] >= ranks[*next] {
                let mut text = String::from("falls ");
                plan.put_name(&mut text, line);
                text.push(' ');
                plan.put_name(&mut text, *next);
                return (1, text + "\n");
            }
        }
    }
    (0, "accepted\n".to_string())
}

fn rank(plan: &Plan) -> (i32, String) {
    let outputs = outputs(plan);
    let mut waits = vec![0u32; plan.lines()];
    for line in 0..plan.lines() {
        for next in &outputs[plan.to(line)] {
            waits[*next] += u32::from(plan.hop(line, *next));
        }
    }
    let mut ranks = vec![0u64; plan.lines()];
    let mut ready: Vec<usize> = (0..plan.lines()).filter(|l| plan.nominated(*l) && waits[*l] == 0).collect();
    let mut done = 0;
    while done < ready.len() {
        let line = ready[done];
        done += 1;
        for next in &outputs[plan.to(line)] {
            if plan.hop(line, *next) {
                ranks[*next] = ranks[*next].max(ranks[line] + 1);
                waits[*next] -= 1;
                if waits[*next] == 0 {
                    ready.push(*next);
                }
            }
        }
    }
    let nominated = (0..plan.lines()).filter(|l| plan.nominated(*l));
    if nominated.clone().count() != ready.len() {
        return (1, cycle(plan, &waits));
    }
    let mut text = String::from("line,rank\n");
    for line in nominated {
        plan.put_name(&mut text, line);
        let _ = writeln!(text, ",{}", ranks[line]);
    }
    (0, text)
}

fn cycle(plan: &Plan, waits: &[u32]) -> String {
    let rest: Vec<usize> = (0..plan.lines()).filter(|l| plan.nominated(*l) && waits[*l] > 0).collect();
    let before = |line: usize| *rest.iter().find(|l| plan.hop(**l, line)).unwrap();
    let mut line = rest[0];
    for _ in 0..plan.lines() {
        line = before(line);
    }
    let mut ring = vec![line];
    let mut next = before(line);
    while next != line {
        ring.push(next);
        next = before(next);
    }
    ring.reverse();
    let lowest = (0..ring.len()).min_by_key(|k| ring[*k]).unwrap();
    ring.rotate_left(lowest);
    let mut text = String::from("cycle");
    for line in ring {
        text.push(' ');
        plan.put_name(&mut text, line);
    }
    text + "\n"
}

// ---- the ladder

fn ladder(n: usize) -> String {
    let mut text = String::from("option = \"I\"\n");
    for e in 0..n {
        let _ = write!(text, "\n[[element]]\nholdoff = 300\nname = \"E{e}\"\nown = \"QL-SEC\"\nwtr = 5\n");
    }
    let mut link = |sign: char, j: usize, a: usize, priority: u8| {
        let _ = write!(
            text,
            "\n[[link]]\na = \"E{a}\"\nb = \"E{j}\"\ndelay_a = 10\ndelay_b = 10\nname = \"{sign}{j}\"\npriority_a = 0\npriority_b = {priority}\n"
        );
    };
    for j in 1..n {
        link('S', j, j - 1, 2);
        if j >= 2 {
            link('R', j, j - 2, 1);
        }
    }
    for (e, level) in [(0, "QL-PRC"), (1, "QL-SSU-A")] {
        let _ = write!(text, "\n[[source]]\nat = \"E{e}\"\nlevel = \"{level}\"\nname = \"P{e}\"\npriority = 1\n");
    }
    text
}

// ---- frames

/// The value of each hexadecimal digit, and 255 for every other byte.
static DIGITS: [u8; 256] = {
    let mut table = [255; 256];
    let mut value = 0;
    while value < 16 {
        table[b"0123456789abcdef"[value] as usize] = value as u8;
        table[b"0123456789ABCDEF"[value] as usize] = value as u8;
        value += 1;
    }
    table
};

fn octets(digits: &[u8], out: &mut [u8]) -> Option<usize> {
    if digits.len() % 2 != 0 || digits.len() / 2 > out.len() {
        return None;
    }
    let mut wrong = 0;
    for (octet, pair) in out.iter_mut().zip(digits.chunks_exact(2)) {
        let (high, low) = (DIGITS[pair[0] as usize], DIGITS[pair[1] as usize]);
        wrong |= high | low;
        *octet = (high << 4) | low;
    }
    (wrong < 16).then_some(digits.len() / 2)
}

fn put_digits(text: &mut Vec<u8>, octets: &[u8]) {
    static SIGNS: &[u8; 16] = b"0123456789abcdef";
    let start = text.len();
    text.resize(start + 2 * octets.len(), 0);
    for (pair, octet) in text[start..].chunks_exact_mut(2).zip(octets) {
        pair[0] = SIGNS[(octet >> 4) as usize];
        pair[1] = SIGNS[(octet & 15) as usize];
    }
}

fn bad_frames(number: u32, line: usize) -> ! {
    stop(6, &format!("bad frames {number} {line}\n"))
}

fn lines(text: &str) -> impl Iterator<Item = (usize, &[u8])> {
    text.split('\n')
        .enumerate()
        .map(|(k, line)| (k + 1, line.strip_suffix('\r').unwrap_or(line).as_bytes()))
        .filter(|(_, line)| !line.is_empty())
}

const HEAD: [u8; 6] = [1, 0x80, 0xc2, 0, 0, 2];
const FIXED: [u8; 8] = [0x88, 9, 10, 0, 0x19, 0xa7, 0, 1];

fn decode(option: &str, bytes: &[u8]) -> Vec<u8> {
    let table = levels(option);
    let mut text = Vec::with_capacity(bytes.len() / 4);
    let mut frame = [0; 1514];
    for (number, line) in lines(&String::from_utf8_lossy(bytes)) {
        let Some(len) = octets(line, &mut frame) else {
            bad_frames(12, number)
        };
        let f = &frame[..len];
        let fits = len >= 60 && f[..6] == HEAD && f[12..20] == FIXED && f[20] >> 4 == 1 && f[24..27] == [1, 0, 4];
        if !fits {
            bad_frames(13, number)
        }
        put_digits(&mut text, &f[6..12]);
        text.extend_from_slice(if f[20] & 8 != 0 { b",event," } else { b",info," });
        let extended = f[28..31] == [2, 0, 20];
        let code = f[27] & 15;
        let enhanced = if extended { f[31] } else { 255 };
        let row = table.iter().find(|r| r.1 == code && r.2 == enhanced);
        match row.or_else(|| table.iter().find(|r| r.1 == code && r.2 == 255)) {
            Some(row) => text.extend_from_slice(row.0.as_bytes()),
            None => text.extend_from_slice(format!("code-{code}").as_bytes()),
        }
        if extended {
            text.push(b',');
            put_digits(&mut text, &f[32..40]);
            text.push(b',');
            put_digits(&mut text, &f[40..41]);
            text.extend_from_slice(format!(",{},{}", f[41], f[42]).as_bytes());
        }
        text.push(b'\n');
    }
    text
}

fn frame_of(option: &str, line: &[u8]) -> Option<[u8; 60]> {
    let mut frame = [0; 60];
    frame[..6].copy_from_slice(&HEAD);
    frame[12..20].copy_from_slice(&FIXED);
    let mut fields = line.split(|b| *b == b',');
    if octets(fields.next()?, &mut frame[6..12])? != 6 {
        return None;
    }
    frame[20] = match fields.next()? {
        b"info" => 0x10,
        b"event" => 0x18,
        _ => return None,
    };
    frame[24..27].copy_from_slice(&[1, 0, 4]);
    let table = levels(option);
    let level = fields.next()?;
    let (code, enhanced) = match table.iter().find(|r| r.0.as_bytes() == level) {
        Some(row) => (row.1, row.2),
        None => {
            let code: u8 = std::str::from_utf8(level.strip_prefix(b"code-")?).ok()?.parse().ok()?;
            if code > 15 || table.iter().any(|r| r.1 == code) {
                return None;
            }
            (code, 255)
        }
    };
    frame[27] = code;
    let Some(clock) = fields.next() else {
        return (enhanced == 255).then_some(frame);
    };
    frame[28..31].copy_from_slice(&[2, 0, 20]);
    frame[31] = enhanced;
    if octets(clock, &mut frame[32..40])? != 8 || octets(fields.next()?, &mut frame[40..41])? != 1 {
        return None;
    }
    for octet in &mut frame[41..43] {
        *octet = std::str::from_utf8(fields.next()?).ok()?.parse().ok()?;
    }
    fields.next().is_none().then_some(frame)
}

fn encode(option: &str, bytes: &[u8]) -> Vec<u8> {
    let mut text = Vec::with_capacity(6 * bytes.len());
    for (number, line) in lines(&String::from_utf8_lossy(bytes)) {
        match frame_of(option, line) {
            Some(frame) => put_digits(&mut text, &frame),
            None => bad_frames(14, number),
        }
        text.push(b'\n');
    }
    text
}

// ---- the words

fn file(name: &str) -> Vec<u8> {
    let bytes = std::fs::read(name).unwrap_or_else(|_| stop(7, "read fault\n"));
    if bytes.len() > 8_388_608 {
        stop(9, "too long\n")
    }
    bytes
}

fn main() {
    let words: Vec<String> = std::env::args().skip(1).collect();
    let words: Vec<&str> = words.iter().map(String::as_str).collect();
    let (status, text): (i32, Vec<u8>) = match words[..] {
        ["check", plan, cert] => {
            let plan = read_plan(&file(plan));
            let ranks = read_ranks(&plan, &file(cert));
            let (status, text) = check(&plan, &ranks);
            (status, text.into_bytes())
        }
        ["rank", plan] => {
            let (status, text) = rank(&read_plan(&file(plan)));
            (status, text.into_bytes())
        }
        ["gen", n] => match n.parse() {
            Ok(n) if (2..=2000).contains(&n) => (0, ladder(n).into_bytes()),
            _ => stop(2, "usage\n"),
        },
        ["decode", option @ ("I" | "II"), name] => (0, decode(option, &file(name))),
        ["encode", option @ ("I" | "II"), name] => (0, encode(option, &file(name))),
        _ => stop(2, "usage\n"),
    };
    match std::io::stdout().write_all(&text) {
        Ok(()) => exit(status),
        Err(_) => exit(8),
    }
}
