//! A small server over std's maps, for `make bench` alone: the lines of `vmemd script` for one root
//! without caches, in plain Rust. It checks each free, keeps each client's last reply, and answers as
//! vmemd does under the policies `best` and `next`.
use std::collections::{BTreeMap, BTreeSet, HashMap};
use std::io::{self, BufRead, Write};

const MOST: u64 = 1 << 62;

/// Free ranges by base and, under `best`, by length; allocated ones by base.
struct Arena {
    quantum: u64,
    is_next: bool,
    rover: u64,
    by_base: BTreeMap<u64, u64>,
    by_length: BTreeSet<(u64, u64)>,
    allocated: BTreeMap<u64, u64>,
}

struct Request {
    length: u64,
    align: u64,
    phase: u64,
    nocross: u64,
    min: u64,
    max: u64,
}

#[derive(Default)]
struct Client {
    incarnation: u64,
    last: u64,
    kept: String,
    leases: BTreeMap<u64, u64>,
}

impl Request {
    fn fits(&self, base: u64) -> bool {
        let end = base + self.length;
        (self.align == 0 || base % self.align == self.phase)
            && (self.nocross == 0 || base / self.nocross == (end - 1) / self.nocross)
            && self.min <= base
            && end <= self.max
    }

    /// The least base that fits in a free range.
    fn first_in(&self, start: u64, length: u64, quantum: u64, from: u64) -> Option<u64> {
        let step = self.align.max(quantum);
        let mut base = start.max(self.min).max(from);
        for _ in 0..2 {
            base += (self.phase + step - base % step) % step;
            if self.nocross == 0 || base % self.nocross + self.length <= self.nocross {
                break;
            }
            base = (base / self.nocross + 1) * self.nocross;
        }
        (base + self.length <= start + length && self.fits(base)).then_some(base)
    }

    fn is_bad(&self, quantum: u64) -> bool {
        let odd = |n: u64| n != 0 && (!n.is_power_of_two() || n % quantum != 0);
        self.length == 0
            || odd(self.align)
            || odd(self.nocross)
            || (self.phase != 0 && (self.phase >= self.align || self.phase % quantum != 0))
            || (self.nocross != 0 && self.nocross < self.length)
            || self.min >= self.max
            || self.max > MOST
    }
}

impl Arena {
    fn add(&mut self, base: u64, length: u64) {
        self.by_base.insert(base, length);
        if !self.is_next {
            self.by_length.insert((length, base));
        }
    }

    fn remove(&mut self, base: u64, length: u64) {
        self.by_base.remove(&base);
        if !self.is_next {
            self.by_length.remove(&(length, base));
        }
    }

    /// A free range and the least base in it that fits: of the ranges that have one the shortest.
    fn best(&self, request: &Request) -> Option<(u64, u64, u64)> {
        self.by_length
            .range((request.length, 0)..)
            .find_map(|&(length, start)| {
                let base = request.first_in(start, length, self.quantum, 0)?;
                Some((start, length, base))
            })
    }

    /// The least base from `from` on that fits, and its free range.
    fn first(&self, request: &Request, from: u64) -> Option<(u64, u64, u64)> {
        let before = self.by_base.range(..from).next_back();
        before
            .into_iter()
            .chain(self.by_base.range(from..))
            .find_map(|(&start, &length)| {
                let base = request.first_in(start, length, self.quantum, from)?;
                Some((start, length, base))
            })
    }

    fn carve(&mut self, request: &Request) -> Option<u64> {
        let (start, length, base) = if self.is_next {
            self.first(request, self.rover)
                .or_else(|| self.first(request, 0))?
        } else {
            self.best(request)?
        };
        self.remove(start, length);
        self.rover = base + request.length;
        if start < base {
            self.add(start, base - start);
        }
        let end = base + request.length;
        if end < start + length {
            self.add(end, start + length - end);
        }
        self.allocated.insert(base, request.length);
        Some(base)
    }

    fn free(&mut self, base: u64, length: u64) -> bool {
        if self.allocated.get(&base) != Some(&length) {
            return false;
        }
        self.allocated.remove(&base);
        let (mut from, mut count) = (base, length);
        if let Some((&start, &n)) = self.by_base.range(..base).next_back() {
            if start + n == base {
                self.remove(start, n);
                (from, count) = (start, n + count);
            }
        }
        if let Some(&n) = self.by_base.get(&(base + length)) {
            self.remove(base + length, n);
            count += n;
        }
        self.add(from, count);
        true
    }
}

#[derive(Default)]
struct Server {
    arena: Option<(String, Arena)>,
    clients: HashMap<u64, Client>,
}

impl Server {
    fn answer(&mut self, line: &str) -> Option<String> {
        let words: Vec<&str> = line.split(' ').collect();
        let number = |at: usize| words.get(at).and_then(|it| it.parse::<u64>().ok());
        if words[0] == "root" {
            let (base, length, quantum) = (number(2)?, number(3)?, number(4)?);
            let mut arena = Arena {
                quantum,
                is_next: words.get(5) == Some(&"next"),
                rover: 0,
                by_base: BTreeMap::new(),
                by_length: BTreeSet::new(),
                allocated: BTreeMap::new(),
            };
            arena.add(base, length);
            self.arena = Some((words[1].to_string(), arena));
            return None;
        }
        let (Some(client), Some(incarnation)) = (number(1), number(2)) else {
            return Some("error badline".into());
        };
        let known = self.clients.entry(client).or_default();
        if words[0] == "hello" {
            if incarnation != known.incarnation {
                *known = Client { incarnation, ..Client::default() };
            }
            return Some(format!("welcome {client} {incarnation}"));
        }
        let n = number(3).unwrap_or(0);
        if incarnation != known.incarnation {
            return Some(format!("old {client} {}", known.incarnation));
        }
        if n == known.last {
            return Some(known.kept.clone());
        }
        if n != known.last + 1 {
            let word = if n > known.last { "gap" } else { "stale" };
            return Some(format!("{word} {client} {incarnation} {n} {}", known.last));
        }
        known.last = n;
        let (name, arena) = self.arena.as_mut().expect("a root");
        let head = format!("{client} {incarnation} {n}");
        known.kept = if words[4] != name.as_str() {
            format!("refused {head} noarena")
        } else if words[0] == "lease" {
            lease(arena, known, &head, &words)
        } else {
            release(arena, known, &head, &words)
        };
        Some(known.kept.clone())
    }
}

fn lease(arena: &mut Arena, client: &mut Client, head: &str, words: &[&str]) -> String {
    let size: u64 = words[5].parse().unwrap_or(0);
    let length = size.div_ceil(arena.quantum) * arena.quantum;
    let mut request = Request { length, align: 0, phase: 0, nocross: 0, min: 0, max: MOST };
    for pair in words[6..].chunks(2) {
        let value: u64 = pair[1].parse().unwrap_or(0);
        match pair[0] {
            "align" => request.align = value,
            "phase" => request.phase = value,
            "nocross" => request.nocross = value,
            "min" => request.min = value,
            _ => request.max = value,
        }
    }
    if request.is_bad(arena.quantum) {
        return format!("refused {head} badrequest");
    }
    if client.leases.len() == 1024 {
        return format!("refused {head} leases");
    }
    let Some(base) = arena.carve(&request) else {
        return format!("refused {head} nofit");
    };
    client.leases.insert(base, length);
    format!("granted {head} {} {base} {length}", words[4])
}

fn release(arena: &mut Arena, client: &mut Client, head: &str, words: &[&str]) -> String {
    let base: u64 = words[5].parse().unwrap_or(MOST);
    match client.leases.remove(&base) {
        Some(length) if arena.free(base, length) => format!("released {head}"),
        _ => format!("refused {head} notyours"),
    }
}

/// Answers what was read at once, and flushes before it reads on.
fn main() -> io::Result<()> {
    let (mut input, mut out) = (io::stdin().lock(), io::stdout().lock());
    let (mut server, mut rest, mut answers) = (Server::default(), Vec::new(), Vec::new());
    loop {
        let piece = input.fill_buf()?;
        if piece.is_empty() {
            return Ok(());
        }
        let read = piece.len();
        rest.extend_from_slice(piece);
        input.consume(read);
        let mut start = 0;
        while let Some(at) = rest[start..].iter().position(|it| *it == b'\n') {
            let line = String::from_utf8_lossy(&rest[start..start + at]);
            start += at + 1;
            if let Some(answer) = server.answer(&line) {
                answers.extend_from_slice(answer.as_bytes());
                answers.push(b'\n');
            }
        }
        rest.drain(..start);
        out.write_all(&answers)?;
        out.flush()?;
        answers.clear();
    }
}
