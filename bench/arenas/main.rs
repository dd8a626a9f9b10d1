//! Times an arena beside one over std's BTreeMap: KIND LIVE COUNT, or holes COUNT. It prints
//! nanoseconds of processor time a request: instant, best, next, BTreeMap by best fit, by next fit.
#![allow(dead_code, unused)]
mod btree;
mod deed_core;
mod sorted_rows;
mod std_names;
mod tag_arena;

use deed_core::{PlainDeed, Range, Request, Segment};
use std_names::Global;
use tag_arena::{Arena, Policy};

#[repr(C)]
struct Time {
    seconds: i64,
    nanoseconds: i64,
}

extern "C" {
    fn clock_gettime(clock: i32, time: *mut Time) -> i32;
}

/// The processor time of this process.
fn time() -> u64 {
    let mut time = Time { seconds: 0, nanoseconds: 0 };
    unsafe { clock_gettime(2, &mut time) };
    time.seconds as u64 * 1_000_000_000 + time.nanoseconds as u64
}

struct Random(u64);

impl Random {
    fn below(&mut self, n: u64) -> u64 {
        self.0 ^= self.0 << 13;
        self.0 ^= self.0 >> 7;
        self.0 ^= self.0 << 17;
        ((self.0 as u128 * n as u128) >> 64) as u64
    }
}

/// What takes and gives back segments by number.
trait Body {
    type Held;
    fn take(&mut self, request: Request) -> Option<(u64, Self::Held)>;
    fn give(&mut self, held: Self::Held);
}

impl Body for Arena<PlainDeed> {
    type Held = Segment<PlainDeed>;
    fn take(&mut self, request: Request) -> Option<(u64, Self::Held)> {
        let segment = self.xalloc(&request).ok()?;
        Some((segment.range().base(), segment))
    }
    fn give(&mut self, held: Self::Held) {
        assert!(self.free(held).is_ok());
    }
}

impl Body for btree::Arena {
    type Held = (u64, u64);
    fn take(&mut self, request: Request) -> Option<(u64, Self::Held)> {
        let Request { size: length, align, phase, nocross, min, max } = request;
        let base = self.carve(&btree::Request { length, align, phase, nocross, min, max })?;
        Some((base, (base, length)))
    }
    fn give(&mut self, held: Self::Held) {
        assert!(self.free(held.0, held.1));
    }
}

fn request(kind: &str, random: &mut Random) -> Request {
    let mut request = Request::plain(8);
    if kind != "one" {
        request.size = random.below(64) + 1;
    }
    if kind == "bound" {
        request.align = 16;
        request.nocross = 64;
    }
    request
}

fn units(kind: &str) -> u64 {
    match kind {
        "one" => 12,
        "mixed" => 48,
        _ => 96,
    }
}

fn arena(policy: Policy, units: u64) -> Arena<PlainDeed> {
    let mut arena = Arena::new(Global, 1, 1, policy);
    assert!(arena.add_span(PlainDeed::new(0, Range::new(0, units).unwrap())).is_ok());
    arena
}

fn tree(is_next: bool, units: u64) -> btree::Arena {
    let (by_base, by_length, allocated) = Default::default();
    let mut tree = btree::Arena { quantum: 1, is_next, rover: 0, by_base, by_length, allocated };
    tree.add(0, units);
    tree
}

/// Releases and leases in turn with so many live; the time of a request, and a sum of the bases.
fn measure<B: Body>(mut body: B, kind: &str, live: u64, count: u64) -> (f64, u64) {
    let mut random = Random(88_172_645_463_325_252);
    let mut held: Vec<B::Held> = Vec::new();
    for _ in 0..live {
        held.extend(body.take(request(kind, &mut random)).map(|it| it.1));
    }
    let mut sum = 0u64;
    let mut before = 0;
    for turn in 0..live + count {
        if turn == live {
            before = time();
        }
        let at = random.below(held.len() as u64) as usize;
        body.give(held.swap_remove(at));
        if let Some((base, it)) = body.take(request(kind, &mut random)) {
            sum = sum.wrapping_mul(31).wrapping_add(base);
            held.push(it);
        }
    }
    ((time() - before) as f64 / count as f64 / 2.0, sum)
}

/// The median and the most nanoseconds of a search of `next` round so many holes, and its release.
fn holes(count: u64) -> [f64; 2] {
    let mut body = arena(Policy::Next, 2 * count + 2);
    let all: Vec<_> = (0..2 * count).map(|_| body.take(Request::plain(1)).unwrap().1).collect();
    let mut kept = Vec::new();
    for (at, it) in all.into_iter().enumerate() {
        if at % 2 == 1 { body.give(it) } else { kept.push(it) }
    }
    let mut taken: Vec<f64> = (0..400)
        .map(|_| {
            let before = time();
            let (_, it) = body.take(Request::plain(2)).unwrap();
            body.give(it);
            (time() - before) as f64
        })
        .collect();
    taken.sort_by(f64::total_cmp);
    [taken[200], taken[399]]
}

fn main() {
    let words: Vec<String> = std::env::args().collect();
    let number = |at: usize| words[at].parse::<u64>().unwrap();
    let (kind, live) = (words[1].as_str(), number(2));
    if kind == "holes" {
        println!("{:?}", holes(live));
        return;
    }
    let (count, units) = (number(3), live * units(kind));
    let instant = measure(arena(Policy::Instant, units), kind, live, count);
    let best = measure(arena(Policy::Best, units), kind, live, count);
    let next = measure(arena(Policy::Next, units), kind, live, count);
    let following = measure(tree(true, units), kind, live, count);
    assert_eq!(next.1, following.1, "other answers than the BTreeMap's");
    // (the best-fit tree looks at one free range after another, so it isn't asked of many)
    let mut fit = f64::NAN;
    if kind != "bound" || live <= 10_000 {
        let tree = measure(tree(false, units), kind, live, count);
        assert_eq!(best.1, tree.1, "other answers than the BTreeMap's");
        fit = tree.0;
    }
    println!("{:?}", [instant.0, best.0, next.0, fit, following.0]);
}
