//! Random walks of an arena beside the plain body of its contract: WALKS CALLS SEED. See `run`.
#![allow(dead_code, unused)]
mod deed_core;
mod plain_arena;
mod sorted_rows;
mod std_names;
mod tag_arena;

use deed_core::{PlainDeed, Range, Request, Route, Segment, LIMIT};
use plain_arena::PlainArena;
use std::sync::atomic::{AtomicU64, Ordering::Relaxed};
use std_names::{AllocError, Global};
use tag_arena::{Arena, Policy, SpanFault};

const ID: u32 = 7;
const SPREAD: u64 = 0x9E37_79B9_7F4A_7C15;
/// What `WANT` is in a call that must take no memory.
const FORBIDDEN: u64 = u64::MAX;

/// How often a search was made by a look at each slot or cell.
static SEARCHES: [AtomicU64; 4] = [const { AtomicU64::new(0) }; 4];
/// In how many of 64 cases memory or a split is refused, and what the cases come from.
static WANT: AtomicU64 = AtomicU64::new(0);
static CASES: AtomicU64 = AtomicU64::new(0);

fn is_refused() -> bool {
    Random(CASES.fetch_add(SPREAD, Relaxed) | 1).below(64) < WANT.load(Relaxed)
}

/// Makes no more room than is asked for, so that each growth asks for some.
fn make_room<T>(items: &mut Vec<T>, more: usize) -> Result<(), AllocError> {
    if items.capacity() - items.len() < more {
        assert!(WANT.load(Relaxed) != FORBIDDEN, "the call takes memory");
        if is_refused() { return Err(AllocError) }
        items.reserve_exact(more);
    }
    Ok(())
}

struct Random(u64);

impl Random {
    fn below(&mut self, n: u64) -> u64 {
        self.0 ^= self.0 << 13;
        self.0 ^= self.0 >> 7;
        self.0 ^= self.0 << 17;
        ((self.0 as u128 * n as u128) >> 64) as u64
    }
    fn one_of<T: Copy>(&mut self, items: &[T]) -> T {
        items[self.below(items.len() as u64) as usize]
    }
}

/// An arena's number, a root's, a base and an end.
type Span = (u32, u32, u64, u64);
/// What a call gives, or why it gives nothing.
type Answer = Result<Option<Span>, String>;

fn segment(span: Span) -> Segment<PlainDeed> {
    let range = Range::new(span.2, span.3 - span.2).unwrap();
    Segment::new(span.0, Route::Direct, PlainDeed::new(span.1, range))
}

fn span_of(it: Segment<PlainDeed>) -> Span {
    assert!(it.route() == Route::Direct);
    (it.arena(), it.root(), it.range().base(), it.range().end())
}

fn fault<S>(it: SpanFault<S>) -> String {
    String::from(match it {
        SpanFault::Overlaps(_) => "Overlaps",
        SpanFault::NotAligned(_) => "NotAligned",
        SpanFault::NoMemory(_) => "NoMemory",
    })
}

/// What both bodies answer to a call. Where the arena was in want, the call is made again.
macro_rules! both {
    ($walk:ident, $want:expr, $it:ident => $call:expr) => {{
        let $it = &mut $walk.plain;
        let right: Answer = $call;
        let $it = &mut $walk.arena;
        WANT.store($want, Relaxed);
        let mut answer: Answer = $call;
        WANT.store(0, Relaxed);
        if answer == Err("NoMemory".to_string()) {
            assert!($want > 0 && right.is_ok(), "it was in no want");
            $walk.counts[2] += 1;
            answer = $call;
        }
        assert_eq!(answer, right);
        let [free, allocated] = $walk.plain.made();
        let linked = if $walk.arena.policy() == Policy::Next { 0 } else { free };
        $walk.most = [$walk.most[0].max(allocated + linked), $walk.most[1].max(free)];
        answer
    }};
}

/// A walk: in how many of 64 cases something is refused and a request has options, how long the row
/// is in which spans lie, what `main` prints, and the most ranges at once with cells and with slots.
struct Walk {
    arena: Arena<PlainDeed>,
    plain: PlainArena<PlainDeed>,
    random: Random,
    want: u64,
    options: u64,
    quantum: u64,
    length: u64,
    held: Vec<Span>,
    counts: [u64; 11],
    most: [usize; 2],
}

impl Walk {
    fn new(seed: u64) -> Walk {
        CASES.store(seed, Relaxed);
        let mut random = Random(seed.wrapping_mul(SPREAD) | 1);
        let policy = random.one_of(&[Policy::Best, Policy::Next, Policy::Instant]);
        let (quantum, options) = (random.one_of(&[1, 2, 4, 8]), random.one_of(&[0, 1, 32]));
        let (want, length) = (seed % 2 * (1 + random.below(16)), quantum * 16 * (2 + random.below(40)));
        let arena = Arena::new(Global, ID, quantum, policy);
        let plain = PlainArena::new(Global, ID, quantum, policy);
        let (held, counts, most) = Default::default();
        Walk { arena, plain, random, want, options, quantum, length, held, counts, most }
    }
    /// A request, which may be bad where it has options. Walks without any have few that don't fit.
    fn request(&mut self) -> Request {
        let (quantum, length, random) = (self.quantum, self.length, &mut self.random);
        let large = if self.options > 0 { length / 4 } else { 1 };
        let most = random.one_of(&[1, 6 * quantum, 6 * quantum, 6 * quantum, large]);
        let mut q = Request::plain(1 + random.below(most));
        if random.below(64) < self.options {
            let powers = [quantum << random.below(7), quantum << random.below(7), 0, 0];
            let [one, other, phase] = [length, length, 4].map(|most| random.below(most));
            (q.align, q.nocross) = (random.one_of(&powers), random.one_of(&powers));
            q.phase = random.one_of(&[0, quantum * phase]);
            (q.min, q.max) = (random.one_of(&[0, one]), random.one_of(&[LIMIT, LIMIT, other]));
            q.size = random.one_of(&[q.size, q.size, q.size, q.size, one, u64::MAX]);
        }
        q
    }
    /// A lease, or a new span of some blocks of 16 quanta: an owned one, or an import with a lease.
    /// Few spans aren't in whole quanta.
    fn take(&mut self, what: &str) {
        let (block, root) = (16 * self.quantum, self.random.below(1 << 30) as u32);
        let base = block * self.random.below(self.length / block) + self.random.below(16) / 15;
        let span = (ID + (what == "import") as u32, root, base, base + block * (1 + self.random.below(4)));
        let (q, first) = (self.request(), Request::plain(1 + self.random.below(span.3 - span.2)));
        let answer = both!(self, self.want, it => match what {
            "lease" => it.xalloc(&q).map(|it| Some(span_of(it))).map_err(|it| format!("{it:?}")),
            "span" => it.add_span(segment(span).into_deed()).map(|()| None).map_err(fault),
            _ => it.add_span_and_carve(segment(span), &first).map(|it| Some(span_of(it))).map_err(fault),
        });
        self.counts[answer.is_err() as usize] += 1;
        self.held.extend(answer.ok().flatten());
    }
    fn give(&mut self, span: Span) -> Answer {
        both!(self, FORBIDDEN, it => match it.free(segment(span)) {
            Ok(back) => Ok(back.map(span_of)),
            Err(same) => Err(format!("{:?} isn't the arena's", span_of(same))),
        })
    }
    /// Frees a segment, and before some one that is like it but isn't the arena's.
    fn free(&mut self) {
        let at = self.random.below(1 + self.held.len() as u64) as usize;
        if at < self.held.len() {
            let span @ (id, root, base, end) = self.held.swap_remove(at);
            let others = [(id + 1, root, base, end), (id, !root, base, end), (id, root, base, end + 1)];
            let other = self.random.one_of(&others);
            assert!(self.random.below(16) > 0 || self.give(other).is_err());
            let bases = [base, base, self.random.below(self.length)];
            self.arena.go_to(self.random.one_of(&bases));
            assert!(self.give(span).is_ok());
        }
    }
    fn remove(&mut self) -> bool {
        let span = |it| span_of(Segment::new(ID, Route::Direct, it));
        both!(self, FORBIDDEN, it => Ok(it.remove_owned().map(span))).unwrap().is_some()
    }
    /// So many calls, of which now more are leases and now more releases; then all comes back.
    fn walk(mut self, calls: u64) -> [u64; 11] {
        (0..8).for_each(|_| self.take("span"));
        let (mut held, most) = (0, self.length / self.quantum / if self.options > 0 { 2 } else { 16 });
        for turn in 0..calls {
            if turn % 256 == 0 {
                held = self.random.below(1 + most) as usize;
            }
            match self.random.below(40) {
                0 => self.take("span"),
                1..=2 => self.take("import"),
                3 => {
                    let report = self.arena.report();
                    let allocated: u128 = self.held.iter().map(|it| u128::from(it.3 - it.2)).sum();
                    assert!(report == self.plain.report() && report.span == report.free + allocated);
                }
                4 if self.random.below(8) == 0 => drop(self.remove()),
                at if (at < 32) == (self.held.len() < held) => self.take("lease"),
                _ => self.free(),
            }
        }
        while !self.held.is_empty() { self.free() }
        while self.remove() {}
        (0..4).for_each(|at| self.counts[3 + at] = SEARCHES[at].swap(0, Relaxed));
        let ([cells, slots], most) = (self.arena.made(), self.most);
        self.counts[7..].copy_from_slice(&[cells, most[0], slots, most[1]].map(|it| it as u64));
        assert!(self.arena.close().is_ok() && self.plain.close().is_ok());
        self.counts
    }
}

fn main() {
    let words: Vec<u64> = std::env::args().skip(1).map(|it| it.parse().unwrap()).collect();
    let (mut sums, mut wrong) = ([0; 11], Vec::new());
    for seed in words[2]..words[2] + words[0] {
        let counts = Walk::new(seed).walk(words[1]);
        let leaks = counts[7] > counts[8] + 2 || counts[9] > counts[10];
        wrong.extend((leaks || counts[3..7] != [0; 4]).then_some(seed));
        (0..11).for_each(|at| sums[at] += counts[at]);
    }
    let [grants, refusals, wants, ending_at, beginning_at, holding, by_each, made @ ..] = sums;
    println!("{} walks of {} calls: {grants} grants or new spans, {refusals} refusals, {wants} in want", words[0], words[1]);
    println!("searches: {ending_at} ending_at, {beginning_at} beginning_at, {holding} holding, {by_each} by_each");
    println!("made: {} cells for {} ranges at once, {} slots for {}", made[0], made[1], made[2], made[3]);
    if let [seed, ..] = wrong[..] {
        println!("{} walks searched or leaked: one is --walks 1 --seed {seed}", wrong.len());
        std::process::exit(1);
    }
}
