//! The tally of a library against that of bare.rs, whole: the answer, and every place of both lists, in their order.
//! The library is a function, so that the tests can run the driver on the model itself and on broken ones.
use crate::bare::{self, Reply};
use crate::chunk::{random_cells, STALE};
use crate::product;
use crate::report::Report;
use crate::rng::Rng;
use std::collections::BTreeMap;
use std::ops::RangeInclusive;

/// The tally of a library: cells, their size, the list of ids, the list of their numbers of cells.
pub type Tally<'a> = &'a dyn Fn(&[u16], usize, &mut [u16], &mut [u32]) -> Reply;

/// The two lists that a tally is lent.
#[derive(Clone, PartialEq)]
pub struct Lists {
    pub ids: Vec<u16>,
    pub counts: Vec<u32>,
}

/// How much a run does: how many small chunks, and which sizes are gone through.
pub struct Amount {
    pub small: u64,
    pub sizes: RangeInclusive<usize>,
}

pub const FULL: Amount = Amount {
    small: 5000,
    sizes: 1..=64,
};

/// The first place at which a list is not as wanted: the place, what is wanted there, what it holds.
pub fn first_other<T: Copy + PartialEq>(wanted: &[T], found: &[T]) -> Option<(usize, T, T)> {
    let i = wanted.iter().zip(found).position(|(w, f)| w != f)?;
    Some((i, wanted[i], found[i]))
}

/// One tally on both sides, in lists that hold this before it. Answers the model's reply.
pub fn called(report: &mut Report, tally: Tally, cells: &[u16], size: usize, before: &Lists) -> Reply {
    let (mut ours, mut left) = (before.clone(), before.clone());
    let answer = tally(cells, size, &mut ours.ids, &mut ours.counts);
    let wanted = bare::tally(cells, size, &mut left.ids, &mut left.counts);
    report.same(answer == wanted && ours == left, || {
        let (ids, counts) = (before.ids.len(), before.counts.len());
        let id = first_other(&left.ids, &ours.ids);
        let count = first_other(&left.counts, &ours.counts);
        format!(
            "tally of {} cells, size {size}, in {ids} and {counts} places: wanted {wanted:?}, product {answer:?}; \
             (place, wanted, product) of the first other id {id:?}, of the first other count {count:?}",
            cells.len()
        )
    });
    wanted
}

/// What a list of so many places holds before a tally: one number, ids or counts of the same cells, or any numbers.
fn stale(rng: &mut Rng, places: usize, own: &[u32]) -> Vec<u32> {
    match rng.below(4) {
        0 => vec![STALE.into(); places],
        1 => vec![0; places],
        2 if !own.is_empty() => (0..places).map(|_| rng.pick(own)).collect(),
        _ => (0..places).map(|_| rng.draw() as u32).collect(),
    }
}

/// Lists for a tally of these ids. Each is as long as there are ids, longer, or, unless both must fit, shorter.
pub fn lists(rng: &mut Rng, present: &[(u16, u32)], fit: bool) -> Lists {
    let n = present.len();
    let less = n.saturating_sub(1);
    let lengths = [n, n, n + 1, n + 7, n + 1000, less, less, n / 2, 0];
    let some = &lengths[..if fit { 5 } else { 9 }];
    let ids: Vec<u32> = present.iter().map(|p| p.0.into()).collect();
    let counts: Vec<u32> = present.iter().map(|p| p.1).collect();
    let (places_of_ids, places_of_counts) = (rng.pick(some), rng.pick(some));
    Lists {
        ids: stale(rng, places_of_ids, &ids)
            .iter()
            .map(|&id| id as u16)
            .collect(),
        counts: stale(rng, places_of_counts, &counts),
    }
}

/// One id or some: small ones, any, those at and around the multiples of 8,192 and at both ends, or those of one low
/// byte.
fn palette(rng: &mut Rng) -> Vec<u16> {
    let (kind, low) = (rng.below(4), rng.below(256));
    let many = rng.pick(&[1, 2, 3, 5, 12, 40]);
    let one = |_| match kind {
        0 => rng.range(1, 9) as u16,
        1 => rng.draw() as u16,
        2 => (8192 * rng.below(8) as u16).wrapping_add(rng.pick(&[65_534, 65_535, 0, 1])),
        _ => (low + 256 * rng.below(256)) as u16,
    };
    (0..many).map(one).collect()
}

/// Cells of which each holds another id, as far as there are ids: beyond 65,535 cells every id is there. They go
/// through the ids upward or downward, by steps of 1 to 32,768.
fn spread(rng: &mut Rng, cells: usize) -> Vec<u16> {
    let step = 1 << rng.below(16);
    let step = if rng.once_in(2) { step } else { 65_535 - step };
    let from = rng.below(65_535);
    (0..cells as u64)
        .map(|i| 1 + ((from + i * step) % 65_535) as u16)
        .collect()
}

/// Cells of any kind; in some runs the ids stand in ascending or in descending order.
fn any_cells(rng: &mut Rng, size: usize) -> Vec<u16> {
    let many = size.pow(3);
    let mut cells = match rng.below(8) {
        0 => vec![0; many],
        1 => spread(rng, many),
        2 => (0..many).map(|_| rng.draw() as u16).collect(),
        3 => random_cells(rng, size),
        _ => {
            let (ids, air) = (palette(rng), rng.below(4));
            let cell = |_| if rng.below(4) < air { 0 } else { rng.pick(&ids) };
            (0..many).map(cell).collect()
        }
    };
    match rng.below(4) {
        0 => cells.sort_unstable(),
        1 => cells.sort_unstable_by(|a, b| b.cmp(a)),
        _ => {}
    }
    cells
}

/// A size that is none, or another one, and cells of another number; either may be as it was, now and then both.
fn spoilt(rng: &mut Rng, size: usize, mut cells: Vec<u16>) -> (usize, Vec<u16>) {
    match rng.below(6) {
        0 => cells.push(rng.draw() as u16),
        1 => drop(cells.pop()),
        2 => cells.clear(),
        3 => cells.extend_from_within(..),
        _ => {}
    }
    let sizes = [size, size, 0, 65, size + 1, size - 1, usize::MAX, 1 << 32];
    (rng.pick(&sizes), cells)
}

/// The kinds of tallies that a run is to meet, and whether this one is of the kind.
fn kinds(cells: &[u16], present: &[(u16, u32)], lists: &Lists, number: u32) -> [(&'static str, bool); 17] {
    let (n, ok) = (present.len(), number == 0);
    let (few_ids, few_counts) = (lists.ids.len() < n, lists.counts.len() < n);
    let short = few_ids || few_counts;
    let counts = || present.iter().map(|p| p.1);
    let monotone = || counts().is_sorted() || counts().rev().is_sorted();
    [
        ("no id", ok && n == 0),
        ("one id", ok && n == 1),
        ("all 65,535 ids", ok && n == 65_535),
        ("another id in each cell", ok && n > 1 && n == cells.len()),
        (
            "ids that come downward",
            ok && n > 1 && cells.is_sorted_by(|a, b| a >= b),
        ),
        ("counts that rise and fall", ok && !monotone()),
        ("a count above 65,535", ok && counts().any(|count| count > 65_535)),
        ("a place past the ids", ok && lists.ids.len() > n),
        ("a place past the counts", ok && lists.counts.len() > n),
        (
            "no place past either",
            ok && lists.ids.len() == n && lists.counts.len() == n,
        ),
        ("1", number == 1 && !short),
        ("1 with a short list", number == 1 && short),
        ("6", number == 6 && !short),
        ("6 with a short list", number == 6 && short),
        ("13 by the ids alone", number == 13 && !few_counts),
        ("13 by the counts alone", number == 13 && !few_ids),
        ("13 by both", number == 13 && few_ids && few_counts),
    ]
}

/// A run on one library, and how many tallies of each kind it met.
struct Run<'a> {
    report: &'a mut Report,
    rng: Rng,
    tally: Tally<'a>,
    met: BTreeMap<&'static str, u64>,
}

impl Run<'_> {
    /// One tally, in lists that fit, or of any length.
    fn one(&mut self, cells: &[u16], size: usize, present: &[(u16, u32)], fit: bool) {
        let lists = lists(&mut self.rng, present, fit);
        let reply = called(self.report, self.tally, cells, size, &lists);
        for (kind, holds) in kinds(cells, present, &lists, reply.number) {
            *self.met.entry(kind).or_insert(0) += u64::from(holds);
        }
    }

    /// Three tallies of a chunk, and one of it that is mostly spoilt.
    fn chunk(&mut self, size: usize, cells: Vec<u16>) {
        let present = bare::present(&cells);
        for fit in [true, false, false] {
            self.one(&cells, size, &present, fit);
        }
        let (size, cells) = spoilt(&mut self.rng, size, cells);
        self.one(&cells, size, &bare::present(&cells), false);
    }

    /// Three chunks of one size: of any kind, of as many ids as there can be, of one id.
    fn chunks(&mut self, size: usize) {
        let cells = any_cells(&mut self.rng, size);
        self.chunk(size, cells);
        let cells = spread(&mut self.rng, size.pow(3));
        self.chunk(size, cells);
        let id = self.rng.range(1, 65_535) as u16;
        self.chunk(size, vec![id; size.pow(3)]);
    }
}

/// All of it on one library. A kind of tally that was never met is a failure.
pub fn compare(report: &mut Report, tally: Tally, amount: &Amount) {
    let before = report.comparisons;
    let mut run = Run {
        report,
        rng: Rng::new(12),
        tally,
        met: BTreeMap::new(),
    };
    for _ in 0..amount.small {
        let size = run.rng.range(1, 9) as usize;
        let cells = any_cells(&mut run.rng, size);
        run.chunk(size, cells);
    }
    for size in amount.sizes.clone() {
        run.chunks(size);
    }
    // As many cells as the size says, and yet no size.
    for size in [0, 65] {
        let cells = vec![3; size * size * size];
        run.one(&cells, size, &bare::present(&cells), true);
    }
    let met = run.met;
    println!("tallies: {}, by kind {met:?}", report.comparisons - before);
    for (kind, _) in met.iter().filter(|(_, &tallies)| tallies == 0) {
        report.fail(format!("no tally met '{kind}'"));
    }
}

pub fn run(report: &mut Report) {
    compare(report, &product::tally, &FULL);
}
