//! The model's tally against tallies worked out by hand, and the driver of tallies on the model itself and on libraries
//! with a slip each: it must find every one of them.
use compare::bare::{self, Reply};
use compare::report::Report;
use compare::tally::{compare, Amount, Tally};
use std::cmp::Reverse;

const SMALL: Amount = Amount {
    small: 300,
    sizes: 41..=41,
};

type Pairs = Vec<(u16, u32)>;

/// What a library lists, of the cells and of what the model lists.
type Listing = fn(&[u16], Pairs) -> Pairs;

/// Whether a library refuses with 13, of the number of ids, the places for ids and the places for counts.
type Short = fn(usize, usize, usize) -> bool;

fn differences(tally: Tally) -> u64 {
    let mut report = Report::quiet();
    compare(&mut report, tally, &SMALL);
    report.differences
}

/// Writes ids and counts as far as each list has places.
fn write(pairs: &[(u16, u32)], ids: &mut [u16], counts: &mut [u32]) {
    ids.iter_mut()
        .zip(pairs)
        .for_each(|(place, pair)| *place = pair.0);
    counts
        .iter_mut()
        .zip(pairs)
        .for_each(|(place, pair)| *place = pair.1);
}

/// A library that is the model but for what it lists, and for when it refuses with 13.
fn library(short: Short, listing: Listing) -> impl Fn(&[u16], usize, &mut [u16], &mut [u32]) -> Reply {
    move |cells, size, ids, counts| {
        let (asked, present) = (bare::is_empty(cells, size), bare::present(cells));
        if asked.number != 0 {
            return asked;
        }
        if short(present.len(), ids.len(), counts.len()) {
            return Reply { number: 13, value: 0 };
        }
        let pairs = listing(cells, present);
        write(&pairs, ids, counts);
        Reply {
            number: 0,
            value: pairs.len() as u32,
        }
    }
}

fn short(n: usize, ids: usize, counts: usize) -> bool {
    ids < n || counts < n
}

/// The pairs in the order in which the cells first hold their ids.
fn by_appearance(cells: &[u16], pairs: &[(u16, u32)]) -> Pairs {
    let mut first = vec![cells.len(); 65_536];
    for (i, &id) in cells.iter().enumerate().rev() {
        first[id as usize] = i;
    }
    let mut pairs = pairs.to_vec();
    pairs.sort_by_key(|&(id, _)| first[id as usize]);
    pairs
}

/// The pairs' ids, beside these counts.
fn with_counts(pairs: &[(u16, u32)], counts: impl IntoIterator<Item = u32>) -> Pairs {
    pairs.iter().map(|pair| pair.0).zip(counts).collect()
}

fn counts(pairs: &[(u16, u32)]) -> Vec<u32> {
    pairs.iter().map(|pair| pair.1).collect()
}

/// The pairs, sorted by this.
fn sorted<K: Ord>(mut pairs: Pairs, key: fn(&(u16, u32)) -> K) -> Pairs {
    pairs.sort_by_key(key);
    pairs
}

#[test]
fn the_model_has_no_difference() {
    assert_eq!(differences(&bare::tally), 0);
    assert_eq!(differences(&library(short, |_, pairs| pairs)), 0);
}

#[test]
fn every_other_order_is_found() {
    let slips: [(&str, Listing); 9] = [
        ("downward", |_, pairs| sorted(pairs, |p| Reverse(p.0))),
        ("by first appearance", |cells, pairs| by_appearance(cells, &pairs)),
        ("by last appearance", |cells, pairs| {
            let back: Vec<u16> = cells.iter().rev().copied().collect();
            by_appearance(&back, &pairs)
        }),
        ("as signed numbers", |_, pairs| sorted(pairs, |p| p.0 as i16)),
        ("by number of cells", |_, pairs| sorted(pairs, |p| p.1)),
        ("most cells first", |_, pairs| sorted(pairs, |p| Reverse(p.1))),
        ("by the low byte", |_, pairs| sorted(pairs, |p| p.0.swap_bytes())),
        ("by 8,192 downward, upward among these", |_, pairs| {
            sorted(pairs, |p| (Reverse(p.0 / 8192), p.0))
        }),
        ("the last two exchanged", |_, mut pairs| {
            if let [.., a, b] = &mut pairs[..] {
                std::mem::swap(a, b);
            }
            pairs
        }),
    ];
    for (name, listing) in slips {
        assert!(differences(&library(short, listing)) > 0, "{name}: not found");
    }
}

#[test]
fn every_slip_of_a_list_is_found() {
    let slips: [(&str, Listing); 9] = [
        ("counts by first appearance", |cells, pairs| {
            with_counts(&pairs, counts(&by_appearance(cells, &pairs)))
        }),
        ("counts ascending by themselves", |_, pairs| {
            with_counts(&pairs, counts(&sorted(pairs.clone(), |p| p.1)))
        }),
        ("the count of the next id", |_, pairs| {
            with_counts(&pairs, counts(&pairs).into_iter().cycle().skip(1))
        }),
        ("every id has one cell", |_, pairs| {
            pairs.iter().map(|p| (p.0, 1)).collect()
        }),
        ("counts in 16 bits", |_, pairs| {
            pairs.iter().map(|p| (p.0, p.1 % 65_536)).collect()
        }),
        ("air is listed", |cells, mut pairs| {
            let air = cells.iter().filter(|&&id| id == 0).count();
            if air > 0 {
                pairs.insert(0, (0, air as u32));
            }
            pairs
        }),
        ("the last id is missing", |_, mut pairs| {
            pairs.pop();
            pairs
        }),
        ("65,535 is missing", |_, mut pairs| {
            pairs.retain(|p| p.0 < 65_535);
            pairs
        }),
        ("the last id comes twice", |_, mut pairs| {
            pairs.extend(pairs.last().copied());
            pairs
        }),
    ];
    for (name, listing) in slips {
        assert!(differences(&library(short, listing)) > 0, "{name}: not found");
    }
}

#[test]
fn every_wrong_13_is_found() {
    let slips: [(&str, Short); 5] = [
        ("13 by the ids only", |n, ids, _| ids < n),
        ("13 by the counts only", |n, _, counts| counts < n),
        ("13 one too late", |n, ids, counts| ids + 1 < n || counts + 1 < n),
        ("13 one too early", |n, ids, counts| ids <= n || counts <= n),
        ("13 where both are short", |n, ids, counts| ids < n && counts < n),
    ];
    for (name, short) in slips {
        assert!(
            differences(&library(short, |_, pairs| pairs)) > 0,
            "{name}: not found"
        );
    }
}

/// Puts a 0 behind the ids of an accepted tally.
fn end<T: Default>(list: &mut [T], reply: Reply) {
    if let (0, Some(place)) = (reply.number, list.get_mut(reply.value as usize)) {
        *place = T::default();
    }
}

#[test]
fn every_write_off_the_ids_is_found() {
    let slips: [(&str, Tally); 5] = [
        ("counts past the ids in 16 bits", &|cells, size, ids, counts| {
            let reply = bare::tally(cells, size, ids, counts);
            let past = counts.iter_mut().skip(reply.value as usize);
            past.for_each(|place| *place %= 65_536);
            reply
        }),
        ("a 0 behind the ids", &|cells, size, ids, counts| {
            let reply = bare::tally(cells, size, ids, counts);
            end(ids, reply);
            reply
        }),
        ("a 0 behind the counts", &|cells, size, ids, counts| {
            let reply = bare::tally(cells, size, ids, counts);
            end(counts, reply);
            reply
        }),
        ("ids written before a refusal", &|cells, size, ids, counts| {
            write(&bare::present(cells), ids, &mut []);
            bare::tally(cells, size, ids, counts)
        }),
        ("counts written before a refusal", &|cells, size, ids, counts| {
            write(&bare::present(cells), &mut [], counts);
            bare::tally(cells, size, ids, counts)
        }),
    ];
    for (name, tally) in slips {
        assert!(differences(tally) > 0, "{name}: not found");
    }
}

#[test]
fn every_wrong_answer_is_found() {
    let slips: [(&str, Tally); 4] = [
        ("an accepted tally answers 0", &|cells, size, ids, counts| Reply {
            value: 0,
            ..bare::tally(cells, size, ids, counts)
        }),
        ("a refused tally answers the ids", &|cells, size, ids, counts| {
            Reply {
                value: bare::present(cells).len() as u32,
                ..bare::tally(cells, size, ids, counts)
            }
        }),
        ("13 before 1 and 6", &|cells, size, ids, counts| {
            if short(bare::present(cells).len(), ids.len(), counts.len()) {
                return Reply { number: 13, value: 0 };
            }
            bare::tally(cells, size, ids, counts)
        }),
        ("6 before 1", &|cells, size, ids, counts| {
            if cells.len() != size.wrapping_pow(3) {
                return Reply { number: 6, value: 0 };
            }
            bare::tally(cells, size, ids, counts)
        }),
    ];
    for (name, tally) in slips {
        assert!(differences(tally) > 0, "{name}: not found");
    }
}

/// The model's tally of cells, in lists that hold 7 everywhere: its number and value, and both lists after it.
fn tallied(cells: &[u16], size: usize, places: [usize; 2]) -> (u32, u32, Vec<u16>, Vec<u32>) {
    let (mut ids, mut counts) = (vec![7; places[0]], vec![7; places[1]]);
    let reply = bare::tally(cells, size, &mut ids, &mut counts);
    (reply.number, reply.value, ids, counts)
}

#[test]
fn tallies_worked_out_by_hand() {
    // 5 is first, and has the most cells; 65,535 comes before 3.
    let cells = [5, 65_535, 5, 0, 3, 40_000, 3, 5];
    let (ids, counts) = (vec![3, 5, 40_000, 65_535], vec![2, 3, 1, 1]);
    assert_eq!(tallied(&cells, 2, [4, 4]), (0, 4, ids, counts));
    let (ids, counts) = (vec![3, 5, 40_000, 65_535, 7], vec![2, 3, 1, 1, 7, 7]);
    assert_eq!(tallied(&cells, 2, [5, 6]), (0, 4, ids, counts));
    // Each cell another id, downward.
    let cells = [65_535, 65_534, 32_768, 32_767, 8192, 8191, 256, 1];
    let ids = vec![1, 256, 8191, 8192, 32_767, 32_768, 65_534, 65_535];
    assert_eq!(
        tallied(&cells, 2, [8, 9]),
        (0, 8, ids, vec![1, 1, 1, 1, 1, 1, 1, 1, 7])
    );
    // One id, in one cell, in some and in all; none.
    assert_eq!(tallied(&[300], 1, [1, 2]), (0, 1, vec![300], vec![1, 7]));
    let cells = [0, 9, 0, 9, 9, 0, 0, 9];
    assert_eq!(tallied(&cells, 2, [3, 1]), (0, 1, vec![9, 7, 7], vec![4]));
    assert_eq!(tallied(&[1; 27], 3, [1, 1]), (0, 1, vec![1], vec![27]));
    assert_eq!(tallied(&[0; 8], 2, [2, 1]), (0, 0, vec![7, 7], vec![7]));
    assert_eq!(tallied(&[0], 1, [0, 0]), (0, 0, vec![], vec![]));
}

#[test]
fn refusals_worked_out_by_hand() {
    let cells = [2, 1, 2, 1, 0, 0, 0, 3];
    assert_eq!(tallied(&cells, 2, [2, 3]), (13, 0, vec![7; 2], vec![7; 3]));
    assert_eq!(tallied(&cells, 2, [3, 2]), (13, 0, vec![7; 3], vec![7; 2]));
    assert_eq!(tallied(&cells, 2, [0, 0]), (13, 0, vec![], vec![]));
    assert_eq!(tallied(&cells[..7], 2, [3, 1]), (6, 0, vec![7; 3], vec![7]));
    assert_eq!(tallied(&cells, 3, [3, 3]), (6, 0, vec![7; 3], vec![7; 3]));
    assert_eq!(tallied(&cells, 0, [1, 3]), (1, 0, vec![7], vec![7; 3]));
    assert_eq!(tallied(&[], 0, [0, 1]), (1, 0, vec![], vec![7]));
    assert_eq!(tallied(&cells, 65, [3, 3]), (1, 0, vec![7; 3], vec![7; 3]));
}
