//! The model's planes against some worked out by hand, and the driver of planes on the model itself and on libraries with
//! a slip each: it must find every one of them.
use compare::bare::{self, Reply, PLANES};
use compare::plain_planes;
use compare::planes::{compare, full, Amount, Call, Library, MODEL};
use compare::product::answer;
use compare::report::Report;
use perillahinge::raw::Answer;

/// Chunks without refusals.
fn chunks() -> Amount {
    Amount {
        rounds: 1,
        grounds: 0,
        alone: 2,
        sizes: vec![],
    }
}

/// Refusals with these sizes, and no more chunks than any run has.
fn refusals(sizes: &[usize]) -> Amount {
    Amount {
        rounds: 0,
        grounds: 0,
        alone: 0,
        sizes: sizes.into(),
    }
}

/// The sizes for libraries that take a size which is none, or refuse one.
const SIZES: [usize; 18] = [
    0,
    1,
    2,
    3,
    4,
    8,
    12,
    16,
    32,
    48,
    63,
    64,
    65,
    128,
    272,
    1 << 32,
    (1 << 32) + 16,
    usize::MAX,
];

/// Enough for every cause of a refusal.
fn few() -> Amount {
    refusals(&[0, 1, 2, 3, 4, 8, 12, 65])
}

/// A run that meets every kind.
fn small() -> Amount {
    Amount {
        grounds: 1,
        sizes: vec![3, 4],
        ..chunks()
    }
}

/// A run's differences, and the kinds that it did not meet.
fn all(library: Library, amount: &Amount) -> [u64; 2] {
    let mut report = Report::quiet();
    compare(&mut report, library, amount);
    [report.differences - report.failures, report.failures]
}

/// The differences alone.
fn differences(library: Library, amount: &Amount) -> u64 {
    all(library, amount)[0]
}

/// The refusal, 0 for none, of the number of cells, the size and the number of bytes.
type Refuses = fn(usize, usize, usize) -> u32;

/// The position of a cell, of the size and the cell.
type Order = fn(usize, [usize; 3]) -> usize;

/// Where the two bytes of a position lie, of the number of cells and the position.
type Places = fn(usize, usize) -> [usize; 2];

/// An id's two bytes, and the id of two bytes.
type Split = fn(u16) -> [u8; 2];
type Join = fn([u8; 2]) -> u16;

/// What a library is made of, each part the model's or with a slip.
#[derive(Clone, Copy)]
struct Parts {
    refusal: Refuses,
    order: Order,
    places: Places,
    split: Split,
    join: Join,
}

const RIGHT: Parts = Parts {
    refusal,
    order: |_, at| bare::morton(at),
    places: |n, position| [position, n + position],
    split: |id| [id as u8, (id >> 8) as u8],
    join: |[low, high]| u16::from(low) | u16::from(high) << 8,
};

/// The causes of a call: 28, 6, 29.
fn causes(cells: usize, size: usize, bytes: usize) -> [bool; 3] {
    let cube = size.checked_pow(3);
    let twice = cube.and_then(|n| n.checked_mul(2));
    [!PLANES.contains(&size), cube != Some(cells), twice != Some(bytes)]
}

/// The first of these numbers whose cause holds, 0 for none.
fn first(causes: [(u32, bool); 3]) -> u32 {
    let held = causes.iter().find(|cause| cause.1);
    held.map_or(0, |cause| cause.0)
}

fn refusal(cells: usize, size: usize, bytes: usize) -> u32 {
    let [shape, few, short] = causes(cells, size, bytes);
    first([(28, shape), (6, few), (29, short)])
}

/// A cell's place along x, y and z.
fn at(size: usize, i: usize) -> [usize; 3] {
    [i % size, i / size % size, i / size / size]
}

fn index(size: usize, [x, y, z]: [usize; 3]) -> usize {
    x + size * (y + size * z)
}

/// The places of a cell's bytes.
fn places(parts: &Parts, size: usize, cells: usize, i: usize) -> [usize; 2] {
    (parts.places)(cells, (parts.order)(size, at(size.max(1), i)))
}

/// The call `to_planes` of these parts. A byte that has no place is not written.
fn to(parts: Parts) -> impl Fn(&mut [u16], usize, &mut [u8]) -> Reply {
    move |cells, size, bytes| {
        let number = (parts.refusal)(cells.len(), size, bytes.len());
        for i in (0..cells.len()).filter(|_| number == 0) {
            let halves = (parts.split)(cells[i]);
            for (place, half) in places(&parts, size, cells.len(), i).into_iter().zip(halves) {
                if let Some(byte) = bytes.get_mut(place) {
                    *byte = half;
                }
            }
        }
        Reply { number, value: 0 }
    }
}

/// The call `from_planes` of these parts. A byte that has no place is 0.
fn from(parts: Parts) -> impl Fn(&mut [u16], usize, &mut [u8]) -> Reply {
    move |cells, size, bytes| {
        let number = (parts.refusal)(cells.len(), size, bytes.len());
        for i in (0..cells.len()).filter(|_| number == 0) {
            let halves = places(&parts, size, cells.len(), i);
            cells[i] = (parts.join)(halves.map(|place| bytes.get(place).copied().unwrap_or(0)));
        }
        Reply { number, value: 0 }
    }
}

/// A slip in either call must be found.
fn each_found(name: &str, to: Call, from: Call, amount: &Amount) {
    let slips = [Library { to, ..MODEL }, Library { from, ..MODEL }];
    let [in_to, in_from] = slips.map(|library| differences(library, amount));
    assert!(in_to > 0, "{name}: not found in to_planes");
    assert!(in_from > 0, "{name}: not found in from_planes");
}

/// A slip in either call must be found, and in both at once, where one still undoes the other.
fn found(name: &str, parts: Parts, amount: &Amount) {
    let (to, from) = (to(parts), from(parts));
    each_found(name, &to, &from, amount);
    let both = Library { to: &to, from: &from };
    assert!(differences(both, amount) > 0, "{name}: not found in both");
}

#[test]
fn the_model_has_no_difference() {
    assert_eq!(all(MODEL, &small()), [0, 0]);
    assert_eq!(all(MODEL, &full()), [0, 0]);
    let (to, from) = (to(RIGHT), from(RIGHT));
    assert_eq!(all(Library { to: &to, from: &from }, &small()), [0, 0]);
    let right = refusals(&SIZES);
    assert_eq!(differences(Library { to: &to, from: &from }, &right), 0);
}

#[test]
fn a_run_that_misses_kinds_fails() {
    // Sizes 3, 5 and 6 are none, so no call has 6 or 29 alone, or both: of each call three kinds.
    let amount = |sizes: &[usize]| Amount {
        sizes: sizes.into(),
        ..small()
    };
    assert_eq!(all(MODEL, &amount(&[3, 5, 6])), [0, 6]);
    assert_eq!(all(MODEL, &amount(&[8])), [0, 8]);
    assert_eq!(all(MODEL, &amount(&[])), [0, 14]);
    // Sizes 4 to 64 have ground of several ids.
    assert_eq!(
        all(
            MODEL,
            &Amount {
                grounds: 0,
                ..small()
            }
        ),
        [0, 5]
    );
    // Without rounds no chunk of more than one cell holds 65,535 alone, and none every id.
    let [other, unmet] = all(MODEL, &Amount { rounds: 0, ..small() });
    assert!(other == 0 && unmet >= 14);
}

/// Two positions exchanged at one size.
fn exchanged(size: usize, at: [usize; 3], of: usize, pair: [usize; 2]) -> usize {
    match bare::morton(at) {
        position if size == of && position == pair[0] => pair[1],
        position if size == of && position == pair[1] => pair[0],
        position => position,
    }
}

/// A coordinate with its bits backward.
fn backward(size: usize, c: usize) -> usize {
    let bits = size.trailing_zeros();
    (0..bits).map(|bit| (c >> bit & 1) << (bits - 1 - bit)).sum()
}

/// Blocks of an edge in the order of the slice, and in each block Morton order.
fn in_blocks(size: usize, at: [usize; 3], edge: usize) -> usize {
    let edge = edge.min(size);
    let block = index(size / edge, at.map(|c| c / edge));
    block * edge.pow(3) + bare::morton(at.map(|c| c % edge))
}

const ORDERS: [(&str, Order); 21] = [
    ("that of the slice", index),
    ("z lowest", |_, [x, y, z]| bare::morton([z, y, x])),
    ("y lowest", |_, [x, y, z]| bare::morton([y, z, x])),
    ("x and y exchanged", |_, [x, y, z]| bare::morton([y, x, z])),
    ("y and z exchanged", |_, [x, y, z]| bare::morton([x, z, y])),
    ("highest bits first", |size, at| {
        bare::morton(at.map(|c| backward(size, c)))
    }),
    ("all bits the other way around", |size, at| {
        size.pow(3) - 1 - bare::morton(at)
    }),
    ("x from its end", |size, [x, y, z]| {
        bare::morton([size - 1 - x, y, z])
    }),
    ("z from its end", |size, [x, y, z]| {
        bare::morton([x, y, size - 1 - z])
    }),
    ("z above x and y", |size, [x, y, z]| {
        let two = |bit: usize| (x >> bit & 1) << (2 * bit) | (y >> bit & 1) << (2 * bit + 1);
        (0..6).map(two).sum::<usize>() + size * size * z
    }),
    ("Gray code", |_, at| bare::morton(at) ^ (bare::morton(at) >> 1)),
    ("odd rows backward", |size, [x, y, z]| {
        bare::morton([if y % 2 == 1 { size - 1 - x } else { x }, y, z])
    }),
    ("bit 0 alone", |size, at| in_blocks(size, at, 2)),
    ("two bits", |size, at| in_blocks(size, at, 4)),
    ("three bits", |size, at| in_blocks(size, at, 8)),
    ("the sixth bit lost", |_, at| bare::morton(at.map(|c| c % 32))),
    ("only the first 64 right", |size, at| match bare::morton(at) {
        position @ 0..64 => position,
        position => (position + 1).min(size.pow(3) - 1).max(64),
    }),
    ("cells past 4096 by the slice", |size, at| match index(size, at) {
        i @ 4096.. => i,
        _ => bare::morton(at),
    }),
    ("two exchanged at size 32", |size, at| {
        exchanged(size, at, 32, [1000, 1001])
    }),
    ("the last two exchanged at size 64", |size, at| {
        exchanged(size, at, 64, [262_142, 262_143])
    }),
    ("two exchanged at size 2", |size, at| {
        exchanged(size, at, 2, [1, 4])
    }),
];

#[test]
fn every_other_order_is_found() {
    for (name, order) in ORDERS {
        found(name, Parts { order, ..RIGHT }, &chunks());
    }
}

const LAYOUTS: [(&str, Places); 11] = [
    ("high bytes first", |n, p| [n + p, p]),
    ("a cell's bytes side by side", |_, p| [2 * p, 2 * p + 1]),
    ("a cell's bytes side by side, high first", |_, p| {
        [2 * p + 1, 2 * p]
    }),
    ("the high plane one too early", |n, p| [p, n + p - 1]),
    ("the high plane one too late", |n, p| {
        [p, (n + p + 1).min(2 * n - 1)]
    }),
    ("the high plane backward", |n, p| [p, 2 * n - 1 - p]),
    ("the high byte from m + m", |_, p| [p, 2 * p]),
    ("planes of each 64 cells", |_, p| {
        [p / 64 * 128 + p % 64, p / 64 * 128 + 64 + p % 64]
    }),
    ("the high plane at 4096", |n, p| [p, n.min(4096) + p]),
    ("two high bytes exchanged at size 16", |n, p| match p {
        0 | 1 if n == 4096 => [p, n + 1 - p],
        _ => [p, n + p],
    }),
    ("the high plane half way", |n, p| [p, n / 2 + p]),
];

#[test]
fn every_other_layout_is_found() {
    for (name, places) in LAYOUTS {
        found(name, Parts { places, ..RIGHT }, &chunks());
    }
}

const SPLITS: [(&str, Split); 8] = [
    ("the high byte lost", |id| [id as u8, 0]),
    ("the low byte lost", |id| [0, (id >> 8) as u8]),
    ("modulo 255", |id| [(id % 255) as u8, (id / 255) as u8]),
    ("at most 255", |id| [id.min(255) as u8, (id >> 8) as u8]),
    ("the sign lost", |id| [id as u8, (id >> 8) as u8 & 127]),
    ("seven bits", |id| [id as u8 & 127, (id >> 7) as u8]),
    ("the low byte twice", |id| [id as u8, id as u8]),
    ("65,535 as 0", |id| {
        if id == u16::MAX {
            [0, 0]
        } else {
            id.to_le_bytes()
        }
    }),
];

const JOINS: [(&str, Join); 8] = [
    ("the high byte lost", |[low, _]| low.into()),
    ("the low byte lost", |[_, high]| u16::from(high) << 8),
    ("times 255", |[low, high]| u16::from(low) + 255 * u16::from(high)),
    ("exchanged", u16::from_be_bytes),
    ("the low byte's sign", |[low, high]| {
        (low as i8 as u16).wrapping_add(u16::from(high) << 8)
    }),
    ("the sign lost", |[low, high]| {
        u16::from_le_bytes([low, high & 127])
    }),
    ("shifted by 7", |[low, high]| {
        u16::from(low) | u16::from(high) << 7
    }),
    ("65,535 as 0", |bytes| u16::from_le_bytes(bytes) % 65_535),
];

#[test]
fn every_slip_of_an_id_is_found() {
    for (name, split) in SPLITS {
        let to = to(Parts { split, ..RIGHT });
        assert!(
            differences(Library { to: &to, ..MODEL }, &chunks()) > 0,
            "{name}: not found"
        );
    }
    for (name, join) in JOINS {
        let from = from(Parts { join, ..RIGHT });
        assert!(
            differences(Library { from: &from, ..MODEL }, &chunks()) > 0,
            "{name}: not found"
        );
    }
}

/// The model's refusal, but for one size: it is taken where the model refuses it, and refused where the model takes it.
fn but_for(of: usize, [n, size, m]: [usize; 3]) -> u32 {
    match refusal(n, size, m) {
        28 if size == of && [n, m] == [of.pow(3), 2 * of.pow(3)] => 0,
        0 if size == of => 28,
        number => number,
    }
}

const WRONG_SIZES: [(&str, Refuses); 17] = [
    ("0 taken", |n, b, m| but_for(0, [n, b, m])),
    ("3 taken", |n, b, m| but_for(3, [n, b, m])),
    ("12 taken", |n, b, m| but_for(12, [n, b, m])),
    ("48 taken", |n, b, m| but_for(48, [n, b, m])),
    ("63 taken", |n, b, m| but_for(63, [n, b, m])),
    ("65 taken", |n, b, m| but_for(65, [n, b, m])),
    ("128 taken", |n, b, m| but_for(128, [n, b, m])),
    ("1 refused", |n, b, m| but_for(1, [n, b, m])),
    ("2 refused", |n, b, m| but_for(2, [n, b, m])),
    ("4 refused", |n, b, m| but_for(4, [n, b, m])),
    ("8 refused", |n, b, m| but_for(8, [n, b, m])),
    ("16 refused", |n, b, m| but_for(16, [n, b, m])),
    ("32 refused", |n, b, m| but_for(32, [n, b, m])),
    ("64 refused", |n, b, m| but_for(64, [n, b, m])),
    ("the size in 8 bits", |n, b, m| refusal(n, b % 256, m)),
    ("the size in 32 bits", |n, b, m| refusal(n, b as u32 as usize, m)),
    ("the cube in 64 bits, and no limit", |n, b, m| {
        let cube = b.wrapping_pow(3);
        first([
            (28, !b.is_power_of_two()),
            (6, n != cube),
            (29, m != cube.wrapping_mul(2)),
        ])
    }),
];

#[test]
fn every_wrong_size_is_found() {
    for (name, refusal) in WRONG_SIZES {
        let parts = Parts { refusal, ..RIGHT };
        each_found(name, &to(parts), &from(parts), &refusals(&SIZES));
    }
}

/// A refusal, of the causes that hold, and of the number of cells, the size and the number of bytes.
type Wrong = fn([bool; 3], [usize; 3]) -> u32;

/// The parts of a library that takes everything.
const TAKING: Parts = Parts {
    refusal: |_, _, _| 0,
    ..RIGHT
};

/// The call of a library that refuses by this. A size is told as 2^20 at most, whose cube is a number.
fn refusing<'a>(wrong: Wrong, taking: Call<'a>) -> impl Fn(&mut [u16], usize, &mut [u8]) -> Reply + 'a {
    move |cells, size, bytes| {
        let (n, m) = (cells.len(), bytes.len());
        match wrong(causes(n, size, m), [n, size.min(1 << 20), m]) {
            0 => taking(cells, size, bytes),
            number => Reply { number, value: 0 },
        }
    }
}

const REFUSALS: [(&str, Wrong); 20] = [
    ("1 in place of 28", |[a, b, c], _| {
        first([(1, a), (6, b), (29, c)])
    }),
    ("1 in place of 28 outside 1 to 64", |[a, b, c], [_, size, _]| {
        first([
            (if (1..=64).contains(&size) { 28 } else { 1 }, a),
            (6, b),
            (29, c),
        ])
    }),
    ("6 in place of 29", |[a, b, c], _| {
        first([(28, a), (6, b), (6, c)])
    }),
    ("13 in place of 29", |[a, b, c], _| {
        first([(28, a), (6, b), (13, c)])
    }),
    ("29 in place of 6", |[a, b, c], _| {
        first([(28, a), (29, b), (29, c)])
    }),
    ("28 and 29 exchanged", |[a, b, c], _| {
        first([(29, a), (6, b), (28, c)])
    }),
    ("6 before 28", |[a, b, c], _| first([(6, b), (28, a), (29, c)])),
    ("29 before 6", |[a, b, c], _| first([(28, a), (29, c), (6, b)])),
    ("29 before 28", |[a, b, c], _| first([(29, c), (28, a), (6, b)])),
    ("29, 6, 28", |[a, b, c], _| first([(29, c), (6, b), (28, a)])),
    ("6, 29, 28", |[a, b, c], _| first([(6, b), (29, c), (28, a)])),
    ("longer bytes taken", |[a, b, c], [_, size, m]| {
        first([(28, a), (6, b), (29, c && m < 2 * size.pow(3))])
    }),
    ("bytes of 3 size³ taken", |[a, b, c], [_, size, m]| {
        first([(28, a), (6, b), (29, c && m != 3 * size.pow(3))])
    }),
    ("one byte more taken", |[a, b, c], [_, size, m]| {
        first([(28, a), (6, b), (29, c && m != 2 * size.pow(3) + 1)])
    }),
    ("one byte less taken", |[a, b, c], [_, size, m]| {
        first([(28, a), (6, b), (29, c && m + 1 != 2 * size.pow(3))])
    }),
    ("bytes of one plane taken", |[a, b, c], [_, size, m]| {
        first([(28, a), (6, b), (29, c && m != size.pow(3))])
    }),
    ("29 never", |[a, b, _], _| first([(28, a), (6, b), (29, false)])),
    ("longer cells taken", |[a, b, c], [n, size, _]| {
        first([(28, a), (6, b && n < size.pow(3)), (29, c)])
    }),
    ("shorter cells taken", |[a, b, c], [n, size, _]| {
        first([(28, a), (6, b && n > size.pow(3)), (29, c)])
    }),
    ("bytes twice the cells, and no 6", |[a, _, _], [n, _, m]| {
        first([(28, a), (6, false), (29, m != 2 * n)])
    }),
];

#[test]
fn every_wrong_refusal_is_found() {
    for (name, wrong) in REFUSALS {
        let (to, from) = (to(TAKING), from(TAKING));
        each_found(name, &refusing(wrong, &to), &refusing(wrong, &from), &few());
    }
}

/// What is done to the cells and the bytes after a call, of the answer's number.
type More<'a> = &'a dyn Fn(u32, &mut [u16], &mut [u8]);

/// A library whose calls are the model's, and then do something more.
fn and_then<'a>(call: Call<'a>, more: More<'a>) -> impl Fn(&mut [u16], usize, &mut [u8]) -> Reply + 'a {
    move |cells, size, bytes| {
        let reply = call(cells, size, bytes);
        more(reply.number, cells, bytes);
        reply
    }
}

#[test]
fn every_other_write_is_found() {
    type Write = fn(&mut [u16], &mut [u8]);
    let slips: [(&str, Write); 8] = [
        ("the first byte", |_, bytes| {
            bytes.iter_mut().take(1).for_each(|byte| *byte = !*byte)
        }),
        ("the last byte", |_, bytes| {
            bytes.iter_mut().rev().take(1).for_each(|byte| *byte ^= 1)
        }),
        ("every byte 0", |_, bytes| bytes.fill(0)),
        ("the first cell", |cells, _| {
            cells.iter_mut().take(1).for_each(|id| *id = !*id)
        }),
        ("the last cell", |cells, _| {
            cells.iter_mut().rev().take(1).for_each(|id| *id ^= 256)
        }),
        ("every cell 0", |cells, _| cells.fill(0)),
        ("the cells sorted", |cells, _| cells.sort_unstable()),
        ("the bytes backward", |_, bytes| bytes.reverse()),
    ];
    for (name, write) in slips {
        for number in [0, 28, 6, 29] {
            let more = |answered: u32, cells: &mut [u16], bytes: &mut [u8]| {
                if answered == number {
                    write(cells, bytes);
                }
            };
            let (to, from) = (and_then(MODEL.to, &more), and_then(MODEL.from, &more));
            each_found(&format!("{name} after {number}"), &to, &from, &few());
        }
    }
}

#[test]
fn every_slip_at_some_addresses_is_found() {
    type Where = fn(&[u16], &[u8]) -> bool;
    let slips: [(&str, Where); 2] = [
        ("bytes at an odd address", |_, bytes| {
            bytes.as_ptr() as usize % 2 == 1
        }),
        ("cells off a multiple of four", |cells, _| {
            cells.as_ptr() as usize % 4 == 2
        }),
    ];
    for (name, there) in slips {
        let more = |number: u32, cells: &mut [u16], bytes: &mut [u8]| {
            if number == 0 && there(cells, bytes) {
                cells[0] ^= 1;
                bytes[0] ^= 1;
            }
        };
        let (to, from) = (and_then(MODEL.to, &more), and_then(MODEL.from, &more));
        each_found(name, &to, &from, &chunks());
    }
}

/// A library whose calls leave some places as they came, of the place, how many there are, and what was to be there.
fn leaving<'a>(
    call: Call<'a>,
    leaves: fn(usize, usize, u16) -> bool,
) -> impl Fn(&mut [u16], usize, &mut [u8]) -> Reply + 'a {
    move |cells, size, bytes| {
        let (ids, numbers) = (cells.to_vec(), bytes.to_vec());
        let reply = call(cells, size, bytes);
        let (n, m) = (cells.len(), bytes.len());
        for (i, (id, before)) in cells.iter_mut().zip(ids).enumerate() {
            if leaves(i, n, *id) {
                *id = before;
            }
        }
        for (i, (byte, before)) in bytes.iter_mut().zip(numbers).enumerate() {
            if leaves(i, m, u16::from(*byte)) {
                *byte = before;
            }
        }
        reply
    }
}

#[test]
fn every_place_left_as_it_came_is_found() {
    type Leaves = fn(usize, usize, u16) -> bool;
    let slips: [(&str, Leaves); 9] = [
        ("the first", |i, _, _| i == 0),
        ("the last", |i, n, _| i + 1 == n),
        ("the last above 100,000", |i, n, _| n > 100_000 && i + 1 == n),
        ("the first above 100,000", |i, n, _| n > 100_000 && i == 0),
        ("the second half", |i, n, _| i > 0 && i >= n / 2),
        ("those past 4096", |i, _, _| i > 4096),
        ("the last of 64", |i, _, _| i % 64 == 63),
        ("those of 0", |_, _, number| number == 0),
        ("those of 255", |_, _, number| number == 255),
    ];
    for (name, leaves) in slips {
        each_found(
            name,
            &leaving(MODEL.to, leaves),
            &leaving(MODEL.from, leaves),
            &chunks(),
        );
    }
}

/// An answer, of its right number.
type Told = fn(u32) -> Answer;

#[test]
fn every_wrong_answer_is_found() {
    let slips: [(&str, Told); 8] = [
        ("the value of a call", |number| {
            of(number, 0, u32::from(number == 0))
        }),
        ("the value of a refusal", |number| of(number, 0, number)),
        ("a value above 32 bits", |number| Answer {
            value: 1 << 40,
            ..of(number, 0, 0)
        }),
        ("the line of a call", |number| {
            of(number, u32::from(number == 0), 0)
        }),
        ("the line of a refusal", |number| {
            of(number, u32::from(number != 0), 0)
        }),
        ("0 in place of 28", |number| of(number % 28, 0, 0)),
        ("0 in place of 6", |number| {
            of(if number == 6 { 0 } else { number }, 0, 0)
        }),
        ("0 in place of 29", |number| of(number % 29, 0, 0)),
    ];
    for (name, told) in slips {
        each_found(
            name,
            &|cells, size, bytes| answer(told((MODEL.to)(cells, size, bytes).number)),
            &|cells, size, bytes| answer(told((MODEL.from)(cells, size, bytes).number)),
            &few(),
        );
    }
}

/// An answer as the C interface gives it.
fn of(number: u32, line: u32, value: u32) -> Answer {
    Answer {
        number,
        line: line as usize,
        value: value as usize,
    }
}

/// The numbers of both of the model's calls; what they refuse they leave as it came.
fn numbers(cells: usize, size: usize, bytes: usize) -> [u32; 2] {
    [MODEL.to, MODEL.from].map(|call| {
        let (mut ids, mut planes) = (vec![7; cells], vec![8; bytes]);
        let reply = call(&mut ids, size, &mut planes);
        assert_eq!(reply.value, 0);
        assert!(reply.number == 0 || (ids == vec![7; cells] && planes == vec![8; bytes]));
        reply.number
    })
}

#[test]
fn refusals_worked_out_by_hand() {
    assert_eq!(numbers(1, 1, 2), [0; 2]);
    assert_eq!(numbers(262_144, 64, 524_288), [0; 2]);
    // No size, with the cells and bytes that it would have.
    assert_eq!(numbers(0, 0, 0), [28; 2]);
    assert_eq!(numbers(27, 3, 54), [28; 2]);
    assert_eq!(numbers(2_097_152, 128, 4_194_304), [28; 2]);
    assert_eq!(numbers(0, 1 << 32, 0), [28; 2]);
    assert_eq!(numbers(7, 2, 16), [6; 2]);
    assert_eq!(numbers(9, 2, 16), [6; 2]);
    assert_eq!(numbers(8, 2, 15), [29; 2]);
    assert_eq!(numbers(8, 2, 17), [29; 2]);
    assert_eq!(numbers(64, 4, 64), [29; 2]);
    // More than one cause.
    assert_eq!(numbers(7, 2, 15), [6; 2]);
    assert_eq!(numbers(26, 3, 54), [28; 2]);
    assert_eq!(numbers(27, 3, 53), [28; 2]);
    assert_eq!(numbers(26, 3, 53), [28; 2]);
}

#[test]
fn the_benchmark_times_the_same_planes() {
    for size in PLANES {
        let ids: Vec<u16> = (0..size.pow(3)).map(|i| (i * 40_503 + 1) as u16).collect();
        let (mut planes, mut plain) = (vec![0; 2 * ids.len()], vec![9; 2 * ids.len()]);
        assert_eq!(bare::to_planes(&ids, size, &mut planes).number, 0);
        plain_planes::to_planes(&ids, size, &mut plain);
        assert!(plain == planes, "to_planes at size {size}");
        let mut cells = vec![9; ids.len()];
        plain_planes::from_planes(&planes, size, &mut cells);
        assert!(cells == ids, "from_planes at size {size}");
    }
}
