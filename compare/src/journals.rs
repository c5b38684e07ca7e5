//! Random journals, valid and damaged, and random calls of a session.
use crate::chunk::{batch, coordinate, id};
use crate::ground::{self, reach, Site};
use crate::model::{header, Call, NAMES};
use crate::names;
use crate::rng::Rng;
use crate::seeds;
use std::collections::BTreeMap;

/// Settings and a place within the limits, mostly of a small size.
pub fn site(rng: &mut Rng) -> Site {
    let chunk_size = rng.pick(&[1, 1, 2, 2, 2, 3, 3, 4, 5, 6]);
    let (least, most) = reach(chunk_size);
    let any = rng.range(least as i64, most as i64) as i32;
    Site {
        seed: seeds::any(rng),
        sea_level: rng.pick(&[24, 0, -1, -4096, 4096, 60, 100]),
        world_height_blocks: rng.pick(&[2, 3, 64, 256, 4096]),
        chunk_size,
        cx: rng.pick(&[0, -1, least, most, any]),
        cy: rng.pick(&[0, 0, 1, -1, least, most, 30]),
        cz: rng.pick(&[0, 3, least, most, any]),
    }
}

/// A chunk at the surface, or the one above or below it, of sizes up to 64.
pub fn surface(rng: &mut Rng) -> Site {
    let chunk_size = rng.pick(&[1, 2, 5, 6, 8, 9, 10, 13, 16, 17, 24, 31, 33, 48, 63, 64]);
    let mut site = Site {
        seed: seeds::any(rng),
        sea_level: rng.pick(&[24, 0, 40, 90]),
        world_height_blocks: rng.pick(&[64, 256]),
        chunk_size,
        cx: rng.range(-2000, 2000) as i32,
        cy: 0,
        cz: rng.range(-2000, 2000) as i32,
    };
    site.cy = ground::surface(&site) + rng.pick(&[0, 0, 0, 1, -1]);
    site
}

/// An edit on a chunk of this size: inside mostly, else around its edges.
pub fn edit(rng: &mut Rng, size: usize) -> Call {
    match rng.below(8) {
        0..=3 => Call::Set(std::array::from_fn(|_| coordinate(rng, size)), id(rng)),
        4 | 5 => Call::Column {
            x: coordinate(rng, size),
            z: coordinate(rng, size),
            height: rng.pick(&[0, 1, size, size + 1, usize::MAX]),
            id: id(rng),
        },
        _ => Call::Batch(batch(rng, size, 18)),
    }
}

/// Any of the six calls on a chunk of this size.
pub fn call(rng: &mut Rng, size: usize) -> Call {
    match rng.below(14) {
        0..=7 => edit(rng, size),
        8 | 9 => Call::Undo,
        _ => names::with_name(rng, names::any),
    }
}

/// A number as a line may have it, or one that breaks its form or its limits.
fn field(rng: &mut Rng, most: u64) -> String {
    match rng.below(40) {
        0 => "-0".into(),
        1 => format!("0{}", rng.below(10)),
        2 => format!("+{}", rng.below(10)),
        3 => String::new(),
        4 => rng
            .pick(&[
                "-1",
                "65535",
                "65536",
                "10000000",
                "10000001",
                "4294967296",
                "9999999999",
                "10000000000",
                "18446744073709551617",
            ])
            .into(),
        5 => format!("{most}"),
        6 => format!("{}", most + 1),
        7 => rng
            .pick(&["x", "1 ", " 1", "1\r", "0x1", "1.0", "\u{0}", "१"])
            .into(),
        _ => format!("{}", rng.below(most.max(1))),
    }
}

/// A later line, mostly of its form. `odd` says how often a field is of another.
fn line(rng: &mut Rng, size: usize, odd: bool) -> String {
    let size = size as u64;
    let number = |rng: &mut Rng, most: u64| {
        if odd {
            field(rng, most)
        } else {
            rng.below(most).to_string()
        }
    };
    let cell = |rng: &mut Rng| {
        format!(
            "{}\t{}\t{}",
            number(rng, size),
            number(rng, size),
            number(rng, size)
        )
    };
    match rng.below(14) {
        0..=3 => format!("S\t{}\t{}", cell(rng), number(rng, 65_536)),
        4 | 5 => format!(
            "C\t{}\t{}\t{}\t{}",
            number(rng, size),
            number(rng, size),
            number(rng, size + 1),
            number(rng, 65_536)
        ),
        6 | 7 => {
            let groups = rng.range(1, if odd { 18 } else { 16 });
            let said = if odd && rng.once_in(6) {
                rng.range(0, 17)
            } else {
                groups
            };
            let all: String = (0..groups)
                .map(|_| format!("\t{}\t{}", cell(rng), number(rng, 65_536)))
                .collect();
            format!("B\t{said}{all}")
        }
        8 | 9 => "U".into(),
        _ => named(rng, odd),
    }
}

/// A line with a name, mostly of its form.
fn named(rng: &mut Rng, odd: bool) -> String {
    let (letter, name) = (rng.pick(&["M", "R"]), names::good(rng));
    match rng.below(10) {
        0 if odd => letter.into(),
        1 if odd => format!("{letter} {name}"),
        2 if odd => format!("{}\t{name}", letter.to_lowercase()),
        3 if odd => format!("{letter}\t{name}\t"),
        4..=6 if odd => format!("{letter}\t{}", String::from_utf8_lossy(&names::bad(rng).0)),
        _ => format!("{letter}\t{name}"),
    }
}

/// How many edits are active after some lines, and how many each name remembers.
#[derive(Default)]
struct Counted {
    active: i64,
    names: BTreeMap<String, i64>,
}

impl Counted {
    /// Whether a line of its form may come next; then it is counted.
    fn takes(&mut self, line: &str) -> bool {
        let active = match line.split_once('\t') {
            Some(("M", name)) => {
                let room = self.names.len() < NAMES || self.names.contains_key(name);
                if room {
                    self.names.insert(name.into(), self.active);
                }
                return room;
            }
            Some(("R", name)) => self.names.get(name).copied(),
            Some(_) => Some(self.active + 1),
            None => Some(self.active - 1),
        };
        let next = active.filter(|n| (0..=256).contains(n));
        self.active = next.unwrap_or(self.active);
        next.is_some()
    }
}

/// A valid journal: a U only where an edit is active, at most 256 active, an R only of a name that is known, and at
/// most 16 names.
pub fn valid(rng: &mut Rng) -> Vec<u8> {
    let s = site(rng);
    let mut text = header(&s) + "\n";
    let lines = if rng.once_in(20) {
        rng.below(700)
    } else {
        rng.below(25)
    };
    let mut counted = Counted::default();
    for _ in 0..lines {
        let next = line(rng, s.chunk_size, false);
        let fits = text.len() + next.len() < 32_768;
        if fits && counted.takes(&next) {
            text.push_str(&next);
            text.push('\n');
        }
    }
    text.into_bytes()
}

/// A journal whose lines are of another form here and there, or off the chunk, or whose first line
/// has a number off its limits.
fn odd(rng: &mut Rng) -> Vec<u8> {
    let s = site(rng);
    let mut first: Vec<String> = header(&s).split('\t').map(String::from).collect();
    if rng.once_in(3) {
        let i = rng.below(first.len() as u64) as usize;
        first[i] = field(rng, 70);
    }
    let mut text = first.join("\t") + "\n";
    let wild = rng.below(3);
    for _ in 0..rng.below(12) {
        let wrong = rng.below(3) < wild;
        text.push_str(&line(rng, s.chunk_size, wrong));
        text.push('\n');
    }
    text.into_bytes()
}

/// More edits than may be active; among them and behind them are checkpoints and restores of a few names.
fn crowded(rng: &mut Rng) -> Vec<u8> {
    let s = site(rng);
    let mut text = header(&s) + "\n";
    for k in 0..rng.range(250, 262) {
        text.push_str(rng.pick(&["S\t0\t0\t0\t1\n", "C\t0\t0\t1\t2\n", "S\t0\t0\t0\t0\n"]));
        if rng.once_in(30) {
            text.push_str("U\n");
        }
        if rng.once_in(40) || k > 254 {
            text.push_str(rng.pick(&["", "M\ta\n", "M\twalls\n"]));
        }
        if text.contains("M\twalls") && k > 254 {
            text.push_str(rng.pick(&["", "R\twalls\n", "R\twalls\nU\n"]));
        }
    }
    text.into_bytes()
}

/// As many names as a journal has, or one more: some are moved, some restored, and now and then one that is not known.
fn full_of_names(rng: &mut Rng) -> Vec<u8> {
    let s = site(rng);
    let mut text = header(&s) + "\n";
    let many = rng.pick(&[15, 16, 16, 17]);
    let all = names::distinct(rng, many);
    for k in 0..many {
        if rng.once_in(2) {
            text.push_str("S\t0\t0\t0\t1\n");
        }
        text.push_str(&format!("M\t{}\n", all[k]));
        let known = rng.below(k as u64 + 1) as usize;
        match rng.below(8) {
            0 | 1 => text.push_str(&format!("M\t{}\n", all[known])),
            2 | 3 => text.push_str(&format!("R\t{}\n", all[known])),
            4 if rng.once_in(12) => text.push_str(&format!("R\t{}\n", names::good(rng))),
            _ => {}
        }
    }
    text.into_bytes()
}

/// Changes, drops, doubles or adds a byte, or moves a part.
fn damage(rng: &mut Rng, journal: &mut Vec<u8>) {
    if journal.is_empty() {
        return;
    }
    let i = rng.below(journal.len() as u64) as usize;
    match rng.below(9) {
        0 => journal[i] = rng.draw() as u8,
        1 => drop(journal.remove(i)),
        2 => journal.insert(i, journal[i]),
        3 => journal.insert(i, rng.pick(b"\n\t-0123456789GSCBUMR\r \0+xa")),
        4 => journal[i] = rng.pick(b"\n\t-0123456789GSCBUMR\r \0+xa"),
        5 => journal.truncate(i),
        6 => journal.rotate_left(i),
        7 => {
            let tail = journal[i..].to_vec();
            journal.extend(tail);
        }
        _ => journal.extend(std::iter::repeat_n(0, rng.below(40) as usize)),
    }
}

/// A journal: valid, odd, crowded, full of names or damaged, with a number of held bytes that is mostly its length.
pub fn journal(rng: &mut Rng) -> (Vec<u8>, usize) {
    let mut text = match rng.below(12) {
        0..=3 => valid(rng),
        4..=7 => odd(rng),
        8 if rng.once_in(4) => crowded(rng),
        9 if rng.once_in(30) => vec![b'\n'; rng.pick(&[32_767, 32_768, 32_769])],
        10 if rng.once_in(3) => full_of_names(rng),
        _ => {
            let mut text = valid(rng);
            for _ in 0..rng.range(1, 3) {
                damage(rng, &mut text);
            }
            text
        }
    };
    let length = text.len();
    let held = match rng.below(8) {
        0 => rng.below(length as u64 + 1) as usize,
        1 => length.saturating_sub(1),
        2 if rng.once_in(4) => rng.pick(&[length + 1, usize::MAX]),
        _ => length,
    };
    // Bytes past the held ones, which no call may read.
    if held == length && length < 32_000 && rng.once_in(2) {
        text.extend((0..rng.below(30)).map(|_| rng.pick(b"\nU\tS0\0")));
    }
    (text, held)
}
