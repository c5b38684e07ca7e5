//! Random names of checkpoints, good and bad, and calls with them.
use crate::journals;
use crate::model::{self, Call, Lent, Name};
use crate::rng::Rng;

/// The bytes that a name may have.
const LETTERS: &[u8; 36] = b"abcdefghijklmnopqrstuvwxyz0123456789";

/// Names that calls and journals come back to, some of which begin others.
const FEW: [&str; 6] = ["a", "ab", "walls", "wallsdone", "0", "abcdefghijklmnop"];

/// Bytes that no name has: those next to letters and digits, capitals, white space, ends of their type.
const WRONG: &[u8] = b"/:`{@[AZM \t\n\r\0-_.~\x7f\x80\xe9\xff";

/// A good name of this length, 1 to 16.
pub fn of_length(rng: &mut Rng, length: usize) -> Name {
    Name((0..length).map(|_| rng.pick(LETTERS)).collect())
}

/// A good name: mostly one of a few, else one of some twenty or any.
pub fn good(rng: &mut Rng) -> Name {
    match rng.below(12) {
        0 | 1 => Name::from(format!("n{}", rng.below(20)).as_str()),
        2 => {
            let length = rng.range(1, 16) as usize;
            of_length(rng, length)
        }
        _ => Name::from(rng.pick(&FEW)),
    }
}

/// A name that is none: empty, too long, or with a byte that no name has at any place of a good one.
pub fn bad(rng: &mut Rng) -> Name {
    match rng.below(8) {
        0 => Name(vec![]),
        1 | 2 => {
            let length = rng.pick(&[17, 17, 17, 18, 32, 40, 256, 300]);
            of_length(rng, length)
        }
        _ => {
            let Name(mut bytes) = good(rng);
            let (i, wrong) = (rng.below(bytes.len() as u64 + 1) as usize, rng.pick(WRONG));
            match bytes.get_mut(i) {
                Some(b) if rng.once_in(2) => *b = wrong,
                _ => bytes.insert(i, wrong),
            }
            Name(bytes)
        }
    }
}

/// A name as a call may be given it: mostly a good one.
pub fn any(rng: &mut Rng) -> Name {
    if rng.once_in(8) {
        bad(rng)
    } else {
        good(rng)
    }
}

/// One of the names that a session's used bytes have, where they have one.
pub fn known(rng: &mut Rng, lent: &Lent) -> Option<Name> {
    let all = model::checkpoints(lent).0;
    let (name, _) = all.get(rng.below(all.len().max(1) as u64) as usize)?;
    Some(name.clone())
}

/// A good name that a session's used bytes do not have. Often it is one of them with a byte more, less or another.
pub fn unknown(rng: &mut Rng, lent: &Lent) -> Name {
    let known = model::checkpoints(lent);
    loop {
        let mut name = good(rng);
        if let (Some((near, _)), true) = (known.0.first(), rng.once_in(2)) {
            let (mut bytes, one) = (near.0.clone(), rng.pick(LETTERS));
            match rng.below(3) {
                0 => bytes.push(one),
                1 => drop(bytes.pop()),
                _ => bytes[0] = one,
            }
            name = Name(bytes);
        }
        if name.good() && known.find(&name).is_none() {
            return name;
        }
    }
}

/// So many good names, no two alike.
pub fn distinct(rng: &mut Rng, many: usize) -> Vec<Name> {
    let mut all: Vec<Name> = vec![];
    while all.len() < many {
        let name = good(rng);
        if !all.contains(&name) {
            all.push(name);
        }
    }
    all
}

/// Names of every kind, and whether each is a good one: every byte by itself, and at the start, inside and at the end
/// of others; every length up to 40, and longer ones.
pub fn hostile() -> Vec<(Name, bool)> {
    let mut all = vec![];
    for byte in 0..=255u8 {
        let good = LETTERS.contains(&byte);
        for (before, after) in [
            ("", ""),
            ("", "b"),
            ("a", ""),
            ("walls", "done"),
            ("abcdefghijklmno", ""),
        ] {
            let bytes = [before.as_bytes(), &[byte], after.as_bytes()].concat();
            all.push((Name(bytes), good));
        }
        // Sixteen good bytes, and one more of any kind.
        let bytes = [b"abcdefghijklmnop".as_slice(), &[byte]].concat();
        all.push((Name(bytes), false));
    }
    for length in (0..=40).chain([63, 64, 255, 256, 257, 4096, 32_768, 65_536]) {
        for byte in [b'a', b'z', b'0', b'9'] {
            all.push((Name(vec![byte; length]), (1..=16).contains(&length)));
        }
    }
    all
}

/// A call of a group that often marks and returns: names that are known, new ones, bad ones.
pub fn marking(rng: &mut Rng, lent: &Lent) -> Call {
    let size = lent.record.site.chunk_size;
    match (rng.below(20), known(rng, lent)) {
        (0..=6, _) => journals::edit(rng, size),
        (7 | 8, _) => Call::Undo,
        (9, Some(name)) => Call::Checkpoint(name),
        (10..=13, Some(name)) => Call::Restore(name),
        (14, _) => Call::Restore(unknown(rng, lent)),
        (15, _) => with_name(rng, bad),
        (16, _) => journals::call(rng, size),
        _ => Call::Checkpoint(good(rng)),
    }
}

/// A checkpoint or a restore with such a name.
pub fn with_name(rng: &mut Rng, name: impl Fn(&mut Rng) -> Name) -> Call {
    if rng.once_in(2) {
        Call::Checkpoint(name(rng))
    } else {
        Call::Restore(name(rng))
    }
}
