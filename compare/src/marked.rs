//! Maps with checkpoints, and what is wrong with used bytes and stored lines: what the driver of checkpoints tries.
use crate::idle::{altering, Cause};
use crate::journals;
use crate::model::{self, Call, Lent, Name, Reference, ACTIVE, JOURNAL, NAMES};
use crate::names;
use crate::rng::Rng;
use crate::seeds;

/// Maps of sixteen names that are much alike, by the number of each.
pub type Alike = (&'static str, fn(usize) -> Name);

pub const ALIKE: [Alike; 4] = [
    ("names that begin each other", |k| Name(vec![b'a'; k + 1])),
    ("names that end alike", |k| {
        Name(b"abcdefghijklmnop"[15 - k..].to_vec())
    }),
    ("names that differ in their last byte", |k| {
        Name::from(format!("xxxxxxxxxxxxxxx{k:x}").as_str())
    }),
    ("names that differ in their first byte", |k| {
        Name::from(format!("{k:x}xxxxxxxxxxxxxxx").as_str())
    }),
];

/// Used bytes that are no journal of the record: the causes of 22.
pub const FOREIGN: [Cause; 11] = [
    ("a last LF that is missing", |_, lent| lent.record.used -= 1),
    ("no used byte", |_, lent| lent.record.used = 0),
    ("another number of active edits", |rng, lent| {
        lent.record.active = (lent.record.active + rng.range(1, 256) as usize) % (ACTIVE + 1)
    }),
    ("other settings", |rng, lent| {
        lent.record.site.seed = (lent.record.site.seed + rng.range(1, 9) as u32) % (seeds::MOST + 1)
    }),
    ("another place", |_, lent| {
        lent.record.site.cy = i32::from(lent.record.site.cy == 0)
    }),
    ("a first line of another form", |rng, lent| {
        lent.journal[0] = rng.pick(b"gMR\n?")
    }),
    ("a bad name in an M line", |rng, lent| {
        let name = names::bad(rng);
        behind(lent, &[b"M\t", &name.0[..], b"\n"].concat())
    }),
    ("a bad name in an R line", |rng, lent| {
        let name = names::bad(rng);
        behind(lent, &[b"R\t", &name.0[..], b"\n"].concat())
    }),
    ("an R line of an unknown name", |rng, lent| {
        let name = names::unknown(rng, lent);
        behind(lent, format!("R\t{name}\n").as_bytes())
    }),
    ("a seventeenth name in an M line", |rng, lent| {
        while model::checkpoints(lent).0.len() < NAMES {
            let name = names::unknown(rng, lent);
            behind(lent, format!("M\t{name}\n").as_bytes());
        }
        let name = names::unknown(rng, lent);
        behind(lent, format!("M\t{name}\n").as_bytes())
    }),
    ("an R line with a space for its tab", |rng, lent| {
        let name = names::known(rng, lent).unwrap_or(Name::from("a"));
        behind(lent, format!("R {name}\n").as_bytes())
    }),
];

/// Makes a line that is not of its form, of its letter and a good name.
pub type Spoilt = fn(&mut Rng, u8, &[u8]) -> Vec<u8>;

/// Lines that are not of their form.
pub const SPOILT: [(&str, Spoilt); 14] = [
    ("an empty name", |_, letter, _| vec![letter, b'\t']),
    ("the letter alone", |_, letter, _| vec![letter]),
    ("no tab", |_, letter, name| joined(&[&[letter], name])),
    ("a space for the tab", |_, letter, name| {
        joined(&[&[letter], b" ", name])
    }),
    ("two tabs", |_, letter, name| joined(&[&[letter], b"\t\t", name])),
    ("a tab behind", |_, letter, name| {
        joined(&[&[letter], b"\t", name, b"\t"])
    }),
    ("a second name", |_, letter, name| {
        joined(&[&[letter], b"\t", name, b"\t", name])
    }),
    ("17 letters", |_, letter, name| {
        joined(&[&[letter], b"\t", name, &b"abcdefghijklmnopq"[name.len()..]])
    }),
    ("a capital", |rng, letter, name| {
        joined(&[&[letter], b"\t", &exchanged(rng, name, b"AZMR")])
    }),
    ("a byte that no name has", |rng, letter, name| {
        let wrong = b"/:`{@[ \r\0-_\x7f\x80\xff";
        joined(&[&[letter], b"\t", &exchanged(rng, name, wrong)])
    }),
    ("a space behind", |_, letter, name| {
        joined(&[&[letter], b"\t", name, b" "])
    }),
    ("a CR behind", |_, letter, name| {
        joined(&[&[letter], b"\t", name, b"\r"])
    }),
    ("a small letter", |_, letter, name| {
        joined(&[&[letter.to_ascii_lowercase()], b"\t", name])
    }),
    ("no LF before the next line", |rng, letter, name| {
        let next = rng.pick(&["U", "S\t0\t0\t0\t1", "M\ta"]);
        joined(&[&[letter], b"\t", name, next.as_bytes()])
    }),
];

pub fn joined(parts: &[&[u8]]) -> Vec<u8> {
    parts.concat()
}

/// Writes bytes behind the used ones, which they become part of.
fn behind(lent: &mut Lent, bytes: &[u8]) {
    let used = lent.record.used;
    lent.record.used += bytes.len();
    lent.journal
        .resize(lent.journal.len().max(lent.record.used), b'?');
    lent.journal[used..lent.record.used].copy_from_slice(bytes);
}

/// A name with one of these bytes in the place of one of its own.
fn exchanged(rng: &mut Rng, name: &[u8], bytes: &[u8]) -> Vec<u8> {
    let mut name = name.to_vec();
    let i = rng.below(name.len() as u64) as usize;
    name[i] = rng.pick(bytes);
    name
}

/// The two calls with a name.
pub fn both(name: &Name) -> [Call; 2] {
    [Call::Checkpoint(name.clone()), Call::Restore(name.clone())]
}

/// A call that the reference model accepts.
pub fn written(reference: &mut Reference, call: &Call) {
    assert_eq!(reference.write(call), 0, "{call:?}");
}

/// An edit with an id that no other of the map has: the bytes grow with each.
pub fn add(rng: &mut Rng, reference: &mut Reference) {
    let id = 10_000 + reference.bytes.len() as u16;
    let edit = altering(rng, reference.site.chunk_size, id);
    written(reference, &edit);
}

/// Adds edits until so many are active; some are undone again, and between them the names remember the list.
pub fn grow(rng: &mut Rng, reference: &mut Reference, active: usize, mut names: Vec<Name>) {
    while reference.active.len() < active {
        add(rng, reference);
        if rng.once_in(9) {
            written(reference, &Call::Undo);
        }
        if rng.once_in(4) {
            if let Some(name) = names.pop() {
                written(reference, &Call::Checkpoint(name));
            }
        }
    }
    for name in names {
        written(reference, &Call::Checkpoint(name));
    }
}

/// A map of so many active edits and names, which remember no edit, some, all, or others than are active.
pub fn map(rng: &mut Rng, active: usize, many: usize) -> Reference {
    let mut reference = Reference::new(journals::site(rng), JOURNAL);
    let mut first = names::distinct(rng, many);
    let mut between = first.split_off(rng.below(many.min(2) as u64 + 1) as usize);
    let last = between.split_off(rng.below(between.len() as u64 + 1) as usize);
    grow(rng, &mut reference, 0, first);
    grow(rng, &mut reference, active, between);
    grow(rng, &mut reference, active, last);
    if let (Some((name, _)), true) = (reference.checkpoints.0.first().cloned(), rng.once_in(2)) {
        written(&mut reference, &Call::Restore(name));
        grow(rng, &mut reference, active, vec![]);
    }
    reference
}

/// A map of sixteen names that are much alike, in any order, each with the number of edits that it remembers.
pub fn alike(rng: &mut Rng, make: fn(usize) -> Name) -> (Reference, Vec<(Name, usize)>) {
    let mut reference = Reference::new(journals::site(rng), JOURNAL);
    let (mut left, mut all): (Vec<usize>, Vec<_>) = ((0..NAMES).collect(), vec![]);
    for edits in 0..NAMES {
        let name = make(left.remove(rng.below(left.len() as u64) as usize));
        written(&mut reference, &Call::Checkpoint(name.clone()));
        all.push((name, edits));
        add(rng, &mut reference);
    }
    (reference, all)
}

/// Checkpoints and restores of names of the letter a until so many bytes are used; every length of a name is known.
pub fn fill(rng: &mut Rng, reference: &mut Reference, used: usize) {
    while reference.bytes.len() < used {
        let line = match used - reference.bytes.len() {
            23.. => 19,
            gap @ 20..=22 => gap - 4,
            gap => gap,
        };
        let call = names::with_name(rng, |_| Name(vec![b'a'; line - 3]));
        written(reference, &call);
    }
}
