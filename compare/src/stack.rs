//! How much stack each call takes: it runs on a thread whose stack was painted before, and how far the
//! paint is gone afterwards counts.
use crate::chunk;
use crate::ground::Site;
use crate::model::{header, Call, Lent, Name, ACTIVE, JOURNAL};
use crate::product::{self, Product};
use crate::report::Report;
use crate::rng::Rng;
use crate::session::Calls;
use crate::system;
use std::hint::black_box;

/// What a host may give a thread, and what a call may take of it.
const LENT: usize = 128 * 1024;
const MOST: usize = 64 * 1024;

/// Below the thread's stack more is painted, so that a call that takes too much is seen, not lost.
const BELOW: usize = 1024 * 1024;

/// Keeps a compiler from dropping the work.
fn keep<T>(answer: T) {
    black_box(answer);
}

/// A session at its limits: 255 active edits, a long journal and room for one line of any kind. Its
/// journal is written as text and reopened, since each undo would lay the ground anew.
pub fn long_session(calls: &impl Calls, site: Site) -> Lent {
    let set = |k: usize| format!("S\t{}\t{}\t{}\t{}\n", k % 64, k / 64 % 64, k * 7 % 64, k % 9);
    session_of(calls, site, |k| match k {
        0..255 => set(k),
        _ => set(k) + "U\n",
    })
}

/// The same with 255 active batches, of as many groups as the journal has room for, those of one batch each in another z.
pub fn batches_session(calls: &impl Calls, site: Site) -> Lent {
    let group = |k: usize, g: usize| {
        let n = k * 11 + g;
        format!(
            "\t{}\t{}\t{}\t{}",
            n * 5 % 64,
            n * 3 % 64,
            (k + 23 * g) % 64,
            n % 9
        )
    };
    session_of(calls, site, |k| match k {
        0..255 => format!("B\t11{}\n", (0..11).map(|g| group(k, g)).collect::<String>()),
        _ => "S\t0\t0\t0\t1\nU\n".into(),
    })
}

/// A session whose journal has these texts of lines, as many as leave room for one line of any kind.
fn session_of(calls: &impl Calls, site: Site, text: impl Fn(usize) -> String) -> Lent {
    let mut cells = vec![0; site.chunk_size.pow(3)];
    let mut journal = vec![0; 32_768];
    let mut used = calls
        .fresh(&site, &mut cells, &mut journal)
        .expect("a session within the limits")
        .used;
    for line in (0..).map(text) {
        if used + line.len() + 250 > journal.len() {
            break;
        }
        journal[used..used + line.len()].copy_from_slice(line.as_bytes());
        used += line.len();
    }
    let (record, ..) = calls
        .reopen(&journal, used, &mut cells)
        .expect("a journal of its form");
    assert_eq!(record.active, 255, "a session at its limits");
    Lent {
        record,
        cells,
        journal,
    }
}

/// The last of the names of `marks_journal`.
pub fn last_name() -> Name {
    Name::from("p")
}

/// A journal of exactly so many bytes: 256 short sets, sixteen names, and then M and R lines of the last name in turns.
/// Each of them copies a list of 256 edits.
pub fn marks_journal(site: &Site, used: usize) -> Vec<u8> {
    let set = |k: usize| format!("S\t{}\t{}\t{}\t1\n", k % 10, k / 10 % 10, k / 100);
    let mut text = header(site) + "\n";
    text.extend((0..ACTIVE).map(set));
    // The first name takes what lines of four bytes would leave.
    let odd = (used - text.len()) % 4;
    text += &format!("M\t{}\n", "a".repeat(1 + odd));
    text.extend(('b'..='p').map(|name| format!("M\t{name}\n")));
    let turns = ["M\tp\n", "R\tp\n"].iter().cycle();
    text.extend(turns.take((used - text.len()) / 4).copied());
    assert_eq!(text.len(), used, "a journal of so many bytes");
    text.into_bytes()
}

/// A session on such a journal, which has room for one line of the last name and no more.
pub fn marks_session(calls: &impl Calls, site: Site) -> Lent {
    let mut cells = vec![0; site.chunk_size.pow(3)];
    let mut journal = marks_journal(&site, JOURNAL - 4);
    let (record, ..) = calls
        .reopen(&journal, journal.len(), &mut cells)
        .expect("a journal of its form");
    assert_eq!(record.active, ACTIVE, "a session at its limits");
    journal.resize(JOURNAL, 0);
    Lent {
        record,
        cells,
        journal,
    }
}

/// Sixteen groups in a chunk of size 64.
pub fn groups() -> Vec<u32> {
    (0..16).flat_map(|k| [k * 4, 63 - k, k * 3, k + 1]).collect()
}

/// A chunk of size 64 at the surface.
pub fn site() -> Site {
    Site {
        seed: 7,
        sea_level: 90,
        world_height_blocks: 256,
        chunk_size: 64,
        cx: 3,
        cy: 1,
        cz: -5,
    }
}

/// How many bytes each call takes at size 64, the greatest first.
pub fn measure(report: &mut Report) -> Vec<(&'static str, usize)> {
    let long = long_session(&Product, site());
    let marks = marks_session(&Product, site());
    let mut cells = long.cells.clone();
    let blocks = long.cells.clone();
    let count = long.record.count;
    let many = chunk::batch(&mut Rng::new(5), 64, 4000);
    let few = groups();
    let mut border = vec![0; 64 * 64];
    let (mut ids, mut counts) = (vec![0; 65_535], vec![0; 65_535]);
    let mut planes = vec![0; 2 * 64 * 64 * 64];
    let mut journal = vec![0; 32_768];
    let lent = || Lent {
        record: long.record,
        cells: long.cells.clone(),
        journal: long.journal.clone(),
    };
    let mut edits = [(); 4].map(|()| lent());
    let [set, column, batch, undo] = &mut edits;
    let mut named = [(); 3].map(|()| marks.clone());
    let [checkpoint, restore, undo_marks] = &mut named;
    let press = |lent: &mut Lent, call: &Call| keep(Product.call(lent, call));
    let column_call = Call::Column {
        x: 3,
        z: 5,
        height: 64,
        id: 4,
    };
    let mut all: Vec<(&str, usize)> = vec![];
    let mut note = |name, work: &mut dyn FnMut()| all.push((name, system::stack_taken(LENT, BELOW, work)));
    note("generate", &mut || keep(product::generate(&site(), &mut cells)));
    note("get", &mut || keep(product::get(&blocks, 64, [1, 2, 3])));
    note("is_air", &mut || keep(product::is_air(&blocks, 64, [1, 2, 3])));
    note("is_empty", &mut || keep(product::is_empty(&blocks, 64)));
    note("is_solid", &mut || keep(product::is_solid(&blocks, 64)));
    note("replace_blocks", &mut || {
        keep(product::replace_blocks(&mut cells, 64, &blocks))
    });
    note("set", &mut || {
        keep(product::set(&mut cells, 64, count, [1, 2, 3], 4))
    });
    note("fill_column", &mut || {
        keep(product::fill_column(&mut cells, 64, count, [1, 3, 64], 4))
    });
    note("set_blocks, 16 groups", &mut || {
        keep(product::set_blocks(&mut cells, 64, count, &few))
    });
    note("set_blocks, thousands", &mut || {
        keep(product::set_blocks(&mut cells, 64, count, &many))
    });
    note("extract_border", &mut || {
        keep(product::extract_border(&blocks, 64, 0, &mut border))
    });
    note("tally", &mut || {
        keep(product::tally(&blocks, 64, &mut ids, &mut counts))
    });
    note("to_planes", &mut || {
        keep(product::to_planes(&mut cells, 64, &mut planes))
    });
    note("from_planes", &mut || {
        keep(product::from_planes(&mut planes, 64, &mut cells))
    });
    note("session set", &mut || press(set, &Call::Set([1, 2, 3], 4)));
    note("session column", &mut || press(column, &column_call));
    note("session batch", &mut || press(batch, &Call::Batch(groups())));
    // The same again finds its cells there, and alters nothing.
    note("session set onto itself", &mut || {
        press(set, &Call::Set([1, 2, 3], 4))
    });
    note("session column onto itself", &mut || press(column, &column_call));
    note("session batch onto itself", &mut || {
        press(batch, &Call::Batch(groups()))
    });
    note("undo", &mut || press(undo, &Call::Undo));
    note("undo behind M and R lines", &mut || {
        press(undo_marks, &Call::Undo)
    });
    note("checkpoint", &mut || {
        press(checkpoint, &Call::Checkpoint(last_name()))
    });
    note("restore", &mut || press(restore, &Call::Restore(last_name())));
    note("fresh session", &mut || {
        keep(Product.fresh(&site(), &mut cells, &mut journal))
    });
    note("reopening", &mut || {
        keep(Product.reopen(&long.journal, long.record.used, &mut cells))
    });
    note("reopening of M and R lines", &mut || {
        keep(Product.reopen(&marks.journal, marks.record.used, &mut cells))
    });
    note("committed prefix", &mut || {
        keep(Product.committed(&long.journal, long.record.used))
    });
    for (lent, name) in edits.iter().zip(["set", "column", "batch", "undo"]) {
        report.same(lent.record.used > long.record.used, || {
            format!("the session's {name} was refused on the small stack")
        });
    }
    for (lent, name) in named.iter().zip(["checkpoint", "restore", "undo"]) {
        report.same(lent.record.used > marks.record.used, || {
            format!("the {name} behind M and R lines was refused on the small stack")
        });
    }
    all.sort_by_key(|&(_, bytes)| std::cmp::Reverse(bytes));
    all
}

/// Holds each call to what it may take, and prints the greatest.
pub fn run(report: &mut Report) {
    let all = measure(report);
    for (name, bytes) in &all {
        report.same(*bytes <= MOST, || {
            format!("{name} takes {bytes} bytes of stack, above {MOST}")
        });
    }
    let text: Vec<String> = all
        .iter()
        .take(4)
        .map(|(name, bytes)| format!("{name} {bytes}"))
        .collect();
    println!(
        "stack: {} calls at size 64; the greatest in bytes: {}",
        all.len(),
        text.join(", ")
    );
}
