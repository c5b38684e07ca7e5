//! An example host: a fresh map, presses, a cut at every byte, and the next tablet takes over; and a shelf copy
//! of a chunk, written and restored (`shelf_copy`, `shelf_restore`). A wrong answer or map ends it with a message and
//! exit status 1.
use perillahinge::{self as map, Batch, Config, Face, Pos, Refusal, Session, SEED_MOST};
use std::env;
use std::fs::{self, File};
use std::io::{self, Read, Seek, Write};
use std::process::{self, ExitCode};

const SIZE: usize = 4;
const CELLS: usize = SIZE * SIZE * SIZE;
const JOURNAL: usize = 512;

/// One tablet: what the host keeps, and lends to each call.
#[derive(Clone, PartialEq, Debug)]
struct Tablet {
    session: Session,
    cells: Vec<u16>,
    journal: Vec<u8>,
}

impl Tablet {
    /// The map: the record, the cells, and the journal's used bytes.
    fn map(&self) -> (Session, &[u16], &[u8]) {
        (self.session, &self.cells, &self.journal[..self.session.used])
    }

    fn press(&mut self, press: &Press) -> Answer {
        let Tablet {
            session,
            cells,
            journal,
        } = self;
        match *press {
            Press::Set(at, id) => session.set(cells, journal, at, id).map(Told::Replaced),
            Press::Column(at, height, id) => session
                .fill_column(cells, journal, at, height, id)
                .map(Told::Altered),
            Press::Batch(edits) => session.set_blocks(cells, journal, edits).map(Told::Batch),
            Press::Undo => session.undo(cells, journal).map(Told::Altered),
            Press::Checkpoint(name) => session
                .checkpoint(journal, name.as_bytes())
                .map(|()| Told::Nothing),
            Press::Restore(name) => session
                .restore(cells, journal, name.as_bytes())
                .map(Told::Altered),
        }
    }
}

/// What a press tells: a set the id that it replaced, a column, an undo and a restore how many cells they altered, a
/// checkpoint nothing.
#[derive(Clone, Copy, Debug, PartialEq)]
enum Told {
    Nothing,
    Replaced(u16),
    Altered(usize),
    Batch(Batch),
}

type Answer = Result<Told, Refusal>;

#[derive(Debug)]
enum Press {
    Set([usize; 3], u16),
    Column([usize; 2], usize, u16),
    Batch(&'static [u32]),
    Undo,
    Checkpoint(&'static str),
    Restore(&'static str),
}

/// A visit; each press appends one line, and each but the checkpoint alters a cell.
const VISIT: [Press; 10] = [
    Press::Batch(&[3, 3, 3, 70000, 0, 9, 0, 1, 1, 1, 1, 12, 5]),
    Press::Set([0, 1, 2], 8),
    Press::Undo,
    Press::Checkpoint("walls"),
    Press::Column([3, 0], 2, 0),
    Press::Set([2, 2, 2], 65535),
    Press::Undo,
    Press::Undo,
    Press::Set([1, 3, 1], 8),
    Press::Restore("walls"),
];

/// How many lines the visit has with its checkpoint's, the first line included: the map after them is what "walls"
/// remembers.
const WALLS: usize = 5;

fn check(holds: bool, what: &str) -> Result<(), String> {
    if holds {
        Ok(())
    } else {
        Err(what.to_string())
    }
}

/// Holds a press, the k-th of a list from 1, to what it must tell.
fn tells(list: &str, k: usize, press: &Press, answer: Answer, wanted: Answer) -> Result<(), String> {
    if answer == wanted {
        Ok(())
    } else {
        Err(format!(
            "{list}, press {k}, {press:?}: told {answer:?}, wanted {wanted:?}"
        ))
    }
}

fn told<T>(answer: Result<T, Refusal>, what: &str) -> Result<T, String> {
    answer.map_err(|r| format!("{what}: refused, {r:?}"))
}

fn nonzero(cells: &[u16]) -> u32 {
    cells.iter().filter(|&&id| id != 0).count() as u32
}

/// How many cells hold another id in b than in a.
fn differing(a: &[u16], b: &[u16]) -> usize {
    a.iter().zip(b).filter(|(a, b)| a != b).count()
}

/// What a press from these cells to those must tell.
fn wanted(press: &Press, before: &[u16], after: &[u16]) -> Answer {
    let altered = differing(before, after);
    Ok(match press {
        Press::Set([x, y, z], _) => Told::Replaced(before[x + SIZE * (y + SIZE * z)]),
        Press::Batch(edits) => {
            let groups = edits.chunks_exact(4);
            let written = groups.filter(|g| g[..3].iter().all(|&c| c < SIZE as u32)).count();
            Told::Batch(Batch { written, altered })
        }
        Press::Column(..) | Press::Undo | Press::Restore(_) => Told::Altered(altered),
        Press::Checkpoint(_) => Told::Nothing,
    })
}

/// A fresh map at the surface, with the greatest seed. One more is refused.
fn begin() -> Result<Tablet, String> {
    let config = Config {
        seed: SEED_MOST,
        sea_level: 30,
        world_height_blocks: 48,
        chunk_size: SIZE,
    };
    let pos = Pos { cx: 5, cy: 6, cz: -7 };
    let beyond = Config {
        seed: SEED_MOST + 1,
        ..config
    };
    let mut cells = vec![7; CELLS];
    check(
        map::generate(beyond, pos, &mut cells) == Err(Refusal::Seed) && cells == [7; CELLS],
        "a seed beyond the greatest",
    )?;
    fresh(config, pos)
}

fn fresh(config: Config, pos: Pos) -> Result<Tablet, String> {
    let (mut cells, mut journal) = (vec![0; config.chunk_size.pow(3)], vec![0; JOURNAL]);
    let session = told(map::fresh(config, pos, &mut cells, &mut journal), "fresh")?;
    check(session.count == nonzero(&cells), "a fresh map is counted")?;
    Ok(Tablet {
        session,
        cells,
        journal,
    })
}

/// The next tablet gets the first q bytes that were stored, then zeros; it must have the map of the last whole line.
fn take_over(stored: &[u8], q: usize, maps: &[Tablet]) -> Result<(), String> {
    let (mut cells, mut journal) = (vec![0xeeee; CELLS], vec![0; JOURNAL]);
    journal[..q].copy_from_slice(&stored[..q]);
    let held = (q + 9).min(JOURNAL);
    let lines = stored[..q].iter().filter(|&&b| b == b'\n').count();
    let answer = map::reopen(&mut cells, &journal, held);
    if lines == 0 {
        check(
            answer == Err(Refusal::NoLine),
            "without a whole line there is no map",
        )?;
        return check(cells.iter().all(|&id| id == 0xeeee), "a refusal leaves the cells");
    }
    let opened = told(answer, "reopening")?;
    let committed = map::committed(&journal, held).len();
    let next = Tablet {
        session: opened.session,
        cells,
        journal,
    };
    let last = &maps[lines - 1];
    check(next.map() == last.map(), "the map is that of the last whole line")?;
    check(
        opened.lines == lines && committed == opened.session.used,
        "the lines that count",
    )?;
    check(opened.trailing == held - committed, "the bytes that do not")?;
    restores(next.clone(), maps, lines)?;
    goes_on(next, &last.cells)
}

/// The next tablet has the checkpoint too, unless its line was cut off.
fn restores(mut next: Tablet, maps: &[Tablet], lines: usize) -> Result<(), String> {
    let press = Press::Restore("walls");
    let answer = next.press(&press);
    if lines < WALLS {
        tells("restoring", 1, &press, answer, Err(Refusal::UnknownName))?;
        return check(next.map() == maps[lines - 1].map(), "26 changes nothing");
    }
    let walls = &maps[WALLS - 1];
    let altered = differing(&maps[lines - 1].cells, &walls.cells);
    tells("restoring", 1, &press, answer, Ok(Told::Altered(altered)))?;
    check(
        next.cells == walls.cells
            && next.session.count == walls.session.count
            && next.session.active == walls.session.active,
        "a restore on the next tablet gives the map that the first one had",
    )
}

/// A press on the next tablet that puts the id that is there changes nothing. Another id tells the one that it
/// replaced, and its undo brings the map back.
fn goes_on(mut next: Tablet, last: &[u16]) -> Result<(), String> {
    let before = last[1 + 2 * SIZE + 3 * SIZE * SIZE];
    let other = if before == 1 { 2 } else { 1 };
    let list = [
        (Press::Set([1, 2, 3], before), Ok(Told::Replaced(before))),
        (Press::Set([1, 2, 3], other), Ok(Told::Replaced(before))),
        (Press::Undo, Ok(Told::Altered(1))),
    ];
    replay("going on", &mut next, &list)?;
    check(next.cells == last, "an undo brings the map back")
}

/// Makes presses, and holds each to what it must tell. An edit after which every cell is the same, and a call that is
/// refused, must leave all as it was; any other call must add a line.
fn replay(list: &str, tablet: &mut Tablet, presses: &[(Press, Answer)]) -> Result<(), String> {
    for (k, (press, wanted)) in (1..).zip(presses) {
        let before = tablet.clone();
        let answer = tablet.press(press);
        tells(list, k, press, answer, *wanted)?;
        let edit = matches!(press, Press::Set(..) | Press::Column(..) | Press::Batch(_));
        let idle = edit && tablet.cells == before.cells;
        let same = *tablet == before;
        check(
            same == (idle || answer.is_err()) && same == (tablet.session.used == before.session.used),
            &format!("{list}, press {k}, {press:?}: a line, unless it is idle or refused"),
        )?;
    }
    Ok(())
}

fn refusals(last: &Tablet) -> Result<(), String> {
    let mut t = last.clone();
    let outside = t.press(&Press::Set([0, SIZE, 0], 1));
    check(outside == Err(Refusal::Outside), "a cell outside")?;
    check(
        t.press(&Press::Batch(&[0; 68])) == Err(Refusal::ManyGroups),
        "a batch of 17",
    )?;
    for name in BAD_NAMES {
        let answers = [t.press(&Press::Checkpoint(name)), t.press(&Press::Restore(name))];
        check(
            answers == [Err(Refusal::Name); 2],
            &format!("the name {name:?}: {answers:?}"),
        )?;
    }
    check(t == *last, "a refusal changes nothing")?;
    let mut border = [0; SIZE * SIZE];
    let short = map::extract_border(&t.cells, SIZE, Face::NegZ, &mut border[1..]);
    check(short == Err(Refusal::Length), "a border too short")?;
    t.journal[0] = b'g';
    let first = map::reopen(&mut t.cells, &t.journal, t.session.used);
    check(first == Err(Refusal::FirstLine), "a file that is no journal")?;
    for press in [Press::Undo, Press::Checkpoint("walls"), Press::Restore("walls")] {
        check(t.press(&press) == Err(Refusal::UsedBytes), "another's journal")?;
    }
    // An undo with nothing active, a name that no line before has, a bad name, and again nothing active.
    for (lines, line) in [
        ("U\n", 2),
        ("M\twalls\nR\troof\n", 3),
        ("M\tWalls\n", 2),
        ("M\ta\nS\t0\t0\t0\t9\nR\ta\nU\n", 5),
    ] {
        let text = format!("G\t0\t4096\t256\t2\t0\t128\t0\n{lines}");
        let answer = map::reopen(&mut [0; 8], text.as_bytes(), text.len());
        check(
            answer == Err(Refusal::LaterLine(line)),
            &format!("{lines:?} behind the first line: {answer:?}"),
        )?;
    }
    Ok(())
}

/// Empty, of 17 bytes, or with a byte that is none of a to z and 0 to 9.
const BAD_NAMES: [&str; 8] = [
    "",
    "abcdefghijklmnopq",
    "Walls",
    "walls done",
    "walls\n",
    "a\t",
    "café",
    "\0",
];

/// The calls without a session, on the last map's cells.
fn bare(last: &Tablet) -> Result<(), String> {
    let mut cells = last.cells.clone();
    let count = told(
        map::set(&mut cells, SIZE, last.session.count, [3, 2, 0], 41),
        "set",
    )?;
    check(
        count == nonzero(&cells) && map::get(&cells, SIZE, [3, 2, 0]) == Ok(41),
        "a cell set",
    )?;
    let count = told(
        map::fill_column(&mut cells, SIZE, count, [0, 0], 99, 42),
        "column",
    )?;
    check(
        count == nonzero(&cells) && map::is_air(&cells, SIZE, [0, 3, 0]) == Ok(false),
        "a column",
    )?;
    let (written, count) = told(
        map::set_blocks(&mut cells, SIZE, count, &[0, 0, 0, 0, 9, 9, 9, 1]),
        "batch",
    )?;
    check(written == 1 && count == nonzero(&cells), "a batch")?;
    let mut border = [0; SIZE * SIZE];
    told(
        map::extract_border(&cells, SIZE, Face::PosX, &mut border),
        "border",
    )?;
    check(border[2 * SIZE] == 41, "x is 3, y is 2, z is 0")?;
    let (mut ids, mut counts) = ([0; CELLS], [0; CELLS]);
    let n = told(map::tally(&cells, SIZE, &mut ids, &mut counts), "tally")?;
    check(
        counts[..n].iter().sum::<u32>() == count && ids[..n].contains(&41),
        "a tally",
    )?;
    let air = map::replace_blocks(&mut cells, SIZE, &[0; CELLS]);
    check(air == Ok(0) && map::is_empty(&cells, SIZE) == Ok(true), "all air")?;
    check(map::is_solid(&cells, SIZE) == Ok(false), "air is not solid")?;
    let ground = map::generate(last.session.config, last.session.pos, &mut cells);
    check(ground == Ok(nonzero(&cells)), "the ground is counted")
}

/// What presses tell on eight cells of water (5), worked out by hand.
const UNDER_THE_SEA: [(Press, Answer); 14] = [
    (Press::Set([0, 0, 0], 9), Ok(Told::Replaced(5))),
    // Every cell is the same after these four: they are not active.
    (Press::Set([0, 0, 0], 9), Ok(Told::Replaced(9))),
    (Press::Column([1, 1], 0, 8), Ok(Told::Altered(0))),
    (Press::Column([1, 1], 2, 5), Ok(Told::Altered(0))),
    (
        Press::Batch(&[1, 0, 0, 0, 1, 0, 0, 5]),
        Ok(Told::Batch(Batch {
            written: 2,
            altered: 0,
        })),
    ),
    // The column's two cells hold 9 and 5.
    (Press::Column([0, 0], 7, 9), Ok(Told::Altered(1))),
    // (1, 1, 1) is set and set back, (0, 0, 1) is set twice, (2, 0, 0) lies outside.
    (
        Press::Batch(&[1, 1, 1, 8, 1, 1, 1, 5, 0, 0, 1, 8, 0, 0, 1, 7, 2, 0, 0, 1]),
        Ok(Told::Batch(Batch {
            written: 4,
            altered: 1,
        })),
    ),
    (Press::Undo, Ok(Told::Altered(1))),
    (Press::Undo, Ok(Told::Altered(1))),
    (Press::Undo, Ok(Told::Altered(1))),
    (Press::Undo, Err(Refusal::NothingActive)),
    (Press::Set([0, 0, 0], 5), Ok(Told::Replaced(5))),
    (Press::Undo, Err(Refusal::NothingActive)),
    // Outside: accepted, without a line.
    (Press::Column([2, 0], 1, 9), Ok(Told::Altered(0))),
];

/// A journal of which all bytes are used: an edit that alters a cell has no space for its line.
const FULL: [(Press, Answer); 6] = [
    (Press::Set([0, 0, 0], 5), Ok(Told::Replaced(5))),
    (Press::Column([1, 1], 0, 8), Ok(Told::Altered(0))),
    (
        Press::Batch(&[1, 0, 0, 0, 1, 0, 0, 5]),
        Ok(Told::Batch(Batch {
            written: 2,
            altered: 0,
        })),
    ),
    (Press::Set([0, 0, 0], 9), Err(Refusal::Full)),
    (Press::Column([1, 1], 1, 8), Err(Refusal::Full)),
    (Press::Batch(&[1, 0, 0, 0]), Err(Refusal::Full)),
];

/// Eight cells of water.
fn water() -> Result<Tablet, String> {
    let config = Config {
        seed: 0,
        sea_level: 4096,
        world_height_blocks: 256,
        chunk_size: 2,
    };
    let (cx, cy, cz) = (0, 128, 0);
    let tablet = fresh(config, Pos { cx, cy, cz })?;
    check(tablet.cells == [5; 8], "a chunk under the sea")?;
    Ok(tablet)
}

fn worked_out() -> Result<(), String> {
    let mut tablet = water()?;
    replay("under the sea", &mut tablet, &UNDER_THE_SEA)?;
    check(tablet.cells == [5; 8], "all taken back")?;
    tablet.journal.truncate(tablet.session.used);
    replay("a full journal", &mut tablet, &FULL)
}

/// An older journal: the first of its edits, the third and the fourth have lines, though they altered nothing.
const OLDER: &[u8] =
    b"G\t0\t4096\t256\t2\t0\t128\t0\nS\t0\t0\t0\t5\nS\t0\t0\t0\t9\nC\t1\t0\t0\t8\nB\t2\t1\t1\t1\t8\t1\t1\t1\t5\n";

/// There they are active, and are undone one by one; a press of now that alters nothing is not.
const UNDO_OLDER: [(Press, Answer); 6] = [
    (Press::Set([0, 0, 0], 9), Ok(Told::Replaced(9))),
    (Press::Undo, Ok(Told::Altered(0))),
    (Press::Undo, Ok(Told::Altered(0))),
    (Press::Undo, Ok(Told::Altered(1))),
    (Press::Undo, Ok(Told::Altered(0))),
    (Press::Undo, Err(Refusal::NothingActive)),
];

fn older() -> Result<(), String> {
    let (mut cells, mut journal) = (vec![0; 8], vec![0; JOURNAL]);
    journal[..OLDER.len()].copy_from_slice(OLDER);
    let opened = told(map::reopen(&mut cells, &journal, OLDER.len()), "an older journal")?;
    check(
        opened.lines == 5 && opened.session.active == 4 && cells == [9, 5, 5, 5, 5, 5, 5, 5],
        "the edits of an older journal are active",
    )?;
    let session = opened.session;
    let mut tablet = Tablet {
        session,
        cells,
        journal,
    };
    replay("an older journal", &mut tablet, &UNDO_OLDER)?;
    check(tablet.cells == [5; 8], "an older journal, all taken back")
}

/// Two walls of stone (1), a roof of logs (8) that is tried, and back to the walls: on eight cells of water, worked out
/// by hand.
const ROOF: [(Press, Answer); 11] = [
    (Press::Restore("walls"), Err(Refusal::UnknownName)),
    (Press::Column([0, 0], 1, 1), Ok(Told::Altered(1))),
    (Press::Column([1, 1], 1, 1), Ok(Told::Altered(1))),
    (Press::Checkpoint("walls"), Ok(Told::Nothing)),
    (
        Press::Batch(&[0, 1, 0, 8, 1, 1, 0, 8, 0, 1, 1, 8, 1, 1, 1, 8]),
        Ok(Told::Batch(Batch {
            written: 4,
            altered: 4,
        })),
    ),
    (Press::Checkpoint("roof"), Ok(Told::Nothing)),
    // A door: stone becomes air.
    (Press::Set([0, 0, 0], 0), Ok(Told::Replaced(1))),
    // The four logs and the door.
    (Press::Restore("walls"), Ok(Told::Altered(5))),
    // Nothing to alter, and a line all the same.
    (Press::Restore("walls"), Ok(Told::Altered(0))),
    (Press::Restore("door"), Err(Refusal::UnknownName)),
    (Press::Restore("Walls"), Err(Refusal::Name)),
];

/// The cells with the walls, and those with the roof on them.
const WITH_WALLS: [u16; 8] = [1, 5, 5, 5, 5, 1, 5, 5];
const WITH_ROOF: [u16; 8] = [1, 5, 8, 8, 5, 1, 8, 8];

/// The journal of it. A refused call has no line.
const ROOF_LINES: &[u8] = b"G\t0\t4096\t256\t2\t0\t128\t0\nC\t0\t0\t1\t1\nC\t1\t1\t1\t1\nM\twalls\n\
    B\t4\t0\t1\t0\t8\t1\t1\t0\t8\t0\t1\t1\t8\t1\t1\t1\t8\nM\troof\nS\t0\t0\t0\t0\nR\twalls\nR\twalls\n";

/// On the next tablet, with the last R cut off: "walls" moves, and "roof" remembers what it did.
const NEXT: [(Press, Answer); 9] = [
    // A later checkpoint is there after a restore of an earlier one: four logs.
    (Press::Restore("roof"), Ok(Told::Altered(4))),
    (Press::Restore("walls"), Ok(Told::Altered(4))),
    // What is undone is the last edit that came back, the second wall.
    (Press::Undo, Ok(Told::Altered(1))),
    (Press::Set([1, 0, 0], 7), Ok(Told::Replaced(5))),
    (Press::Checkpoint("walls"), Ok(Told::Nothing)),
    // The four logs, (1, 0, 0) and the second wall.
    (Press::Restore("roof"), Ok(Told::Altered(6))),
    (Press::Undo, Ok(Told::Altered(4))),
    (Press::Restore("walls"), Ok(Told::Altered(2))),
    (Press::Checkpoint("a16bytenamefits0"), Ok(Told::Nothing)),
];

fn checkpoints() -> Result<(), String> {
    let mut first = water()?;
    replay("walls and a roof", &mut first, &ROOF)?;
    check(
        first.map() == (first.session, &WITH_WALLS[..], ROOF_LINES),
        "the roof is gone, and its lines are there",
    )?;
    check(
        (first.session.active, first.session.count) == (2, 8),
        "two walls are active",
    )?;
    // A cut in the middle of the last line.
    let held = first.session.used - 3;
    let (mut cells, journal) = (vec![0; 8], first.journal.clone());
    let opened = told(map::reopen(&mut cells, &journal, held), "walls and a roof")?;
    check(
        (opened.lines, opened.trailing, opened.session.active) == (8, 5, 2) && cells == WITH_WALLS,
        "the next tablet has the walls",
    )?;
    let session = opened.session;
    let mut next = Tablet {
        session,
        cells,
        journal,
    };
    replay("the next tablet", &mut next, &NEXT)?;
    check(next.cells == [1, 7, 5, 5, 5, 5, 5, 5], "the walls moved")?;
    let list = [(Press::Restore("roof"), Ok(Told::Altered(6)))];
    replay("the roof", &mut next, &list)?;
    check(next.cells == WITH_ROOF, "the roof did not")
}

/// Sixteen names, a seventeenth, and names that are known; with 256 active edits, none of which they are.
fn many() -> Result<(), String> {
    let mut t = water()?;
    t.journal.resize(4096, 0);
    for k in 0..256 {
        told(
            t.session.set(&mut t.cells, &mut t.journal, [0; 3], 100 + k),
            "an edit",
        )?;
    }
    check(
        t.press(&Press::Set([0; 3], 1)) == Err(Refusal::Full),
        "a 257th edit",
    )?;
    for k in 0..16 {
        let name = format!("name{k}");
        told(t.session.checkpoint(&mut t.journal, name.as_bytes()), &name)?;
    }
    let list = [
        (Press::Checkpoint("name16"), Err(Refusal::ManyNames)),
        (Press::Restore("name16"), Err(Refusal::UnknownName)),
        (Press::Restore("name15"), Ok(Told::Altered(0))),
        (Press::Undo, Ok(Told::Altered(1))),
        (Press::Checkpoint("name0"), Ok(Told::Nothing)),
        (Press::Restore("name15"), Ok(Told::Altered(1))),
        (Press::Restore("name0"), Ok(Told::Altered(1))),
    ];
    replay("many names", &mut t, &list)?;
    check(
        t.session.active == 255 && t.cells[0] == 354,
        "255 edits are active",
    )?;
    // Space for the line, and one byte less; the refusals of names come first.
    let used = t.session.used;
    t.journal.truncate(used + 7);
    let list = [
        (Press::Restore("name1"), Err(Refusal::Full)),
        (Press::Checkpoint("name1"), Err(Refusal::Full)),
        (Press::Checkpoint("name16"), Err(Refusal::ManyNames)),
        (Press::Restore("name16"), Err(Refusal::UnknownName)),
    ];
    replay("a full journal", &mut t, &list)?;
    t.journal.push(0);
    replay(
        "space for a line",
        &mut t,
        &[(Press::Restore("name1"), Ok(Told::Altered(1)))],
    )?;
    // A seventeenth name in a stored journal: behind 1 + 256 + 16 + 6 lines.
    t.journal.extend_from_slice(b"M\tname16\n");
    let answer = map::reopen(&mut t.cells, &t.journal, t.journal.len());
    check(
        answer == Err(Refusal::LaterLine(280)),
        &format!("a seventeenth name in a journal: {answer:?}"),
    )
}

/// Eight cells, how many ids they hold, and the two lists after a tally.
type Tally = ([u16; 8], usize, [u16; 5], [u32; 5]);

/// Tallies worked out by hand: ids that do not stand in ascending order, one id, none. The lists hold 7 before, and
/// keep it past the ids.
const TALLIES: [Tally; 3] = [
    (
        [5, 65535, 5, 0, 3, 40000, 3, 5],
        4,
        [3, 5, 40000, 65535, 7],
        [2, 3, 1, 1, 7],
    ),
    (
        [0, 300, 0, 0, 300, 300, 0, 0],
        1,
        [300, 7, 7, 7, 7],
        [3, 7, 7, 7, 7],
    ),
    ([0; 8], 0, [7; 5], [7; 5]),
];

fn tallies() -> Result<(), String> {
    for (cells, n, ids, counts) in TALLIES {
        let mut lists = ([7; 5], [7; 5]);
        let answer = map::tally(&cells, 2, &mut lists.0, &mut lists.1);
        check(
            answer == Ok(n) && lists == (ids, counts),
            &format!("a tally of {cells:?}: {answer:?}, {lists:?}"),
        )?;
    }
    Ok(())
}

/// Whether two chunks of any sizes may have these ids at one cell of the world: where the ground before boulders and trees is
/// air, a chunk may also have stone, a log or leaves; where it is water, also stone.
fn one_ground(a: u16, b: u16) -> bool {
    let both = |ids: &[u16]| ids.contains(&a) && ids.contains(&b);
    a == b || both(&[0, 1, 8, 9]) || both(&[5, 1])
}

/// A viewer's cubes of 16 over the box of a tablet's chunk of 32.
fn viewer() -> Result<(), String> {
    let config = Config {
        seed: 7,
        sea_level: 24,
        world_height_blocks: 256,
        chunk_size: 32,
    };
    let small = Config {
        chunk_size: 16,
        ..config
    };
    let (mut chunk, mut cube) = (vec![0; 32 * 32 * 32], vec![0; 16 * 16 * 16]);
    for (cx, k) in (-4..4).flat_map(|cx| (0..8).map(move |k| (cx, k))) {
        let (x, y, z) = (k % 2, k / 2 % 2, k / 4);
        let (place, part) = (Pos { cx, cy: 1, cz: -1 }, [2 * cx + x, 2 + y, z - 2]);
        let [cx, cy, cz] = part;
        let laid = map::generate(config, place, &mut chunk).is_ok();
        check(
            laid && map::generate(small, Pos { cx, cy, cz }, &mut cube).is_ok(),
            "both sizes are laid",
        )?;
        let corner = 16 * (x + 32 * (y + 32 * z)) as usize;
        let same = cube
            .iter()
            .enumerate()
            .all(|(i, &id)| one_ground(id, chunk[corner + i % 16 + 32 * (i / 16 % 16 + 32 * (i / 256))]));
        check(
            same,
            &format!("the ground of the cube at {part:?} in a chunk of 32"),
        )?;
    }
    Ok(())
}

/// The cells of the largest chunk.
const MOST: usize = 64 * 64 * 64;

/// The planes of one cell and of eight, worked out by hand: at size 2 the cells stand as they lie.
fn planes() -> Result<(), String> {
    let eight = [0x0901, 0x0a02, 0x0b03, 0x0c04, 0x0d05, 0x0e06, 0x0f07, 0x1008];
    let wanted = [1, 2, 3, 4, 5, 6, 7, 8, 9, 10, 11, 12, 13, 14, 15, 16];
    let (mut bytes, mut cells) = ([0; 16], [0; 8]);
    let answer = map::to_planes(&[0xabcd], 1, &mut bytes[..2]);
    check(
        answer == Ok(()) && bytes[..3] == [0xcd, 0xab, 0],
        "the planes of a cell",
    )?;
    let answer = map::from_planes(&[0xcd, 0xab], 1, &mut cells[..1]);
    check(
        answer == Ok(()) && cells[..2] == [0xabcd, 0],
        "a cell from planes",
    )?;
    let answer = map::to_planes(&eight, 2, &mut bytes);
    check(answer == Ok(()) && bytes == wanted, "the planes of eight cells")?;
    let answer = map::from_planes(&wanted, 2, &mut cells);
    check(answer == Ok(()) && cells == eight, "eight cells from planes")
}

/// Where single cells stand: size, cell and position, worked out by hand. In octal each digit of a position has one bit
/// of x, y and z, worth 1, 2 and 4: (1, 2, 3) has x 01, y 10 and z 11, so its digits are 0 + 2 + 4 and 1 + 0 + 4.
const POSITIONS: [(usize, [usize; 3], usize); 9] = [
    (4, [1, 2, 3], 0o65),
    (4, [2, 0, 0], 0o10),
    (8, [4, 1, 2], 0o142),
    (16, [9, 3, 12], 0o5423),
    (32, [16, 0, 0], 0o10000),
    (64, [32, 0, 0], 0o100000),
    (64, [0, 32, 0], 0o200000),
    (64, [0, 0, 1], 0o4),
    (64, [21, 42, 63], 0o656565),
];

fn positions() -> Result<(), String> {
    for (size, [x, y, z], position) in POSITIONS {
        let n = size * size * size;
        let (mut cells, mut bytes) = (vec![0; n], vec![0; 2 * n]);
        cells[x + size * (y + size * z)] = 0x1234;
        (bytes[position], bytes[n + position]) = (0x34, 0x12);
        let (mut cells_made, mut bytes_made) = (vec![0xeeee; n], vec![0xee; 2 * n]);
        let answers = [
            map::to_planes(&cells, size, &mut bytes_made),
            map::from_planes(&bytes, size, &mut cells_made),
        ];
        check(
            answers == [Ok(()); 2] && bytes_made == bytes && cells_made == cells,
            &format!("the cell {:?} of a chunk of {size}: {answers:?}", [x, y, z]),
        )?;
    }
    Ok(())
}

/// Each call undoes the other, at every size, whatever ids and bytes they are.
fn both_ways() -> Result<(), String> {
    let cells: Vec<u16> = (1..=MOST).map(|i| ((40503 * i) >> 5) as u16).collect();
    let bytes: Vec<u8> = (1..=2 * MOST).map(|i| ((40503 * i) >> 7) as u8).collect();
    for size in [1, 2, 4, 8, 16, 32, 64] {
        let n = size * size * size;
        let (cells, bytes) = (&cells[..n], &bytes[..2 * n]);
        let (mut cells_again, mut bytes_again) = (vec![0; n], vec![0; 2 * n]);
        told(map::to_planes(cells, size, &mut bytes_again), "planes")?;
        told(map::from_planes(&bytes_again, size, &mut cells_again), "cells")?;
        check(cells_again == cells, &format!("{n} cells through their planes"))?;
        told(map::from_planes(bytes, size, &mut cells_again), "cells")?;
        told(map::to_planes(&cells_again, size, &mut bytes_again), "planes")?;
        check(
            bytes_again == bytes,
            &format!("the planes of {n} cells through the cells"),
        )?;
    }
    Ok(())
}

/// Size, number of cells and number of bytes of planes that are refused: another size, whatever the lengths are, also
/// one whose cube no number holds; then cells of a wrong length; then bytes.
const BAD_PLANES: [(usize, usize, usize, Refusal); 18] = [
    (0, 0, 0, Refusal::PlanesSize),
    (3, 27, 54, Refusal::PlanesSize),
    (3, 8, 15, Refusal::PlanesSize),
    (5, 125, 250, Refusal::PlanesSize),
    (6, 8, 16, Refusal::PlanesSize),
    (128, 8, 16, Refusal::PlanesSize),
    (1 << 22, 0, 0, Refusal::PlanesSize),
    (usize::MAX, 8, 16, Refusal::PlanesSize),
    (2, 7, 16, Refusal::Length),
    (2, 9, 16, Refusal::Length),
    (2, 7, 14, Refusal::Length),
    (2, 0, 0, Refusal::Length),
    (64, 8, 16, Refusal::Length),
    (1, 8, 16, Refusal::Length),
    (2, 8, 15, Refusal::PlanesBytes),
    (2, 8, 17, Refusal::PlanesBytes),
    (2, 8, 8, Refusal::PlanesBytes),
    (4, 64, 0, Refusal::PlanesBytes),
];

fn no_planes() -> Result<(), String> {
    for (size, n, m, refusal) in BAD_PLANES {
        let (mut cells, mut bytes) = (vec![0xeeee; n], vec![0x11; m]);
        let answers = [
            map::to_planes(&vec![0x2222; n], size, &mut bytes),
            map::from_planes(&vec![0x33; m], size, &mut cells),
        ];
        check(
            answers == [Err(refusal); 2],
            &format!("planes of size {size} with {n} cells and {m} bytes: {answers:?}"),
        )?;
        check(
            cells == vec![0xeeee; n] && bytes == vec![0x11; m],
            "refused planes change nothing",
        )?;
    }
    Ok(())
}

/// Writes a shelf copy, which has the cells without a replay of the journal: the journal's first line, then the planes.
/// The planes do not tell what they are a copy of; the line has size, settings and place. A real host also stores a
/// checksum, and may compress the planes. A chunk of a size without planes is refused (`PlanesSize`): a host stores its
/// cells as they are.
fn shelf_copy(file: &mut impl Write, chunk: &Tablet) -> Result<(), String> {
    let mut planes = vec![0; 2 * chunk.cells.len()];
    let size = chunk.session.config.chunk_size;
    told(map::to_planes(&chunk.cells, size, &mut planes), "planes")?;
    let line = chunk.journal.split_inclusive(|&b| b == b'\n').next();
    file.write_all(line.unwrap_or_default())
        .and_then(|()| file.write_all(&planes))
        .map_err(|e| format!("writing a shelf copy: {e}"))
}

/// Restores a shelf copy into cells. Answers the record of its line, for settings and place: to go on building, a
/// session needs its whole journal. A line of another form, or of another size than the cells have, is refused, and so
/// are planes too short or too long. But any bytes of the right number are some chunk's planes: that they are those
/// that were written no call can tell, and a real host holds them to its checksum first.
fn shelf_restore(file: &mut impl Read, cells: &mut [u16]) -> Result<Session, String> {
    let mut bytes = Vec::new();
    file.read_to_end(&mut bytes)
        .map_err(|e| format!("reading a shelf copy: {e}"))?;
    let end = bytes.iter().position(|&b| b == b'\n').map_or(0, |at| at + 1);
    let (line, planes) = bytes.split_at(end);
    // Reopening reads the line, and lays the bare ground beside the cells.
    let mut ground = vec![0; cells.len()];
    let record = told(map::reopen(&mut ground, line, end), "the line")?.session;
    told(
        map::from_planes(planes, record.config.chunk_size, cells),
        "the planes",
    )?;
    Ok(record)
}

/// An empty file that is gone when it is closed.
fn passing_file() -> io::Result<File> {
    let path = env::temp_dir().join(format!("perillahinge-{}.shelf", process::id()));
    let file = File::options()
        .read(true)
        .write(true)
        .create_new(true)
        .open(&path)?;
    fs::remove_file(&path).map(|()| file)
}

/// What builders did to the chunk of 16 that goes onto the shelf.
const BUILT: [(Press, Answer); 2] = [
    (Press::Column([3, 5], 16, 300), Ok(Told::Altered(16))),
    (Press::Batch(&[15, 0, 15, 65535]), ONE_CELL),
];

const ONE_CELL: Answer = Ok(Told::Batch(Batch {
    written: 1,
    altered: 1,
}));

/// A chunk that was built in goes onto the shelf and comes back.
fn shelf() -> Result<(), String> {
    let config = Config {
        seed: 7,
        sea_level: 24,
        world_height_blocks: 64,
        chunk_size: 16,
    };
    let mut chunk = fresh(config, Pos { cx: 0, cy: 1, cz: 0 })?;
    let record = chunk.session;
    replay("the shelf", &mut chunk, &BUILT)?;
    let mut file = passing_file().map_err(|e| format!("a file for the shelf: {e}"))?;
    shelf_copy(&mut file, &chunk)?;
    file.rewind().map_err(|e| format!("the file again: {e}"))?;
    let mut cells = vec![0xeeee; 16 * 16 * 16];
    let restored = shelf_restore(&mut file, &mut cells)?;
    check(
        restored == record && cells == chunk.cells,
        "a shelf copy gives settings, place and cells back",
    )
}

/// Zeros behind a first line: one too few and one too many are no shelf copy, and leave the cells. The right number is
/// one, of a chunk of air, though nobody wrote it.
fn shelf_of_zeros() -> Result<(), String> {
    for n in [8191, 8192, 8193] {
        let mut bytes = b"G\t7\t24\t64\t16\t0\t1\t0\n".to_vec();
        bytes.resize(bytes.len() + n, 0);
        let mut cells = vec![0xeeee; 16 * 16 * 16];
        let answer = shelf_restore(&mut &bytes[..], &mut cells).map(|record| record.config.seed);
        let (wanted, id) = match n {
            8192 => (Ok(7), 0),
            _ => (Err("the planes: refused, PlanesBytes".to_string()), 0xeeee),
        };
        check(
            answer == wanted && cells.iter().all(|&cell| cell == id),
            &format!("a shelf copy of {n} zeros: {answer:?}"),
        )?;
    }
    Ok(())
}

fn run() -> Result<usize, String> {
    let mut tablet = begin()?;
    let mut maps = vec![tablet.clone()];
    // Stored for certain: a file would be written and synced after each press.
    let mut stored = tablet.journal[..tablet.session.used].to_vec();
    for (k, press) in (1..).zip(&VISIT) {
        let answer = tablet.press(press);
        let before = &maps[maps.len() - 1].cells;
        tells(
            "the visit",
            k,
            press,
            answer,
            wanted(press, before, &tablet.cells),
        )?;
        check(
            (differing(before, &tablet.cells) == 0) == matches!(press, Press::Checkpoint(_)),
            "a press of the visit alters a cell, a checkpoint none",
        )?;
        stored.extend_from_slice(&tablet.journal[stored.len()..tablet.session.used]);
        check(tablet.session.count == nonzero(&tablet.cells), "the count")?;
        maps.push(tablet.clone());
    }
    check(tablet.press(&Press::Undo).is_ok(), "one edit is active still")?;
    check(
        tablet.press(&Press::Undo) == Err(Refusal::NothingActive),
        "then none is",
    )?;
    for q in 0..=stored.len() {
        take_over(&stored, q, &maps)?;
    }
    refusals(&maps[VISIT.len()])?;
    bare(&maps[VISIT.len()])?;
    worked_out()?;
    older()?;
    checkpoints()?;
    many()?;
    tallies()?;
    viewer()?;
    planes()?;
    positions()?;
    both_ways()?;
    no_planes()?;
    shelf()?;
    shelf_of_zeros()?;
    Ok(stored.len())
}

fn main() -> ExitCode {
    match run() {
        Ok(n) => {
            println!("host in Rust: {n} bytes, a cut at each, the map is there");
            ExitCode::SUCCESS
        }
        Err(what) => {
            eprintln!("host in Rust: not so: {what}");
            ExitCode::FAILURE
        }
    }
}
