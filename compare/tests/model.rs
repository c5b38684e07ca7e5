//! The model against the scope's own example, against replies worked out by hand and against the
//! reference model, and the session driver on the model itself and on libraries with a slip each: it
//! must find every one of them. The checks of failing reads and writes, likewise, on a program made of
//! the model.
use compare::faults::{self, Program};
use compare::ground::Site;
use compare::model::{self, Call, Lent, Record, Reference, Refusal, Reply};
use compare::report::Report;
use compare::session::{compare, Amount, Calls};
use std::cell::Cell;
use std::path::Path;

const SMALL: Amount = Amount {
    journals: 3000,
    sessions: 120,
    cut_sessions: 12,
    hostile: 3000,
    surfaces: 25,
    altered: 3000,
};

/// The slip of a library that is otherwise the model.
#[derive(Clone, Copy, PartialEq)]
enum Slip {
    None,
    FreshGroundOnReopening,
    ReadsCutLine,
    LinesFromZero,
    CountsOneByteShort,
    UndoKeepsCount,
    UndoOnlyWrites,
    UndoLeavesTheLastSlab,
    UndoDropsLeaves,
    NoLineEnd,
    CountNeverCounted,
    EarlyFull,
    SetOutsideAccepted,
    RefusalChangesRecord,
    WritesBeforeTheTest,
    CountsTwiceOnceReopened,
    PreviousAfterTheWrite,
    PreviousOfAColumn,
    PreviousOnARefusal,
    /// A cell is told beside this refusal.
    AlteredBeside(u32),
    AlteredByHeight,
    AlteredByHeightOutside,
    AlteredByGroups,
    AlteredByGroupsOutside,
    AlteredByWrites,
    AlteredByCount,
    UndoAltersNothing,
    UndoAltersTheJournalsCells,
    AlteredInSixteenBits,
}

/// A library with a slip. It notes a reopening until the next fresh session, as no library should.
struct Double {
    slip: Slip,
    reopened: Cell<bool>,
}

impl Calls for Double {
    fn fresh(&self, site: &Site, cells: &mut [u16], journal: &mut [u8]) -> Result<Record, u32> {
        self.reopened.set(false);
        match model::fresh(site, cells, journal) {
            Ok(mut lent) => {
                cells.copy_from_slice(&lent.cells);
                journal.copy_from_slice(&lent.journal);
                if self.slip == Slip::CountNeverCounted {
                    lent.record.count = 0;
                }
                Ok(lent.record)
            }
            Err(number) => {
                if self.slip == Slip::WritesBeforeTheTest && number == 24 && !cells.is_empty() {
                    cells[0] = 1;
                }
                Err(number)
            }
        }
    }

    fn call(&self, lent: &mut Lent, call: &Call) -> Reply {
        if self.slip == Slip::EarlyFull && lent.record.active == 5 && !matches!(call, Call::Undo) {
            return Reply::refused(24);
        }
        let (mut next, mut reply) = model::replied(lent, call);
        if self.slip == Slip::SetOutsideAccepted && reply.number == 7 {
            reply.number = 0;
        }
        self.tell(lent, &next, call, &mut reply);
        if reply.number == 0 {
            self.leave(lent, &mut next, call);
        } else if self.slip == Slip::RefusalChangesRecord && reply.number == 24 {
            next.record.used += 1;
        }
        *lent = next;
        reply
    }

    fn reopen(
        &self,
        journal: &[u8],
        held: usize,
        cells: &mut [u16],
    ) -> Result<(Record, usize, usize), Refusal> {
        self.reopened.set(true);
        let mut text = journal.to_vec();
        if self.slip == Slip::ReadsCutLine && held < text.len() {
            text[held] = b'\n';
            return self.opened(&text, held + 1, cells);
        }
        self.opened(&text, held, cells)
    }

    fn committed(&self, journal: &[u8], held: usize) -> usize {
        let part = model::committed(journal, held).len();
        if self.slip == Slip::CountsOneByteShort {
            part.saturating_sub(1)
        } else {
            part
        }
    }
}

impl Double {
    /// The slips in what an accepted call leaves.
    fn leave(&self, lent: &Lent, next: &mut Lent, call: &Call) {
        let (undo, size) = (matches!(call, Call::Undo), lent.record.site.chunk_size);
        match self.slip {
            Slip::UndoKeepsCount if undo => next.record.count = lent.record.count,
            Slip::UndoOnlyWrites if undo => next.cells = lent.cells.clone(),
            Slip::UndoLeavesTheLastSlab if undo && size > 6 => {
                let last = size * size * (size - 1);
                next.cells[last..].copy_from_slice(&lent.cells[last..]);
            }
            Slip::UndoDropsLeaves if undo && size > 6 => {
                let middle = size * size * (size / 2);
                let slab = &mut next.cells[middle..middle + size * size];
                slab.iter_mut().filter(|c| **c == 9).for_each(|c| *c = 0);
            }
            Slip::CountsTwiceOnceReopened if self.reopened.get() => {
                next.record.active += usize::from(next.record.active > lent.record.active)
            }
            Slip::NoLineEnd if next.record.used > lent.record.used => {
                next.journal[next.record.used - 1] = b'?';
            }
            _ => {}
        }
    }

    /// The slips in what a call tells of the cells, from those lent to those left.
    fn tell(&self, lent: &Lent, next: &Lent, call: &Call, reply: &mut Reply) {
        let size = lent.record.site.chunk_size;
        let (line, full) = (next.record.used > lent.record.used, reply.number == 24);
        let outside = reply.number == 0 && model::edit_of(size, call).is_none();
        match (self.slip, call) {
            (Slip::PreviousAfterTheWrite, Call::Set(_, id)) if line => reply.previous = *id,
            (Slip::PreviousOfAColumn, Call::Column { x, z, .. }) if line => {
                reply.previous = lent.cells[x + z * size * size]
            }
            (Slip::PreviousOnARefusal, Call::Set([x, y, z], _)) if full => {
                reply.previous = lent.cells[x + y * size + z * size * size]
            }
            (Slip::AlteredBeside(number), _) if reply.number == number => reply.altered = 1,
            (Slip::AlteredByHeight, Call::Column { height, .. }) if line => {
                reply.altered = (*height).min(size)
            }
            (Slip::AlteredByHeightOutside, Call::Column { height, .. }) if outside => {
                reply.altered = (*height).min(size)
            }
            (Slip::AlteredByGroups, Call::Batch(_)) => reply.altered = reply.written,
            (Slip::AlteredByGroupsOutside, Call::Batch(numbers)) if outside => {
                reply.altered = numbers.len() / 4
            }
            (Slip::AlteredByWrites, Call::Batch(numbers)) if line => {
                reply.altered = altering_writes(lent, numbers)
            }
            (Slip::AlteredByCount, _) if line => {
                reply.altered = next.record.count.abs_diff(lent.record.count) as usize
            }
            (Slip::UndoAltersNothing, Call::Undo) => reply.altered = 0,
            (Slip::UndoAltersTheJournalsCells, Call::Undo) if line => {
                let own = model::reopen(&lent.journal, lent.record.used, lent.cells.len());
                reply.altered = model::differing(&own.expect("an undone journal").cells, &next.cells)
            }
            (Slip::AlteredInSixteenBits, _) => reply.altered %= 65_536,
            _ => {}
        }
    }

    fn opened(
        &self,
        journal: &[u8],
        held: usize,
        cells: &mut [u16],
    ) -> Result<(Record, usize, usize), Refusal> {
        let mut opened = model::reopen(journal, held, cells.len()).map_err(|mut r| {
            if self.slip == Slip::LinesFromZero && r.line > 0 {
                r.line -= 1;
            }
            r
        })?;
        if self.slip == Slip::FreshGroundOnReopening {
            opened.cells = model::laid(&opened.record.site, &[]);
        }
        cells.copy_from_slice(&opened.cells);
        Ok((opened.record, opened.lines, opened.trailing))
    }
}

/// How many groups of a batch put another id than the one that they find: a cell set and set back counts twice.
fn altering_writes(lent: &Lent, numbers: &[u32]) -> usize {
    let (size, mut cells) = (lent.record.site.chunk_size as u32, lent.cells.clone());
    let inside = numbers
        .chunks_exact(4)
        .filter(|g| g[..3].iter().all(|&c| c < size));
    inside
        .filter(|g| {
            let at = (g[0] + g[1] * size + g[2] * size * size) as usize;
            std::mem::replace(&mut cells[at], g[3] as u16) != g[3] as u16
        })
        .count()
}

/// The differences that a slip makes: those of whole replies, and all others.
fn differences(slip: Slip) -> (u64, u64) {
    let mut report = Report::quiet();
    let reopened = Cell::new(false);
    compare(&mut report, &Double { slip, reopened }, &SMALL);
    (report.of_replies, report.differences - report.of_replies)
}

#[test]
fn the_example_of_the_scope() {
    let journal = b"G\t0\t4096\t256\t2\t0\t128\t0\nS\t0\t0\t0\t0\nC\t1\t0\t2\t8\nU\nS\t1";
    assert_eq!(model::report(journal), "OK\t4\t1\t7\t3\n0\t5\n5\t5\n5\t5\n5\t5\n");
}

#[test]
fn refusals_of_the_program() {
    let no = |text: &str| model::report(text.as_bytes());
    assert_eq!(no(""), "NO\t10\t0\n");
    assert_eq!(no("G\t0\t24\t256\t17\t0\t0\t0\nX\n"), "NO\t6\t0\n");
    assert_eq!(no("G\t10000001\t24\t256\t17\t0\t0\t0\nX\n"), "NO\t2\t0\n");
    assert_eq!(no("G\t-0\t24\t256\t1\t0\t0\t0\n"), "NO\t11\t1\n");
    assert_eq!(no("G\t9999999999\t24\t256\t1\t0\t0\t0\n"), "NO\t2\t0\n");
    assert_eq!(no("G\t99999999999\t24\t256\t1\t0\t0\t0\n"), "NO\t11\t1\n");
    assert_eq!(no("G\t0\t24\t256\t1\t0\t0\t0\nU\n"), "NO\t12\t2\n");
    assert_eq!(no("G\t0\t24\t256\t1\t0\t0\t0\nC\t0\t0\t2\t1\n"), "NO\t12\t2\n");
    assert_eq!(no(&"\n".repeat(32_769)), "NO\t9\t0\n");
}

#[test]
fn the_model_is_the_reference_model() {
    assert_eq!(differences(Slip::None), (0, 0));
}

#[test]
fn every_slip_is_found() {
    let slips = [
        ("fresh ground on reopening", Slip::FreshGroundOnReopening),
        ("reads a line without its LF", Slip::ReadsCutLine),
        ("lines from zero", Slip::LinesFromZero),
        ("counts one byte short", Slip::CountsOneByteShort),
        ("undo keeps the count", Slip::UndoKeepsCount),
        ("undo only writes", Slip::UndoOnlyWrites),
        ("undo leaves the last slab", Slip::UndoLeavesTheLastSlab),
        ("undo drops the leaves of a slab", Slip::UndoDropsLeaves),
        ("no line end", Slip::NoLineEnd),
        ("count never counted", Slip::CountNeverCounted),
        ("full too early", Slip::EarlyFull),
        ("set outside accepted", Slip::SetOutsideAccepted),
        ("refusal changes the record", Slip::RefusalChangesRecord),
        ("writes before the test", Slip::WritesBeforeTheTest),
        // The first tablet and the next have it alike: only the model has not.
        ("active twice once reopened", Slip::CountsTwiceOnceReopened),
    ];
    for (name, slip) in slips {
        assert!(differences(slip).1 > 0, "{name} was not found");
    }
}

/// Nothing but the comparison of whole replies finds these.
#[test]
fn every_slip_of_a_reply_is_found() {
    let slips = [
        ("the id after the write", Slip::PreviousAfterTheWrite),
        ("an id of a column", Slip::PreviousOfAColumn),
        ("an id with a refusal", Slip::PreviousOnARefusal),
        ("a cell altered with 7", Slip::AlteredBeside(7)),
        ("a cell altered with 8", Slip::AlteredBeside(8)),
        ("a cell altered with 21", Slip::AlteredBeside(21)),
        ("a cell altered with 22", Slip::AlteredBeside(22)),
        ("a cell altered with 23", Slip::AlteredBeside(23)),
        ("a cell altered with 24", Slip::AlteredBeside(24)),
        ("a column's height for the altered cells", Slip::AlteredByHeight),
        ("the height of a column outside", Slip::AlteredByHeightOutside),
        ("a batch's groups for the altered cells", Slip::AlteredByGroups),
        ("the groups of a batch outside", Slip::AlteredByGroupsOutside),
        ("a cell set and set back counts", Slip::AlteredByWrites),
        ("the count's move for the altered cells", Slip::AlteredByCount),
        ("an undo alters nothing", Slip::UndoAltersNothing),
        (
            "an undo tells of the journal's cells",
            Slip::UndoAltersTheJournalsCells,
        ),
        ("altered cells in 16 bits", Slip::AlteredInSixteenBits),
    ];
    for (name, slip) in slips {
        let (of_replies, others) = differences(slip);
        assert!(of_replies > 0, "{name}: not found");
        assert_eq!(others, 0, "{name}: found elsewhere");
    }
}

/// Eight cells of water (5), as in the scope's example, and their lent journal's length.
const SEA: Site = Site {
    seed: 0,
    sea_level: 4096,
    world_height_blocks: 256,
    chunk_size: 2,
    cx: 0,
    cy: 128,
    cz: 0,
};
const LENGTH: usize = 200;

fn sea() -> Lent {
    let lent = model::fresh(&SEA, &[0; 8], &[0; LENGTH]).expect("settings within the limits");
    assert_eq!(lent.cells, [5; 8]);
    lent
}

fn column([x, z]: [usize; 2], height: usize, id: u16) -> Call {
    Call::Column { x, z, height, id }
}

/// What an accepted call tells: the groups written, the id replaced, the cells altered.
fn tells(written: usize, previous: u16, altered: usize) -> Reply {
    Reply {
        number: 0,
        line: 0,
        written,
        previous,
        altered,
    }
}

/// Calls on eight cells of water, with replies worked out by hand.
fn worked_out() -> Vec<(Call, Reply)> {
    vec![
        (Call::Set([0, 0, 0], 9), tells(0, 5, 1)),
        (Call::Set([0, 0, 0], 9), tells(0, 9, 0)),
        (Call::Set([0, 0, 0], 0), tells(0, 9, 1)),
        // The first cell is air and the one above it water.
        (column([0, 0], 7, 5), tells(0, 0, 1)),
        (column([0, 0], 0, 3), tells(0, 0, 0)),
        (column([1, 1], usize::MAX, 3), tells(0, 0, 2)),
        (column([1, 1], 2, 3), tells(0, 0, 0)),
        // Two cells are set and set back, a third one holds its 5 already.
        (
            Call::Batch(vec![
                1, 0, 1, 9, 1, 1, 1, 0, 0, 1, 0, 5, 1, 1, 1, 3, 1, 0, 1, 65_539,
            ]),
            tells(5, 0, 0),
        ),
        // (1, 0, 0) is set and set back; (0, 1, 0) is set twice; (1, 1, 1) holds its 3 already; one lies outside.
        (
            Call::Batch(vec![
                1, 0, 0, 8, 0, 1, 0, 8, 1, 0, 0, 65_541, 2, 0, 0, 1, 0, 1, 0, 7, 1, 1, 1, 3, 9,
            ]),
            tells(5, 0, 1),
        ),
        (Call::Batch(vec![0, 0, 0, 6, 0, 0, 1, 6]), tells(2, 0, 2)),
        // Without a line.
        (column([2, 0], 1, 9), tells(0, 0, 0)),
        (Call::Batch(vec![0, 0, 2, 1, 7]), tells(0, 0, 0)),
        (Call::Batch(vec![]), tells(0, 0, 0)),
        // Refused.
        (Call::Set([0, 2, 0], 1), Reply::refused(7)),
        (Call::Batch(vec![0; 68]), Reply::refused(8)),
        // What altered a cell is undone, and nothing else: the two batches, the columns (two cells, then 5 to the air
        // that it covered), and the sets: 0 to 9, 9 to 5.
        (Call::Undo, tells(0, 0, 2)),
        (Call::Undo, tells(0, 0, 1)),
        (Call::Undo, tells(0, 0, 2)),
        (Call::Undo, tells(0, 0, 1)),
        (Call::Undo, tells(0, 0, 1)),
        (Call::Undo, tells(0, 0, 1)),
        (Call::Undo, Reply::refused(23)),
    ]
}

/// The journal of these calls: a line for each call that alters a cell.
const WORKED_OUT: &str = "G\t0\t4096\t256\t2\t0\t128\t0
S\t0\t0\t0\t9
S\t0\t0\t0\t0
C\t0\t0\t2\t5
C\t1\t1\t2\t3
B\t5\t1\t0\t0\t8\t0\t1\t0\t8\t1\t0\t0\t5\t0\t1\t0\t7\t1\t1\t1\t3
B\t2\t0\t0\t0\t6\t0\t0\t1\t6
U
U
U
U
U
U
";

#[test]
fn replies_worked_out_by_hand() {
    let (mut lent, mut reference) = (sea(), Reference::new(SEA, LENGTH));
    for (call, wanted) in worked_out() {
        let (left, reply) = model::replied(&lent, &call);
        assert_eq!(reply, wanted, "{call:?}");
        assert_eq!(reference.reply(&call), wanted, "the reference model on {call:?}");
        lent = left;
    }
    assert_eq!(&lent.journal[..lent.record.used], WORKED_OUT.as_bytes());
    assert_eq!(reference.bytes, WORKED_OUT.as_bytes());
}

#[test]
fn refusals_tell_nothing_of_the_cells() {
    let mut lent = model::replied(&sea(), &Call::Set([1, 1, 1], 9)).0;
    lent.journal.truncate(lent.record.used);
    for call in [Call::Set([1, 1, 1], 7), column([0, 0], 2, 7), Call::Undo] {
        assert_eq!(model::replied(&lent, &call).1, Reply::refused(24), "{call:?}");
    }
    // The id that is there needs no room.
    assert_eq!(model::replied(&lent, &Call::Set([1, 1, 1], 9)).1, tells(0, 9, 0));
    lent.record.count = 9;
    assert_eq!(
        model::replied(&lent, &Call::Set([1, 1, 1], 7)).1,
        Reply::refused(21)
    );
    lent.record.count = 8;
    lent.journal[0] = b'g';
    assert_eq!(model::replied(&lent, &Call::Undo).1, Reply::refused(22));
}

/// The journal sets (0, 0, 0) to 9; the lent cells are others.
#[test]
fn replies_are_of_the_lent_cells() {
    let own = model::replied(&sea(), &Call::Set([0, 0, 0], 9)).0;
    let with = |cells: [u16; 8], call: Call| {
        let lent = Lent {
            cells: cells.to_vec(),
            ..own.clone()
        };
        model::replied(&lent, &call).1
    };
    // Back to eight cells of water: its own cells, then water, each id one off, one id off, air.
    assert_eq!(with([9, 5, 5, 5, 5, 5, 5, 5], Call::Undo), tells(0, 0, 1));
    assert_eq!(with([5; 8], Call::Undo), tells(0, 0, 0));
    assert_eq!(with([10, 6, 6, 6, 6, 6, 6, 6], Call::Undo), tells(0, 0, 8));
    assert_eq!(with([9, 5, 5, 5, 5, 5, 5, 6], Call::Undo), tells(0, 0, 2));
    assert_eq!(with([0; 8], Call::Undo), tells(0, 0, 8));
    // (1, 0, 1) is the sixth cell.
    let cells = [1, 2, 3, 4, 65_535, 65_534, 7, 8];
    assert_eq!(with(cells, Call::Set([1, 0, 1], 5)), tells(0, 65_534, 1));
    assert_eq!(with(cells, column([1, 0], 2, 4)), tells(0, 0, 1));
    let batch = Call::Batch(vec![0, 0, 1, 1, 0, 1, 1, 7, 0, 0, 1, 65_535]);
    assert_eq!(with(cells, batch), tells(3, 0, 0));
}

/// A map of the older writer: a set onto water, a column of height 0, a cell that is set and set back, and one line that
/// alters a cell.
const OLDER: &str = "G\t0\t4096\t256\t2\t0\t128\t0
S\t1\t0\t0\t5
C\t0\t1\t0\t7
B\t2\t1\t1\t1\t9\t1\t1\t1\t5
S\t0\t0\t0\t9
";

fn older_calls() -> [Call; 4] {
    [
        Call::Set([1, 0, 0], 5),
        column([0, 1], 0, 7),
        Call::Batch(vec![1, 1, 1, 9, 1, 1, 1, 5]),
        Call::Set([0, 0, 0], 9),
    ]
}

#[test]
fn older_journals_worked_out_by_hand() {
    let opened = model::reopen(OLDER.as_bytes(), OLDER.len(), 8).expect("an older journal opens");
    let (record, cells) = (opened.record, opened.cells);
    assert_eq!((record.active, record.count, opened.lines), (4, 8, 5));
    assert_eq!(cells, [9, 5, 5, 5, 5, 5, 5, 5]);
    let mut journal = OLDER.as_bytes().to_vec();
    journal.resize(OLDER.len() + 8, 0);
    let mut lent = Lent {
        record,
        cells,
        journal,
    };
    // A press that alters nothing has no line here either; the eight bytes that are left are for the undos.
    let calls = [
        (Call::Set([0, 0, 0], 9), tells(0, 9, 0)),
        (Call::Set([0, 0, 0], 8), Reply::refused(24)),
        (Call::Undo, tells(0, 0, 1)),
        (Call::Undo, tells(0, 0, 0)),
        (Call::Undo, tells(0, 0, 0)),
        (Call::Undo, tells(0, 0, 0)),
        (Call::Undo, Reply::refused(23)),
    ];
    for (call, wanted) in calls {
        let (left, reply) = model::replied(&lent, &call);
        assert_eq!(reply, wanted, "{call:?}");
        lent = left;
    }
    assert_eq!(lent.journal, (OLDER.to_string() + "U\nU\nU\nU\n").into_bytes());
    assert_eq!(lent.cells, [5; 8]);
}

#[test]
fn the_older_writer_and_the_present_one() {
    let [mut older, mut present] = [(); 2].map(|()| Reference::new(SEA, OLDER.len()));
    for call in older_calls() {
        assert_eq!((older.write(&call), present.call(&call)), (0, 0), "{call:?}");
    }
    assert_eq!(older.bytes, OLDER.as_bytes());
    assert_eq!(older.active.len(), 4);
    assert_eq!(present.bytes, b"G\t0\t4096\t256\t2\t0\t128\t0\nS\t0\t0\t0\t9\n");
    assert_eq!(present.active.len(), 1);
    let (site, said) = model::said(OLDER.as_bytes(), OLDER.len()).expect("an older journal opens");
    assert_eq!(site, SEA);
    assert_eq!(format!("{said:?}"), format!("{:?}", older_calls()));
}

/// At 256 active edits and without a byte left: 21, 7 and 8 come before a press that alters nothing, 24 after it.
#[test]
fn the_order_of_the_tests() {
    let mut lent = sea();
    lent.journal.truncate(lent.record.used);
    lent.record.active = 256;
    let many = |groups: usize| Call::Batch([1, 1, 1, 5].repeat(groups));
    let calls = [
        (Call::Set([1, 1, 1], 5), tells(0, 5, 0)),
        (column([1, 1], 2, 5), tells(0, 0, 0)),
        (column([1, 1], 0, 6), tells(0, 0, 0)),
        (many(16), tells(16, 0, 0)),
        (Call::Set([1, 1, 1], 6), Reply::refused(24)),
        (column([1, 1], 1, 6), Reply::refused(24)),
        (Call::Batch(vec![1, 1, 1, 5, 0, 0, 0, 6]), Reply::refused(24)),
        (Call::Set([1, 1, 2], 5), Reply::refused(7)),
        (many(17), Reply::refused(8)),
    ];
    for (call, wanted) in calls {
        assert_eq!(model::replied(&lent, &call), (lent.clone(), wanted), "{call:?}");
        let mut bad = lent.clone();
        bad.record.active = 257;
        assert_eq!(
            model::replied(&bad, &call),
            (bad.clone(), Reply::refused(21)),
            "{call:?}"
        );
    }
}

/// The differences that the checks of failing reads and writes find in a program with a slip.
fn faults_found(slip: &str) -> u64 {
    let mut report = Report::quiet();
    let program = Program {
        path: Path::new(env!("CARGO_BIN_EXE_double")),
        words: &[slip],
    };
    faults::compare(&mut report, &program, 200);
    report.differences
}

#[test]
fn the_program_without_a_slip() {
    assert_eq!(faults_found("none"), 0);
}

#[test]
fn every_slip_of_the_program_is_found() {
    let slips = [
        "a failed read ends the input",
        "a failed read after some bytes ends the input",
        "a failed read is reported and its bytes are opened",
        "an interrupted read ends the input",
        "an interrupted read fails",
        "an interrupted read begins anew",
        "a short write is taken for a whole one",
        "an interrupted write fails",
        "a failed write is not reported",
        "a checkpoint is refused",
        "a restore has a number of its own",
    ];
    for slip in slips {
        assert!(faults_found(slip) > 0, "{slip}: not found");
    }
}
