//! Presses that alter nothing (SCOPE 7.9): edits after which every cell is the same. They are accepted with their usual
//! answer, have no line and do not become active, also where 256 edits are active or the journal is full. Journals of the
//! older writer, which gave each of them a line, still open (6.14), and there these edits are active. In a map without
//! such lines an accepted undo always alters a cell (9.8).
use crate::altered;
use crate::bare::non_air;
use crate::chunk::STALE;
use crate::journals;
use crate::model::{self, Call, Edit, Lent, Record, Reference, Reply, ACTIVE, JOURNAL};
use crate::names;
use crate::presses::{idle, near, tapping, view, PRESSES};
use crate::product::Product;
use crate::report::Report;
use crate::rng::Rng;
use crate::seeds;
use crate::session::{begun, called, cuts, go_on, held, reopening, started, Calls};
use std::collections::BTreeMap;

/// How much a run does.
pub struct Amount {
    /// Presses on maps that lend cells of any kind.
    pub presses: u64,
    /// Sessions with many such presses, held to the reference model.
    pub sessions: u64,
    /// Journals of the older writer, cut at every byte.
    pub older: u64,
    /// Journals whose calls are made again.
    pub again: u64,
    /// Undos of which each must alter a cell.
    pub undos: u64,
}

pub const FULL: Amount = Amount {
    presses: 60_000,
    sessions: 1500,
    older: 200,
    again: 1200,
    undos: 120_000,
};

/// How many presses are made on one map.
const ON_ONE: u64 = 20;

/// Where a press is made.
const PLACES: [&str; 4] = [
    "with room",
    "at 256 active edits",
    "in a full journal",
    "at 256 active edits in a full journal",
];

/// Whose cells are lent.
const CELLS: [&str; 2] = ["on its own cells", "on other cells"];

/// A cause of a refusal, and what makes it.
pub type Cause = (&'static str, fn(&mut Rng, &mut Lent));

/// The causes of 21. All but those of the cells hold for a checkpoint too.
pub const CAUSES: [Cause; 6] = [
    ("a count above the cells", |rng, lent| {
        lent.record.count = rng.pick(&[lent.cells.len() as u32 + 1, u32::MAX])
    }),
    ("used bytes beyond the journal", |rng, lent| {
        lent.record.used = rng.pick(&[lent.journal.len() + 1, usize::MAX])
    }),
    ("257 active edits", |rng, lent| {
        lent.record.active = rng.pick(&[257, usize::MAX])
    }),
    ("a journal too long", |_, lent| {
        lent.journal.resize(JOURNAL + 1, b'?')
    }),
    ("cells of another number", |rng, lent| match rng.below(2) {
        0 => drop(lent.cells.pop()),
        _ => lent.cells.push(0),
    }),
    ("settings off the limits", |rng, lent| match rng.below(4) {
        0 => lent.record.site.seed = seeds::MOST + 1,
        1 => lent.record.site.world_height_blocks = 1,
        2 => lent.record.site.cz = 1_000_001,
        _ => lent.record.site.chunk_size = rng.pick(&[0, 65]),
    }),
];

/// What else a run is to meet.
const OTHERS: [&str; 21] = [
    "a full journal of 32,768 bytes",
    "a count that is not the cells'",
    "a journal that is not the record's",
    "a press that alters the journal's cells alone",
    "a press that alters the lent cells alone",
    "a near press with a line",
    "a near press refused with 24",
    "an older line of a set",
    "an older line of a column",
    "an older line of a batch",
    "an undo of a set that altered nothing",
    "an undo of a column that altered nothing",
    "an undo of a batch that altered nothing",
    "an undo in an older journal that alters a cell",
    "an older journal undone to the bottom",
    "an older journal undone to the bottom by 250 undos or more",
    "a journal made again, with such lines",
    "a journal made again, without",
    "an undo right after a press that altered nothing",
    "an undo right after a restore",
    "an undo in a reopened map",
];

/// Every kind that a run is to meet.
fn kinds() -> Vec<String> {
    let mut all: Vec<String> = OTHERS.iter().map(|kind| kind.to_string()).collect();
    all.extend(PLACES.map(|place| format!("a session {place}")));
    for (press, _) in PRESSES {
        for place in PLACES {
            all.extend(CELLS.map(|cells| format!("{press} {place} {cells}")));
        }
        all.extend(CAUSES.map(|(cause, _)| format!("{press} with {cause}")));
    }
    all
}

/// The name of an edit's call.
fn name(edit: &Edit) -> &'static str {
    match edit {
        Edit::Set(..) => "set",
        Edit::Column { .. } => "column",
        Edit::Batch(_) => "batch",
    }
}

/// How many bytes the line of a press would take; for one without an edit, those of the shortest line.
fn line_of(lent: &Lent, call: &Call) -> usize {
    model::edit_of(lent.record.site.chunk_size, call).map_or(10, |edit| edit.text().len() + 1)
}

/// How many bytes a session's journal has left.
pub fn room(lent: &Lent) -> usize {
    lent.journal.len() - lent.record.used
}

/// Where a press is made.
fn place(lent: &Lent, call: &Call) -> &'static str {
    let (crowded, full) = (lent.record.active == ACTIVE, room(lent) < line_of(lent, call));
    PLACES[usize::from(crowded) + 2 * usize::from(full)]
}

/// Whether a call is an edit that leaves these cells as they are.
fn stays(size: usize, cells: &[u16], call: &Call) -> bool {
    model::edit_of(size, call).is_some_and(|edit| {
        let mut laid = cells.to_vec();
        edit.lay(size, &mut laid);
        laid == cells
    })
}

/// The session of a reference model, lent so many bytes.
pub fn session_of(reference: &Reference, length: usize) -> Lent {
    let (cells, mut journal) = (reference.cells(), reference.bytes.clone());
    let record = Record {
        site: reference.site,
        count: non_air(&cells) as u32,
        used: journal.len(),
        active: reference.active.len(),
    };
    journal.resize(length, b'?');
    Lent {
        record,
        cells,
        journal,
    }
}

/// A sound record whose journal is another's: an edit does not read it.
fn estrange(rng: &mut Rng, lent: &mut Lent) {
    match rng.below(3) {
        0 => lent.record.active = (lent.record.active + rng.range(1, 255) as usize) % (ACTIVE + 1),
        1 => lent.record.used -= 1,
        _ => lent.journal[0] = rng.pick(b"\n?g"),
    }
}

/// An edit with an id that nothing else has, so that it alters every cell that it names.
pub fn altering(rng: &mut Rng, size: usize, id: u16) -> Call {
    let at: [usize; 3] = std::array::from_fn(|_| rng.below(size as u64) as usize);
    let [x, _, z] = at;
    match rng.below(4) {
        0 => Call::Column {
            x,
            z,
            height: rng.range(1, size as i64) as usize,
            id,
        },
        1 => Call::Batch(
            [x, at[1], z, id.into()]
                .map(|n| n as u32)
                .repeat(rng.range(1, 3) as usize),
        ),
        _ => Call::Set(at, id),
    }
}

/// A map without a line that alters nothing, of so many active edits; where `long`, its journal leaves less than 16 of
/// 32,768 bytes.
fn map(rng: &mut Rng, active: usize, long: bool) -> Reference {
    let mut reference = Reference::new(journals::site(rng), JOURNAL);
    let size = reference.site.chunk_size;
    let mut ids = 10_000..;
    let mut next = || ids.next().expect("an id for each edit");
    while reference.active.len() < active {
        reference.write(&altering(rng, size, next()));
        if rng.once_in(9) {
            reference.write(&Call::Undo);
        }
        // Among many edits, restores would take too many of them off again.
        if active < 40 && rng.once_in(6) {
            reference.write(&names::with_name(rng, names::good));
        }
    }
    while long && reference.bytes.len() + 16 <= JOURNAL {
        let set = Call::Set([0; 3], next());
        let pair = if active == ACTIVE {
            [Call::Undo, set]
        } else {
            [set, Call::Undo]
        };
        pair.iter().for_each(|call| assert_eq!(reference.write(call), 0));
    }
    reference
}

/// A run on one library, and how many times it met each kind.
struct Run<'a, C: Calls> {
    report: &'a mut Report,
    rng: Rng,
    calls: &'a C,
    met: BTreeMap<String, u64>,
}

/// Notes that a kind was met.
pub fn note(met: &mut BTreeMap<String, u64>, kind: String) {
    *met.entry(kind).or_insert(0) += 1;
}

/// Notes what an undo on a session's own cells takes off.
fn note_undo(met: &mut BTreeMap<String, u64>, lent: &Lent) {
    let used = lent.record.used;
    let read = model::read(&lent.journal[..used], used, |_| true).expect("a journal of its form");
    let Some((last, others)) = read.active.split_last() else {
        return;
    };
    note(
        met,
        if model::laid(&read.site, others) == lent.cells {
            format!("an undo of a {} that altered nothing", name(last))
        } else {
            "an undo in an older journal that alters a cell".into()
        },
    );
}

impl<C: Calls> Run<'_, C> {
    fn note(&mut self, kind: &str) {
        note(&mut self.met, kind.into());
    }

    /// Presses on maps of few edits or of 256, in journals with room or without, on cells of any kind.
    fn presses(&mut self, many: u64) {
        let mut done = 0;
        while done < many {
            let rng = &mut self.rng;
            let active = if rng.once_in(2) {
                ACTIVE
            } else {
                rng.below(9) as usize
            };
            let long = rng.once_in(20);
            let reference = map(rng, active, long);
            let own = session_of(&reference, if long { JOURNAL } else { reference.bytes.len() });
            for _ in 0..ON_ONE {
                self.on(&own, long);
                done += 1;
            }
        }
    }

    /// A press that alters nothing, the same on records that are not sound, one that is made for the map's own cells,
    /// and one that comes near it.
    fn on(&mut self, own: &Lent, long: bool) {
        let (kind, make) = self.rng.pick(&PRESSES);
        let mut lent = own.clone();
        if self.rng.once_in(2) {
            lent = altered::lend(&mut self.rng, std::slice::from_ref(own));
        }
        let (call, reply) = make(&mut self.rng, &view(&lent));
        if !long {
            let line = line_of(&lent, &call) as u64;
            let space = self.rng.below(line) + line * self.rng.below(2);
            lent.journal.resize(lent.record.used + space as usize, b'?');
        }
        if self.rng.once_in(4) {
            estrange(&mut self.rng, &mut lent);
            self.note("a journal that is not the record's");
        }
        self.press(kind, own, &lent, &call, &reply);
        self.unsound(kind, &lent, &call);
        self.made_for(own, &lent);
        let call = near(&mut self.rng, &view(&lent));
        let (left, reply) = called(self.report, self.calls, &lent, &call);
        if left.record.used > lent.record.used {
            self.note("a near press with a line");
        } else if reply.number == 24 {
            self.note("a near press refused with 24");
        }
    }

    /// One press that alters nothing: the reply is the one that was worked out with it, and all else is as it was.
    fn press(&mut self, kind: &str, own: &Lent, lent: &Lent, call: &Call, wanted: &Reply) {
        let (left, reply) = called(self.report, self.calls, lent, call);
        self.report.same(left == *lent && reply == *wanted, || {
            format!("{call:?}, a {kind}: the model replies {reply:?}, and not {wanted:?}")
        });
        let (size, cells) = (
            own.record.site.chunk_size,
            CELLS[usize::from(lent.cells != own.cells)],
        );
        self.note(&format!("{kind} {} {cells}", place(lent, call)));
        if room(lent) < line_of(lent, call) && lent.journal.len() == JOURNAL {
            self.note("a full journal of 32,768 bytes");
        }
        if lent.record.count as usize != non_air(&lent.cells) {
            self.note("a count that is not the cells'");
        }
        if model::edit_of(size, call).is_some() && !stays(size, &own.cells, call) {
            self.note("a press that alters the journal's cells alone");
        }
    }

    /// The same press on a record that is not sound: 21 comes first.
    fn unsound(&mut self, kind: &str, lent: &Lent, call: &Call) {
        let (cause, spoil) = self.rng.pick(&CAUSES);
        let mut bad = lent.clone();
        spoil(&mut self.rng, &mut bad);
        let (left, reply) = called(self.report, self.calls, &bad, call);
        self.report.same(left == bad && reply == Reply::refused(21), || {
            format!("{call:?}, a {kind} with {cause}: the model replies {reply:?}")
        });
        self.note(&format!("{kind} with {cause}"));
    }

    /// A press that alters nothing on the map's own cells, made on the lent ones.
    fn made_for(&mut self, own: &Lent, lent: &Lent) {
        let call = idle(&mut self.rng, &view(own));
        let (left, reply) = called(self.report, self.calls, lent, &call);
        if reply.altered > 0 && left.record.used > lent.record.used {
            self.note("a press that alters the lent cells alone");
        }
    }

    /// Sessions with many presses that alter nothing, from fresh maps and at 256 active edits. Some are cut at every byte.
    fn sessions(&mut self, many: u64) {
        for k in 0..many {
            let start = if k % 4 == 0 {
                let active = self.rng.pick(&[ACTIVE, ACTIVE, ACTIVE, 255, 250]);
                let mut reference = map(&mut self.rng, active, false);
                reference.lent = reference.bytes.len() + self.rng.pick(&[0, 0, 2, 60, 400]);
                Some((session_of(&reference, reference.lent), reference))
            } else {
                begun(self.report, &mut self.rng, self.calls)
            };
            let Some(start) = start else { continue };
            let turns = self.rng.below(40);
            let met = &mut self.met;
            let next = |rng: &mut Rng, lent: &Lent| {
                let call = tapping(rng, lent);
                if stays(lent.record.site.chunk_size, &lent.cells, &call) {
                    note(met, format!("a session {}", place(lent, &call)));
                }
                call
            };
            let states = held(self.report, &mut self.rng, self.calls, start, turns, next);
            if k % 20 == 1 {
                let next = &mut |rng: &mut Rng, lent: &Lent, done| (done < 6).then(|| tapping(rng, lent));
                cuts(self.report, &mut self.rng, self.calls, &states, next);
            }
        }
    }

    /// The states of a map that the older writer goes on with: lines that alter nothing are among the new ones.
    fn older_states(&mut self, mut reference: Reference, lines: usize) -> Vec<Reference> {
        let mut states = vec![reference.clone()];
        while states.len() <= lines {
            let call = tapping(&mut self.rng, &session_of(&reference, JOURNAL));
            let idle = reference.idle(&call);
            if reference.write(&call) != 0 || reference.bytes.len() == states[states.len() - 1].bytes.len() {
                continue;
            }
            if let (true, Some(edit)) = (idle, reference.active.last()) {
                self.note(&format!("an older line of a {}", name(edit)));
            }
            states.push(reference.clone());
        }
        states
    }

    /// The states of a map that the older writer goes on with from so many edits, lent some bytes more than it uses.
    fn older_map(&mut self, active: usize, lines: usize, more: usize) -> Vec<Lent> {
        let start = map(&mut self.rng, active, false);
        let states = self.older_states(start, lines);
        let length = states[states.len() - 1].bytes.len() + more;
        states.iter().map(|state| session_of(state, length)).collect()
    }

    /// Journals of the older writer, reopened, gone on with and undone to the bottom: short ones are cut at every byte,
    /// one in ten has some 256 active edits.
    fn older(&mut self, many: u64) {
        for k in 0..many {
            if k % 10 == 0 {
                self.crowded();
                continue;
            }
            let lines = self.rng.range(1, 12) as usize;
            let more = self.rng.pick(&[0, 12, 60, 1500, 1500, 1500]);
            let (states, met) = (self.older_map(0, lines, more), &mut self.met);
            let next = &mut |rng: &mut Rng, lent: &Lent, done: usize| to_the_bottom(met, rng, lent, done);
            cuts(self.report, &mut self.rng, self.calls, &states, next);
        }
    }

    /// A whole journal of the older writer of some 256 active edits.
    fn crowded(&mut self) {
        let first = self.older_map(250, 6, 1500).pop().expect("the last state");
        let (journal, used) = (first.journal.clone(), first.record.used);
        reopening(self.report, self.calls, &journal, used, first.cells.len());
        let mut cells = vec![STALE; first.cells.len()];
        if let Ok((record, ..)) = self.calls.reopen(&journal, used, &mut cells) {
            let second = Lent {
                record,
                cells,
                journal,
            };
            let met = &mut self.met;
            let next = &mut |rng: &mut Rng, lent: &Lent, done: usize| to_the_bottom(met, rng, lent, done);
            go_on(self.report, &mut self.rng, self.calls, [second, first], next);
        }
    }

    /// The calls that a journal's lines say, made again: the older writer writes the same bytes, and the present one
    /// does where no line alters nothing.
    fn again(&mut self, journal: &[u8]) {
        let held_bytes = journal.len();
        let read = model::read(journal, held_bytes, |_| true).expect("a journal of its form");
        let (site, told) = model::said(journal, held_bytes).expect("a journal of its form");
        let (mut older, mut idle, mut accepted) = (Reference::new(site, held_bytes), false, true);
        for call in &told {
            idle |= older.idle(call);
            accepted &= older.write(call) == 0;
        }
        let same = accepted
            && older.bytes == journal
            && older.active == read.active
            && older.checkpoints == read.checkpoints;
        self.report.same(same, || {
            format!(
                "the older writer leaves {} of {held_bytes} bytes",
                older.bytes.len()
            )
        });
        let cells = site.chunk_size.pow(3);
        let Some(lent) = started(self.report, self.calls, &site, cells, held_bytes) else {
            return;
        };
        let (start, mut calls) = ((lent, Reference::new(site, held_bytes)), told.iter());
        let next = |_: &mut Rng, _: &Lent| calls.next().expect("as many calls as lines").clone();
        let states = held(
            self.report,
            &mut self.rng,
            self.calls,
            start,
            told.len() as u64,
            next,
        );
        let last = &states[states.len() - 1];
        let written = last.journal[..last.record.used] == *journal;
        self.report.same(written != idle, || {
            format!("made again, {} of {held_bytes} bytes", last.record.used)
        });
        self.note(match idle {
            true => "a journal made again, with such lines",
            false => "a journal made again, without",
        });
    }

    /// Random journals, those of the older writer and those of the present one.
    fn all_again(&mut self, many: u64) {
        for k in 0..many {
            let journal = match k % 3 {
                0 => journals::valid(&mut self.rng),
                1 => {
                    let start = map(&mut self.rng, 0, false);
                    let lines = self.rng.range(1, 30) as usize;
                    self.older_states(start, lines)
                        .pop()
                        .expect("the last state")
                        .bytes
                }
                _ => {
                    let active = self.rng.below(40) as usize;
                    map(&mut self.rng, active, false).bytes
                }
            };
            self.again(&journal);
        }
    }

    /// A map without a line that alters nothing, as the library gives it: fresh, or reopened from a journal that is cut.
    fn begins(&mut self, reopened: bool) -> Option<Lent> {
        let active = if self.rng.once_in(40) {
            250
        } else {
            self.rng.below(12) as usize
        };
        let mut reference = map(&mut self.rng, active, false);
        let mut cells = vec![STALE; reference.site.chunk_size.pow(3)];
        let length = reference.bytes.len() + self.rng.pick(&[60, 2000, 2000]);
        let first = model::header(&reference.site).len() + 1;
        let cut = first + self.rng.below((reference.bytes.len() - first + 1) as u64) as usize;
        reference.bytes.resize(length, b'?');
        let mut journal = reference.bytes;
        let record = if reopened {
            self.calls.reopen(&journal, cut, &mut cells).ok()?.0
        } else {
            self.calls.fresh(&reference.site, &mut cells, &mut journal).ok()?
        };
        Some(Lent {
            record,
            cells,
            journal,
        })
    }

    /// Calls on such a map, each of which gets what the one before left, and then undos to the bottom. Answers how many
    /// undos were accepted: each must alter a cell, and tell it.
    fn alive(&mut self, reopened: bool) -> Option<u64> {
        let mut lent = self.begins(reopened)?;
        let (mut undone, mut tapped, mut restored) = (0, false, false);
        for k in 0.. {
            let bottom = k >= 40;
            let call = if bottom {
                Call::Undo
            } else {
                tapping(&mut self.rng, &lent)
            };
            let before = lent.cells.clone();
            let reply = self.calls.call(&mut lent, &call);
            if let (Call::Undo, 0) = (&call, reply.number) {
                undone += 1;
                self.report.same(lent.cells != before, || {
                    format!("an undo alters nothing, {:?}", lent.record)
                });
                self.report.same_reply(reply.altered >= 1, || {
                    format!("an undo tells that it altered nothing, {:?}", lent.record)
                });
                if tapped {
                    self.note("an undo right after a press that altered nothing");
                }
                if restored {
                    self.note("an undo right after a restore");
                }
                if reopened {
                    self.note("an undo in a reopened map");
                }
            } else if bottom {
                break;
            }
            let edit = matches!(call, Call::Set(..) | Call::Column { .. } | Call::Batch(_));
            tapped = reply.number == 0 && edit && lent.cells == before;
            restored = reply.number == 0 && matches!(call, Call::Restore(_));
        }
        Some(undone)
    }

    /// At least so many undos, in fresh maps and in reopened ones.
    fn undos(&mut self, many: u64) -> u64 {
        let (mut undone, mut maps) = (0, 0);
        while undone < many && maps < many {
            undone += self.alive(maps % 2 == 1).unwrap_or(0);
            maps += 1;
        }
        if undone < many {
            self.report.fail(format!("only {undone} undos were accepted"));
        }
        undone
    }
}

/// Six presses, and then undos as long as one is active and has room.
fn to_the_bottom(met: &mut BTreeMap<String, u64>, rng: &mut Rng, lent: &Lent, done: usize) -> Option<Call> {
    let call = if done < 6 { tapping(rng, lent) } else { Call::Undo };
    let Call::Undo = call else { return Some(call) };
    if lent.record.active > 0 && room(lent) >= 2 {
        note_undo(met, lent);
        return Some(call);
    }
    if done >= 6 && lent.record.active == 0 {
        note(met, "an older journal undone to the bottom".into());
        if done >= 256 {
            note(
                met,
                "an older journal undone to the bottom by 250 undos or more".into(),
            );
        }
    }
    (done < 6).then_some(call)
}

/// All of it on one library. A kind that was never met is a failure.
pub fn compare(report: &mut Report, calls: &impl Calls, amount: &Amount) {
    let before = report.comparisons;
    let mut run = Run {
        report,
        rng: Rng::new(13),
        calls,
        met: BTreeMap::new(),
    };
    run.presses(amount.presses);
    run.sessions(amount.sessions);
    run.older(amount.older);
    run.all_again(amount.again);
    let undone = run.undos(amount.undos);
    let met = run.met;
    let kinds = kinds();
    let rarest = kinds.iter().map(|kind| met.get(kind).unwrap_or(&0)).min();
    println!(
        "presses that alter nothing: {} comparisons, {} kinds, each met {} times or more, {undone} undos without older lines",
        report.comparisons - before,
        kinds.len(),
        rarest.unwrap_or(&0)
    );
    for kind in OTHERS {
        println!("  {kind}: {}", met.get(kind).unwrap_or(&0));
    }
    for kind in kinds.iter().filter(|kind| !met.contains_key(*kind)) {
        report.fail(format!("no call met '{kind}'"));
    }
}

pub fn run(report: &mut Report) {
    compare(report, &Product, &FULL);
}
