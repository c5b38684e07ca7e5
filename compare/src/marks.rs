//! Checkpoints by name: a checkpoint remembers the active edits under a name, and a restore makes those active that the
//! name remembers. Sessions of all six calls are held to the reference model and cut at every byte, where the next
//! tablet must have each name with what it remembers; names, records and journals of any kind are tried on both calls,
//! and every set of causes that refuses them.
use crate::idle::{note, room, session_of, Cause, CAUSES};
use crate::journals;
use crate::marked::{add, alike, both, fill, grow, joined, map, written, ALIKE, FOREIGN, SPOILT};
use crate::meets::{note_all, note_call, note_cut, Met, CUTS, SESSIONS};
use crate::model::{self, Call, Lent, Name, Reference, Refusal, Reply, ACTIVE, JOURNAL, NAMES};
use crate::names::{self, marking};
use crate::product::Product;
use crate::report::Report;
use crate::rng::Rng;
use crate::session::{begun, called, cut, go_on, held, others, reopening, spoil, started, torn, Calls};
use crate::stack;

/// How much a run does.
pub struct Amount {
    /// Sessions of all six calls, held to the reference model.
    pub sessions: u64,
    /// Sessions that are cut at every byte.
    pub cut: u64,
    /// Sessions at 256 active edits or in journals of 32,768 bytes, with 16 names, that are cut.
    pub crowded: u64,
    /// Calls on records, cells and journals that do not belong together.
    pub hostile: u64,
    /// Stored journals, of each kind of line.
    pub stored: u64,
    /// How often each name, each end of a journal and each set of causes is tried.
    pub rounds: u64,
    /// Chunks at the surface.
    pub surfaces: u64,
}

pub const FULL: Amount = Amount {
    sessions: 3000,
    cut: 1000,
    crowded: 30,
    hostile: 120_000,
    stored: 400,
    rounds: 20,
    surfaces: 100,
};

/// What chunks at the surface are to meet.
const SURFACES: [&str; 3] = [
    "a restore of a chunk with trees",
    "a restore on other cells",
    "a restore that alters more than 65,535 cells",
];

/// Lines that are of their form, and where they lie decides.
const STORED: [&str; 9] = [
    "a restore of an unknown name",
    "a seventeenth name",
    "an undo behind a restore to no edit",
    "an edit behind a restore to 256 active edits",
    "a name moved at 16 names",
    "a checkpoint at 256 active edits",
    "a restore at 256 active edits",
    "an undo behind a restore",
    "an undo behind a checkpoint",
];

/// The two calls, and the order of their refusals.
const ORDERS: [(&str, [u32; 5]); 2] = [
    ("checkpoint", [21, 25, 22, 27, 24]),
    ("restore", [21, 25, 22, 26, 24]),
];

/// How a line meets the journal's end.
const ENDS: [&str; 4] = [
    "fits to the byte",
    "is a byte too long",
    "fits to the byte into 32,768",
    "is a byte too long for 32,768",
];

/// Every kind that a run is to meet.
fn kinds() -> Vec<String> {
    let lists = [&SESSIONS[..], &CUTS, &SURFACES, &STORED];
    let mut all: Vec<String> = lists.concat().iter().map(|kind| kind.to_string()).collect();
    for (call, order) in ORDERS {
        all.push(format!("a hostile {call}: 0"));
        all.extend(order.map(|number| format!("a hostile {call}: {number}")));
        all.extend((1..32).map(|set| format!("{call} with {:?}", chosen(&order, set))));
        all.extend(FOREIGN.map(|(cause, _)| format!("{call} with {cause}")));
        all.extend(CAUSES.map(|(cause, _)| format!("{call} with {cause}")));
    }
    all.extend(FOREIGN.map(|(cause, _)| format!("undo with {cause}")));
    all.extend(ALIKE.map(|(kind, _)| kind.to_string()));
    for letter in ["M", "R"] {
        all.extend(SPOILT.map(|(kind, _)| format!("{letter}: {kind}")));
        all.extend(ENDS.map(|end| format!("an {letter} line that {end}")));
    }
    all
}

/// The numbers that a set of causes has, in their order.
fn chosen(order: &[u32; 5], set: u32) -> Vec<u32> {
    let has = |i: &usize| set >> i & 1 == 1;
    (0..5).filter(has).map(|i| order[i]).collect()
}

/// A session's states, and of each the names with the number of the state that they remember.
struct Told {
    states: Vec<Lent>,
    names: Vec<Vec<(Name, usize)>>,
}

impl Told {
    fn last(&self) -> &Lent {
        self.states.last().expect("a session has a state")
    }

    /// The number of the last state whose lines are whole in so many bytes.
    fn whole(&self, q: usize) -> Option<usize> {
        self.states.iter().rposition(|state| state.record.used <= q)
    }
}

/// The names after each of a session's calls: an accepted checkpoint remembers the state that it was made on.
fn told(states: Vec<Lent>, calls: &[Call]) -> Told {
    let mut names: Vec<Vec<(Name, usize)>> = vec![vec![]];
    for (k, call) in calls.iter().enumerate() {
        let mut known = names[k].clone();
        let accepted = states[k + 1].record.used > states[k].record.used;
        if let (Call::Checkpoint(name), true) = (call, accepted) {
            known.retain(|(other, _)| other != name);
            known.push((name.clone(), k));
        }
        names.push(known);
    }
    Told { states, names }
}

/// Restores of all names that are known, one after the other, and then six calls or more.
fn all_names(rng: &mut Rng, lent: &Lent, done: usize) -> Option<Call> {
    let known = model::checkpoints(lent).0;
    match known.get(done) {
        Some((name, _)) => Some(Call::Restore(name.clone())),
        None => (done < known.len() + 6).then(|| marking(rng, lent)),
    }
}

/// A run on one library, and how many times it met each kind.
struct Run<'a, C: Calls> {
    report: &'a mut Report,
    rng: Rng,
    calls: &'a C,
    met: Met,
}

impl<C: Calls> Run<'_, C> {
    fn note(&mut self, kind: &str) {
        note(&mut self.met, kind.into());
    }

    /// A call that must get this number; a refused one leaves all as it was. Answers what it leaves.
    fn expect(&mut self, lent: &Lent, call: &Call, number: u32) -> Lent {
        let (left, reply) = called(self.report, self.calls, lent, call);
        let kept = number == 0 || (left == *lent && reply == Reply::refused(number));
        self.report.same(reply.number == number && kept, || {
            format!(
                "{call:?} on {:?}: the model replies {reply:?}, and not {number}",
                lent.record
            )
        });
        left
    }

    /// A map of so many active edits and names, with so many bytes left.
    fn start(&mut self, active: usize, names: usize, left: usize) -> (Lent, Reference) {
        let mut reference = map(&mut self.rng, active, names);
        reference.lent = (reference.bytes.len() + left).min(JOURNAL);
        (session_of(&reference, reference.lent), reference)
    }

    /// So many calls on a session that began without a name, or with some.
    fn session(&mut self, start: (Lent, Reference), turns: u64) -> Told {
        let (met, mut made) = (&mut self.met, vec![]);
        let next = |rng: &mut Rng, lent: &Lent| {
            let call = marking(rng, lent);
            note_call(met, lent, &call);
            made.push(call.clone());
            call
        };
        let states = held(self.report, &mut self.rng, self.calls, start, turns, next);
        told(states, &made)
    }

    /// Sessions from fresh maps, from maps of many edits and names, and near the journal's end.
    fn sessions(&mut self, many: u64) {
        for k in 0..many {
            let start = if k % 3 == 0 {
                begun(self.report, &mut self.rng, self.calls)
            } else {
                let rng = &mut self.rng;
                let active = rng.pick(&[256, 256, 255, 250, 0, 5, 12]);
                let names = rng.pick(&[0, 3, 14, 15, 16, 16]);
                let near = rng.below(21) as usize;
                let left = rng.pick(&[near, near, 60, 400, 2000]);
                Some(self.start(active, names, left))
            };
            let Some(start) = start else { continue };
            let turns = self.rng.below(40);
            self.session(start, turns);
        }
    }

    /// Sessions from fresh maps, cut at every byte.
    fn cuts(&mut self, many: u64) {
        let mut done = 0;
        while done < many {
            let Some(start) = begun(self.report, &mut self.rng, self.calls) else {
                continue;
            };
            let turns = self.rng.below(22);
            let told = self.session(start, turns);
            for q in 0..=told.last().record.used {
                self.cut_at(&told, q);
            }
            done += 1;
        }
    }

    /// A session cut at a byte and reopened. At one cut in three each name is restored, at one in eight both tablets go
    /// on.
    fn cut_at(&mut self, told: &Told, q: usize) {
        let (last, at) = (told.last(), told.whole(q));
        let torn = torn(&mut self.rng, last, q);
        let whole = at.map_or(0, |at| told.states[at].record.used);
        note_cut(&mut self.met, last, whole, q, &torn);
        let both = cut(self.report, self.calls, &told.states, q, torn);
        let (Some(both), Some(at)) = (both, at) else {
            return;
        };
        if self.rng.once_in(3) {
            self.each_name(told, at, &both);
        }
        if self.rng.once_in(8) {
            self.note_taken_over(&both[1]);
            go_on(self.report, &mut self.rng, self.calls, both, &mut all_names);
        }
    }

    fn note_taken_over(&mut self, first: &Lent) {
        let near = first.record.used + 200 > JOURNAL;
        note_all(
            &mut self.met,
            &[
                (
                    "a map of 16 names taken over",
                    model::checkpoints(first).0.len() == NAMES,
                ),
                (
                    "a map of 256 active edits taken over",
                    first.record.active == ACTIVE,
                ),
                ("a map of 32,768 bytes taken over", near),
            ],
        );
    }

    /// Each name that the session told of, restored on both tablets: cells, count and active edits are those of the
    /// state that it remembers. The name of an M line that was cut off is unknown, unless an earlier line has it.
    fn each_name(&mut self, told: &Told, at: usize, [second, first]: &[Lent; 2]) {
        for (name, of) in &told.names[at] {
            let wanted = &told.states[*of];
            let fits = room(first) >= name.0.len() + 3;
            for lent in [first, second] {
                let call = Call::Restore(name.clone());
                let left = self.expect(lent, &call, if fits { 0 } else { 24 });
                let back = left.cells == wanted.cells
                    && left.record.count == wanted.record.count
                    && left.record.active == wanted.record.active;
                self.report.same(back || !fits, || {
                    format!("{call:?} does not bring {:?} back", wanted.record)
                });
            }
            let moved = told.names[..at].iter().flatten();
            let moved = moved.filter(|(other, k)| other == name && k != of).count() > 0;
            note_all(
                &mut self.met,
                &[
                    ("a name restored on both tablets", fits),
                    (
                        "a name restored on both tablets to no edit",
                        fits && wanted.record.active == 0,
                    ),
                    (
                        "a name restored on both tablets to other cells",
                        fits && wanted.cells != first.cells,
                    ),
                    ("a moved name restored on both tablets", fits && moved),
                ],
            );
        }
        let later = told.names.get(at + 1).and_then(|names| names.last());
        if let Some((name, _)) = later.filter(|(name, _)| told.names[at].iter().all(|(k, _)| k != name)) {
            let call = Call::Restore(name.clone());
            self.expect(first, &call, 26);
            self.expect(second, &call, 26);
            self.note("a name of a cut M line, unknown on both tablets");
        }
    }

    /// Sessions from maps of 16 names at 256 active edits, and one in five in journals of 32,768 bytes, cut at each
    /// byte that they wrote.
    fn crowded(&mut self, many: u64) {
        for k in 0..many {
            let start = if k % 5 == 0 {
                let mut reference = alike(&mut self.rng, ALIKE[0].1).0;
                fill(&mut self.rng, &mut reference, JOURNAL - 150);
                (session_of(&reference, JOURNAL), reference)
            } else {
                let left = self.rng.pick(&[60, 400]);
                self.start(ACTIVE, NAMES, left)
            };
            let states = self.session(start, 8).states;
            let (from, last) = (states[0].record.used, states[states.len() - 1].clone());
            for q in from..=last.record.used {
                let torn = torn(&mut self.rng, &last, q);
                let both = cut(self.report, self.calls, &states, q, torn);
                if let (Some(both), true) = (both, self.rng.once_in(8)) {
                    self.note_taken_over(&both[1]);
                    go_on(self.report, &mut self.rng, self.calls, both, &mut all_names);
                }
            }
        }
    }

    /// Names of every kind, on a map of some names and on one of 16: each bad one gets 25.
    fn names(&mut self) {
        for many in [5, NAMES] {
            let active = self.rng.below(4) as usize;
            let (lent, reference) = self.start(active, many, 19);
            for (name, good) in names::hostile() {
                let known = reference.checkpoints.find(&name).is_some();
                let [checkpoint, restore] = both(&name);
                let numbers = match (good, known) {
                    (false, _) => [25, 25],
                    (true, true) => [0, 0],
                    (true, false) if many == NAMES => [27, 26],
                    (true, false) => [0, 26],
                };
                let marked = self.expect(&lent, &checkpoint, numbers[0]);
                self.expect(&lent, &restore, numbers[1]);
                if numbers[0] == 0 {
                    self.just_marked(&lent, marked, &name);
                }
            }
        }
    }

    /// A checkpoint that was just made: its line is behind the others, and a restore of it changes no cell.
    fn just_marked(&mut self, lent: &Lent, mut marked: Lent, name: &Name) {
        let line = joined(&[b"M\t", &name.0, b"\n"]);
        let (from, to) = (lent.record.used, marked.record.used);
        self.report.same(marked.journal[from..to] == line, || {
            format!("a checkpoint of {name:?} has another line")
        });
        marked.journal.resize(to + 19, b'?');
        let left = self.expect(&marked, &Call::Restore(name.clone()), 0);
        let same = left.cells == lent.cells && left.record.active == lent.record.active;
        self.report
            .same(same, || format!("a restore of {name:?} comes to another map"));
    }

    /// Sixteen names that are much alike: each has its own list, is moved alone, and no other is known.
    fn alike(&mut self) {
        for (kind, make) in ALIKE {
            let (reference, all) = alike(&mut self.rng, make);
            let lent = session_of(&reference, reference.bytes.len() + 60);
            for (name, edits) in &all {
                let [checkpoint, restore] = both(name);
                let left = self.expect(&lent, &restore, 0);
                self.report.same(left.record.active == *edits, || {
                    format!("{name:?} remembers {edits} edits, not {}", left.record.active)
                });
                let moved = self.expect(&lent, &checkpoint, 0);
                let (other, edits) = self.rng.pick(&all.iter().collect::<Vec<_>>());
                let wanted = if other == name { lent.record.active } else { *edits };
                let left = self.expect(&moved, &Call::Restore(other.clone()), 0);
                self.report.same(left.record.active == wanted, || {
                    format!("{other:?} remembers {} edits, not {wanted}", left.record.active)
                });
                let [checkpoint, restore] = both(&names::unknown(&mut self.rng, &lent));
                self.expect(&lent, &checkpoint, 27);
                self.expect(&lent, &restore, 26);
            }
            self.note(kind);
        }
    }

    /// Names of every length, and 0 to 20 bytes left: in a short journal, and in one of 32,768 bytes.
    fn ends(&mut self) {
        let short = alike(&mut self.rng, ALIKE[0].1).0;
        let mut long = short.clone();
        fill(&mut self.rng, &mut long, JOURNAL - 100);
        for left in 0..=20 {
            for length in 1..=16 {
                self.end(&short, left, length, &ENDS[..2]);
            }
            let mut full = long.clone();
            fill(&mut self.rng, &mut full, JOURNAL - left);
            for length in left.saturating_sub(4).max(1)..=(left.saturating_sub(2)).clamp(1, 16) {
                self.end(&full, left, length, &ENDS[2..]);
            }
        }
    }

    /// Both calls with a name of this length where so many bytes are left.
    fn end(&mut self, reference: &Reference, left: usize, length: usize, ends: &[&str]) {
        let lent = session_of(reference, reference.bytes.len() + left);
        let line = length + 3;
        for (call, letter) in both(&Name(vec![b'a'; length])).iter().zip(["M", "R"]) {
            self.expect(&lent, call, if line <= left { 0 } else { 24 });
            if line == left || line == left + 1 {
                self.note(&format!("an {letter} line that {}", ends[line - left]));
            }
        }
    }

    /// Each call with every set of causes at once: the first in its order answers.
    fn orders(&mut self) {
        for (call, order) in ORDERS {
            for set in 1..32 {
                self.causes(&chosen(&order, set), call == "restore");
                self.note(&format!("{call} with {:?}", chosen(&order, set)));
            }
        }
    }

    /// A call that is refused with each of these numbers.
    fn causes(&mut self, numbers: &[u32], restore: bool) {
        let has = |number: u32| numbers.contains(&number);
        let active = self.rng.below(6) as usize;
        let many = if has(27) {
            NAMES
        } else {
            self.rng.range(1, 15) as usize
        };
        let mut lent = self.start(active, many, 400).0;
        let rng = &mut self.rng;
        let new = has(26) || has(27) || (!restore && rng.once_in(2));
        let name = match (has(25), new) {
            (true, _) => names::bad(rng),
            (_, true) => names::unknown(rng, &lent),
            _ => names::known(rng, &lent).expect("a name that is known"),
        };
        if has(22) {
            // Of these, the names can be read all the same.
            let causes = if has(27) { &FOREIGN[2..5] } else { &FOREIGN };
            rng.pick(causes).1(rng, &mut lent);
        }
        let line = name.0.len() as u64 + 3;
        let left = if has(24) {
            rng.below(line)
        } else {
            line + rng.below(20)
        };
        lent.journal.resize(lent.record.used + left as usize, b'?');
        if has(21) {
            // A journal that is too long or too short has another end, and cells are lent to a restore alone.
            let causes: Vec<Cause> = [0, 2, 5].iter().map(|&i| CAUSES[i]).collect();
            rng.pick(&causes).1(rng, &mut lent);
        }
        let [checkpoint, again] = both(&name);
        self.expect(&lent, if restore { &again } else { &checkpoint }, numbers[0]);
    }

    /// Each cause of 22 and of 21 by itself. A checkpoint is lent no cells, and asks for none.
    fn foreign(&mut self) {
        for (cause, spoil) in FOREIGN {
            let (active, names) = (self.rng.below(5) as usize, self.rng.range(1, 15) as usize);
            let mut lent = self.start(active, names, 400).0;
            let name = names::known(&mut self.rng, &lent).expect("a name that is known");
            spoil(&mut self.rng, &mut lent);
            let [checkpoint, restore] = both(&name);
            for (call, word) in [
                (checkpoint, "checkpoint"),
                (restore, "restore"),
                (Call::Undo, "undo"),
            ] {
                self.expect(&lent, &call, 22);
                self.note(&format!("{word} with {cause}"));
            }
        }
        for (cause, spoil) in CAUSES {
            let (active, names) = (self.rng.below(5) as usize, self.rng.range(1, 15) as usize);
            let mut lent = self.start(active, names, 400).0;
            let name = names::known(&mut self.rng, &lent).expect("a name that is known");
            spoil(&mut self.rng, &mut lent);
            let [checkpoint, restore] = both(&name);
            let cells = cause == "cells of another number";
            self.expect(&lent, &checkpoint, if cells { 0 } else { 21 });
            self.expect(&lent, &restore, 21);
            self.note(&format!("checkpoint with {cause}"));
            self.note(&format!("restore with {cause}"));
        }
    }

    /// Both calls on records, cells and journals that need not belong together.
    fn hostile(&mut self, many: u64) {
        let mut done = 0;
        while done < many {
            let rng = &mut self.rng;
            let (active, names) = (rng.pick(&[0, 1, 6, 12]), rng.pick(&[0, 2, 15, 16, 16]));
            let left = rng.pick(&[0, 4, 10, 19, 60, 60]);
            let lent = self.start(active, names, left).0;
            for _ in 0..20 {
                let rng = &mut self.rng;
                let mut bad = lent.clone();
                for _ in 0..rng.below(3) {
                    spoil(rng, &mut bad);
                }
                let name = match rng.below(5) {
                    0 => names::bad(rng),
                    1 | 2 => names::unknown(rng, &lent),
                    _ => names::known(rng, &lent).unwrap_or(Name::from("a")),
                };
                let (k, word) = rng.pick(&[(0, "checkpoint"), (1, "restore")]);
                let (_, reply) = called(self.report, self.calls, &bad, &both(&name)[k]);
                self.note(&format!("a hostile {word}: {}", reply.number));
                done += 1;
            }
        }
    }

    /// A stored journal: these lines behind those of a map. Wanted are so many active edits, or a refusal of the line
    /// with this number among them; behind that one are others.
    fn opened(&mut self, reference: &Reference, lines: &[u8], wanted: Result<usize, u32>) {
        let before = reference.bytes.iter().filter(|&&b| b == b'\n').count() as u32;
        let mut journal = joined(&[&reference.bytes, lines, b"\n"]);
        if wanted.is_err() {
            let tails = ["", "U\n", "M\ta\n", "R\ta\n", "X\n", "M\t\nU", "R\ta"];
            journal.extend(self.rng.pick(&tails).bytes());
        }
        let cells = reference.site.chunk_size.pow(3);
        reopening(self.report, self.calls, &journal, journal.len(), cells);
        let answer = model::reopen(&journal, journal.len(), cells).map(|opened| opened.record.active);
        let refused = |k| Refusal {
            number: 12,
            line: before + k,
        };
        self.report.same(answer == wanted.map_err(refused), || {
            let text = String::from_utf8_lossy(lines);
            format!("{text:?} behind {before} lines: the model answers {answer:?}, and not {wanted:?}")
        });
    }

    /// Stored journals with a line that is not of its form behind good ones.
    fn spoilt(&mut self) {
        for (kind, make) in SPOILT {
            for letter in ["M", "R"] {
                let (active, names) = (self.rng.below(9) as usize, self.rng.range(1, 15) as usize);
                let reference = map(&mut self.rng, active, names);
                let (known, _) = self.rng.pick(&reference.checkpoints.0.iter().collect::<Vec<_>>());
                let line = make(&mut self.rng, letter.as_bytes()[0], &known.0);
                self.opened(&reference, &line, Err(1));
                self.note(&format!("{letter}: {kind}"));
            }
        }
    }

    /// Stored journals whose lines are of their form.
    fn stored(&mut self) {
        let (active, many) = (self.rng.range(1, 9) as usize, self.rng.range(0, 14) as usize);
        let mut few = map(&mut self.rng, active, many);
        written(&mut few, &Call::Checkpoint(Name::from("some")));
        add(&mut self.rng, &mut few);
        let many = map(&mut self.rng, active, NAMES);
        let mut crowded = map(&mut self.rng, 0, 15);
        written(&mut crowded, &Call::Checkpoint(Name::from("empty")));
        grow(&mut self.rng, &mut crowded, ACTIVE, vec![]);
        let [unknown, more] =
            [&few, &many].map(|map| names::unknown(&mut self.rng, &session_of(map, JOURNAL)));
        let (moved, _) = many.checkpoints.0[NAMES - 1].clone();
        let cases: [(&Reference, String, Result<usize, u32>); 9] = [
            (&few, format!("R\t{unknown}"), Err(1)),
            (&many, format!("M\t{more}"), Err(1)),
            (&crowded, "R\tempty\nU".into(), Err(2)),
            (&crowded, "M\tempty\nU\nR\tempty\nS\t0\t0\t0\t1".into(), Err(4)),
            (&many, format!("M\t{moved}"), Ok(active)),
            (&crowded, "M\tempty\nU".into(), Ok(ACTIVE - 1)),
            (&crowded, "R\tempty".into(), Ok(0)),
            (&few, "R\tsome\nU".into(), Ok(active - 1)),
            (&few, "M\tsome\nU".into(), Ok(active)),
        ];
        for ((reference, lines, wanted), kind) in cases.iter().zip(STORED) {
            self.opened(reference, lines.as_bytes(), *wanted);
            self.note(kind);
        }
    }

    /// Restores on chunks of many sizes at the surface: on the session's own cells and on others, which are laid anew
    /// all the same.
    fn surfaces(&mut self, many: u64) {
        for k in 0..many {
            let site = journals::surface(&mut self.rng);
            let size = site.chunk_size;
            let Some(mut lent) = started(self.report, self.calls, &site, size.pow(3), JOURNAL) else {
                continue;
            };
            let trees = lent.cells.contains(&original::block::LEAVES);
            let marks = ["ground", "some"].map(Name::from);
            for name in &marks {
                lent = called(self.report, self.calls, &lent, &Call::Checkpoint(name.clone())).0;
                for _ in 0..self.rng.range(1, 8) {
                    let edit = journals::edit(&mut self.rng, size);
                    lent = called(self.report, self.calls, &lent, &edit).0;
                }
            }
            let only = (k % 2 == 1).then_some(size.pow(3) / 3);
            let own = lent.cells.clone();
            let mut all = vec![own.clone()];
            all.extend(others(&mut self.rng, &own, only));
            for (cells, name) in all.into_iter().zip(marks.iter().cycle()) {
                lent.cells = cells;
                let (_, reply) = called(self.report, self.calls, &lent, &Call::Restore(name.clone()));
                let kinds = [
                    (SURFACES[0], trees),
                    (SURFACES[1], lent.cells != own),
                    (SURFACES[2], reply.altered > 65_535),
                ];
                note_all(&mut self.met, &kinds);
            }
        }
    }
}

/// All of it on one library. A kind that was never met is a failure.
pub fn compare(report: &mut Report, calls: &impl Calls, amount: &Amount) {
    let before = report.comparisons;
    let mut run = Run {
        report,
        rng: Rng::new(14),
        calls,
        met: Met::new(),
    };
    run.sessions(amount.sessions);
    run.cuts(amount.cut);
    run.crowded(amount.crowded);
    for _ in 0..amount.rounds {
        run.names();
        run.alike();
        run.ends();
        run.orders();
        run.foreign();
    }
    run.hostile(amount.hostile);
    for _ in 0..amount.stored {
        run.spoilt();
        run.stored();
    }
    run.surfaces(amount.surfaces);
    let (met, kinds) = (run.met, kinds());
    let rarest = kinds.iter().map(|kind| met.get(kind).unwrap_or(&0)).min();
    println!(
        "checkpoints: {} comparisons, {} kinds, each met {} times or more",
        report.comparisons - before,
        kinds.len(),
        rarest.unwrap_or(&0)
    );
    for kind in SESSIONS.iter().chain(&CUTS).chain(&SURFACES) {
        println!("  {kind}: {}", met.get(*kind).unwrap_or(&0));
    }
    for kind in kinds.iter().filter(|kind| !met.contains_key(*kind)) {
        report.fail(format!("no call met '{kind}'"));
    }
}

/// The product, and once a map of 256 active edits whose journal is full of M and R lines.
pub fn run(report: &mut Report) {
    compare(report, &Product, &FULL);
    let full = stack::marks_session(&Product, stack::site());
    for call in both(&stack::last_name()) {
        called(report, &Product, &full, &call);
    }
    called(report, &Product, &full, &Call::Undo);
    reopening(
        report,
        &Product,
        &full.journal,
        full.record.used,
        full.cells.len(),
    );
}
