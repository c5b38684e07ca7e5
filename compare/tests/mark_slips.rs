//! The driver of checkpoints, on the model itself and on libraries with a slip each: it must find every one of them.
use compare::ground::Site;
use compare::library::{Library, Open, Press, MODEL};
use compare::marks::{compare, Amount};
use compare::model::{self, Call, Edit, Lent, Name, Refusal, Reopened, Reply, ACTIVE, JOURNAL, NAMES};
use compare::report::Report;
use std::cell::RefCell;
use std::rc::Rc;

/// Every part of a run, in a second.
const SMALL: Amount = Amount {
    sessions: 120,
    cut: 20,
    crowded: 2,
    hostile: 1500,
    stored: 2,
    rounds: 1,
    surfaces: 12,
};

/// The same with less of what takes long, and without chunks at the surface.
const FEW: Amount = Amount {
    sessions: 60,
    crowded: 0,
    hostile: 300,
    surfaces: 0,
    ..SMALL
};

/// Names, ends of a journal, sets of causes and hostile records alone.
const CALLS: Amount = Amount {
    sessions: 0,
    cut: 0,
    crowded: 0,
    hostile: 1500,
    stored: 0,
    rounds: 1,
    surfaces: 0,
};

/// What a library takes of a name, whether it takes a name, a line or a call, and what it mends of a record.
type Key = fn(&Name) -> Name;
type Good = fn(&Name) -> bool;
type OfLine = fn(&[u8]) -> bool;
type OfCalls = fn(&[Call], &State) -> bool;
type OfCall = fn(&Call) -> bool;
type Mend = fn(&mut Lent);

/// The differences that comparisons find, and the kinds that were not met.
fn found(press: Press, open: Open, amount: &Amount) -> (u64, u64) {
    let mut report = Report::quiet();
    let library = Library { press, open, ..MODEL };
    compare(&mut report, &library, amount);
    (report.differences - report.failures, report.failures)
}

/// A library with this press must be found by comparisons.
fn press_found(name: &str, press: Press, amount: &Amount) {
    assert!(found(press, &model::reopen, amount).0 > 0, "{name}: not found");
}

/// A library that reopens so must be found by comparisons.
fn open_found(name: &str, open: Open) {
    assert!(found(&model::replied, open, &FEW).0 > 0, "{name}: not found");
}

/// The name of a checkpoint or a restore.
fn name_of(call: &Call) -> Option<&Name> {
    match call {
        Call::Checkpoint(name) | Call::Restore(name) => Some(name),
        _ => None,
    }
}

/// The line of a checkpoint or a restore, with its LF, whatever bytes its name has.
fn line_of(call: &Call) -> Option<Vec<u8>> {
    let (letter, name) = match call {
        Call::Checkpoint(name) => (b'M', name),
        Call::Restore(name) => (b'R', name),
        _ => return None,
    };
    Some([&[letter, b'\t'], &name.0[..], b"\n"].concat())
}

/// How many bytes are left; none where the record uses more than there are.
fn room(lent: &Lent) -> usize {
    lent.journal.len().saturating_sub(lent.record.used)
}

/// Writes bytes behind the used ones, as many as there is room for.
fn write(lent: &mut Lent, bytes: &[u8]) {
    let free = lent.journal.iter_mut().skip(lent.record.used);
    free.zip(bytes).for_each(|(b, &c)| *b = c);
}

fn count(cells: &[u16]) -> u32 {
    cells.iter().filter(|&&c| c != 0).count() as u32
}

// ---- libraries that read by other rules

/// What a journal's lines come to: the active edits, and the names with what they remember.
#[derive(Clone, Default)]
struct State {
    active: Vec<Edit>,
    names: Vec<(Name, Rc<Vec<Edit>>)>,
}

impl State {
    fn find(&self, name: &Name) -> Option<&Vec<Edit>> {
        let (_, list) = self.names.iter().rfind(|(known, _)| known == name)?;
        Some(list)
    }
}

/// The next state, from the last two before and the calls that the lines say, of which the last is the one to follow.
type Step<'a> = &'a dyn Fn(&[State], &[Call], usize) -> State;

/// How a library reads: its steps, what it takes of a name, and how many names it has room for.
struct Reader<'a> {
    step: Step<'a>,
    key: Key,
    most: usize,
}

/// The step of the rules.
fn right(past: &[State], calls: &[Call], size: usize) -> State {
    let mut state = past[past.len() - 1].clone();
    match &calls[calls.len() - 1] {
        Call::Undo => drop(state.active.pop()),
        Call::Checkpoint(name) => {
            let active = Rc::new(state.active.clone());
            match state.names.iter_mut().find(|(known, _)| known == name) {
                Some((_, list)) => *list = active,
                None => state.names.push((name.clone(), active)),
            }
        }
        Call::Restore(name) => state.active = state.find(name).cloned().unwrap_or_default(),
        edit => state.active.extend(model::edit_of(size, edit)),
    }
    state
}

impl Reader<'_> {
    fn new(step: Step) -> Reader {
        Reader {
            step,
            key: Name::clone,
            most: NAMES,
        }
    }

    /// The call with what this library takes of its name.
    fn keyed(&self, call: &Call) -> Call {
        match call {
            Call::Checkpoint(name) => Call::Checkpoint((self.key)(name)),
            Call::Restore(name) => Call::Restore((self.key)(name)),
            other => other.clone(),
        }
    }

    fn read(&self, journal: &[u8], held: usize) -> Option<(Site, State)> {
        let (site, said) = model::said(journal, held)?;
        let said: Vec<Call> = said.iter().map(|call| self.keyed(call)).collect();
        let mut past = vec![State::default()];
        for k in 0..said.len() {
            let next = (self.step)(&past, &said[..=k], site.chunk_size);
            past.push(next);
            past.drain(..past.len().saturating_sub(2));
        }
        Some((site, past.pop()?))
    }

    /// Undo, checkpoint and restore as this library reads; 21, 22 and 25, and all other calls, are the model's.
    fn press(&self, lent: &Lent, call: &Call) -> (Lent, Reply) {
        let whole = model::replied(lent, call);
        let line = line_of(call).or(matches!(call, Call::Undo).then(|| b"U\n".to_vec()));
        let (Some(line), false) = (line, [21, 22, 25].contains(&whole.1.number)) else {
            return whole;
        };
        let Some((site, state)) = self.read(&lent.journal, lent.record.used) else {
            return whole;
        };
        let refused = |number| (lent.clone(), Reply::refused(number));
        let active = match self.keyed(call) {
            Call::Undo => state
                .active
                .split_last()
                .map(|(_, others)| others.to_vec())
                .ok_or(23),
            Call::Checkpoint(name) if state.find(&name).is_none() && state.names.len() >= self.most => {
                Err(27)
            }
            Call::Checkpoint(_) => Ok(state.active.clone()),
            Call::Restore(name) => state.find(&name).cloned().ok_or(26),
            _ => unreachable!("a call with a line of its own"),
        };
        let active = match active {
            Ok(_) if line.len() > room(lent) => return refused(24),
            Ok(active) => active,
            Err(number) => return refused(number),
        };
        let mut next = lent.clone();
        write(&mut next, &line);
        next.record.used += line.len();
        if !matches!(call, Call::Checkpoint(_)) {
            next.cells = model::laid(&site, &active);
            next.record.count = count(&next.cells);
            next.record.active = active.len();
        }
        let altered = model::differing(&lent.cells, &next.cells);
        let reply = Reply {
            altered,
            ..Reply::default()
        };
        (next, reply)
    }

    /// Reopening as this library reads.
    fn open(&self, journal: &[u8], held: usize, cells: usize) -> Result<Reopened, Refusal> {
        let mut opened = model::reopen(journal, held, cells)?;
        let (site, state) = self.read(journal, held).expect("a journal that opens");
        opened.cells = model::laid(&site, &state.active);
        opened.record.count = count(&opened.cells);
        opened.record.active = state.active.len();
        Ok(opened)
    }

    /// The differences of a library that reads so everywhere.
    fn found(&self, amount: &Amount) -> (u64, u64) {
        let press = |lent: &Lent, call: &Call| self.press(lent, call);
        let open = |journal: &[u8], held: usize, cells: usize| self.open(journal, held, cells);
        found(&press, &open, amount)
    }
}

/// The last of the calls before the one to follow.
fn before(calls: &[Call]) -> Option<&Call> {
    calls.len().checked_sub(2).map(|i| &calls[i])
}

/// The active edits one line earlier than before the line to follow.
fn earlier(past: &[State]) -> State {
    past[past.len().saturating_sub(2)].clone()
}

#[test]
fn the_model_has_no_difference() {
    let mut report = Report::default();
    compare(&mut report, &MODEL, &SMALL);
    assert_eq!(report.differences, 0);
    // Nor have the makers of slips, where they are given none.
    assert_eq!(Reader::new(&right).found(&SMALL), (0, 0));
    let orders = [[21, 25, 22, 27, 24], [21, 25, 22, 26, 24]];
    let makers: [Press; 5] = [
        &|lent, call| ordered(lent, call, &orders),
        &|lent, call| named(lent, call, Name::good),
        &|lent, call| accepted(lent, call, |_, _, _| ()),
        &|lent, call| refused(lent, call, 26, |_, _| ()),
        &|lent, call| mended(lent, call, |_| ()),
    ];
    for (k, press) in makers.iter().enumerate() {
        assert_eq!(found(press, &model::reopen, &SMALL), (0, 0), "maker {k}");
    }
    assert_eq!(
        found(&model::replied, &|j, h, c| lenient(j, h, c, |_| false), &SMALL),
        (0, 0)
    );
}

/// A step that is right, and then this is done to the state.
fn and_then(past: &[State], calls: &[Call], size: usize, slip: impl Fn(&mut State, &Call)) -> State {
    let mut state = right(past, calls, size);
    slip(&mut state, &calls[calls.len() - 1]);
    state
}

#[test]
fn every_wrong_restore_is_found() {
    let steps: [(&str, Step); 9] = [
        ("it forgets later checkpoints", &|past, calls, size| {
            and_then(past, calls, size, |state, call| {
                if let Call::Restore(name) = call {
                    let at = state.names.iter().position(|(known, _)| known == name);
                    state.names.truncate(at.map_or(0, |at| at + 1));
                }
            })
        }),
        ("it forgets its own checkpoint", &|past, calls, size| {
            and_then(past, calls, size, |state, call| {
                if let Call::Restore(name) = call {
                    state.names.retain(|(known, _)| known != name);
                }
            })
        }),
        ("it forgets all checkpoints", &|past, calls, size| {
            and_then(past, calls, size, |state, call| {
                if let Call::Restore(_) = call {
                    state.names.clear();
                }
            })
        }),
        ("it takes the last edit off", &|past, calls, size| {
            and_then(past, calls, size, |state, call| {
                if let Call::Restore(_) = call {
                    state.active.pop();
                }
            })
        }),
        ("it is passed over", &|past, calls, size| match calls.last() {
            Some(Call::Restore(_)) => past[past.len() - 1].clone(),
            _ => right(past, calls, size),
        }),
        ("it goes back to no edit", &|past, calls, size| {
            and_then(past, calls, size, |state, call| {
                if let Call::Restore(_) = call {
                    state.active.clear();
                }
            })
        }),
        (
            "it keeps the active edits, and only as many",
            &|past, calls, size| {
                let active = past[past.len() - 1].active.clone();
                and_then(past, calls, size, |state, call| {
                    if let Call::Restore(_) = call {
                        let many = state.active.len().min(active.len());
                        state.active = active[..many].to_vec();
                    }
                })
            },
        ),
        ("it adds to the active edits, up to 256", &|past, calls, size| {
            let active = past[past.len() - 1].active.clone();
            and_then(past, calls, size, |state, call| {
                if let Call::Restore(_) = call {
                    state.active.splice(..0, active.clone());
                    state.active.truncate(ACTIVE);
                }
            })
        }),
        (
            "it moves its checkpoint to the edits before",
            &|past, calls, size| {
                let active = past[past.len() - 1].active.clone();
                and_then(past, calls, size, |state, call| {
                    if let Call::Restore(name) = call {
                        state.names.retain(|(known, _)| known != name);
                        state.names.push((name.clone(), Rc::new(active.clone())));
                    }
                })
            },
        ),
    ];
    for (name, step) in steps {
        assert!(Reader::new(step).found(&FEW).0 > 0, "{name}: not found");
    }
}

#[test]
fn every_wrong_checkpoint_is_found() {
    let steps: [(&str, Step); 7] = [
        (
            "after a restore it remembers the list before that",
            &|past, calls, size| {
                let list = earlier(past).active;
                and_then(past, calls, size, |state, call| {
                    if let (Call::Checkpoint(name), Some(Call::Restore(_))) = (call, before(calls)) {
                        let known = state.names.iter_mut().find(|(known, _)| known == name);
                        known.expect("just remembered").1 = Rc::new(list.clone());
                    }
                })
            },
        ),
        (
            "a moved one keeps its list",
            &|past, calls, size| match calls.last() {
                Some(Call::Checkpoint(name)) if past[past.len() - 1].find(name).is_some() => {
                    past[past.len() - 1].clone()
                }
                _ => right(past, calls, size),
            },
        ),
        ("a moved one is one more", &|past, calls, size| {
            let mut state = past[past.len() - 1].clone();
            match calls.last() {
                Some(Call::Checkpoint(name)) => {
                    state.names.push((name.clone(), Rc::new(state.active.clone())));
                    state
                }
                _ => right(past, calls, size),
            }
        }),
        ("it remembers one edit less", &|past, calls, size| {
            and_then(past, calls, size, |state, call| {
                if let Call::Checkpoint(name) = call {
                    let known = state.names.iter_mut().find(|(known, _)| known == name);
                    Rc::make_mut(&mut known.expect("just remembered").1).pop();
                }
            })
        }),
        ("a later edit gets into its list", &|past, calls, size| {
            let active = past[past.len() - 1].active.clone();
            and_then(past, calls, size, |state, _| {
                let grown = state.active.clone();
                let same = state.names.iter_mut().filter(|(_, list)| **list == active);
                if grown.len() > active.len() && grown.starts_with(&active) && before_is_mark(calls) {
                    same.for_each(|(_, list)| *list = Rc::new(grown.clone()));
                }
            })
        }),
        (
            "an undo takes the edit from its list too",
            &|past, calls, size| {
                let active = past[past.len() - 1].active.clone();
                and_then(past, calls, size, |state, call| {
                    if let Call::Undo = call {
                        let same = state.names.iter_mut().filter(|(_, list)| **list == active);
                        same.for_each(|(_, list)| drop(Rc::make_mut(list).pop()));
                    }
                })
            },
        ),
        ("the sixteenth is not kept", &|past, calls, size| {
            and_then(past, calls, size, |state, _| state.names.truncate(NAMES - 1))
        }),
    ];
    for (name, step) in steps {
        assert!(Reader::new(step).found(&FEW).0 > 0, "{name}: not found");
    }
}

/// Whether the call before the one to follow was a checkpoint.
fn before_is_mark(calls: &[Call]) -> bool {
    matches!(before(calls), Some(Call::Checkpoint(_)))
}

#[test]
fn every_wrong_undo_is_found() {
    let steps: [(&str, Step); 3] = [
        (
            "it takes a restore back",
            &|past, calls, size| match (calls.last(), before(calls)) {
                (Some(Call::Undo), Some(Call::Restore(_))) => earlier(past),
                _ => right(past, calls, size),
            },
        ),
        (
            "it takes a checkpoint back",
            &|past, calls, size| match (calls.last(), before(calls)) {
                (Some(Call::Undo), Some(Call::Checkpoint(_))) => earlier(past),
                _ => right(past, calls, size),
            },
        ),
        ("it forgets a checkpoint of more edits", &|past, calls, size| {
            and_then(past, calls, size, |state, call| {
                let many = state.active.len();
                if let Call::Undo = call {
                    state.names.retain(|(_, list)| list.len() <= many);
                }
            })
        }),
    ];
    for (name, step) in steps {
        assert!(Reader::new(step).found(&FEW).0 > 0, "{name}: not found");
    }
}

/// A library that tells names apart by a part of them alone.
#[test]
fn every_wrong_comparison_of_names_is_found() {
    let keys: [(&str, Key); 6] = [
        ("by their first byte", |name| Name(name.0[..1].to_vec())),
        ("by their last byte", |name| {
            Name(name.0[name.0.len() - 1..].to_vec())
        }),
        ("by their first eight bytes", |name| {
            Name(name.0[..name.0.len().min(8)].to_vec())
        }),
        ("by their first fifteen bytes", |name| {
            Name(name.0[..name.0.len().min(15)].to_vec())
        }),
        ("without their first byte", |name| Name(name.0[1..].to_vec())),
        ("by their length", |name| Name(vec![b'a'; name.0.len()])),
    ];
    for (name, key) in keys {
        let reader = Reader {
            key,
            ..Reader::new(&right)
        };
        assert!(reader.found(&FEW).0 > 0, "{name}: not found");
    }
    for most in [NAMES - 1, NAMES + 1] {
        let reader = Reader {
            most,
            ..Reader::new(&right)
        };
        assert!(reader.found(&FEW).0 > 0, "{most} names: not found");
    }
}

// ---- libraries that reopen by other rules

/// Reopening that passes over an M or R line which the model refuses, where this says so of it.
fn lenient(journal: &[u8], held: usize, cells: usize, takes: OfLine) -> Result<Reopened, Refusal> {
    let refusal = match model::reopen(journal, held, cells) {
        Err(refusal) if refusal.number == 12 => refusal,
        whole => return whole,
    };
    let lines: Vec<&[u8]> = journal[..held].split_inclusive(|&b| b == b'\n').collect();
    let at = refusal.line as usize - 1;
    let line = lines[at].strip_suffix(b"\n").unwrap_or(lines[at]);
    if !b"MR".contains(line.first().unwrap_or(&0)) || !takes(line) {
        return Err(refusal);
    }
    let rest = [&lines[..at], &lines[at + 1..]].concat().concat();
    let mut opened = lenient(&rest, rest.len(), cells, takes)?;
    opened.record.used += lines[at].len();
    opened.lines += 1;
    Ok(opened)
}

/// The name of a line, as far as it has one.
fn line_name(line: &[u8]) -> Name {
    Name(line.get(2..).unwrap_or_default().to_vec())
}

#[test]
fn every_line_that_is_taken_is_found() {
    let lines: [(&str, OfLine); 11] = [
        ("an unknown name", |line| {
            line[0] == b'R' && line_name(line).good()
        }),
        ("a seventeenth name", |line| {
            line[0] == b'M' && line_name(line).good()
        }),
        ("an empty name", |line| line.len() == 2),
        ("a letter alone", |line| line.len() == 1),
        ("17 letters", |line| line.len() == 19),
        ("a capital", |line| line[1..].iter().any(u8::is_ascii_uppercase)),
        ("a space for the tab", |line| line.get(1) == Some(&b' ')),
        ("a tab behind", |line| line.len() > 2 && line.ends_with(b"\t")),
        ("a CR behind", |line| line.ends_with(b"\r")),
        ("a space behind", |line| line.ends_with(b" ")),
        ("a second tab", |line| line.get(2) == Some(&b'\t')),
    ];
    for (name, takes) in lines {
        open_found(name, &|j, h, c| lenient(j, h, c, takes));
    }
}

/// Reopening that refuses the first line of which this says so, from the calls so far and the state before it.
fn strict(journal: &[u8], held: usize, cells: usize, refuses: OfCalls) -> Result<Reopened, Refusal> {
    let opened = model::reopen(journal, held, cells)?;
    let first = RefCell::new(None);
    let step = |past: &[State], calls: &[Call], size: usize| {
        if refuses(calls, &past[past.len() - 1]) {
            first.borrow_mut().get_or_insert(calls.len() as u32 + 1);
        }
        right(past, calls, size)
    };
    Reader::new(&step).read(journal, held);
    let line = *first.borrow();
    line.map_or(Ok(opened), |line| Err(Refusal { number: 12, line }))
}

#[test]
fn every_line_that_is_refused_is_found() {
    let lines: [(&str, OfCalls); 6] = [
        ("a checkpoint at 256 active edits", |calls, state| {
            matches!(calls.last(), Some(Call::Checkpoint(_))) && state.active.len() == ACTIVE
        }),
        ("a restore at 256 active edits", |calls, state| {
            matches!(calls.last(), Some(Call::Restore(_))) && state.active.len() == ACTIVE
        }),
        ("a name moved at 16 names", |calls, state| {
            matches!(calls.last(), Some(Call::Checkpoint(_))) && state.names.len() == NAMES
        }),
        ("a sixteenth name", |calls, state| {
            matches!(calls.last(), Some(Call::Checkpoint(name)) if state.find(name).is_none())
                && state.names.len() == NAMES - 1
        }),
        ("a name of 16 bytes", |calls, _| {
            calls
                .last()
                .and_then(name_of)
                .is_some_and(|name| name.0.len() == 16)
        }),
        ("an undo right after a restore", |calls, _| {
            matches!(calls, [.., Call::Restore(_), Call::Undo])
        }),
    ];
    for (name, refuses) in lines {
        open_found(name, &|j, h, c| strict(j, h, c, refuses));
    }
}

#[test]
fn every_wrong_reopening_is_found() {
    let passed_over: Step = &|past, calls, size| match calls.last() {
        Some(Call::Restore(_)) => past[past.len() - 1].clone(),
        _ => right(past, calls, size),
    };
    let reader = Reader::new(passed_over);
    open_found("a restore is passed over", &|j, h, c| reader.open(j, h, c));
    open_found("a checkpoint is active", &|journal, held, cells| {
        let mut opened = model::reopen(journal, held, cells)?;
        let (_, said) = model::said(journal, held).expect("a journal that opens");
        let marks = said.iter().filter(|call| matches!(call, Call::Checkpoint(_)));
        opened.record.active += marks.count();
        Ok(opened)
    });
    open_found("such lines are not counted", &|journal, held, cells| {
        let mut opened = model::reopen(journal, held, cells)?;
        let (_, said) = model::said(journal, held).expect("a journal that opens");
        opened.lines -= said.iter().filter(|call| name_of(call).is_some()).count();
        Ok(opened)
    });
    open_found("another number for 12", &|journal, held, cells| {
        model::reopen(journal, held, cells).map_err(|mut refusal| {
            let mut lines = journal
                .split(|&b| b == b'\n')
                .skip(refusal.line.max(1) as usize - 1);
            let line = lines.next().unwrap_or_default();
            if refusal.number == 12 && line.starts_with(b"R") && line_name(line).good() {
                refusal = model::refusal(26);
            }
            refusal
        })
    });
}

/// Once a map was reopened, the names of its journal are gone, on both tablets alike.
#[test]
fn names_that_are_gone_on_the_next_tablet_are_found() {
    let taken_over = RefCell::new(Vec::new());
    let open = |journal: &[u8], held: usize, cells: usize| {
        *taken_over.borrow_mut() = model::committed(journal, held).to_vec();
        model::reopen(journal, held, cells)
    };
    let press = |lent: &Lent, call: &Call| {
        let old = taken_over.borrow();
        let line = name_of(call).map(|name| [b"M\t", &name.0[..], b"\n"].concat());
        let gone = |line: &Vec<u8>| old.windows(line.len()).any(|part| part == line);
        let (next, reply) = model::replied(lent, call);
        let forgets = matches!(call, Call::Restore(_)) && reply.number == 0;
        if forgets && lent.journal.starts_with(&old) && line.as_ref().is_some_and(gone) {
            return (lent.clone(), Reply::refused(26));
        }
        (next, reply)
    };
    // Nothing but cuts is compared.
    let cuts = Amount {
        cut: 20,
        hostile: 0,
        rounds: 0,
        ..CALLS
    };
    assert!(found(&press, &open, &cuts).0 > 0);
    assert_eq!(found(&model::replied, &model::reopen, &cuts).0, 0);
}

// ---- libraries with another order, other names, other answers

/// The numbers that hold for a checkpoint or a restore, whatever else does.
fn causes(lent: &Lent, call: &Call) -> Vec<u32> {
    let name = name_of(call).expect("a checkpoint or a restore");
    let number = |lent: &Lent, call: &Call| model::replied(lent, call).1.number;
    let any = Name::from("a");
    let sound = match call {
        Call::Checkpoint(_) => number(lent, &Call::Checkpoint(any)) != 21,
        _ => number(lent, &Call::Restore(any)) != 21,
    };
    // An undo of the same bytes, on a record and cells that are sound where they can be read.
    let used = lent.journal.get(..lent.record.used).unwrap_or_default();
    let read = model::read(used, used.len(), |_| true);
    let own = read.as_ref().is_ok_and(|journal| {
        journal.committed == used.len()
            && journal.site == lent.record.site
            && journal.active.len() == lent.record.active
    });
    let names = read.map(|journal| journal.checkpoints).unwrap_or_default();
    let known = names.find(name).is_some();
    let line = name.0.len() + 3;
    let holds = [
        (21, !sound),
        (25, !name.good()),
        (22, !own),
        (26, matches!(call, Call::Restore(_)) && !known),
        (
            27,
            matches!(call, Call::Checkpoint(_)) && !known && names.0.len() == NAMES,
        ),
        (24, line > room(lent)),
    ];
    holds
        .iter()
        .filter(|(_, holds)| *holds)
        .map(|(number, _)| *number)
        .collect()
}

/// The model, with these orders of a checkpoint's and a restore's refusals.
fn ordered(lent: &Lent, call: &Call, orders: &[[u32; 5]; 2]) -> (Lent, Reply) {
    let order = match call {
        Call::Checkpoint(_) => &orders[0],
        Call::Restore(_) => &orders[1],
        _ => return model::replied(lent, call),
    };
    let causes = causes(lent, call);
    match order.iter().find(|number| causes.contains(number)) {
        Some(&number) => (lent.clone(), Reply::refused(number)),
        None => model::replied(lent, call),
    }
}

/// Each number of a call's order before each that it comes after.
#[test]
fn every_wrong_order_is_found() {
    let right = [[21, 25, 22, 27, 24], [21, 25, 22, 26, 24]];
    for call in 0..2 {
        for late in 1..5 {
            for early in 0..late {
                let mut orders = right;
                orders[call][early..=late].rotate_right(1);
                let name = format!("{:?}", orders[call]);
                press_found(&name, &|lent, call| ordered(lent, call, &orders), &CALLS);
            }
        }
    }
}

/// The model, with this rule of names in a checkpoint and a restore.
fn named(lent: &Lent, call: &Call, good: Good) -> (Lent, Reply) {
    let (next, reply) = model::replied(lent, call);
    let (Some(name), Some(line)) = (name_of(call), line_of(call)) else {
        return (next, reply);
    };
    match (good(name), reply.number) {
        (false, number) if number != 21 => (lent.clone(), Reply::refused(25)),
        // No journal has it, and where it is to be remembered there must be room for it.
        (true, 25) if matches!(call, Call::Restore(_)) => (lent.clone(), Reply::refused(26)),
        (true, 25) if line.len() > room(lent) => (lent.clone(), Reply::refused(24)),
        (true, 25) => {
            let mut next = lent.clone();
            write(&mut next, &line);
            next.record.used += line.len();
            (next, Reply::default())
        }
        _ => (next, reply),
    }
}

#[test]
fn every_wrong_rule_of_names_is_found() {
    let rules: [(&str, Good); 15] = [
        ("17 bytes", |name| {
            name.good() || (name.0.len() == 17 && Name(name.0[1..].to_vec()).good())
        }),
        ("any length", |name| {
            !name.0.is_empty() && name.0.iter().all(|b| Name(vec![*b]).good())
        }),
        ("a length modulo 256", |name| {
            (1..=16).contains(&(name.0.len() % 256)) && name.0.iter().all(|b| Name(vec![*b]).good())
        }),
        ("15 bytes at most", |name| name.good() && name.0.len() < 16),
        ("two bytes at least", |name| name.good() && name.0.len() > 1),
        ("no byte", |name| name.good() || name.0.is_empty()),
        ("capitals", |name| Name(name.0.to_ascii_lowercase()).good()),
        ("no digit", |name| {
            name.good() && !name.0.iter().any(u8::is_ascii_digit)
        }),
        ("no z", |name| name.good() && !name.0.contains(&b'z')),
        ("no 9", |name| name.good() && !name.0.contains(&b'9')),
        ("from the backquote to z", |name| with_others(name, b"`")),
        ("from a to the brace", |name| with_others(name, b"{")),
        ("from the slash to the colon", |name| with_others(name, b"/:")),
        ("LF, tab and NUL", |name| with_others(name, b"\n\t\0")),
        ("bytes above 127", |name| {
            let low: Vec<u8> = name.0.iter().map(|b| if *b > 127 { b'a' } else { *b }).collect();
            Name(low).good()
        }),
    ];
    for (name, good) in rules {
        press_found(name, &|lent, call| named(lent, call, good), &CALLS);
    }
    for at in ["first", "last"] {
        let good: Good = match at {
            "first" => |name| name.good() || (name.0.len() > 1 && Name(name.0[1..].to_vec()).good()),
            _ => |name| name.good() || (name.0.len() > 1 && Name(name.0[..name.0.len() - 1].to_vec()).good()),
        };
        press_found(at, &|lent, call| named(lent, call, good), &CALLS);
    }
}

/// Whether a name is good where these bytes are letters too.
fn with_others(name: &Name, others: &[u8]) -> bool {
    let one = |b: &u8| if others.contains(b) { b'a' } else { *b };
    Name(name.0.iter().map(one).collect()).good()
}

/// The model, with this done to what an accepted checkpoint or restore leaves and replies.
fn accepted(lent: &Lent, call: &Call, spoil: impl Fn(&Call, &mut Lent, &mut Reply)) -> (Lent, Reply) {
    let (mut next, mut reply) = model::replied(lent, call);
    if name_of(call).is_some() && reply.number == 0 {
        spoil(call, &mut next, &mut reply);
    }
    (next, reply)
}

/// The same for a restore alone.
fn restored(lent: &Lent, call: &Call, spoil: impl Fn(&mut Lent, &mut Reply)) -> (Lent, Reply) {
    accepted(lent, call, |call, next, reply| {
        if let Call::Restore(_) = call {
            spoil(next, reply);
        }
    })
}

/// The same for a checkpoint alone.
fn marked(lent: &Lent, call: &Call, spoil: impl Fn(&mut Lent, &mut Reply)) -> (Lent, Reply) {
    accepted(lent, call, |call, next, reply| {
        if let Call::Checkpoint(_) = call {
            spoil(next, reply);
        }
    })
}

#[test]
fn every_wrong_answer_of_a_restore_is_found() {
    let slips: [(&str, Press); 12] = [
        ("no cell is told", &|lent, call| {
            restored(lent, call, |_, reply| reply.altered = 0)
        }),
        ("the count's move is told", &|lent, call| {
            restored(lent, call, |next, reply| {
                reply.altered = next.record.count.abs_diff(lent.record.count) as usize
            })
        }),
        ("the cells are told in 16 bits", &|lent, call| {
            restored(lent, call, |_, reply| reply.altered %= 65_536)
        }),
        ("the journal's cells are told of", &|lent, call| {
            restored(lent, call, |next, reply| {
                let own = model::reopen(&lent.journal, lent.record.used, lent.cells.len());
                reply.altered = model::differing(&own.expect("a journal that was read").cells, &next.cells)
            })
        }),
        ("the edits are told as groups", &|lent, call| {
            restored(lent, call, |next, reply| reply.written = next.record.active)
        }),
        ("an id is told", &|lent, call| {
            restored(lent, call, |_, reply| reply.previous = lent.cells[0])
        }),
        ("the count stays", &|lent, call| {
            restored(lent, call, |next, _| next.record.count = lent.record.count)
        }),
        ("the number of active edits stays", &|lent, call| {
            restored(lent, call, |next, _| next.record.active = lent.record.active)
        }),
        ("it is active itself", &|lent, call| {
            restored(lent, call, |next, _| next.record.active += 1)
        }),
        ("the cells stay", &|lent, call| {
            restored(lent, call, |next, _| next.cells = lent.cells.clone())
        }),
        ("the last slab stays", &|lent, call| {
            restored(lent, call, |next, _| {
                let slab = lent.record.site.chunk_size.pow(2);
                let last = next.cells.len() - slab;
                next.cells[last..].copy_from_slice(&lent.cells[last..]);
            })
        }),
        ("no line where it alters nothing", &|lent, call| {
            restored(lent, call, |next, reply| {
                if reply.altered == 0 {
                    *next = lent.clone();
                }
            })
        }),
    ];
    for (name, press) in slips {
        press_found(name, press, &SMALL);
    }
}

#[test]
fn every_wrong_answer_of_a_checkpoint_is_found() {
    let slips: [(&str, Press); 7] = [
        ("a cell is told", &|lent, call| {
            marked(lent, call, |_, reply| reply.altered = 1)
        }),
        ("a group is told", &|lent, call| {
            marked(lent, call, |_, reply| reply.written = 1)
        }),
        ("a line is told", &|lent, call| {
            marked(lent, call, |_, reply| reply.line = 1)
        }),
        ("it is active itself", &|lent, call| {
            marked(lent, call, |next, _| next.record.active += 1)
        }),
        ("the count is lost", &|lent, call| {
            marked(lent, call, |next, _| next.record.count = 0)
        }),
        ("no line where the name is moved", &|lent, call| {
            marked(lent, call, |next, _| {
                let name = name_of(call).expect("a checkpoint has a name");
                if model::checkpoints(lent).find(name).is_some() {
                    *next = lent.clone();
                }
            })
        }),
        ("a cell is altered", &|lent, call| {
            marked(lent, call, |next, _| {
                next.cells.iter_mut().take(1).for_each(|c| *c ^= 1)
            })
        }),
    ];
    for (name, press) in slips {
        press_found(name, press, &FEW);
    }
}

/// What the line of either call may have wrong.
#[test]
fn every_wrong_line_is_found() {
    type Spoil = fn(&mut [u8]);
    let lines: [(&str, Spoil); 6] = [
        ("the other letter", |line| {
            line[0] = if line[0] == b'M' { b'R' } else { b'M' }
        }),
        ("a space for the tab", |line| line[1] = b' '),
        ("a capital", |line| line[2] = line[2].to_ascii_uppercase()),
        ("no LF", |line| line[line.len() - 1] = b'?'),
        ("backwards", |line| {
            let end = line.len() - 1;
            line[2..end].reverse();
        }),
        ("not written", |line| line.fill(b'?')),
    ];
    for (name, spoil) in lines {
        let press = |lent: &Lent, call: &Call| {
            accepted(lent, call, |_, next, _| {
                spoil(&mut next.journal[lent.record.used..next.record.used])
            })
        };
        press_found(name, &press, &CALLS);
    }
    let byte_behind = |lent: &Lent, call: &Call| {
        accepted(lent, call, |_, next, _| {
            let used = next.record.used;
            next.journal.iter_mut().skip(used).take(1).for_each(|b| *b = 0);
        })
    };
    press_found("a byte behind it is written", &byte_behind, &CALLS);
}

/// The model, with this done to what a checkpoint or a restore leaves that is refused with this number.
fn refused(lent: &Lent, call: &Call, number: u32, spoil: impl Fn(&mut Lent, &mut Reply)) -> (Lent, Reply) {
    let (mut next, mut reply) = model::replied(lent, call);
    if name_of(call).is_some() && reply.number == number {
        spoil(&mut next, &mut reply);
    }
    (next, reply)
}

/// Each refusal with something altered, or told beside it.
#[test]
fn every_altering_refusal_is_found() {
    for number in [21, 22, 24, 25, 26, 27] {
        let name = |what: &str| format!("{number}: {what}");
        let line = |lent: &Lent, call: &Call| {
            refused(lent, call, number, |next, _| {
                let line = line_of(call).expect("a checkpoint or a restore");
                write(next, &line);
            })
        };
        press_found(&name("the journal"), &line, &CALLS);
        let used = |lent: &Lent, call: &Call| {
            refused(lent, call, number, |next, _| {
                next.record.used = lent.record.used.wrapping_add(4)
            })
        };
        press_found(&name("the used bytes"), &used, &CALLS);
        let active = |lent: &Lent, call: &Call| refused(lent, call, number, |next, _| next.record.active = 0);
        press_found(&name("the active edits"), &active, &CALLS);
        let told = |lent: &Lent, call: &Call| refused(lent, call, number, |_, reply| reply.altered = 1);
        press_found(&name("a cell is told"), &told, &CALLS);
        if number != 27 {
            let cells = |lent: &Lent, call: &Call| {
                refused(lent, call, number, |next, _| {
                    next.cells.iter_mut().take(1).for_each(|c| *c ^= 1)
                })
            };
            press_found(&name("a cell"), &cells, &CALLS);
        }
    }
}

/// A checkpoint or a restore that is judged by a mended record, where the model refuses it with 21 or 22.
fn mended(lent: &Lent, call: &Call, mend: impl Fn(&mut Lent)) -> (Lent, Reply) {
    let (next, reply) = model::replied(lent, call);
    if name_of(call).is_none() || ![21, 22].contains(&reply.number) {
        return (next, reply);
    }
    let mut mended = lent.clone();
    mend(&mut mended);
    (next, model::replied(&mended, call).1)
}

/// The settings, place and number of active edits that the used bytes have.
fn of_the_bytes(lent: &Lent) -> Option<(Site, usize)> {
    let used = lent.journal.get(..lent.record.used)?;
    let journal = model::read(used, used.len(), |_| true).ok()?;
    Some((journal.site, journal.active.len()))
}

#[test]
fn every_lost_test_is_found() {
    let mends: [(&str, Mend); 9] = [
        ("the count", |lent| lent.record.count = 0),
        ("the used bytes beyond the journal", |lent| {
            lent.record.used = lent.record.used.min(lent.journal.len())
        }),
        ("257 active edits", |lent| {
            lent.record.active = lent.record.active.min(ACTIVE)
        }),
        ("a journal too long", |lent| lent.journal.truncate(JOURNAL)),
        ("the settings", |lent| {
            let site = &mut lent.record.site;
            (site.seed, site.world_height_blocks, site.cz) = (0, 2, 0);
        }),
        ("the number of cells", |lent| {
            let size = lent.record.site.chunk_size.min(64);
            lent.cells.resize(size.pow(3), 0)
        }),
        ("the number of active edits", |lent| {
            lent.record.active = of_the_bytes(lent).map_or(lent.record.active, |(_, active)| active)
        }),
        ("the first line", |lent| {
            lent.record.site = of_the_bytes(lent).map_or(lent.record.site, |(site, _)| site)
        }),
        ("the last LF", |lent| {
            if let Some(b) = lent.journal.get_mut(lent.record.used) {
                lent.record.used += usize::from(*b == b'\n');
            }
        }),
    ];
    let calls: [(&str, OfCall); 2] = [
        ("checkpoint", |call| matches!(call, Call::Checkpoint(_))),
        ("restore", |call| matches!(call, Call::Restore(_))),
    ];
    for (call_name, is) in calls {
        for (name, mend) in mends {
            // A checkpoint has no cells to test.
            if (call_name, name) == ("checkpoint", "the number of cells") {
                continue;
            }
            let press = |lent: &Lent, call: &Call| match is(call) {
                true => mended(lent, call, mend),
                false => model::replied(lent, call),
            };
            press_found(&format!("{call_name}: {name}"), &press, &CALLS);
        }
    }
}

/// Refusals where a line fits.
#[test]
fn every_early_24_is_found() {
    let early = |lent: &Lent, call: &Call, full: bool| {
        let whole = model::replied(lent, call);
        match whole.1.number == 0 && full {
            true => (lent.clone(), Reply::refused(24)),
            false => whole,
        }
    };
    let mark = |call: &Call| matches!(call, Call::Checkpoint(_));
    let back = |call: &Call| matches!(call, Call::Restore(_));
    let line = |call: &Call| line_of(call).map_or(0, |line| line.len());
    let slips: [(&str, Press); 6] = [
        ("a checkpoint at 256 active edits", &|lent, call| {
            early(lent, call, mark(call) && lent.record.active == ACTIVE)
        }),
        ("a restore at 256 active edits", &|lent, call| {
            early(lent, call, back(call) && lent.record.active == ACTIVE)
        }),
        ("a checkpoint needs 19 bytes", &|lent, call| {
            early(lent, call, mark(call) && room(lent) < 19)
        }),
        ("a restore needs 19 bytes", &|lent, call| {
            early(lent, call, back(call) && room(lent) < 19)
        }),
        ("a checkpoint needs a byte more", &|lent, call| {
            early(lent, call, mark(call) && room(lent) == line(call))
        }),
        ("a restore needs a byte more", &|lent, call| {
            early(lent, call, back(call) && room(lent) == line(call))
        }),
    ];
    for (name, press) in slips {
        press_found(name, press, &FEW);
    }
}

/// 27 for a name that is known, and 26 for one of a list that is empty.
#[test]
fn every_wrong_number_for_a_known_name_is_found() {
    let known = |lent: &Lent, call: &Call| model::checkpoints(lent).find(name_of(call)?).map(<[Edit]>::len);
    let slips: [(&str, Press); 3] = [
        ("27 for a known name", &|lent, call| {
            let whole = model::replied(lent, call);
            let many = model::checkpoints(lent).0.len();
            match (call, whole.1.number) {
                (Call::Checkpoint(_), 0) if many == NAMES => (lent.clone(), Reply::refused(27)),
                _ => whole,
            }
        }),
        ("26 for no edit", &|lent, call| {
            let whole = model::replied(lent, call);
            match (call, whole.1.number, known(lent, call)) {
                (Call::Restore(_), 0, Some(0)) => (lent.clone(), Reply::refused(26)),
                _ => whole,
            }
        }),
        ("an unknown name goes back to no edit", &|lent, call| {
            let whole = model::replied(lent, call);
            match (line_of(call), whole.1.number) {
                (Some(line), 26) if line.len() <= room(lent) => {
                    let mut next = lent.clone();
                    write(&mut next, &line);
                    next.record.used += line.len();
                    next.record.active = 0;
                    (next, Reply::default())
                }
                _ => whole,
            }
        }),
    ];
    for (name, press) in slips {
        press_found(name, press, &FEW);
    }
}
