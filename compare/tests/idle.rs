//! The driver of presses that alter nothing, on the model itself and on libraries with a slip each: it must find every
//! one of them.
use compare::ground::Site;
use compare::idle::{compare, Amount};
use compare::library::{Library, Open, Press, MODEL};
use compare::model::{self, Call, Edit, Lent, Reference, Refusal, Reply, ACTIVE, JOURNAL};
use compare::report::Report;

const SMALL: Amount = Amount {
    presses: 4000,
    sessions: 80,
    older: 20,
    again: 30,
    undos: 1500,
};

/// The differences that comparisons find, and the kinds that were not met.
fn found(press: Press, open: Open, amount: &Amount) -> (u64, u64) {
    let mut report = Report::quiet();
    let library = Library { press, open, ..MODEL };
    compare(&mut report, &library, amount);
    (report.differences - report.failures, report.failures)
}

/// Each of these libraries must be found by comparisons.
fn all_found(slips: &[(&str, Press)]) {
    for (name, press) in slips {
        assert!(found(press, &model::reopen, &SMALL).0 > 0, "{name}: not found");
    }
}

/// The edit of a press that the model accepts without a line, since it alters nothing.
fn idle(lent: &Lent, call: &Call) -> Option<Edit> {
    let edit = model::edit_of(lent.record.site.chunk_size, call)?;
    let (left, reply) = model::replied(lent, call);
    (reply.number == 0 && left.record == lent.record).then_some(edit)
}

/// A press that alters nothing and gets its line all the same, where this says so.
fn with_line(lent: &Lent, call: &Call, has: impl Fn(&Edit) -> bool) -> (Lent, Reply) {
    let (mut next, reply) = model::replied(lent, call);
    let Some(edit) = idle(lent, call).filter(has) else {
        return (next, reply);
    };
    let (line, used) = (edit.text() + "\n", lent.record.used);
    if lent.record.active == ACTIVE || line.len() > lent.journal.len() - used {
        return (next, Reply::refused(24));
    }
    next.journal[used..used + line.len()].copy_from_slice(line.as_bytes());
    next.record.used += line.len();
    next.record.active += 1;
    (next, reply)
}

/// A press that is judged by this, of its edit and the cells of an accepted call: taken for one that alters nothing, or
/// given its line.
fn judged(lent: &Lent, call: &Call, same: impl Fn(&Edit) -> bool) -> (Lent, Reply) {
    let (next, reply) = model::replied(lent, call);
    let sound = reply.number == 0 || reply.number == 24;
    match model::edit_of(lent.record.site.chunk_size, call).filter(|_| sound) {
        Some(edit) if same(&edit) => {
            let usual = Reply {
                number: 0,
                altered: 0,
                written: edit.groups(),
                ..reply
            };
            (lent.clone(), usual)
        }
        Some(_) => with_line(lent, call, |_| true),
        None => (next, reply),
    }
}

/// The cells with an edit laid on.
fn laid_on(lent: &Lent, cells: &[u16], edit: &Edit) -> Vec<u16> {
    let mut cells = cells.to_vec();
    edit.lay(lent.record.site.chunk_size, &mut cells);
    cells
}

/// Whether an edit leaves the lent cells as they are.
fn stays(lent: &Lent, edit: &Edit) -> bool {
    laid_on(lent, &lent.cells, edit) == lent.cells
}

/// Whether one group, by itself, leaves the lent cells as they are.
fn group_stays(lent: &Lent, group: Option<&([usize; 3], u16)>) -> bool {
    group.is_none_or(|&(at, id)| stays(lent, &Edit::Set(at, id)))
}

/// Active edits without those that altered nothing when they were made.
fn without_idle(site: &Site, active: &[Edit]) -> Vec<Edit> {
    let altered = |&i: &usize| model::laid(site, &active[..i]) != model::laid(site, &active[..=i]);
    (0..active.len())
        .filter(altered)
        .map(|i| active[i].clone())
        .collect()
}

/// The number of the first line that alters nothing, of a journal that opens.
fn first_idle(journal: &[u8], held: usize) -> Option<u32> {
    let (site, said) = model::said(journal, held)?;
    let mut older = Reference::new(site, JOURNAL);
    let line = said.iter().position(|call| {
        let idle = older.idle(call);
        older.write(call);
        idle
    })?;
    Some(line as u32 + 2)
}

#[test]
fn the_model_has_no_difference() {
    let mut report = Report::default();
    compare(&mut report, &MODEL, &SMALL);
    assert_eq!(report.differences, 0);
    // Nor have the makers of slips, where they are given none.
    let right: [Press; 4] = [
        &|lent, call| with_line(lent, call, |_| false),
        &|lent, call| judged(lent, call, |edit| stays(lent, edit)),
        &|lent, call| spoilt(lent, call, |_, _, _| ()),
        &|lent, call| before_21(lent, call, |_| ()),
    ];
    for press in right {
        assert_eq!(found(press, &model::reopen, &SMALL), (0, 0));
    }
}

#[test]
fn every_line_of_an_idle_press_is_found() {
    all_found(&[
        ("each press has its line", &|lent, call| {
            with_line(lent, call, |_| true)
        }),
        ("a set has its line", &|lent, call| {
            with_line(lent, call, |edit| matches!(edit, Edit::Set(..)))
        }),
        ("a column has its line", &|lent, call| {
            with_line(lent, call, |edit| matches!(edit, Edit::Column { .. }))
        }),
        ("a column of height 0 has its line", &|lent, call| {
            with_line(lent, call, |edit| matches!(edit, Edit::Column { height: 0, .. }))
        }),
        ("a column of cells that are there has its line", &|lent, call| {
            with_line(
                lent,
                call,
                |edit| matches!(edit, Edit::Column { height, .. } if *height > 0),
            )
        }),
        ("a batch has its line", &|lent, call| {
            with_line(lent, call, |edit| matches!(edit, Edit::Batch(_)))
        }),
        ("a batch with a group outside has its line", &|lent, call| {
            let many = |edit: &Edit| matches!(call, Call::Batch(n) if n.len() / 4 > edit.groups());
            with_line(lent, call, many)
        }),
        ("a batch that sets and sets back has its line", &|lent, call| {
            let moves = |edit: &Edit| matches!(edit, Edit::Batch(groups) if groups.iter().any(|g| !group_stays(lent, Some(g))));
            with_line(lent, call, moves)
        }),
        ("a line, and not active", &|lent, call| {
            let (mut next, reply) = with_line(lent, call, |_| true);
            if idle(lent, call).is_some() {
                next.record.active = lent.record.active;
            }
            (next, reply)
        }),
    ]);
}

#[test]
fn every_late_test_is_found() {
    let refused = |lent: &Lent, call: &Call, late: bool| match idle(lent, call) {
        Some(_) if late => (lent.clone(), Reply::refused(24)),
        _ => model::replied(lent, call),
    };
    let no_room = |lent: &Lent, call: &Call| {
        let line = idle(lent, call).map_or(0, |edit| edit.text().len() + 1);
        line > lent.journal.len().saturating_sub(lent.record.used)
    };
    let crowded = |lent: &Lent| lent.record.active == ACTIVE;
    all_found(&[
        ("after the 24 of 256 active edits", &|lent, call| {
            refused(lent, call, crowded(lent))
        }),
        ("after the 24 of a full journal", &|lent, call| {
            refused(lent, call, no_room(lent, call))
        }),
        ("after the 24 of both at once", &|lent, call| {
            refused(lent, call, crowded(lent) && no_room(lent, call))
        }),
        ("without a byte left", &|lent, call| {
            refused(lent, call, lent.journal.len() == lent.record.used)
        }),
    ]);
}

#[test]
fn every_wrong_judgement_is_found() {
    all_found(&[
        ("a batch by its last group", &|lent, call| {
            judged(lent, call, |edit| match edit {
                Edit::Batch(groups) => group_stays(lent, groups.last()),
                _ => stays(lent, edit),
            })
        }),
        ("a batch by its first group", &|lent, call| {
            judged(lent, call, |edit| match edit {
                Edit::Batch(groups) => group_stays(lent, groups.first()),
                _ => stays(lent, edit),
            })
        }),
        ("a batch by each of its groups", &|lent, call| {
            judged(lent, call, |edit| match edit {
                Edit::Batch(groups) => groups.iter().all(|g| group_stays(lent, Some(g))),
                _ => stays(lent, edit),
            })
        }),
        ("a column by its lowest cell", &|lent, call| {
            judged(lent, call, |edit| match edit {
                Edit::Column { x, z, height, id } if *height > 0 => {
                    group_stays(lent, Some(&([*x, 0, *z], *id)))
                }
                _ => stays(lent, edit),
            })
        }),
        ("a column by its topmost cell", &|lent, call| {
            judged(lent, call, |edit| match edit {
                Edit::Column { x, z, height, id } if *height > 0 => {
                    group_stays(lent, Some(&([*x, height - 1, *z], *id)))
                }
                _ => stays(lent, edit),
            })
        }),
        ("by the count", &|lent, call| {
            judged(lent, call, |edit| {
                let air = |cells: &[u16]| cells.iter().filter(|&&c| c == 0).count();
                air(&laid_on(lent, &lent.cells, edit)) == air(&lent.cells)
            })
        }),
        ("by the journal's cells", &|lent, call| {
            judged(lent, call, |edit| {
                match model::reopen(&lent.journal, lent.record.used, lent.cells.len()) {
                    Ok(own) => laid_on(lent, &own.cells, edit) == own.cells,
                    Err(_) => stays(lent, edit),
                }
            })
        }),
    ]);
}

/// The model, with this done to the reply and to what is left of a press that alters nothing.
fn spoilt(lent: &Lent, call: &Call, spoil: impl Fn(&Edit, &mut Lent, &mut Reply)) -> (Lent, Reply) {
    let (mut next, mut reply) = model::replied(lent, call);
    if let Some(edit) = idle(lent, call) {
        spoil(&edit, &mut next, &mut reply);
    }
    (next, reply)
}

#[test]
fn every_wrong_answer_is_found() {
    all_found(&[
        ("the id is lost", &|lent, call| {
            spoilt(lent, call, |_, _, reply| reply.previous = 0)
        }),
        ("the groups are lost", &|lent, call| {
            spoilt(lent, call, |_, _, reply| reply.written = 0)
        }),
        ("a cell is told", &|lent, call| {
            spoilt(lent, call, |_, _, reply| reply.altered = 1)
        }),
        ("counted as active", &|lent, call| {
            spoilt(lent, call, |_, next, _| next.record.active += 1)
        }),
        (
            "counted as active while there are fewer than 256",
            &|lent, call| {
                spoilt(lent, call, |_, next, _| {
                    next.record.active = (next.record.active + 1).min(ACTIVE)
                })
            },
        ),
        ("its bytes are written and not used", &|lent, call| {
            spoilt(lent, call, |edit, next, _| {
                let free = &mut next.journal[lent.record.used..];
                free.iter_mut().zip(edit.text().bytes()).for_each(|(b, c)| *b = c);
            })
        }),
        ("the count is counted anew", &|lent, call| {
            spoilt(lent, call, |_, next, _| {
                next.record.count = next.cells.iter().filter(|&&c| c != 0).count() as u32
            })
        }),
    ]);
}

/// A press that is accepted where it alters nothing on the mended record, before 21 is tested.
fn before_21(lent: &Lent, call: &Call, mend: fn(&mut Lent)) -> (Lent, Reply) {
    let (next, reply) = model::replied(lent, call);
    let mut mended = lent.clone();
    mend(&mut mended);
    if reply.number == 21 && idle(&mended, call).is_some() {
        return (next, model::replied(&mended, call).1);
    }
    (next, reply)
}

#[test]
fn every_test_before_21_is_found() {
    all_found(&[
        ("before the count's limit", &|lent, call| {
            before_21(lent, call, |lent| lent.record.count = 0)
        }),
        ("before the used bytes' limit", &|lent, call| {
            before_21(lent, call, |lent| lent.record.used = 0)
        }),
        ("before the active edits' limit", &|lent, call| {
            before_21(lent, call, |lent| lent.record.active = 0)
        }),
        ("before the journal's limit", &|lent, call| {
            before_21(lent, call, |lent| lent.journal.truncate(JOURNAL))
        }),
        ("before the cells' number", &|lent, call| {
            before_21(lent, call, |lent| {
                let size = lent.record.site.chunk_size.min(64);
                lent.cells.resize(size.pow(3), 0)
            })
        }),
        ("before the limits of settings and place", &|lent, call| {
            before_21(lent, call, |lent| {
                let site = &mut lent.record.site;
                (site.seed, site.world_height_blocks, site.cz) = (0, 2, 0);
            })
        }),
    ]);
}

#[test]
fn every_lost_7_or_8_is_found() {
    all_found(&[
        (
            "a set outside alters nothing",
            &|lent, call| match model::replied(lent, call) {
                (next, reply) if reply.number == 7 => (next, Reply::default()),
                whole => whole,
            },
        ),
        ("17 groups that alter nothing", &|lent, call| {
            let (next, reply) = model::replied(lent, call);
            let (8, Call::Batch(numbers)) = (reply.number, call) else {
                return (next, reply);
            };
            // Sixteen at a time, as batches that may be so long.
            let parts = numbers.chunks(64).map(|part| Call::Batch(part.to_vec()));
            let replies: Vec<Reply> = parts.map(|part| model::replied(lent, &part).1).collect();
            if replies.iter().any(|r| r.altered > 0 || r.number != 0) {
                return (next, reply);
            }
            let written = replies.iter().map(|r| r.written).sum();
            (
                next,
                Reply {
                    written,
                    ..Reply::default()
                },
            )
        }),
    ]);
}

/// An undo that lays the edits which altered a cell, less the last of them.
fn undo_of_altering(lent: &Lent, call: &Call) -> (Lent, Reply) {
    let (mut next, mut reply) = model::replied(lent, call);
    if let (Call::Undo, 0) = (call, reply.number) {
        let used = lent.record.used;
        let read = model::read(&lent.journal[..used], used, |_| true).expect("an undone journal");
        let mut active = without_idle(&read.site, &read.active);
        if active.pop().is_none() {
            return (lent.clone(), Reply::refused(23));
        }
        next.cells = model::laid(&read.site, &active);
        next.record.count = next.cells.iter().filter(|&&c| c != 0).count() as u32;
        reply.altered = model::differing(&lent.cells, &next.cells);
    }
    (next, reply)
}

#[test]
fn every_wrong_reading_of_older_lines_is_found() {
    let refuses: Open = &|journal, held, cells| {
        let opened = model::reopen(journal, held, cells)?;
        match first_idle(journal, held) {
            Some(line) => Err(Refusal { number: 12, line }),
            None => Ok(opened),
        }
    };
    let drops: Open = &|journal, held, cells| {
        let mut opened = model::reopen(journal, held, cells)?;
        let read = model::read(journal, held, |_| true)?;
        opened.record.active = without_idle(&read.site, &read.active).len();
        Ok(opened)
    };
    for (name, open) in [("refused", refuses), ("dropped", drops)] {
        assert!(found(&model::replied, open, &SMALL).0 > 0, "{name}: not found");
    }
    all_found(&[
        ("refused by an undo", &|lent, call| match call {
            Call::Undo if first_idle(&lent.journal, lent.record.used).is_some() => {
                (lent.clone(), Reply::refused(22))
            }
            _ => model::replied(lent, call),
        }),
        ("passed over by an undo", &undo_of_altering),
    ]);
}

/// Where nothing but undos in maps without older lines is compared, the older writer's undo is found to alter nothing.
#[test]
fn a_dead_undo_is_found() {
    let undos = Amount {
        presses: 0,
        sessions: 0,
        older: 0,
        again: 0,
        undos: 1500,
    };
    let writes: Press = &|lent, call| with_line(lent, call, |_| true);
    assert!(found(writes, &model::reopen, &undos).0 > 0);
    assert_eq!(found(&model::replied, &model::reopen, &undos).0, 0);
}
