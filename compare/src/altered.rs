//! What a session's calls tell of the cells: the id that a set replaced, and how many cells hold another id than
//! before. Here the lent cells need not be the journal's, and batches come back to the cells that they have set.
use crate::bare::non_air;
use crate::chunk::id;
use crate::journals;
use crate::model::{edit_of, Call, Lent, Reply};
use crate::names;
use crate::report::Report;
use crate::rng::Rng;
use crate::session::{called, session, Calls};
use std::collections::BTreeMap;

/// How many calls are made on the states of one session.
const ON_ONE: u64 = 12;

/// Every kind of reply, each to be met in a run.
const KINDS: [&str; 19] = [
    "refused",
    "nothing inside",
    "set: the id that was there",
    "set: another id",
    "column: no cell",
    "column: some cells",
    "column: every cell",
    "batch: no cell",
    "batch: fewer cells than groups",
    "batch: as many cells as groups",
    "undo: no cell",
    "undo: one cell",
    "undo: some cells",
    "undo: every cell",
    "checkpoint",
    "restore: no cell",
    "restore: one cell",
    "restore: some cells",
    "restore: every cell",
];

/// The kind of a reply, by how many cells were altered. `size` is the chunk's.
fn kind(call: &Call, reply: &Reply, size: usize) -> &'static str {
    match (call, reply.altered) {
        _ if reply.number != 0 => "refused",
        (Call::Column { .. } | Call::Batch(_), _) if edit_of(size, call).is_none() => "nothing inside",
        (Call::Set(..), 0) => "set: the id that was there",
        (Call::Set(..), _) => "set: another id",
        (Call::Column { .. }, 0) => "column: no cell",
        (Call::Column { .. }, n) if n == size => "column: every cell",
        (Call::Column { .. }, _) => "column: some cells",
        (Call::Batch(_), 0) => "batch: no cell",
        (Call::Batch(_), n) if n < reply.written => "batch: fewer cells than groups",
        (Call::Batch(_), _) => "batch: as many cells as groups",
        (Call::Undo, 0) => "undo: no cell",
        (Call::Undo, 1) => "undo: one cell",
        (Call::Undo, n) if n == size.pow(3) => "undo: every cell",
        (Call::Undo, _) => "undo: some cells",
        (Call::Checkpoint(_), _) => "checkpoint",
        (Call::Restore(_), 0) => "restore: no cell",
        (Call::Restore(_), 1) => "restore: one cell",
        (Call::Restore(_), n) if n == size.pow(3) => "restore: every cell",
        (Call::Restore(_), _) => "restore: some cells",
    }
}

/// Cells whose ids are one off, in this cell or in every one.
pub fn one_off(cells: &[u16], only: Option<usize>) -> Vec<u16> {
    let off = |(i, &id): (usize, &u16)| match only {
        Some(one) if one != i => id,
        _ => id.wrapping_add(1),
    };
    cells.iter().enumerate().map(off).collect()
}

/// The last of a session's states with its own cells, or with others, also those of an earlier state; the count is the
/// record's, or that of the cells.
pub fn lend(rng: &mut Rng, states: &[Lent]) -> Lent {
    let own = states.last().expect("a session has a state");
    let mut lent = own.clone();
    let cells = lent.cells.len() as u64;
    match rng.below(7) {
        0 => lent.cells.iter_mut().for_each(|c| *c = id(rng)),
        1 => lent.cells.fill(id(rng)),
        2 => lent.cells = one_off(&own.cells, None),
        3 => lent.cells = one_off(&own.cells, Some(rng.below(cells) as usize)),
        4 => lent.cells.rotate_left(rng.below(cells) as usize),
        // Of the state before an edit: then an undo finds its cells there.
        5 => lent.cells = states[rng.below(states.len() as u64) as usize].cells.clone(),
        _ => {}
    }
    if rng.once_in(2) {
        lent.record.count = non_air(&lent.cells) as u32;
    }
    lent
}

/// A batch on a few cells, which are set to some ids in turn, and back to those that they hold.
fn back_and_forth(rng: &mut Rng, lent: &Lent) -> Call {
    let size = lent.record.site.chunk_size;
    let few = rng.range(1, 4);
    let at: Vec<[usize; 3]> = (0..few)
        .map(|_| std::array::from_fn(|_| rng.below(size as u64) as usize))
        .collect();
    let group = |_| {
        let [x, y, z] = rng.pick(&at);
        let held = lent.cells[x + y * size + z * size * size];
        let id = if rng.once_in(2) { held } else { id(rng) };
        [
            x as u32,
            y as u32,
            z as u32,
            u32::from(id) + 65_536 * rng.pick(&[0, 1]),
        ]
    };
    Call::Batch((0..few + 4).flat_map(group).collect())
}

/// A call, often an undo, a restore or a batch that comes back to its cells.
fn press(rng: &mut Rng, lent: &Lent) -> Call {
    match (rng.below(5), names::known(rng, lent)) {
        (0, _) => Call::Undo,
        (1, _) => back_and_forth(rng, lent),
        (2, Some(name)) => Call::Restore(name),
        _ => journals::call(rng, lent.record.site.chunk_size),
    }
}

/// So many calls on sessions that lend cells of any kind. A kind of reply that was never met is a failure.
pub fn compare(report: &mut Report, calls: &impl Calls, many: u64) {
    let mut met: BTreeMap<&str, u64> = BTreeMap::new();
    let mut rng = Rng::new(11);
    let mut done = 0;
    while done < many {
        let turns = rng.below(12);
        let Some(states) = session(&mut Report::quiet(), &mut rng, calls, turns) else {
            continue;
        };
        for _ in 0..ON_ONE {
            let lent = lend(&mut rng, &states);
            let call = press(&mut rng, &lent);
            let (_, reply) = called(report, calls, &lent, &call);
            *met.entry(kind(&call, &reply, lent.record.site.chunk_size))
                .or_insert(0) += 1;
            done += 1;
        }
    }
    println!("cells of any kind: {done} calls, by what they altered {met:?}");
    for kind in KINDS.iter().filter(|kind| many > 0 && !met.contains_key(**kind)) {
        report.fail(format!("no call met '{kind}'"));
    }
}
