//! Sessions and reopening: any library of these calls against the model and the reference model of
//! model.rs. The calls are a trait, so that the tests can run the driver on the model itself and on
//! broken ones.
use crate::altered;
use crate::chunk::STALE;
use crate::ground::Site;
use crate::journals;
use crate::model::{self, Call, Lent, Record, Reference, Refusal, Reopened, Reply};
use crate::product::Product;
use crate::report::Report;
use crate::rng::Rng;
use crate::seeds;
use crate::stack;

/// The calls of a library. Each changes what is lent to it, as the library would.
pub trait Calls {
    fn fresh(&self, site: &Site, cells: &mut [u16], journal: &mut [u8]) -> Result<Record, u32>;
    /// The whole reply; what is lent is then as the call left it.
    fn call(&self, lent: &mut Lent, call: &Call) -> Reply;
    fn reopen(
        &self,
        journal: &[u8],
        held: usize,
        cells: &mut [u16],
    ) -> Result<(Record, usize, usize), Refusal>;
    fn committed(&self, journal: &[u8], held: usize) -> usize;
}

/// How much a run does.
pub struct Amount {
    pub journals: u64,
    pub sessions: u64,
    pub cut_sessions: u64,
    pub hostile: u64,
    pub surfaces: u64,
    pub altered: u64,
}

pub const FULL: Amount = Amount {
    journals: 120_000,
    sessions: 4000,
    cut_sessions: 220,
    hostile: 120_000,
    surfaces: 400,
    altered: 60_000,
};

/// Reopens a journal on both sides: answer, record, lines, trailing bytes and cells.
pub fn reopening(report: &mut Report, calls: &impl Calls, journal: &[u8], held: usize, cells: usize) {
    let mut ours = vec![STALE; cells];
    let answer = calls.reopen(journal, held, &mut ours);
    let wanted = model::reopen(journal, held, cells);
    let same = match (&answer, &wanted) {
        (Ok((record, lines, trailing)), Ok(w)) => {
            *w == Reopened {
                record: *record,
                lines: *lines,
                trailing: *trailing,
                cells: ours.clone(),
            }
        }
        (Err(a), Err(b)) => a == b && ours.iter().all(|&c| c == STALE),
        _ => false,
    };
    report.same(same, || {
        let text = String::from_utf8_lossy(&journal[..journal.len().min(300)]).into_owned();
        let said = wanted.map(|w| (w.record, w.lines, w.trailing));
        format!("reopening {text:?}, {held} held, {cells} cells: wanted {said:?}, product {answer:?}")
    });
    let part = model::committed(journal, held).len();
    let got = calls.committed(journal, held);
    report.same(got == part, || {
        format!(
            "the committed prefix of {} bytes, {held} held: wanted {part}, product {got}",
            journal.len()
        )
    });
}

/// The number of cells to lend for a journal: mostly right for the size that its first line names.
fn cells_for(rng: &mut Rng, journal: &[u8]) -> usize {
    let right = model::first_size(journal).unwrap_or(2).clamp(1, 16).pow(3);
    if rng.once_in(30) {
        rng.pick(&[right + 1, right - 1, 0, 4096])
    } else {
        right
    }
}

/// Valid and damaged journals. A refusal that was never met is a failure.
fn journals(report: &mut Report, rng: &mut Rng, calls: &impl Calls, many: u64) {
    let (mut met, mut wide) = (std::collections::BTreeMap::new(), 0u64);
    for _ in 0..many {
        let (journal, held) = journals::journal(rng);
        let cells = cells_for(rng, &journal);
        let opened = model::reopen(&journal, held, cells);
        wide += u64::from(opened.as_ref().is_ok_and(|r| r.record.site.seed > seeds::OLDER));
        *met.entry(opened.map_or_else(|r| r.number, |_| 0)).or_insert(0u64) += 1;
        reopening(report, calls, &journal, held, cells);
    }
    println!("journals: {many}, by refusal (0: accepted) {met:?}; {wide} accepted with a seed above 65,535");
    if many >= 10_000 && wide == 0 {
        report.fail("no journal with a seed above 65,535 was accepted".into());
    }
    for number in [0, 1, 2, 3, 4, 5, 6, 9, 10, 11, 12] {
        if many >= 10_000 && !met.contains_key(&number) {
            report.fail(format!("no journal met {number}"));
        }
    }
}

/// A fresh session on both sides, in a journal of this length.
pub fn started(
    report: &mut Report,
    calls: &impl Calls,
    site: &Site,
    cells: usize,
    length: usize,
) -> Option<Lent> {
    let (mut ours, mut journal) = (vec![STALE; cells], vec![b'?'; length]);
    let wanted = model::fresh(site, &ours, &journal);
    let answer = calls.fresh(site, &mut ours, &mut journal);
    let kept = (vec![STALE; cells], vec![b'?'; length]);
    let same = match (&answer, &wanted) {
        (Ok(record), Ok(w)) => {
            *w == Lent {
                record: *record,
                cells: ours,
                journal,
            }
        }
        (Err(a), Err(b)) => a == b && (ours, journal) == kept,
        _ => false,
    };
    report.same(same, || {
        format!(
            "fresh {site:?}, {cells} cells, journal of {length}: wanted {:?}, product {answer:?}",
            wanted.as_ref().map(|w| w.record)
        )
    });
    wanted.ok()
}

/// Number, line and groups written: a reply without what it tells of the cells.
fn outcome(reply: &Reply) -> (u32, usize, usize) {
    (reply.number, reply.line, reply.written)
}

/// One call on both sides: what it leaves, and the whole reply. Answers the model's.
pub fn called(report: &mut Report, calls: &impl Calls, lent: &Lent, call: &Call) -> (Lent, Reply) {
    let (left, wanted) = model::replied(lent, call);
    let mut ours = lent.clone();
    let answer = calls.call(&mut ours, call);
    report.same(outcome(&answer) == outcome(&wanted) && ours == left, || {
        format!(
            "{call:?} on {:?}: wanted {wanted:?} and {:?}, product {answer:?} and {:?}",
            lent.record, left.record, ours.record
        )
    });
    report.same_reply(answer == wanted, || {
        format!(
            "{call:?} on {:?}: wanted {wanted:?}, product {answer:?}",
            lent.record
        )
    });
    (left, wanted)
}

/// A fresh session of random calls. Answers its states, the fresh one first.
pub fn session(report: &mut Report, rng: &mut Rng, calls: &impl Calls, many: u64) -> Option<Vec<Lent>> {
    let (lent, reference) = begun(report, rng, calls)?;
    let any = |rng: &mut Rng, lent: &Lent| journals::call(rng, lent.record.site.chunk_size);
    Some(held(report, rng, calls, (lent, reference), many, any))
}

/// A fresh session on both sides, in a journal of some length, beside the reference model of it.
pub fn begun(report: &mut Report, rng: &mut Rng, calls: &impl Calls) -> Option<(Lent, Reference)> {
    let site = journals::site(rng);
    let length = rng.pick(&[60, 120, 400, 2000, 32_768]);
    let lent = started(report, calls, &site, site.chunk_size.pow(3), length)?;
    Some((lent, Reference::new(site, length)))
}

/// So many calls on a session, which is held to its reference model after each. Answers the session's states, the given
/// one first.
pub fn held(
    report: &mut Report,
    rng: &mut Rng,
    calls: &impl Calls,
    (mut lent, mut reference): (Lent, Reference),
    many: u64,
    mut next: impl FnMut(&mut Rng, &Lent) -> Call,
) -> Vec<Lent> {
    let mut states = vec![lent.clone()];
    for _ in 0..many {
        let call = next(rng, &lent);
        let (left, reply) = called(report, calls, &lent, &call);
        let wanted = reference.reply(&call);
        lent = left;
        let r = &lent.record;
        let same = reply.number == wanted.number
            && lent.cells == reference.cells()
            && lent.journal.get(..r.used) == Some(&reference.bytes[..])
            && r.active == reference.active.len()
            && model::checkpoints(&lent) == reference.checkpoints
            && r.count as usize == crate::bare::non_air(&lent.cells);
        report.same(same, || {
            format!("{call:?}: the session is not the reference model, {reply:?} against {wanted:?}")
        });
        report.same_reply(reply == wanted, || {
            format!("{call:?}: the reference model replies {wanted:?}, the model {reply:?}")
        });
        states.push(lent.clone());
    }
    states
}

/// The next call on a session that goes on, after so many; none where it ends.
pub type Next<'a> = &'a mut dyn FnMut(&mut Rng, &Lent, usize) -> Option<Call>;

/// A session cut at every byte, with tails of zeros (SCOPE 9.2, 9.5). At one cut in eight both tablets go on.
pub fn cuts(report: &mut Report, rng: &mut Rng, calls: &impl Calls, states: &[Lent], next: Next) {
    let last = states.last().expect("a session has a state");
    for q in 0..=last.record.used {
        let torn = torn(rng, last, q);
        if let (Some(both), true) = (cut(report, calls, states, q, torn), rng.once_in(8)) {
            go_on(report, rng, calls, both, next);
        }
    }
}

/// A journal cut at a byte, and how many bytes it holds: some zeros behind the cut are held too. Behind these are other
/// bytes or the old ones, which no call may read.
pub fn torn(rng: &mut Rng, last: &Lent, q: usize) -> (Vec<u8>, usize) {
    let tail = rng.below(1 + (last.journal.len() - q).min(40) as u64) as usize;
    let held = if rng.once_in(3) { q } else { q + tail };
    let mut journal = last.journal.clone();
    journal[q..held].fill(0);
    if rng.once_in(2) {
        journal[held..].fill(b'U');
    }
    (journal, held)
}

/// A session cut at a byte: the reopened one has the cells, count, used bytes and active edits that the first one had
/// after the last call whose line is whole. Answers the second tablet and the first, where a line is whole.
pub fn cut(
    report: &mut Report,
    calls: &impl Calls,
    states: &[Lent],
    q: usize,
    (journal, held): (Vec<u8>, usize),
) -> Option<[Lent; 2]> {
    let cells = states[0].cells.len();
    reopening(report, calls, &journal, held, cells);
    let whole = states.iter().rev().find(|s| s.record.used <= q);
    let mut cells = vec![STALE; cells];
    let answer = calls.reopen(&journal, held, &mut cells);
    let same = match (&answer, whole) {
        (Ok((record, _, _)), Some(s)) => *record == s.record && cells == s.cells,
        (Err(r), None) => *r == model::refusal(10),
        _ => false,
    };
    report.same(same, || {
        format!("cut at {q}: the reopened session is not the first one, {answer:?}")
    });
    let second = Lent {
        record: answer.ok()?.0,
        cells,
        journal,
    };
    Some([second, whole?.clone()])
}

/// Six calls of any kind.
pub fn six(rng: &mut Rng, lent: &Lent, done: usize) -> Option<Call> {
    (done < 6).then(|| journals::call(rng, lent.record.site.chunk_size))
}

/// Further calls on the first session, on the reopened one and on the model of the first, which goes on by itself: what
/// either call leaves and its whole reply must be the model's. Behind the used bytes each keeps what its journal has.
pub fn go_on(
    report: &mut Report,
    rng: &mut Rng,
    calls: &impl Calls,
    [mut second, mut first]: [Lent; 2],
    next: Next,
) {
    let mut model = first.clone();
    let mut done = 0;
    while let Some(call) = next(rng, &model, done) {
        let (left, wanted) = model::replied(&model, &call);
        let mut taken_over = Lent {
            journal: second.journal.clone(),
            ..left.clone()
        };
        let used = left.record.used;
        taken_over.journal[..used].copy_from_slice(&left.journal[..used]);
        let (a, b) = (calls.call(&mut first, &call), calls.call(&mut second, &call));
        let same = [&a, &b].iter().all(|reply| outcome(reply) == outcome(&wanted));
        report.same(same && first == left && second == taken_over, || {
            let records = (&first.record, &second.record);
            format!(
                "{call:?} after a reopening: wanted {wanted:?} and {:?}, product {a:?}, {b:?} and {records:?}",
                left.record
            )
        });
        report.same_reply(a == wanted && b == wanted, || {
            format!("{call:?} after a reopening: wanted {wanted:?}, first {a:?}, second {b:?}")
        });
        model = left;
        done += 1;
    }
}

/// A number at an end of its type, near a limit or a small one.
fn wild(rng: &mut Rng) -> i64 {
    rng.pick(&[
        0,
        1,
        -1,
        64,
        65,
        256,
        257,
        4096,
        4097,
        -4096,
        -4097,
        65_535,
        65_536,
        seeds::MOST.into(),
        i64::from(seeds::MOST) + 1,
        i32::MAX as i64,
        i32::MIN as i64,
    ])
}

/// A record, cells and journal that need not belong together.
pub fn spoil(rng: &mut Rng, lent: &mut Lent) {
    let r = &mut lent.record;
    match rng.below(14) {
        0 => r.site.seed = wild(rng) as u32,
        1 => r.site.sea_level = wild(rng) as i32,
        2 => r.site.world_height_blocks = wild(rng) as i32,
        3 => r.site.chunk_size = rng.pick(&[0, 1, 2, 3, 64, 65, usize::MAX, 1 << 32]),
        4 => r.site.cx = wild(rng) as i32,
        5 => r.site.cz = rng.pick(&[i32::MAX, i32::MIN, 1_000_000, -1_000_000, 1_000_001, 7]),
        6 => {
            r.count = rng.pick(&[
                0,
                1,
                r.count + 1,
                r.count.wrapping_sub(1),
                u32::MAX,
                lent.cells.len() as u32,
                lent.cells.len() as u32 + 1,
            ])
        }
        7 => {
            r.used = rng.pick(&[
                0,
                1,
                r.used - 1,
                r.used + 1,
                lent.journal.len(),
                lent.journal.len() + 1,
                usize::MAX,
            ])
        }
        8 => r.active = rng.pick(&[0, 1, r.active + 1, 255, 256, 257, usize::MAX]),
        9 => lent.cells.iter_mut().for_each(|c| *c = rng.below(2) as u16),
        10 => drop(lent.cells.pop()),
        11 => lent.journal.resize(rng.pick(&[0, 1, 40, 32_768, 32_769]), b'U'),
        12 => {
            let i = rng.below(lent.journal.len().max(1) as u64) as usize;
            if let Some(b) = lent.journal.get_mut(i) {
                *b = rng.pick(b"\n\tGSCBUMR0123-ab");
            }
        }
        _ => {}
    }
}

/// Calls on records that no session made.
fn hostile(report: &mut Report, rng: &mut Rng, calls: &impl Calls, many: u64) {
    let mut met = std::collections::BTreeMap::new();
    let mut done = 0;
    while done < many {
        let mut quiet = Report::quiet();
        let turns = rng.below(12);
        let Some(lent) = session(&mut quiet, rng, calls, turns).and_then(|mut states| states.pop()) else {
            continue;
        };
        for _ in 0..20 {
            let mut bad = lent.clone();
            for _ in 0..rng.range(1, 2) {
                spoil(rng, &mut bad);
            }
            let call = journals::call(rng, lent.record.site.chunk_size);
            let (_, reply) = called(report, calls, &bad, &call);
            *met.entry(reply.number).or_insert(0u64) += 1;
            done += 1;
        }
    }
    println!("hostile records: {done} calls, by refusal (0: accepted) {met:?}");
}

/// Cells that an undo or a restore is tried on beside the session's own: any, all equal, or moved along; and its own
/// one id off, in this cell or in every one.
pub fn others(rng: &mut Rng, own: &[u16], only: Option<usize>) -> [Vec<u16>; 2] {
    let mut far = own.to_vec();
    match rng.below(3) {
        0 => far.iter_mut().for_each(|c| *c = rng.below(12) as u16),
        1 => far.fill(rng.pick(&[0, 1, 9, 65_535])),
        _ => far.rotate_left(rng.below(own.len() as u64) as usize),
    }
    [far, altered::one_off(own, only)]
}

/// Undo on chunks of many sizes at the surface and next to it, where crowns and batches reach over several z: on the
/// session's own cells and on others, which an undo lays anew all the same.
fn surfaces(report: &mut Report, rng: &mut Rng, calls: &impl Calls, many: u64) {
    let (mut undone, mut leaves, mut most) = (0, 0, 0);
    for k in 0..many {
        let site = journals::surface(rng);
        let size = site.chunk_size;
        let Some(mut lent) = started(report, calls, &site, size.pow(3), 32_768) else {
            continue;
        };
        leaves += u64::from(lent.cells.contains(&original::block::LEAVES));
        for _ in 0..rng.range(1, 12) {
            let edit = journals::edit(rng, size);
            lent = called(report, calls, &lent, &edit).0;
        }
        let only = (k % 2 == 1).then_some(size.pow(3) / 3);
        let mut all = vec![lent.cells.clone()];
        all.extend(others(rng, &lent.cells, only));
        for cells in all {
            lent.cells = cells;
            let (_, reply) = called(report, calls, &lent, &Call::Undo);
            undone += u64::from(reply.number == 0);
            most = most.max(reply.altered);
        }
    }
    report.same(many < 20 || (leaves > 0 && undone > 2 * many), || {
        "no chunk at the surface had a tree, or undos were refused".into()
    });
    report.same(many < 20 || most > 65_535, || {
        format!("no undo altered more than {most} cells")
    });
    println!(
        "chunks at the surface: {many}, {leaves} with trees, {undone} undone, {most} cells altered by one"
    );
}

/// Fresh sessions at and around each limit.
fn fresh_limits(report: &mut Report, rng: &mut Rng, calls: &impl Calls) {
    for _ in 0..4000 {
        let site = journals::site(rng);
        let record = Record {
            site,
            count: 1,
            used: 1,
            active: 1,
        };
        let mut lent = Lent {
            record,
            cells: vec![0; site.chunk_size.pow(3)],
            journal: vec![0; 60],
        };
        spoil(rng, &mut lent);
        let line = model::header(&lent.record.site).len() + 1;
        let length = rng.pick(&[line, line - 1, line + 1, 0, 60, 32_768, 32_769]);
        started(report, calls, &lent.record.site, lent.cells.len(), length);
    }
}

/// All of it on one library.
pub fn compare(report: &mut Report, calls: &impl Calls, amount: &Amount) {
    let before = report.comparisons;
    let mut rng = Rng::new(8);
    journals(report, &mut rng, calls, amount.journals);
    fresh_limits(report, &mut rng, calls);
    for _ in 0..amount.sessions {
        let turns = if rng.once_in(50) { 400 } else { rng.below(40) };
        session(report, &mut rng, calls, turns);
    }
    let mut cut = 0;
    while cut < amount.cut_sessions {
        let turns = rng.below(14);
        if let Some(states) = session(report, &mut rng, calls, turns) {
            cuts(report, &mut rng, calls, &states, &mut six);
            cut += 1;
        }
    }
    hostile(report, &mut rng, calls, amount.hostile);
    surfaces(report, &mut rng, calls, amount.surfaces);
    altered::compare(report, calls, amount.altered);
    println!(
        "sessions: {} comparisons, {cut} sessions cut at every byte",
        report.comparisons - before
    );
}

pub fn run(report: &mut Report) {
    compare(report, &Product, &FULL);
    let full = stack::batches_session(&Product, stack::site());
    called(report, &Product, &full, &Call::Undo);
}
