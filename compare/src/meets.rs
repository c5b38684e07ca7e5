//! What calls with names meet on a session's own cells, and cuts of such sessions: the kinds that the driver of
//! checkpoints counts.
use crate::idle::{note, room};
use crate::marked::joined;
use crate::model::{self, Call, Edit, Journal, Lent, Name, Reply, ACTIVE, NAMES};
use std::collections::BTreeMap;

/// How many times each kind was met.
pub type Met = BTreeMap<String, u64>;

/// What sessions are to meet.
pub const SESSIONS: [&str; 37] = [
    "checkpoint refused with 24",
    "checkpoint refused with 25",
    "checkpoint refused with 27",
    "restore refused with 24",
    "restore refused with 25",
    "restore refused with 26",
    "a checkpoint of no edit",
    "a checkpoint at 256 active edits",
    "a checkpoint right after a restore",
    "a checkpoint that fills the journal",
    "a moved checkpoint",
    "a checkpoint moved at 16 names",
    "a sixteenth name",
    "a name of one byte",
    "a name of 16 bytes",
    "a restore that alters nothing",
    "a restore that alters a cell",
    "a restore that alters every cell",
    "a restore to no edit",
    "a restore to no edit where none is active",
    "a restore to 256 active edits",
    "a restore at 256 active edits",
    "a restore to more edits than are active",
    "a restore to fewer edits than are active",
    "a restore to other edits",
    "a restore to a moved checkpoint",
    "a restore to a checkpoint made right after a restore",
    "a restore past a later checkpoint",
    "a restore to a checkpoint made later than one returned to",
    "a restore right after a restore",
    "a restore that fills the journal",
    "an undo right after a restore",
    "an undo right after a checkpoint",
    "an undo refused with 23 right after a restore",
    "an edit right after a restore",
    "an edit right after a checkpoint",
    "an edit refused with 24 right after a restore to 256 active edits",
];

/// What cuts are to meet.
pub const CUTS: [&str; 18] = [
    "a cut inside an M line",
    "a cut inside an R line",
    "a cut before the LF of an M line",
    "a cut before the LF of an R line",
    "a cut behind an M line",
    "a cut behind an R line",
    "a cut inside an M line, with zeros behind",
    "a cut inside an R line, with zeros behind",
    "a cut inside an M line, with the old bytes behind",
    "a cut inside an R line, with the old bytes behind",
    "a name restored on both tablets",
    "a name restored on both tablets to no edit",
    "a name restored on both tablets to other cells",
    "a moved name restored on both tablets",
    "a name of a cut M line, unknown on both tablets",
    "a map of 16 names taken over",
    "a map of 256 active edits taken over",
    "a map of 32,768 bytes taken over",
];

/// The used bytes of a session as the model reads them.
fn journal(lent: &Lent) -> Journal {
    let used = lent.record.used;
    model::read(&lent.journal[..used], used, |_| true).expect("a session's journal")
}

/// The later lines of a session's used bytes.
fn lines(lent: &Lent) -> Vec<&[u8]> {
    let used = &lent.journal[..lent.record.used];
    let whole = used.strip_suffix(b"\n").unwrap_or(used);
    whole.split(|&b| b == b'\n').skip(1).collect()
}

/// The letter of a line, of none where there is no line.
fn letter(line: Option<&&[u8]>) -> u8 {
    line.map_or(b'G', |line| line[0])
}

/// Notes each kind that holds.
pub fn note_all(met: &mut Met, kinds: &[(&str, bool)]) {
    for (kind, _) in kinds.iter().filter(|(_, holds)| *holds) {
        note(met, kind.to_string());
    }
}

/// Notes what a call on a session's own cells meets.
pub fn note_call(met: &mut Met, lent: &Lent, call: &Call) {
    let (left, reply) = model::replied(lent, call);
    let last = letter(lines(lent).last());
    let (number, crowded) = (reply.number, lent.record.active == ACTIVE);
    match call {
        Call::Checkpoint(name) if number == 0 => note_checkpoint(met, lent, name, last),
        Call::Restore(name) if number == 0 => note_restore(met, lent, name, &reply),
        Call::Checkpoint(_) => note(met, format!("checkpoint refused with {number}")),
        Call::Restore(_) => note(met, format!("restore refused with {number}")),
        Call::Undo => note_all(
            met,
            &[
                ("an undo right after a restore", number == 0 && last == b'R'),
                ("an undo right after a checkpoint", number == 0 && last == b'M'),
                (
                    "an undo refused with 23 right after a restore",
                    number == 23 && last == b'R',
                ),
            ],
        ),
        _ => {
            let line = left.record.used > lent.record.used;
            note_all(
                met,
                &[
                    ("an edit right after a restore", line && last == b'R'),
                    ("an edit right after a checkpoint", line && last == b'M'),
                    (
                        "an edit refused with 24 right after a restore to 256 active edits",
                        number == 24 && crowded && last == b'R',
                    ),
                ],
            )
        }
    }
}

/// Notes what an accepted checkpoint meets, behind a line of this letter.
fn note_checkpoint(met: &mut Met, lent: &Lent, name: &Name, last: u8) {
    let (known, length) = (model::checkpoints(lent), name.0.len());
    let (moved, many) = (known.find(name).is_some(), known.0.len());
    note_all(
        met,
        &[
            ("a checkpoint of no edit", lent.record.active == 0),
            ("a checkpoint at 256 active edits", lent.record.active == ACTIVE),
            ("a checkpoint right after a restore", last == b'R'),
            ("a checkpoint that fills the journal", room(lent) == length + 3),
            ("a moved checkpoint", moved),
            ("a checkpoint moved at 16 names", moved && many == NAMES),
            ("a sixteenth name", !moved && many == NAMES - 1),
            ("a name of one byte", length == 1),
            ("a name of 16 bytes", length == 16),
        ],
    );
}

/// Notes what an accepted restore meets.
fn note_restore(met: &mut Met, lent: &Lent, name: &Name, reply: &Reply) {
    let journal = journal(lent);
    let list = journal.checkpoints.find(name).expect("a name that is known");
    let (from, to) = (journal.active.len(), list.len());
    note_all(
        met,
        &[
            ("a restore that alters nothing", reply.altered == 0),
            ("a restore that alters a cell", reply.altered > 0),
            (
                "a restore that alters every cell",
                reply.altered == lent.cells.len(),
            ),
            ("a restore to no edit", to == 0 && from > 0),
            ("a restore to no edit where none is active", to == 0 && from == 0),
            ("a restore to 256 active edits", to == ACTIVE),
            ("a restore at 256 active edits", from == ACTIVE),
            ("a restore to more edits than are active", to > from),
            ("a restore to fewer edits than are active", to < from),
            ("a restore to other edits", parted(&journal.active, list)),
            ("a restore that fills the journal", room(lent) == name.0.len() + 3),
        ],
    );
    note_past(met, &lines(lent), name);
}

/// Whether neither list begins with the other.
fn parted(a: &[Edit], b: &[Edit]) -> bool {
    !a.starts_with(b) && !b.starts_with(a)
}

/// Notes how a restore's name came about.
fn note_past(met: &mut Met, lines: &[&[u8]], name: &Name) {
    let mark = joined(&[b"M\t", &name.0]);
    let made = lines.iter().rposition(|line| *line == mark).expect("an M line");
    let (before, after) = (&lines[..made], &lines[made + 1..]);
    // A name that was made before this one, and returned to after it.
    let earlier = |line: &&[u8]| {
        let made = joined(&[b"M", &line[1..]]);
        line[0] == b'R' && before.contains(&&made[..]) && !after.contains(&&made[..])
    };
    note_all(
        met,
        &[
            ("a restore to a moved checkpoint", before.contains(&&mark[..])),
            (
                "a restore to a checkpoint made right after a restore",
                letter(before.last()) == b'R',
            ),
            (
                "a restore past a later checkpoint",
                after.iter().any(|line| line[0] == b'M'),
            ),
            (
                "a restore to a checkpoint made later than one returned to",
                after.iter().any(earlier),
            ),
            ("a restore right after a restore", letter(lines.last()) == b'R'),
        ],
    );
}

/// Notes where a session is cut, and what is behind the cut. `whole` are the bytes of its whole lines.
pub fn note_cut(met: &mut Met, last: &Lent, whole: usize, q: usize, (journal, held): &(Vec<u8>, usize)) {
    let (old, used) = (&last.journal, last.record.used);
    let line = |at: usize| char::from(old[at]);
    if q == whole && whole > 0 {
        let start = old[..q - 1]
            .iter()
            .rposition(|&b| b == b'\n')
            .map_or(0, |i| i + 1);
        note(met, format!("a cut behind an {} line", line(start)));
    }
    if q > whole && q < used {
        let inside = format!("a cut inside an {} line", line(whole));
        note(met, inside.clone());
        if old[q] == b'\n' {
            note(met, format!("a cut before the LF of an {} line", line(whole)));
        }
        if *held > q {
            note(met, format!("{inside}, with zeros behind"));
        } else if journal[q..] == old[q..] {
            note(met, format!("{inside}, with the old bytes behind"));
        }
    }
}
