//! Checkpoints in the model, against answers, journals and refusals worked out by hand.
use compare::ground::Site;
use compare::model::{self, Call, Edit, Lent, Name, Reference, Refusal, Reply};

/// Eight cells of water (5), and their lent journal's length.
const SEA: Site = Site {
    seed: 0,
    sea_level: 4096,
    world_height_blocks: 256,
    chunk_size: 2,
    cx: 0,
    cy: 128,
    cz: 0,
};
const LENGTH: usize = 400;

/// The first line of that map.
const FIRST: &str = "G\t0\t4096\t256\t2\t0\t128\t0\n";

fn sea() -> Lent {
    let lent = model::fresh(&SEA, &[0; 8], &[0; LENGTH]).expect("settings within the limits");
    assert_eq!(lent.cells, [5; 8]);
    lent
}

fn checkpoint(name: &str) -> Call {
    Call::Checkpoint(Name::from(name))
}

fn restore(name: &str) -> Call {
    Call::Restore(Name::from(name))
}

/// What an accepted call tells: the id replaced, the cells altered.
fn tells(previous: u16, altered: usize) -> Reply {
    Reply {
        previous,
        altered,
        ..Reply::default()
    }
}

/// The session that some calls leave, each of which is accepted.
fn after(calls: &[Call]) -> Lent {
    calls.iter().fold(sea(), |lent, call| {
        let (left, reply) = model::replied(&lent, call);
        assert_eq!(reply.number, 0, "{call:?}");
        left
    })
}

/// Calls on eight cells of water: the reply, the active edits and the nonzero cells after it, worked out by hand.
fn worked_out() -> Vec<(Call, Reply, usize, u32)> {
    // The cells (1, 0, 1) and (1, 1, 1).
    let hole = Call::Column {
        x: 1,
        z: 1,
        height: 2,
        id: 0,
    };
    vec![
        (checkpoint("none"), tells(0, 0), 0, 8),
        (Call::Set([0, 0, 0], 9), tells(5, 1), 1, 8),
        (checkpoint("walls"), tells(0, 0), 1, 8),
        (hole, tells(0, 2), 2, 6),
        (checkpoint("hole"), tells(0, 0), 2, 6),
        // The two cells are water again; then nothing is altered, and the line is written all the same.
        (restore("walls"), tells(0, 2), 1, 8),
        (restore("walls"), tells(0, 0), 1, 8),
        // What is undone is the set, and not a restore or a checkpoint.
        (Call::Undo, tells(0, 1), 0, 8),
        (checkpoint("again"), tells(0, 0), 0, 8),
        // Made later than the one that was returned to, and known all the same: the set and the column are back.
        (restore("hole"), tells(0, 3), 2, 6),
        (Call::Undo, tells(0, 2), 1, 8),
        // Moved: it remembers the set alone, which was there before.
        (checkpoint("hole"), tells(0, 0), 1, 8),
        (restore("none"), tells(0, 1), 0, 8),
        (Call::Undo, Reply::refused(23), 0, 8),
        (restore("hole"), tells(0, 1), 1, 8),
        // A checkpoint after a restore remembers the restored list.
        (restore("again"), tells(0, 1), 0, 8),
        (checkpoint("walls"), tells(0, 0), 0, 8),
        (Call::Set([1, 1, 0], 0), tells(5, 1), 1, 7),
        (restore("walls"), tells(0, 1), 0, 8),
        (restore("wall"), Reply::refused(26), 0, 8),
        (restore("walls1"), Reply::refused(26), 0, 8),
        (restore("Walls"), Reply::refused(25), 0, 8),
        (checkpoint(""), Reply::refused(25), 0, 8),
        (checkpoint("a b"), Reply::refused(25), 0, 8),
    ]
}

/// The later lines of these calls: one for each that is accepted.
const WORKED_OUT: &str = "M\tnone
S\t0\t0\t0\t9
M\twalls
C\t1\t1\t2\t0
M\thole
R\twalls
R\twalls
U
M\tagain
R\thole
U
M\thole
R\tnone
R\thole
R\tagain
M\twalls
S\t1\t1\t0\t0
R\twalls
";

#[test]
fn calls_worked_out_by_hand() {
    let (mut lent, mut reference) = (sea(), Reference::new(SEA, LENGTH));
    for (call, wanted, active, count) in worked_out() {
        let (left, reply) = model::replied(&lent, &call);
        assert_eq!(reply, wanted, "{call:?}");
        assert_eq!(
            (left.record.active, left.record.count),
            (active, count),
            "{call:?}"
        );
        assert_eq!(reference.reply(&call), wanted, "the reference model on {call:?}");
        assert_eq!(reference.active.len(), active, "the reference model on {call:?}");
        if wanted.number != 0 {
            assert_eq!(left, lent, "{call:?}");
        }
        lent = left;
    }
    let whole = FIRST.to_string() + WORKED_OUT;
    assert_eq!(&lent.journal[..lent.record.used], whole.as_bytes());
    assert_eq!(reference.bytes, whole.as_bytes());
    // In the order of their first lines, with what the last ones remember.
    let set = Edit::Set([0, 0, 0], 9);
    let wanted = [
        ("none", vec![]),
        ("walls", vec![]),
        ("hole", vec![set]),
        ("again", vec![]),
    ];
    let wanted = wanted.map(|(name, list)| (Name::from(name), list)).to_vec();
    assert_eq!(model::checkpoints(&lent).0, wanted);
    assert_eq!(reference.checkpoints.0, wanted);
}

/// The same lines, cut behind each of them: what reopening gives, and what each call said.
#[test]
fn a_journal_worked_out_by_hand() {
    let whole = FIRST.to_string() + WORKED_OUT;
    let wanted: Vec<_> = worked_out().into_iter().filter(|w| w.1.number == 0).collect();
    let mut end = FIRST.len();
    for (line, (call, _, active, count)) in WORKED_OUT.split_inclusive('\n').zip(&wanted) {
        // One byte before the line's end it has no effect.
        end += line.len();
        let cut = model::reopen(whole.as_bytes(), end - 1, 8).expect("a journal of its form");
        assert_eq!(cut.record.used, end - line.len());
        let opened = model::reopen(whole.as_bytes(), end, 8).expect("a journal of its form");
        let record = opened.record;
        assert_eq!(
            (record.used, record.active, record.count),
            (end, *active, *count),
            "{call:?}"
        );
    }
    let (_, said) = model::said(whole.as_bytes(), whole.len()).expect("a journal of its form");
    let calls: Vec<&Call> = wanted.iter().map(|w| &w.0).collect();
    assert_eq!(format!("{said:?}"), format!("{calls:?}"));
}

/// What reopening answers to the first line and these.
fn opened(lines: &str) -> Result<usize, Refusal> {
    let journal = FIRST.to_string() + lines;
    model::reopen(journal.as_bytes(), journal.len(), 8).map(|opened| opened.record.active)
}

#[test]
fn lines_that_are_refused() {
    let cases = [
        ("M\t\n", 2),
        ("M\n", 2),
        ("M a\n", 2),
        ("Ma\n", 2),
        ("M\t\ta\n", 2),
        ("M\ta\t\n", 2),
        ("M\ta\tb\n", 2),
        ("M\tabcdefghijklmnopq\n", 2),
        ("M\tA\n", 2),
        ("M\ta \n", 2),
        ("M\ta\r\n", 2),
        ("M\ta-b\n", 2),
        ("M\té\n", 2),
        ("m\ta\n", 2),
        ("R\ta\n", 2),
        ("M\ta\nR\tb\n", 3),
        ("M\tab\nR\ta\n", 3),
        ("M\ta\nR\tab\n", 3),
        ("M\ta\nR\t\n", 3),
        ("M\ta\nR\ta\t\n", 3),
        ("M\ta\nR a\n", 3),
        ("R\ta\nM\ta\n", 2),
        ("M\taR\ta\n", 2),
        // No edit is active after these restores.
        ("M\ta\nR\ta\nU\n", 4),
        ("M\ta\nS\t0\t0\t0\t1\nR\ta\nU\n", 5),
        // An undo takes no checkpoint off, and no name.
        ("M\ta\nS\t0\t0\t0\t1\nU\nU\n", 5),
        ("S\t0\t0\t0\t1\nM\ta\nU\nR\ta\nU\nU\n", 7),
    ];
    for (lines, line) in cases {
        assert_eq!(opened(lines), Err(Refusal { number: 12, line }), "{lines:?}");
    }
}

#[test]
fn lines_that_are_taken() {
    let cases = [
        ("M\ta\n", 0),
        ("M\t0123456789abcdef\n", 0),
        ("M\tz9\nM\tz9\nR\tz9\n", 0),
        ("S\t0\t0\t0\t1\nM\ta\nR\ta\nR\ta\n", 1),
        ("S\t0\t0\t0\t1\nM\ta\nS\t0\t0\t0\t2\nM\tab\nR\ta\nR\tab\n", 2),
        ("S\t0\t0\t0\t1\nM\ta\nU\nR\ta\nU\nM\ta\nR\ta\n", 0),
        (
            "M\ta\nS\t0\t0\t0\t1\nM\tb\nR\ta\nM\tc\nR\tb\nM\td\nR\tc\nR\td\n",
            1,
        ),
        // Without its LF the last line has no effect.
        ("S\t0\t0\t0\t1\nM\ta\nU\nR\ta", 0),
    ];
    for (lines, active) in cases {
        assert_eq!(opened(lines), Ok(active), "{lines:?}");
    }
}

/// Sixteen names, and a seventeenth: in a journal and in a session.
#[test]
fn at_most_sixteen_names() {
    let name = |k: usize| format!("n{k}");
    let lines = |many: usize| (0..many).map(|k| format!("M\t{}\n", name(k))).collect::<String>();
    assert_eq!(opened(&lines(16)), Ok(0));
    let seventeenth = Refusal { number: 12, line: 18 };
    assert_eq!(opened(&lines(17)), Err(seventeenth));
    // Any of the sixteen may be moved; seventeen lines have sixteen names.
    assert_eq!(opened(&(lines(16) + "M\tn0\nM\tn15\nR\tn15\n")), Ok(0));
    assert_eq!(opened(&(lines(16) + "S\t0\t0\t0\t1\nM\tn7\nU\nR\tn7\n")), Ok(1));
    let calls: Vec<Call> = (0..16).map(|k| checkpoint(&name(k))).collect();
    let lent = after(&calls);
    for (call, number) in [
        (checkpoint("n16"), 27),
        (checkpoint("n"), 27),
        (checkpoint("n0"), 0),
        (checkpoint("n15"), 0),
        (restore("n16"), 26),
        (restore("n15"), 0),
    ] {
        assert_eq!(model::replied(&lent, &call).1.number, number, "{call:?}");
    }
}

/// At 256 active edits both calls write their lines, and neither counts.
#[test]
fn at_256_active_edits() {
    let mut reference = Reference::new(SEA, 32_768);
    assert_eq!(reference.write(&checkpoint("none")), 0);
    for k in 0..256 {
        assert_eq!(reference.write(&Call::Set([0, 0, 0], k)), 0);
    }
    let set = Call::Set([0, 0, 0], 999);
    let wanted = [
        (set.clone(), 24, 256),
        (checkpoint("all"), 0, 256),
        (restore("none"), 0, 0),
        (restore("all"), 0, 256),
        (set.clone(), 24, 256),
        (Call::Undo, 0, 255),
        (set.clone(), 0, 256),
        (restore("all"), 0, 256),
        (checkpoint("all"), 0, 256),
    ];
    for (call, number, active) in wanted {
        assert_eq!(
            (reference.call(&call), reference.active.len()),
            (number, active),
            "{call:?}"
        );
    }
    let bytes = reference.bytes.clone();
    let opened = model::reopen(&bytes, bytes.len(), 8).expect("a journal of its form");
    assert_eq!((opened.record.active, opened.cells[0]), (256, 255));
}

#[test]
fn names_that_are_good() {
    let good = [
        "a",
        "z",
        "0",
        "9",
        "walls",
        "0123456789abcdef",
        "zzzzzzzzzzzzzzzz",
    ];
    let bad = [
        "",
        "A",
        "`",
        "{",
        "/",
        ":",
        " ",
        "a ",
        " a",
        "\t",
        "a\n",
        "\0",
        "é",
        "a_b",
        "0123456789abcdefg",
    ];
    assert!(good.iter().all(|name| Name::from(*name).good()));
    assert!(!bad.iter().any(|name| Name::from(*name).good()));
    assert!(!Name(vec![0xff]).good() && !Name(vec![b'a'; 272]).good());
    let all = (0..=255).filter(|&b| Name(vec![b]).good()).count();
    assert_eq!(all, 36);
}

/// The line needs its name and three bytes more.
#[test]
fn the_end_of_the_journal() {
    let lent = after(&[checkpoint("walls")]);
    for (call, line) in [
        (checkpoint("walls"), 8),
        (restore("walls"), 8),
        (checkpoint("b"), 4),
        (checkpoint("0123456789abcdef"), 19),
    ] {
        let with = |left: usize| {
            let mut lent = lent.clone();
            lent.journal.truncate(lent.record.used + left);
            model::replied(&lent, &call).1.number
        };
        assert_eq!((with(line - 1), with(line), with(0)), (24, 0, 24), "{call:?}");
    }
}

/// Causes one after the other are taken away, the first of the order first.
#[test]
fn the_order_of_the_refusals() {
    // Sixteen names, no byte left, another number of active edits, a count above the cells.
    let calls: Vec<Call> = (0..16).map(|k| checkpoint(&format!("n{k}"))).collect();
    let mut lent = after(&calls);
    lent.journal.truncate(lent.record.used);
    lent.record.active = 1;
    lent.record.count = 9;
    let number = |lent: &Lent, call: &Call| {
        let (left, reply) = model::replied(lent, call);
        assert_eq!((&left, reply), (lent, Reply::refused(reply.number)), "{call:?}");
        reply.number
    };
    let [bad, new, known] = ["N0", "new", "n3"];
    let both = |lent: &Lent, name: &str| [checkpoint(name), restore(name)].map(|call| number(lent, &call));
    assert_eq!(both(&lent, bad), [21, 21]);
    lent.record.count = 8;
    assert_eq!(both(&lent, bad), [25, 25]);
    assert_eq!(both(&lent, new), [22, 22]);
    lent.record.active = 0;
    assert_eq!(both(&lent, new), [27, 26]);
    assert_eq!(both(&lent, known), [24, 24]);
    // Without a byte left, 25 still comes before 27, 26 and 24.
    assert_eq!(both(&lent, bad), [25, 25]);
}

/// A checkpoint is lent no cells; a restore asks for size³ of them.
#[test]
fn cells_of_another_number() {
    let mut lent = after(&[checkpoint("a")]);
    lent.cells.pop();
    assert_eq!(model::replied(&lent, &restore("a")).1, Reply::refused(21));
    let (left, reply) = model::replied(&lent, &checkpoint("a"));
    assert_eq!((reply, left.cells.len()), (tells(0, 0), 7));
}

/// The altered cells of a restore are those of the lent cells, whosever they are.
#[test]
fn a_restore_tells_of_the_lent_cells() {
    let own = after(&[checkpoint("a"), Call::Set([0, 0, 0], 9)]);
    for (cells, altered) in [
        ([9, 5, 5, 5, 5, 5, 5, 5], 1),
        ([5; 8], 0),
        ([6; 8], 8),
        ([0, 5, 5, 5, 5, 5, 5, 4], 2),
    ] {
        let lent = Lent {
            cells: cells.to_vec(),
            ..own.clone()
        };
        let (left, reply) = model::replied(&lent, &restore("a"));
        assert_eq!((reply, left.record.count), (tells(0, altered), 8), "{cells:?}");
        assert_eq!(left.cells, [5; 8]);
    }
}
