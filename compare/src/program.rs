//! The program that opens a map, against the model: what it prints for valid and damaged journals, and (`faults.rs`)
//! where reads and writes fail.
use crate::faults::{self, Program};
use crate::journals;
use crate::model;
use crate::report::Report;
use crate::rng::Rng;
use crate::seeds;
use std::io::Write;
use std::path::Path;
use std::process::{Command, Stdio};

/// How many journals the program is run on.
const RUNS: u64 = 3000;

/// What the program prints for this input.
fn printed(program: &Path, input: &[u8]) -> std::io::Result<Vec<u8>> {
    let mut child = Command::new(program)
        .stdin(Stdio::piped())
        .stdout(Stdio::piped())
        .spawn()?;
    if let Some(mut stdin) = child.stdin.take() {
        // A program that has read enough may close its end before all is written.
        let _ = stdin.write_all(input);
    }
    Ok(child.wait_with_output()?.stdout)
}

/// A map of a size that the session's lists don't have: up to the program's largest, and above it.
fn large(rng: &mut Rng) -> Vec<u8> {
    let size: u64 = rng.pick(&[7, 11, 15, 16, 16, 16, 17, 64, 65]);
    let cy = rng.pick(&[0, 1, 2, -1]);
    let mut text = format!("G\t{}\t24\t256\t{size}\t0\t{cy}\t0\n", seeds::any(rng));
    for _ in 0..rng.below(8) {
        let [x, z, height] = std::array::from_fn(|_| rng.below(size));
        text.push_str(&format!("C\t{x}\t{z}\t{height}\t{}\n", rng.below(65_536)));
    }
    if rng.once_in(4) {
        text.push_str("X\n");
    }
    text.into_bytes()
}

/// The longest text, from the most edits: each column of a chunk of size 16 has an id of five digits.
pub fn longest() -> Vec<u8> {
    let mut text = String::from("G\t0\t24\t256\t16\t0\t0\t0\n");
    for k in 0..256 {
        text.push_str(&format!("C\t{}\t{}\t16\t{}\n", k % 16, k / 16, 65_280 + k));
    }
    text.into_bytes()
}

/// Journals for the program: the held bytes are all that it is given.
pub fn input(rng: &mut Rng, run: u64) -> Vec<u8> {
    match run {
        0 => return Vec::new(),
        1 => return longest(),
        _ => (),
    }
    let (mut journal, held) = journals::journal(rng);
    journal.truncate(held);
    if rng.once_in(12) {
        journal = large(rng);
    }
    if rng.once_in(40) {
        let tail = rng.pick(b"\0\nS");
        journal.resize(rng.pick(&[32_767, 32_768, 32_769, 40_000, 70_000]), tail);
    }
    journal
}

/// Runs the program that the variable OPENMAP names.
pub fn run(report: &mut Report) {
    let name = std::env::var("OPENMAP").unwrap_or_default();
    let program = Path::new(&name);
    if !program.is_file() {
        report.fail(format!("OPENMAP names no program: '{name}'"));
        return;
    }
    let mut rng = Rng::new(9);
    for run in 0..RUNS {
        let journal = input(&mut rng, run);
        let wanted = model::report(&journal);
        match printed(program, &journal) {
            Ok(text) => report.same(text == wanted.as_bytes(), || {
                let shown = String::from_utf8_lossy(&journal[..journal.len().min(300)]).into_owned();
                format!(
                    "openmap on {shown:?}: wanted {wanted:?}, printed {:?}",
                    String::from_utf8_lossy(&text)
                )
            }),
            Err(e) => report.fail(format!("openmap does not run: {e}")),
        }
    }
    let program = Program {
        path: program,
        words: &[],
    };
    faults::compare(report, &program, faults::LISTS);
    println!(
        "program: {RUNS} journals, {} lists of failing, interrupted and short calls",
        faults::LISTS
    );
}
