//! What the program does where a read or a write fails, is interrupted or moves only a part: on what the system
//! itself refuses, and on random lists of answers that `faults.c` gives in the place of `read` and `write`.
use crate::model;
use crate::program::{input, longest};
use crate::report::Report;
use crate::rng::Rng;
use crate::system;
use std::fs::{self, File};
use std::io::{self, Seek, SeekFrom, Write};
use std::path::{Path, PathBuf};
use std::process::{Command, Stdio};

/// The library that `build.rs` makes of `faults.c`.
const FAULTS: &str = env!("FAULTS");

/// How much the program reads: a byte more than a journal may have.
const ROOM: usize = 32_769;

/// How many lists of answers the program is run on.
pub const LISTS: u64 = 1500;

/// A program, and the words that it is started with.
pub struct Program<'a> {
    pub path: &'a Path,
    pub words: &'a [&'a str],
}

/// What a program wrote.
#[derive(PartialEq)]
struct Said {
    out: Vec<u8>,
    err: String,
}

/// A call's answer: at most so many bytes pass, or a signal came first, or it failed.
#[derive(Clone, Copy)]
enum Answer {
    Passes(usize),
    Interrupted,
    Failed,
}

/// The line on standard error for a descriptor and the system's words.
fn line(name: &str, words: &str) -> String {
    format!("openmap: standard {name}: {words}\n")
}

/// What a started program writes, given this input where it has a pipe for it.
fn said(command: &mut Command, input: &[u8]) -> io::Result<Said> {
    let mut child = command.stdout(Stdio::piped()).stderr(Stdio::piped()).spawn()?;
    if let Some(mut stdin) = child.stdin.take() {
        // A program that fails may close its end before all is written.
        let _ = stdin.write_all(input);
    }
    let output = child.wait_with_output()?;
    Ok(Said {
        out: output.stdout,
        err: String::from_utf8_lossy(&output.stderr).into_owned(),
    })
}

fn held(report: &mut Report, name: impl Fn() -> String, wanted: &Said, got: io::Result<Said>) {
    match got {
        Ok(got) => report.same(got == *wanted, || {
            format!(
                "openmap {}: wanted {:?} and {:?}, wrote {:?} and {:?}",
                name(),
                String::from_utf8_lossy(&wanted.out),
                wanted.err,
                String::from_utf8_lossy(&got.out),
                got.err
            )
        }),
        Err(e) => report.fail(format!("openmap {} does not run: {e}", name())),
    }
}

/// Descriptors that the system itself refuses to read or to write, as a shell sets them up.
fn refused_by_the_system(report: &mut Report, program: &Program) {
    let cases = [
        ("< /", "input", "Is a directory"),
        ("<&-", "input", "Bad file descriptor"),
        ("0> /dev/null", "input", "Bad file descriptor"),
        ("< / > /dev/full", "input", "Is a directory"),
        ("> /dev/full", "output", "No space left on device"),
        (">&-", "output", "Bad file descriptor"),
        ("1< /dev/null", "output", "Bad file descriptor"),
    ];
    for (set, name, words) in cases {
        let mut command = Command::new("sh");
        command.args(["-c", &format!("exec \"$0\" \"$@\" {set}")]);
        command
            .arg(program.path)
            .args(program.words)
            .stdin(Stdio::piped());
        let wanted = Said {
            out: Vec::new(),
            err: line(name, words),
        };
        held(
            report,
            || set.to_string(),
            &wanted,
            said(&mut command, &longest()),
        );
    }
}

/// A journal of which the system itself refuses to read more than is there: it lies in this process's memory, at the
/// end of a page of a file that has no other page, and stands as standard input by way of /proc/self/mem.
fn torn(journal: &[u8], file: &Path) -> io::Result<File> {
    const PAGE: usize = 4096;
    let mut page = vec![0; PAGE - journal.len()];
    page.extend(journal);
    fs::write(file, &page)?;
    let only = File::open(file)?;
    // Two pages are mapped, and the second is behind the file's end.
    let start = system::map(&only, 2 * PAGE)?;
    let mut memory = File::open("/proc/self/mem")?;
    memory.seek(SeekFrom::Start((start + PAGE - journal.len()) as u64))?;
    Ok(memory)
}

/// A read that the system refuses after a whole journal came.
fn refused_in_the_middle(report: &mut Report, program: &Program, file: &Path) {
    let journal = b"G\t0\t4096\t256\t2\t0\t128\t0\nS\t0\t0\t0\t0\nC\t1\t0\t2\t8\n";
    let got = torn(journal, file).and_then(|memory| {
        let mut command = Command::new(program.path);
        said(command.args(program.words).stdin(memory), &[])
    });
    let wanted = Said {
        out: Vec::new(),
        err: line("input", "Input/output error"),
    };
    held(report, || "on memory that ends".to_string(), &wanted, got);
}

/// The bytes that the program has read when it stops, or none where a read failed.
fn read(journal: &[u8], answers: &[Answer]) -> Option<usize> {
    let mut at = 0;
    let mut next = answers.iter();
    while at < ROOM {
        match next.next().unwrap_or(&Answer::Passes(ROOM)) {
            Answer::Interrupted => (),
            Answer::Failed => return None,
            Answer::Passes(most) => match (*most).min(journal.len() - at).min(ROOM - at) {
                0 => break,
                n => at += n,
            },
        }
    }
    Some(at)
}

/// How much of the text is written, and the system's words where not all of it is.
fn written(text: &str, answers: &[Answer]) -> (usize, Option<&'static str>) {
    let mut at = 0;
    let mut next = answers.iter();
    while at < text.len() {
        match next.next().unwrap_or(&Answer::Passes(text.len())) {
            Answer::Interrupted => (),
            Answer::Failed => return (at, Some("Input/output error")),
            Answer::Passes(0) => return (at, Some("Success")),
            Answer::Passes(most) => at += (*most).min(text.len() - at),
        }
    }
    (at, None)
}

/// What the program is to write for a journal and the answers of its calls.
fn wanted(journal: &[u8], reads: &[Answer], writes: &[Answer]) -> Said {
    let Some(n) = read(journal, reads) else {
        return Said {
            out: Vec::new(),
            err: line("input", "Input/output error"),
        };
    };
    let text = model::report(&journal[..n]);
    let (put, words) = written(&text, writes);
    Said {
        out: text.as_bytes()[..put].to_vec(),
        err: words.map_or(String::new(), |words| line("output", words)),
    }
}

/// A list of answers: often short, sometimes with a failure; a read is never let move nothing, which is the end.
fn answers(rng: &mut Rng, least: u64) -> Vec<Answer> {
    let failing = rng.pick(&[0, 0, 3, 12]);
    let small = rng.pick(&[2, 9, 300, 40_000]);
    let mut list = Vec::new();
    for _ in 0..rng.pick(&[0, 1, 2, 3, 6, 20, 60]) {
        list.push(if failing > 0 && rng.once_in(failing) {
            Answer::Failed
        } else if rng.once_in(3) {
            Answer::Interrupted
        } else {
            Answer::Passes((least + rng.below(small)) as usize)
        });
    }
    list
}

/// The words of `faults.c`.
fn words(answers: &[Answer]) -> String {
    let word = |answer: &Answer| match answer {
        Answer::Passes(n) => n.to_string(),
        Answer::Interrupted => "i".into(),
        Answer::Failed => "e".into(),
    };
    answers.iter().map(word).collect::<Vec<_>>().join(" ")
}

/// The program over `faults.c`. The journal lies in a file, so that a read gets all that it may.
fn with_answers(program: &Program, file: &Path, reads: &str, writes: &str) -> io::Result<Said> {
    let mut command = Command::new(program.path);
    command.args(program.words).stdin(File::open(file)?);
    command
        .env("LD_PRELOAD", FAULTS)
        .env("READS", reads)
        .env("WRITES", writes);
    said(&mut command, &[])
}

/// A file of this run's own.
fn journal_file() -> PathBuf {
    static NEXT: std::sync::atomic::AtomicU32 = std::sync::atomic::AtomicU32::new(0);
    let number = NEXT.fetch_add(1, std::sync::atomic::Ordering::Relaxed);
    std::env::temp_dir().join(format!("perillahinge-{}-{number}.journal", std::process::id()))
}

/// What the lists are to meet: a read that fails after some bytes came, a write that fails after some went, and a
/// whole map in spite of interrupted calls.
#[derive(Default)]
struct Met([u64; 3]);

impl Met {
    fn note(&mut self, reads: &[Answer], writes: &[Answer], wanted: &Said) {
        let stopped = |a: &Answer| matches!(a, Answer::Interrupted);
        let failed = !wanted.err.is_empty();
        self.0[0] +=
            u64::from(wanted.err.contains("standard input") && matches!(reads[0], Answer::Passes(_)));
        self.0[1] += u64::from(wanted.err.contains("standard output") && !wanted.out.is_empty());
        self.0[2] += u64::from(!failed && reads.iter().any(stopped) && writes.iter().any(stopped));
    }
}

/// Runs the program on the system's refusals and on so many lists of answers.
pub fn compare(report: &mut Report, program: &Program, lists: u64) {
    let file = journal_file();
    refused_by_the_system(report, program);
    refused_in_the_middle(report, program, &file);
    let mut met = Met::default();
    let mut rng = Rng::new(10);
    for run in 0..lists {
        let journal = input(&mut rng, run);
        let reads = answers(&mut rng, 1);
        let least = rng.pick(&[0, 1, 1, 1, 1, 1, 1, 1]);
        let writes = answers(&mut rng, least);
        let wanted = wanted(&journal, &reads, &writes);
        met.note(&reads, &writes, &wanted);
        if let Err(e) = fs::write(&file, &journal) {
            report.fail(format!("{} cannot be written: {e}", file.display()));
            break;
        }
        let (reading, writing) = (words(&reads), words(&writes));
        let name = || {
            format!(
                "with reads '{reading}' and writes '{writing}', {} bytes",
                journal.len()
            )
        };
        held(
            report,
            name,
            &wanted,
            with_answers(program, &file, &reading, &writing),
        );
    }
    if met.0.contains(&0) {
        report.fail(format!("the lists of answers met too little: {:?}", met.0));
    }
    let _ = fs::remove_file(&file);
}
