//! A program like openmap, made of the model, with the slip that its first word names: the self-test holds it to
//! `faults.rs`, which must find the slip. It has no `main` of Rust's, whose start would open something in the place
//! of a descriptor that is closed.
#![no_main]
use compare::model;
use std::fs::File;
use std::io::{Error, ErrorKind, Read, Write};
use std::mem::ManuallyDrop;
use std::os::fd::FromRawFd;

fn descriptor(number: i32) -> ManuallyDrop<File> {
    ManuallyDrop::new(unsafe { File::from_raw_fd(number) })
}

/// A line on standard error, with the system's words alone.
fn fail(name: &str, error: &Error) {
    let whole = error.to_string();
    let words = whole.split(" (os error").next().unwrap_or_default();
    let _ = writeln!(descriptor(2), "openmap: standard {name}: {words}");
}

/// All of standard input, as far as there is room for it.
fn read(slip: &str) -> Result<Vec<u8>, Error> {
    let mut bytes = vec![0; 32_769];
    let mut at = 0;
    while at < bytes.len() {
        match descriptor(0).read(&mut bytes[at..]) {
            Ok(0) => break,
            Ok(n) => at += n,
            Err(e) if e.kind() == ErrorKind::Interrupted => match slip {
                "an interrupted read ends the input" => break,
                "an interrupted read fails" => return Err(e),
                "an interrupted read begins anew" => at = 0,
                _ => (),
            },
            Err(e) => match slip {
                "a failed read ends the input" => break,
                "a failed read after some bytes ends the input" if at > 0 => break,
                _ => return Err(e),
            },
        }
    }
    bytes.truncate(at);
    Ok(bytes)
}

fn write(text: &[u8], slip: &str) -> Result<(), Error> {
    let mut at = 0;
    while at < text.len() {
        match descriptor(1).write(&text[at..]) {
            Ok(0) => return Err(Error::from_raw_os_error(0)),
            Ok(_) if slip == "a short write is taken for a whole one" => return Ok(()),
            Ok(n) => at += n,
            Err(e) if e.kind() == ErrorKind::Interrupted && slip != "an interrupted write fails" => (),
            Err(_) if slip == "a failed write is not reported" => return Ok(()),
            Err(e) => return Err(e),
        }
    }
    Ok(())
}

/// What is printed for a journal, where checkpoints and restores may be read by another rule.
fn printed(journal: &[u8], slip: &str) -> String {
    let text = model::report(journal);
    let line = |letter: &[u8]| {
        let mut lines = model::committed(journal, journal.len()).split(|&b| b == b'\n');
        lines.position(|line| line.starts_with(letter)).map(|i| i + 1)
    };
    match (slip, line(b"M\t"), line(b"R\t")) {
        ("a checkpoint is refused", Some(at), _) if text.starts_with("OK") => format!("NO\t12\t{at}\n"),
        ("a restore has a number of its own", _, Some(at)) if text == format!("NO\t12\t{at}\n") => {
            format!("NO\t26\t{at}\n")
        }
        _ => text,
    }
}

#[no_mangle]
pub extern "C" fn main() -> i32 {
    let slip = std::env::args().nth(1).unwrap_or_default();
    match read(&slip) {
        Err(e) => {
            fail("input", &e);
            if slip == "a failed read is reported and its bytes are opened" {
                let _ = write(model::report(b"").as_bytes(), &slip);
            }
        }
        Ok(journal) => {
            if let Err(e) = write(printed(&journal, &slip).as_bytes(), &slip) {
                fail("output", &e);
            }
        }
    }
    0
}
