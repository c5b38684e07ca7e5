//! Runs every comparison, or only that of the program, or writes the lists for the gate.
//! Exit status 0: no difference; 1: a difference.
use compare::report::Report;
use compare::{
    chunk, crowns, ground, idle, marks, noise, planes, program, seeds, session, sizes, stack, tally, vectors,
};
use std::process::ExitCode;

fn main() -> ExitCode {
    let mut report = Report::default();
    match std::env::args().nth(1).as_deref() {
        Some("vectors") => vectors::write(&mut report),
        Some("program") => program::run(&mut report),
        _ => {
            noise::run(&mut report);
            ground::run(&mut report);
            seeds::run(&mut report);
            sizes::run(&mut report);
            crowns::run(&mut report);
            chunk::run(&mut report);
            tally::run(&mut report);
            planes::run(&mut report);
            session::run(&mut report);
            idle::run(&mut report);
            marks::run(&mut report);
            stack::run(&mut report);
            program::run(&mut report);
            vectors::check(&mut report);
        }
    }
    if report.close() {
        ExitCode::SUCCESS
    } else {
        ExitCode::FAILURE
    }
}
