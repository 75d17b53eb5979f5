//! The examples from the bench, made on the C library and on the reference hub. Arguments: files.

#[path = "../library.rs"]
mod library;

use compare::mirror::Mirror;
use compare::playing::play;
use compare::script::examples;
use library::Library;
use std::process::ExitCode;

/// Plays every example of every file on both hubs.
fn main() -> ExitCode {
    let (mut played, mut calls, mut failed) = (0, 0, 0);
    for file in std::env::args().skip(1) {
        let text = std::fs::read_to_string(&file).unwrap_or_else(|error| panic!("{file}: {error}"));
        for example in examples(&text) {
            played += 1;
            for (hub, result) in
                [("library", play(&example, Library)), ("reference", play(&example, Mirror::default()))]
            {
                match result {
                    Ok(count) => calls += count,
                    Err(difference) => {
                        failed += 1;
                        println!("{file}: {}: {hub}: {difference}", example.title);
                    }
                }
            }
        }
    }
    println!("{played} examples, {calls} calls as they should be, {failed} examples not");
    if failed == 0 && played > 0 {
        ExitCode::SUCCESS
    } else {
        ExitCode::FAILURE
    }
}
