//! Compares the C library with the reference hub. Arguments: calls, seed.

mod library;

use compare::addresses::addresses_agree;
use compare::br_edr::br_edr_agrees;
use compare::diagnosis::diagnosis_agrees;
use compare::run::{Comparison, Failure};
use compare::shrink::shrink;
use compare::stream::stream_agrees;
use compare::versions::versions_agree;
use library::Library;
use reference::Call;
use std::process::ExitCode;
use std::time::{Instant, SystemTime, UNIX_EPOCH};

/// A number given on the command line.
fn argument(place: usize) -> Option<u64> {
    std::env::args().nth(place).map(|text| text.parse().expect("a number"))
}

/// A seed for a run that names none.
fn some_seed() -> u64 {
    let since = SystemTime::now().duration_since(UNIX_EPOCH);
    since.map_or(1, |time| time.as_secs())
}

/// A call in words; of one with more octets than any packet that is kept the first ones.
fn shown(call: &Call) -> String {
    const MOST: usize = 6_000;
    let text = format!("{call:02X?}");
    match text.get(..MOST) {
        Some(start) => format!("{start} ..."),
        None => text,
    }
}

/// Prints a list that the two differ on, as short as it gets.
fn show(failure: &Failure) {
    println!("the hubs differ, starting from the image {:02X?}", failure.image);
    for call in &failure.calls {
        println!("  {}", shown(call));
    }
    if let Some(question) = &failure.look_up {
        println!("  {question:02X?}");
    }
    println!("{}", failure.difference);
}

/// Prints how much was compared, and the time since the start.
fn figures(comparison: &Comparison<Library>, start: Instant) {
    println!(
        "{} calls in {} lists, {} of them lumps, {} calls of reduced lists",
        comparison.calls, comparison.runs, comparison.lumps, comparison.reduced,
    );
    println!(
        "{} commands under way at an end, {} lists with something waiting there, {} states with other octets waiting ({} well formed)",
        comparison.left_open,
        comparison.left_waiting,
        comparison.altered_waiting.lent,
        comparison.altered_waiting.well_formed,
    );
    println!(
        "{} look-ups, {} states with a broken table, {} packets asked about at an end",
        comparison.looked_up, comparison.broken, comparison.asked,
    );
    println!(
        "{} images, {} altered states ({} well formed), {:.1} s",
        comparison.images,
        comparison.altered.lent,
        comparison.altered.well_formed,
        start.elapsed().as_secs_f64()
    );
}

/// Runs the comparison.
fn main() -> ExitCode {
    let count = argument(1).unwrap_or(1_000_000) as usize;
    let seed = argument(2).unwrap_or_else(some_seed);
    println!("seed {seed}");
    let start = Instant::now();
    let mut comparison = Comparison::new(seed, Library, Library);
    let sweeps = addresses_agree(comparison.lent()).map(|sweep| sweep.to_string());
    let sweeps = sweeps.and_then(|first| Ok(format!("{first}\n{}", br_edr_agrees(comparison.lent())?)));
    let sweeps = sweeps.and_then(|first| Ok(format!("{first}\n{}", stream_agrees(comparison.lent())?)));
    let sweeps = sweeps.and_then(|first| Ok(format!("{first}\n{}", versions_agree(comparison.lent())?)));
    let sweeps = sweeps.and_then(|first| Ok(format!("{first}\n{}", diagnosis_agrees(comparison.lent())?)));
    match sweeps {
        Ok(sweeps) => println!("{sweeps}"),
        Err(difference) => {
            println!("the hubs differ in a sweep: {difference}");
            return ExitCode::FAILURE;
        }
    }
    let result = comparison.run(count);
    figures(&comparison, start);
    match result {
        Ok(()) => {
            println!("no difference");
            ExitCode::SUCCESS
        }
        Err(failure) => {
            println!("a list of {} calls differs: {}", failure.calls.len(), failure.difference);
            println!("the same run again: compare {count} {seed}");
            show(&shrink(comparison.lent(), failure));
            ExitCode::FAILURE
        }
    }
}
