//! Prints what the calls of a random run came to. Arguments: calls, seed.

use calls::histogram::Histogram;
use calls::lists::Lists;
use std::time::Instant;

/// A number given on the command line, or another.
fn argument(place: usize, otherwise: u64) -> u64 {
    std::env::args().nth(place).map_or(otherwise, |text| text.parse().expect("a number"))
}

/// Prints the counts and the time.
fn main() {
    let (count, seed) = (argument(1, 200_000) as usize, argument(2, 1));
    println!("seed {seed}");
    println!("{}", Histogram::of_run(count, seed));
    time(count, seed);
}

/// Times the same run without counting, with the making of the calls and without.
fn time(count: usize, seed: u64) {
    let mut lists = Lists::new(seed);
    let (mut done, mut on_hub) = (0, 0.0);
    let all = Instant::now();
    while done < count {
        let (_, mut hub) = lists.start();
        while let Some(call) = lists.next(&hub) {
            let one = Instant::now();
            hub.call(&call);
            on_hub += one.elapsed().as_secs_f64();
            done += 1;
        }
    }
    let all = all.elapsed().as_secs_f64();
    println!("{done} calls in {all:.2} s, of which {on_hub:.2} s in the hub");
}
