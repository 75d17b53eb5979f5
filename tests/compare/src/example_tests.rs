//! The examples in words hold of the reference hub.

use crate::mirror::Mirror;
use crate::playing::play;
use crate::script::examples;
use std::fs::{read_dir, read_to_string};

#[test]
fn the_examples_hold_of_the_reference_hub() {
    let folder = concat!(env!("CARGO_MANIFEST_DIR"), "/../examples");
    let paths = read_dir(folder).expect("the examples are there").map(|entry| entry.expect("a file").path());
    let mut files = 0;
    for path in paths.filter(|path| path.extension().is_some_and(|ending| ending == "txt")) {
        files += 1;
        for example in examples(&read_to_string(&path).expect("an example file")) {
            if let Err(difference) = play(&example, Mirror::default()) {
                panic!("{}: {}: {difference}", path.display(), example.title);
            }
        }
    }
    assert!(files > 5, "{files} files");
}
