//! Runs recorded from real programs, as inputs of the program `replay_trace`, held to what each is called by and to
//! the second implementation.
//!
//! Those called forbidden are real runs, too: of a program that breaks OpenMP (m1.c); of a sections that takes a
//! section before its begin is left (task-reduction-12.c); and, the others, of charts with regions inside regions,
//! where the reading of the outer region has no step past a deeper single or loop, nor round it again.

use compare::programs::printed;
use reference::replay::text;
use std::fs;
use std::path::Path;

#[test]
fn are_as_they_are_called() {
    let folder = Path::new(env!("CARGO_MANIFEST_DIR")).join("tests/recorded");
    let mut count = 0;
    for entry in fs::read_dir(folder).expect("the stored inputs") {
        let path = entry.expect("an entry").path();
        let name = path.file_name().expect("a name").to_string_lossy();
        let input = fs::read(&path).expect("an input");
        let ours = printed("replay_trace", &input);
        assert_eq!(ours, text(&input), "{name}");
        let verdict = ours.split_whitespace().next();
        assert_eq!(verdict, name.split('-').next(), "{name}");
        count += 1;
    }
    assert_eq!(count, 20);
}
