//! Prints, for each chart of the benchmark and each call, the library's time by those of the best Rust
//! known for the same job, with the fewest edges to every node worked out in each call and without; then those of
//! the regions of a build, and by that of reading them alone; then that of Locks by that of Races with no access; then
//! the time of a search with first edges found ahead by that with first edges looked up; then that of an entry of a
//! replay by that of Rust.

use bench::calls::{LIBRARY, WITHOUT_LEVELS, WITH_LEVELS};
use bench::{first_edges, locks, regions, replay, table};
use std::env;

fn main() {
    if env::args().nth(1).as_deref() == Some(replay::ARGUMENT) {
        return replay::serve();
    }
    table::print([
        ("Library", LIBRARY),
        ("Rust with levels", WITH_LEVELS),
        ("Rust without", WITHOUT_LEVELS),
    ]);
    regions::print();
    locks::print();
    first_edges::print();
    replay::print();
}
