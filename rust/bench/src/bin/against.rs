//! Prints, for each chart of the benchmark and each call, the time of this tree's library by that of
//! another build of it.

use bench::before::BEFORE;
use bench::calls::LIBRARY;
use bench::table;

fn main() {
    table::print([("Now", LIBRARY), ("before", BEFORE)]);
}
