//! Times as tables: the first implementation's, and its ratio to each other one.

use crate::calls::Calls;
use crate::subject::{Call, Subject};
use crate::timing::{lower, ROUNDS};

/// Implementations by their names; the first is the one that is measured.
pub type By<const N: usize> = [(&'static str, Calls); N];

/// The least times by call and implementation, in nanoseconds.
type Times<const N: usize> = [[f64; N]; Call::ALL.len()];

/// Measures all calls on the charts of the benchmark, then prints a table of those that are asked again
/// and again, one of those that are asked in turn, and the worst ratios of each.
pub fn print<const N: usize>(by: By<N>) {
    let (each, in_turn) = (Subject::each(), Subject::in_turn());
    let count = each.len() + in_turn.len();
    let mut times = vec![[[f64::INFINITY; N]; Call::ALL.len()]; count];
    for _ in 0..ROUNDS {
        for (subject, times) in each.iter().chain(&in_turn).zip(&mut times) {
            measure(subject, &by, times);
        }
    }
    let (times, last) = times.split_at(each.len());
    let worst = print_table(&by, each.iter().zip(times));
    let worst_in_turn = print_table(&by, in_turn.iter().zip(last));
    for (index, (name, _)) in by.iter().enumerate().skip(1) {
        println!(
            "worst ratio to {name}: {}; in turn {}",
            worst[index], worst_in_turn[index]
        );
    }
}

/// Lowers times to those of one round.
fn measure<const N: usize>(subject: &Subject, by: &By<N>, times: &mut Times<N>) {
    for (call, times) in Call::ALL.into_iter().zip(times) {
        let taken = subject.times(call, by.each_ref().map(|(_, calls)| calls));
        lower(times, taken);
    }
}

/// Prints a table and gives the highest ratio to each implementation, with its place.
fn print_table<'s, const N: usize>(
    by: &By<N>,
    subjects: impl IntoIterator<Item = (&'s Subject, &'s Times<N>)>,
) -> [String; N] {
    let columns = by[1..].iter().map(|(name, _)| format!(" of {name} |"));
    let columns: Vec<String> = columns.collect();
    println!(
        "| {:<34} | Call           | {:>8} us |{}",
        "Chart",
        by[0].0,
        columns.concat()
    );
    println!("|---|---|---|{}", "---|".repeat(N - 1));
    let mut worst: [(f64, String); N] = std::array::from_fn(|_| (0.0, String::new()));
    for (subject, times) in subjects {
        for (call, times) in Call::ALL.into_iter().zip(times) {
            let name = subject.name_of(call);
            print!(
                "| {:<34} | {name:<14} | {:11.2} |",
                subject.name,
                times[0] / 1e3
            );
            for (index, column) in columns.iter().enumerate() {
                let width = column.len() - 2;
                if !call.is_in(&by[index + 1].1) {
                    print!("{:>width$} |", "-");
                    continue;
                }
                let ratio = times[0] / times[index + 1];
                print!("{ratio:>width$.2} |");
                if ratio > worst[index + 1].0 {
                    worst[index + 1] = (ratio, format!("{ratio:.2} ({name}, {})", subject.name));
                }
            }
            println!();
        }
    }
    println!();
    worst.map(|(_, place)| place)
}
