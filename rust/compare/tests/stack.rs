//! Every call, on the costliest charts, in a thread with a stack of 64 KiB.

use bohrali::limits::{MOST_ACCESSES, MOST_RACES, MOST_THREADS};
use bohrali::Region::{self, Outermost};
use bohrali::{Access, Size};
use compare::edits::{right_receipt, without_spare_edge};
use reference::builder::ChartBuilder;
use reference::known::{longest, one_region};
use reference::known_listings::nested;
use std::thread;

const STACK: usize = 64 * 1024;

/// A parallel around 188 plain nodes in a row.
fn inner() -> Vec<u8> {
    let plain = |chart: &mut ChartBuilder, region: u8| {
        for _ in 0..188 {
            chart.plain(region);
        }
    };
    one_region(plain).bytes()
}

#[test]
fn calls_fit_a_small_stack() {
    let each = charts::benchmark::all().into_iter();
    let each = each.chain(charts::benchmark::criticals());
    let each = each.chain(charts::benchmark::sorts());
    let outermost = each.map(|(name, chart)| (name, chart, Outermost));
    let others = [
        ("the longest chart", longest(), Outermost),
        ("an inner region", inner(), Region::Parallel(0)),
    ];
    for (name, chart, region) in outermost.chain(others) {
        let mut out = vec![0; MOST_RACES];
        let calls = move || {
            bohrali::admit(&chart).expect(name);
            let node = if region == Outermost { 1 } else { 2 };
            bohrali::judge(&chart, region, &[node; 2]).expect(name);
            let node = usize::from(node);
            bohrali::pair(&chart, region, node, node).expect(name);
            bohrali::phases(&chart, region, &mut out).expect(name);
            bohrali::distances(&chart, region, &mut out).expect(name);
            bohrali::sheet(&chart, region, &mut out).expect(name);
            let size = Size(2);
            bohrali::judge_sized(&chart, region, size, &[node as u8; 2]).expect(name);
            bohrali::pair_sized(&chart, region, size, node, node).expect(name);
            bohrali::sheet_sized(&chart, region, size, &mut out).expect(name);
            bohrali::locks(&chart, region, &mut out).expect(name);
            bohrali::locks_sized(&chart, region, size, &mut out).expect(name);
            for team in [Size(1), size, Size(MOST_THREADS)] {
                bohrali::witnessed(&chart, region, team, &[0, 1], node, node).expect(name);
            }
            let list = vec![Access::write(node as u8, 0); MOST_ACCESSES];
            bohrali::races(&chart, region, Access::bytes(&list), &mut out).expect(name);
        };
        let thread = thread::Builder::new().stack_size(STACK).spawn(calls);
        thread.expect("a thread").join().expect(name);
    }
}

/// Listings with the deepest blocks, with the most of everything, and long ones that are refused at their ends.
#[test]
fn listings_fit_a_small_stack() {
    let written = [
        nested("l", 16, "s"),
        nested("i", 16, "").replace('}', "}{}"),
        nested("l", 15, "C{s}"),
        nested("l", 9, "s").repeat(19),
        "S{}n".repeat(48) + &"s".repeat(94),
    ];
    let refused = [
        "s".repeat(400_000),
        "l{".repeat(200_000),
        "l{}".repeat(130_000) + "x",
        nested("l", 16, "").repeat(8_000) + &"l{".repeat(17),
        nested("i", 16, "").replace('}', "}{}").repeat(4_000),
    ];
    let calls = move || {
        let mut out = [0; 2_000];
        for text in written {
            bohrali::listing(text.as_bytes(), &mut out).expect(&text);
        }
        for text in refused {
            bohrali::listing(text.as_bytes(), &mut out).expect_err("a refusal");
        }
    };
    let thread = thread::Builder::new().stack_size(STACK).spawn(calls);
    thread.expect("a thread").join().expect("listings");
}

/// A chart without an edge that it can spare, which is then put in and taken out again.
#[test]
fn edits_fit_a_small_stack() {
    let others = [
        ("the longest chart", longest()),
        ("an inner region", inner()),
    ];
    for (name, chart) in charts::benchmark::all().into_iter().chain(others) {
        let (mut buffer, edge) = without_spare_edge(&chart);
        let length = buffer.len();
        let place = right_receipt(&buffer, edge).place;
        buffer.resize(length + 2, 0);
        let (from, to) = (edge.from.into(), edge.to.into());
        let calls = move || {
            let receipt = bohrali::Receipt { length, place };
            let longer = bohrali::insert_edge(&mut buffer, length, receipt, from, to);
            assert_eq!(longer, Ok(length + 2), "{name}");
            let shorter = bohrali::remove_edge(&mut buffer, length + 2, from, to);
            assert_eq!(shorter, Ok(length), "{name}");
        };
        let thread = thread::Builder::new().stack_size(STACK).spawn(calls);
        thread.expect("a thread").join().expect(name);
    }
}
