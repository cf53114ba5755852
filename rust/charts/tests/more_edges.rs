//! More edges only loosen (02, Note 8), of the second implementation: the known charts, and drawn ones with
//! some edges added, for all pairs of each region, for teams of any size and of one.

use charts::more_edges::{assert_loosened, few_edges, with_more_edges};
use charts::random::Random;
use reference::calls::{admit, pair, sheet};
use reference::chart::Construct;
use reference::known::{chart_s, masters_apart};
use reference::refusals::decode_checked;
use reference::regions::OUTERMOST;
use reference::sizes;

const CHARTS: usize = 2_500;

fn sheet_of(chart: &[u8], region: u8) -> Vec<u8> {
    let nodes = (admit(chart) % 256) as usize;
    let mut out = vec![0; nodes * nodes];
    assert_eq!(sheet(chart, region.into(), &mut out), out.len() as i64);
    out
}

fn sized_sheet_of(chart: &[u8], region: u8, size: u64) -> Vec<u8> {
    let nodes = (admit(chart) % 256) as usize;
    let mut out = vec![0; nodes * nodes];
    let written = sizes::sheet(chart, region.into(), size, &mut out);
    assert_eq!(written, out.len() as i64);
    out
}

#[test]
fn known_charts() {
    let outermost = u64::from(OUTERMOST);
    assert_eq!(pair(&masters_apart(&[]), outermost, 2, 6), 1);
    assert_eq!(pair(&masters_apart(&[(3, 5)]), outermost, 2, 6), 2);
    assert_eq!(pair(&chart_s(Construct::SINGLE, &[]), outermost, 2, 2), 3);
    assert_eq!(
        pair(&chart_s(Construct::SINGLE, &[(3, 1)]), outermost, 2, 2),
        0
    );
}

#[test]
fn drawn_charts() {
    let mut random = Random::new(8);
    let (mut lost, mut changed, mut inner) = (0, 0, 0);
    for turn in 0..CHARTS {
        let chart = few_edges(&mut random, turn);
        let larger = with_more_edges(&mut random, &chart, 40).bytes();
        let smaller = chart.bytes();
        for region in decode_checked(&smaller).unwrap().regions() {
            let sheets = [&larger, &smaller].map(|x| sheet_of(x, region));
            let (fewer, other) = assert_loosened(&sheets[0], &sheets[1]);
            lost += fewer;
            changed += other;
            let size = 1 + turn as u64 % 4;
            let sheets = [&larger, &smaller].map(|x| sized_sheet_of(x, region, size));
            assert_loosened(&sheets[0], &sheets[1]);
            inner += usize::from(region != OUTERMOST && fewer > 0);
        }
    }
    assert!(
        lost > 3_000 && changed > 3 && inner > 10,
        "{lost} {changed} {inner}"
    );
}
