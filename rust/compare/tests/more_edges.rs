//! More edges only loosen (02, Note 8), of the archive: the known charts, and drawn ones with some edges
//! added, for all pairs of each region, for teams of any size and of one. What is written agrees with the
//! second implementation.

use charts::more_edges::{assert_loosened, few_edges, with_more_edges};
use charts::random::Random;
use compare::regions::{regions_of, OUTERMOST};
use compare::Archive;
use reference::chart::Construct;
use reference::known::{chart_s, masters_apart};

const CHARTS: usize = 1_500;

#[test]
fn known_charts() {
    let mut archive = Archive::new();
    let mut pair = |chart: &[u8], a, b| archive.pair(chart, OUTERMOST, a, b);
    assert_eq!(pair(&masters_apart(&[]), 2, 6), 1);
    assert_eq!(pair(&masters_apart(&[(3, 5)]), 2, 6), 2);
    assert_eq!(pair(&chart_s(Construct::SINGLE, &[]), 2, 2), 3);
    assert_eq!(pair(&chart_s(Construct::SINGLE, &[(3, 1)]), 2, 2), 0);
}

/// The nevers of a sheet as claims.
fn nevers(sheet: &[u8], nodes: usize) -> Vec<u8> {
    let entries = sheet.iter().enumerate();
    let found = entries.filter(|(_, &answer)| (1..=7).contains(&answer));
    found
        .flat_map(|(at, _)| [at / nodes, at % nodes].map(|x| x as u8))
        .collect()
}

/// Both sheets of each region, and the larger one's nevers as claims about the smaller chart; the same for
/// teams of a size.
fn assert_looser(archive: &mut Archive, larger: &[u8], smaller: &[u8], size: usize) -> usize {
    let nodes = (archive.agree(larger) % 256) as usize;
    archive.agree(smaller);
    let mut lost = 0;
    for region in regions_of(smaller) {
        let [loose, tight] = [larger, smaller].map(|chart| {
            let mut out = vec![0; nodes * nodes];
            assert_eq!(archive.sheet(chart, region, &mut out), out.len() as i64);
            out
        });
        lost += assert_loosened(&loose, &tight).0;
        let claims = nevers(&loose, nodes);
        assert_eq!(archive.judge(smaller, region, &claims), 0);
        let [loose, tight] = [larger, smaller].map(|chart| {
            let mut out = vec![0; nodes * nodes];
            archive.sheet_sized(chart, region, size, &mut out);
            out
        });
        assert_loosened(&loose, &tight);
        let claims = nevers(&loose, nodes);
        assert_eq!(archive.judge_sized(smaller, region, size, &claims), 0);
    }
    lost
}

#[test]
fn drawn_charts() {
    let mut archive = Archive::new();
    let mut random = Random::new(8);
    let mut lost = 0;
    for turn in 0..CHARTS {
        let chart = few_edges(&mut random, turn);
        let larger = with_more_edges(&mut random, &chart, 40);
        let size = 1 + turn % 4;
        lost += assert_looser(&mut archive, &larger.bytes(), &chart.bytes(), size);
    }
    assert!(lost > 2_000, "{lost}");
}
