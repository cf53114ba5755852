//! Charts to tables and back, over the generators of rust/charts and the charts of the repository.

use bohrali::Region;
use charts::random::Random;
use charts::valid::{valid, Shape, FAR_FILTERS};
use region::{Chart, Table};
use std::fs;
use std::path::Path;

/// The chart of edition 2 that a chart becomes by way of its table.
fn through_table(bytes: &[u8]) -> Vec<u8> {
    let chart = Chart::decode(bytes).expect("an admitted chart");
    let written = Table::of(chart.clone()).write();
    let table = Table::read(written.as_bytes()).unwrap_or_else(|x| panic!("{x}\n{written}"));
    assert_eq!(table.chart, chart);
    assert_eq!(table.write(), written);
    table.chart.encode()
}

fn sheet(bytes: &[u8], region: Region) -> Vec<u8> {
    let mut out = vec![0; 192 * 192];
    let length = bohrali::sheet(bytes, region, &mut out).expect("an admitted chart");
    out.truncate(length);
    out
}

/// Every byte of edition 2 comes back, and of edition 1 every answer.
fn assert_kept(bytes: &[u8]) {
    let back = through_table(bytes);
    if bytes[bytes.len() - 16] == 2 {
        assert_eq!(back, bytes);
        return;
    }
    for region in Chart::decode(bytes).expect("a chart").regions() {
        assert_eq!(sheet(&back, region), sheet(bytes, region));
    }
}

#[test]
fn charts_of_all_kinds_and_editions() {
    let mut random = Random::new(35);
    for turn in 0..2000 {
        let shape = match turn % 5 {
            0 => Shape::small(&mut random),
            1 => Shape::masked(&mut random, FAR_FILTERS),
            2 => Shape::nested(&mut random),
            3 => Shape::locked(&mut random),
            _ => Shape::large(&mut random),
        };
        let mut chart = valid(&mut random, &shape);
        for edition in [1, 2] {
            chart.edition = edition;
            let bytes = chart.bytes();
            if bohrali::admit(&bytes).is_ok() {
                assert_kept(&bytes);
            }
        }
    }
}

#[test]
fn tags_are_kept() {
    let mut random = Random::new(36);
    for _ in 0..200 {
        let mut chart = Chart::decode(&charts::small(&mut random)).expect("a chart");
        for node in &mut chart.nodes {
            node.tag = random.pick(&[0, 0, 1, 255, 256, 65_535]);
        }
        assert_eq!(through_table(&chart.encode()), chart.encode());
    }
}

#[test]
fn charts_of_the_benchmark_and_of_the_repository() {
    for (_, bytes) in charts::benchmark::all() {
        assert_kept(&bytes);
    }
    let folder = Path::new(env!("CARGO_MANIFEST_DIR")).join("../../charts");
    let mut files = 0;
    for entry in fs::read_dir(folder).expect("the charts") {
        assert_kept(&fs::read(entry.expect("a file").path()).expect("a chart"));
        files += 1;
    }
    assert!(files >= 10);
}

#[test]
fn a_written_table_looks_like_this() {
    let text = "node,kind,construct,inside,next,where\n\
        0,barrier,,,1,\n\
        1,single,0,,2,\n\
        2,plain,,0,3,\n\
        3,end,0,,4,\n\
        4,barrier,,,,\n";
    let folder = Path::new(env!("CARGO_MANIFEST_DIR")).join("../../charts");
    let bytes = fs::read(folder.join("s-single.chart")).expect("chart S");
    let mut table = Table::of(Chart::decode(&bytes).expect("a chart"));
    assert_eq!(table.write(), text);
    assert_eq!(table.chart.encode().len(), 50);
    table.chart.nodes[2].tag = 7;
    let tagged = table.write();
    assert!(tagged.starts_with("node,kind,construct,inside,next,where,tag\n0,barrier,,,1,,\n"));
    assert!(tagged.contains("\n2,plain,,0,3,,7\n"));
}

#[test]
fn text_in_where_is_written_so_that_it_is_read() {
    let texts = [
        "a.c:1, then \"b\"; and\tmore",
        "=1+1",
        "12 13",
        "two\nlines\u{0}\r",
        "  blanks  ",
        "-x",
    ];
    for text in texts {
        let mut table =
            Table::of(Chart::decode(&charts::small(&mut Random::new(1))).expect("a chart"));
        table.places[0] = text.into();
        let read = Table::read(table.write().as_bytes()).unwrap_or_else(|x| panic!("{x}"));
        assert_eq!(Table::read(read.write().as_bytes()), Ok(read));
    }
}
