//! The files in charts/ are the charts of 01, chart X with sections, chart Y of edition 2 and chart Z with
//! a region inside that they are named after.

use reference::chart::Construct;
use reference::known;
use std::{fs, path::PathBuf};

#[test]
fn files_are_the_known_charts() {
    let folder = PathBuf::from(env!("CARGO_MANIFEST_DIR")).join("../../charts");
    for (name, chart) in [
        ("k", known::chart_k()),
        ("s-single", known::chart_s(Construct::SINGLE, &[])),
        ("s-master", known::chart_s(Construct::MASTER, &[])),
        ("s-critical", known::chart_s(Construct::CRITICAL, &[])),
        (
            "s-single-returning",
            known::chart_s(Construct::SINGLE, &[(3, 1)]),
        ),
        ("d", known::chart_d(&[])),
        ("x", known::chart_x(&[])),
        ("y", known::chart_y([1, 2], &[])),
        ("z", known::chart_z(&[])),
        ("figure-2b", known::figure_2b()),
    ] {
        let file = folder.join(name).with_extension("chart");
        assert_eq!(fs::read(file).expect("a chart file"), chart, "{name}");
    }
}
