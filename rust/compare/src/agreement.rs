//! The archive's calls on one chart against the second implementation.

use crate::regions::regions_of;
use crate::Archive;
use bohrali::limits::MOST_CONSTRUCTS;
use reference::sizes::Teams;
use reference::{calls, distances, locks};

/// So many regions of a chart are asked for: the plain implementation takes its time over large ones.
const REGIONS: usize = 3;

/// What a lent buffer holds before a call.
const FILL: u8 = 0xA5;

/// A call that writes, by the plain implementation.
type Writer = fn(&[u8], u64, &mut [u8]) -> i64;

impl Archive {
    /// Admits a chart and writes the phases, the distances, the locks and the sheet of the outermost region and
    /// of some inner ones into buffers that are somewhat longer: all numbers and bytes agree. Gives the number of
    /// Admit.
    pub fn agree(&mut self, chart: &[u8]) -> i64 {
        let number = self.admit(chart);
        assert_eq!(number, calls::admit(chart), "admit, {chart:02X?}");
        for region in regions_of(chart).into_iter().rev().take(REGIONS) {
            self.agree_in(chart, region, (number.max(5) % 256) as usize);
        }
        number
    }

    /// The same for what is written for one region, or a number that names none, of so many nodes.
    pub fn agree_in(&mut self, chart: &[u8], region: usize, nodes: usize) {
        let mut ours = vec![FILL; nodes * nodes + 3];
        let written = self.sheet(chart, region, &mut ours);
        assert_written(calls::sheet, chart, region, written, &ours);
        let mut ours = vec![FILL; calls::PHASE_BYTES * nodes + 3];
        let written = self.phases(chart, region, &mut ours);
        assert_written(calls::phases, chart, region, written, &ours);
        let mut ours = vec![FILL; nodes + 3];
        let written = self.distances(chart, region, &mut ours);
        assert_written(distances::write, chart, region, written, &ours);
        let mut ours = vec![FILL; MOST_CONSTRUCTS + 3];
        let written = self.locks(chart, region, &mut ours);
        let plain: Writer = |chart, region, out| locks::write(chart, region, Teams::OfAnySize, out);
        assert_written(plain, chart, region, written, &ours);
    }
}

fn assert_written(plain: Writer, chart: &[u8], region: usize, written: i64, ours: &[u8]) {
    let mut theirs = vec![FILL; ours.len()];
    let number = plain(chart, region as u64, &mut theirs);
    assert_eq!(written, number, "region {region}, {chart:02X?}");
    assert_eq!(ours, theirs, "region {region}, {chart:02X?}");
}
