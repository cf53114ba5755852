//! Traces to test with (02, Note 11): runs of a team step by step, each entry one that the second implementation
//! allows, and what becomes of them with one entry changed.

use crate::random::Random;
use reference::regions::Region;
use reference::replay::Run;

/// A run of at most so many entries; it ends where no thread can step, finished or not.
pub fn legal(random: &mut Random, region: &Region, threads: usize, most: usize) -> Vec<u8> {
    let mut drawn = Drawn::of(region, threads);
    let entries = (0..most).map_while(|_| drawn.next(random));
    entries.flatten().collect()
}

/// A run of at most so many entries round one of the benchmark's rings: it ends where all threads are at the
/// barrier before Finish, from which the same entries are legal again.
pub fn round(random: &mut Random, region: &Region, threads: usize, most: usize) -> Vec<u8> {
    let mut drawn = Drawn::of(region, threads);
    let finish = (region.place.len() - 1) as u8;
    drawn.nodes.retain(|&node| node != finish);
    let mut at = vec![0; threads];
    let (mut trace, mut whole) = (Vec::new(), 0);
    for _ in 0..most {
        let [thread, node] = drawn.next(random).expect("a ring always goes on");
        trace.extend([thread, node]);
        at[usize::from(thread)] = node;
        if at.iter().all(|&node| node == finish - 1) {
            whole = trace.len();
        }
    }
    trace.truncate(whole);
    trace
}

/// A run that is being drawn.
struct Drawn<'a> {
    region: &'a Region,
    run: Run<'a>,
    team: Vec<u8>,
    /// Where threads may go, by the rules or not.
    nodes: Vec<u8>,
}

impl<'a> Drawn<'a> {
    fn of(region: &'a Region, threads: usize) -> Drawn<'a> {
        let inside = (0..region.place.len()).filter(|&node| region.place[node].is_some());
        Drawn {
            region,
            run: Run::of(region, threads),
            team: (0..threads as u8).collect(),
            nodes: inside.map(|node| node as u8).collect(),
        }
    }

    /// An entry that the rules allow, if there is one.
    fn next(&mut self, random: &mut Random) -> Option<[u8; 2]> {
        random.shuffle(&mut self.team);
        random.shuffle(&mut self.nodes);
        let mut entries = self
            .team
            .iter()
            .flat_map(|&x| self.nodes.iter().map(move |&to| [x, to]));
        entries.find(|&[thread, node]| {
            let place = self.region.place[usize::from(node)].expect("a node of the region");
            self.run.take(thread.into(), place)
        })
    }
}

/// The trace with an entry's thread or node changed, an entry put in, taken out or doubled, two entries exchanged, or
/// its end cut off, now and then in the middle of an entry.
pub fn changed(random: &mut Random, trace: &[u8], threads: usize, nodes: usize) -> Vec<u8> {
    let mut entries: Vec<[u8; 2]> = trace.chunks_exact(2).map(|x| [x[0], x[1]]).collect();
    let entry = [
        random.below(threads + 1) as u8,
        random.below(nodes + 1) as u8,
    ];
    let place = random.below(entries.len() + 1);
    match (random.below(20), entries.get_mut(place)) {
        (0..4, _) | (_, None) => entries.insert(place, entry),
        (4..7, Some(old)) => old[0] = entry[0],
        (7..11, Some(old)) => old[1] = entry[1],
        (11..13, Some(old)) => {
            let again = *old;
            entries.insert(place, again);
        }
        (13..15, _) => _ = entries.remove(place),
        (15..18, _) => {
            let other = random.below(entries.len());
            entries.swap(place, other);
        }
        _ => entries.truncate(place),
    }
    let mut trace = entries.concat();
    if random.percent(2) {
        trace.pop();
    }
    trace
}
