//! Races. Most pairs of accesses have different variables: a row is zeros, put there at once, and then only
//! the accesses of its own variable are looked at, which are brought together before; for a read only the
//! writes among them. What two nodes make is one look-up.

use crate::answers::Marked;
use crate::bits::{members, Nodes};
use crate::tables::MOST_NODES;
use std::mem::take;

const MOST: usize = 1024;
/// Slots for the variables of a list, twice as many.
const SLOTS: usize = 2 * MOST;

/// Half of it is that of a synchronization race.
const DATA: u8 = 2;

/// Places of accesses, each below `MOST`.
type Places = [u16; MOST];

/// An access beside others of its variable.
#[derive(Clone, Copy)]
struct Beside {
    /// Its place in the list.
    index: u16,
    node: u8,
}

/// The accesses, or the writes alone, those of one variable side by side, in the order of the list.
struct Together {
    all: [Beside; MOST],
    /// By place in the list, where those of the access's variable from it on stand here, and where they end.
    from: Places,
    end: Places,
}

/// The variables of a list.
struct Variables {
    /// By place in the list, the number of the variable.
    of: Places,
    /// By that number, how many accesses the variables before it have.
    first: Places,
}

impl Marked<'_> {
    #[inline(always)]
    pub fn write_races(&self, accesses: &[u8], out: &mut [u8]) -> Result<i64, u8> {
        let (records, part) = accesses.as_chunks::<4>();
        let count = records.len();
        if !part.is_empty() || count > MOST {
            return Err(20);
        }
        let mut wrong = false;
        let mut named: Nodes = [0; 3];
        for &[node, write, ..] in records {
            let node = usize::from(node);
            wrong |= (write > 1) | (self.marks.starts[node] == 0);
            named[(node / 64).min(2)] |= 1 << (node % 64);
        }
        if wrong {
            return Err(20);
        }
        let length = count * (count + 1) / 2;
        let mut rest = out.get_mut(..length).ok_or(11u8)?;
        let races = self.races_of_writes(&named)?;
        let variables = Variables::of(records);
        let (all, writes) = (
            variables.together(records, |_| 1),
            variables.together(records, u16::from),
        );
        for (i, &[node, write, ..]) in records.iter().enumerate().take(MOST) {
            let (row, later) = take(&mut rest).split_at_mut(count - i);
            rest = later;
            row.fill(0);
            let line = &races[usize::from(node) * self.size()..][..self.size()];
            if write == 0 {
                writes.fill(i, line, row);
            } else {
                all.fill(i, line, row);
            }
        }
        Ok(length as i64)
    }

    /// The sheet with the race of two writes in place of each answer, in the rows of some nodes.
    #[inline(always)]
    fn races_of_writes(&self, nodes: &Nodes) -> Result<[u8; MOST_NODES * MOST_NODES], u8> {
        let n = self.size();
        let mut sheet = [0; MOST_NODES * MOST_NODES];
        self.write_sheet(&mut sheet[..n * n])?;
        let names = self.lying(&self.criticals().names);
        for node in members(nodes) {
            let line = &mut sheet[node * n..(node + 1) * n];
            for entry in &mut *line {
                *entry = if *entry == 0 { DATA } else { 0 };
            }
            let own = names[node];
            if own == 0 {
                continue;
            }
            for (entry, names) in line.iter_mut().zip(&names) {
                *entry >>= u8::from(names & own != 0);
            }
        }
        Ok(sheet)
    }
}

impl Variables {
    #[inline(always)]
    fn of(records: &[[u8; 4]]) -> Variables {
        // By slot a variable's number, by the first access to it, and one more; by variable its accesses.
        let mut slots = [0u16; SLOTS];
        let (mut variable, mut counts) = ([0u16; MOST], [0u16; MOST]);
        let mut variables = 0;
        for (i, &[_, _, low, high]) in records.iter().enumerate() {
            let key = u16::from_le_bytes([low, high]);
            let mut slot = usize::from(key.wrapping_mul(0x9E37) >> 5);
            let own = loop {
                match usize::from(slots[slot % SLOTS]).checked_sub(1) {
                    None => {
                        slots[slot % SLOTS] = i as u16 + 1;
                        variable[i] = variables;
                        variables += 1;
                        break i;
                    }
                    Some(first) if records[first][2..] == [low, high] => break first,
                    Some(_) => slot += 1,
                }
            };
            variable[i] = variable[own];
            counts[usize::from(variable[i])] += 1;
        }
        let mut sum = 0;
        for count in &mut counts {
            sum += *count;
            *count = sum - *count;
        }
        Variables {
            of: variable,
            first: counts,
        }
    }

    /// The accesses that count 1 by their write byte.
    #[inline(always)]
    fn together(&self, records: &[[u8; 4]], counted: impl Fn(u8) -> u16) -> Together {
        let mut next = self.first;
        let beside = Beside { index: 0, node: 0 };
        let mut together = Together {
            all: [beside; MOST],
            from: [0; MOST],
            end: [0; MOST],
        };
        for (i, (&[node, write, ..], &own)) in records.iter().zip(&self.of).enumerate() {
            let place = next[usize::from(own)];
            next[usize::from(own)] += counted(write);
            together.from[i] = place;
            together.all[usize::from(place) % MOST] = Beside {
                index: i as u16,
                node,
            };
        }
        for (end, &own) in together.end.iter_mut().zip(&self.of).take(records.len()) {
            *end = next[usize::from(own)];
        }
        together
    }
}

impl Together {
    /// Writes the bytes of row i, by the line of its node, where its access has others.
    #[inline(always)]
    fn fill(&self, i: usize, line: &[u8], row: &mut [u8]) {
        for other in &self.all[usize::from(self.from[i])..usize::from(self.end[i])] {
            row[usize::from(other.index) - i] = line[usize::from(other.node)];
        }
    }
}
