//! Locks. What a node inside criticals may meet are sets of nodes, with the sheet's unions; of each critical around it is
//! asked whether they have one of its name.

use crate::answers::Marked;
use crate::bits::{bits, Nodes};
use crate::criticals::Criticals;
use crate::sheet::{having, sharing};

const FINISHED: u8 = 1;
const ALWAYS: u8 = 2;
const NO_CRITICAL: u8 = 255;

impl Marked<'_> {
    #[inline(always)]
    pub fn write_locks(&self, out: &mut [u8]) -> Result<i64, u8> {
        let count = self.read.constructs.count;
        let out = out.get_mut(..count).ok_or(11u8)?;
        out.fill(NO_CRITICAL);
        let criticals = self.criticals();
        if criticals.all != 0 {
            let [needed, ever] = self.shared(&criticals);
            for critical in bits(criticals.all) {
                out[critical] = match (needed >> critical & 1, ever >> critical & 1) {
                    (1, _) => 0,
                    (_, 1) => FINISHED,
                    _ => ALWAYS,
                };
            }
        }
        Ok(count as i64)
    }

    /// The criticals inside which one of two threads can be while the other is inside one of the name: in runs that finish,
    /// and in any. A node that has the same masks as the one before it adds nothing.
    #[inline(always)]
    fn shared(&self, criticals: &Criticals) -> [u64; 2] {
        let n = self.size();
        let (starts, ends, excludes) = (&self.marks.starts, &self.marks.ends, self.all_excludes());
        let (around, names) = (self.lying(&criticals.around), self.lying(&criticals.names));
        let having_start = having::<false>(starts, n);
        let having_end = having::<false>(ends, n);
        let having_exclusion = having::<true>(&excludes, n);
        let having_name = having::<true>(&names, n);
        let (mut needed, mut ever) = (0, 0);
        let mut last = [0; 4];
        for node in 0..n {
            let own = [around[node], starts[node], ends[node], excludes[node]];
            if own[0] == 0 || own == last {
                continue;
            }
            last = own;
            let by_start = sharing(starts[node], &having_start);
            let by_end = sharing(ends[node], &having_end);
            let ruled = sharing(excludes[node], &having_exclusion);
            let met: Nodes = std::array::from_fn(|word| by_start[word] & !ruled[word]);
            for critical in bits(own[0] & !needed) {
                let first = usize::from(criticals.first[critical] & 63);
                let (mut any, mut finished) = (0, 0);
                for word in 0..3 {
                    let named = met[word] & having_name[word][first];
                    any |= named;
                    finished |= named & by_end[word];
                }
                needed |= u64::from(finished != 0) << critical;
                ever |= u64::from(any != 0) << critical;
            }
        }
        [needed, ever]
    }
}
