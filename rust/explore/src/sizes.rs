//! Teams of known size (02, Note 10): which teams an exploration tells of.

use crate::team::Team;
use reference::sizes::Teams;

impl Team<'_> {
    /// A whole team tells what teams of just its size meet. Some threads of a larger one, which has all
    /// that any pair needs, tell what some team meets.
    pub fn teams(&self) -> Teams {
        let size = self.numbers.len() as u16;
        match self.numbers.iter().copied().eq(0..size) {
            true => Teams::Of(size.into()),
            false => Teams::OfAnySize,
        }
    }
}
