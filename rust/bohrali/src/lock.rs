//! Whether locks can be dropped, by the numbers of include/bohrali.h.

/// Whether the lock of a critical can be dropped: whether runs without any locks have two threads together, one inside
/// this critical and the other inside a critical of its name. The locks of all criticals that are droppable can be
/// dropped at once; include/bohrali.h says what holds then, and what is to be asked besides.
#[derive(Clone, Copy, Debug, PartialEq, Eq, Hash)]
#[repr(u8)]
pub enum Lock {
    /// Some run that finishes has; another lock may keep the two threads apart all the same.
    Needed = 0,
    /// No run that finishes has, but some other run.
    DroppableFinished = 1,
    /// No run has, finished or not.
    DroppableAlways = 2,
}

impl Lock {
    /// All of them; each stands at its number.
    pub const ALL: [Lock; 3] = [Lock::Needed, Lock::DroppableFinished, Lock::DroppableAlways];

    /// What `locks` writes for a construct that is no critical of the region.
    pub const NO_CRITICAL: u8 = 255;

    /// What a byte that `locks` wrote says; none where the construct is no critical of the region.
    pub fn of(byte: u8) -> Option<Lock> {
        Lock::ALL.get(usize::from(byte)).copied()
    }
}
