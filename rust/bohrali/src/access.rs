//! Accesses to variables and their races, by the bytes and numbers of include/bohrali.h.

use crate::layout::BYTES_ACCESS;
use std::slice;

/// What is done to a variable.
#[derive(Clone, Copy, Debug, PartialEq, Eq, Hash)]
#[repr(u8)]
pub enum AccessKind {
    Read = 0,
    Write = 1,
}

/// An access to a variable at a node, laid out as C has it.
#[derive(Clone, Copy, Debug, PartialEq, Eq, Hash)]
#[repr(C)]
pub struct Access {
    pub node: u8,
    pub kind: AccessKind,
    variable: [u8; 2],
}

// Bytes side by side, with none between them that belongs to no field.
const _: () = assert!(size_of::<Access>() == BYTES_ACCESS && align_of::<Access>() == 1);

impl Access {
    /// An access to a variable, by a number of the caller's.
    pub fn new(node: u8, kind: AccessKind, variable: u16) -> Access {
        Access {
            node,
            kind,
            variable: variable.to_le_bytes(),
        }
    }

    pub fn read(node: u8, variable: u16) -> Access {
        Access::new(node, AccessKind::Read, variable)
    }

    pub fn write(node: u8, variable: u16) -> Access {
        Access::new(node, AccessKind::Write, variable)
    }

    pub fn variable(self) -> u16 {
        u16::from_le_bytes(self.variable)
    }

    /// A list as the bytes that `races` takes.
    pub fn bytes(list: &[Access]) -> &[u8] {
        // SAFETY: an access is its four bytes, each of them written, and any address is fit for bytes.
        unsafe { slice::from_raw_parts(list.as_ptr().cast(), size_of_val(list)) }
    }
}

/// What two accesses make; they may be the same one, made by two threads.
#[derive(Clone, Copy, Debug, PartialEq, Eq, Hash)]
#[repr(u8)]
pub enum Race {
    /// The variables differ, both read, or two threads are never at the nodes together, in a run that
    /// finishes.
    None = 0,
    /// Both nodes are inside criticals of a common name: with locks the accesses come one after the other.
    Synchronization = 1,
    /// A possible data race.
    Data = 2,
}

impl Race {
    /// All races; each stands at its number.
    pub const ALL: [Race; 3] = [Race::None, Race::Synchronization, Race::Data];
}
