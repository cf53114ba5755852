//! Times of the calls by several implementations. All run in one process, by turns, but for the replay,
//! which programs make; times of different runs are not to be compared.

#[cfg(feature = "before")]
pub mod before;
pub mod calls;
pub mod first_edges;
pub mod locks;
pub mod regions;
pub mod replay;
pub mod subject;
pub mod table;
mod timing;
