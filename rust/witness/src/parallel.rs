//! Work on all processors.

use std::panic::resume_unwind;
use std::sync::atomic::{AtomicUsize, Ordering};
use std::thread::{available_parallelism, scope, Builder};

/// What is made of each item, in their order. A thread for each processor takes the next item that none has taken; where
/// no more threads can be had, this one does all.
pub fn each<T: Sync, R: Send>(items: &[T], make: impl Fn(&T) -> R + Sync) -> Vec<R> {
    let next = AtomicUsize::new(0);
    let take = || {
        let mut made = Vec::new();
        loop {
            let place = next.fetch_add(1, Ordering::Relaxed);
            let Some(item) = items.get(place) else {
                return made;
            };
            made.push((place, make(item)));
        }
    };
    let threads = available_parallelism().map_or(1, usize::from);
    let mut made = scope(|scope| {
        let others = 1..threads.min(items.len());
        let others = others.filter_map(|_| Builder::new().spawn_scoped(scope, take).ok());
        let others: Vec<_> = others.collect();
        let own = take();
        let theirs = others.into_iter().map(|x| x.join());
        let theirs = theirs.flat_map(|x| x.unwrap_or_else(|panic| resume_unwind(panic)));
        own.into_iter().chain(theirs).collect::<Vec<_>>()
    });
    made.sort_unstable_by_key(|x| x.0);
    made.into_iter().map(|x| x.1).collect()
}

#[cfg(test)]
mod tests {
    use super::each;

    #[test]
    fn each_item_is_taken_once_and_kept_in_order() {
        for items in [0, 1, 2, 1000] {
            let items: Vec<usize> = (0..items).collect();
            let doubled: Vec<usize> = items.iter().map(|x| 2 * x).collect();
            assert_eq!(each(&items, |x| 2 * x), doubled);
        }
    }
}
