//! The team sizes that differ in their answers.

use bohrali::layout::ConstructKind;
use bohrali::limits::MOST_SIZE;
use bohrali::Size;
use std::collections::BTreeSet;
use witness::view::{Role, View};

/// Teams that are answered alike: what they are called, and the least of them; none for teams of any size.
pub struct Class {
    pub label: String,
    pub size: Option<Size>,
}

/// Any size, one thread, and the ranges between the threads that masked constructs name.
pub fn classes(view: &View) -> Vec<Class> {
    let class = |label: String, size| Class { label, size };
    let mut classes = vec![class("any".into(), None), class("1".into(), Some(Size(1)))];
    let filters: BTreeSet<usize> = counted(view)
        .filter(|&c| view.kind(c) == ConstructKind::Master)
        .map(|c| view.constructs[c].filter)
        .collect();
    let named = filters.iter().map(|filter| filter + 1);
    let lows: BTreeSet<usize> = named
        .filter(|x| (2..=MOST_SIZE).contains(x))
        .chain([2])
        .collect();
    // A thread that no team that can be named has.
    let beyond = filters.iter().any(|&x| x >= MOST_SIZE);
    if lows.len() == 1 && !beyond {
        return classes;
    }
    let lows: Vec<usize> = lows.into_iter().collect();
    for (place, &low) in lows.iter().enumerate() {
        let label = match lows.get(place + 1) {
            Some(&next) if next == low + 1 => low.to_string(),
            Some(&next) => format!("{low} to {}", next - 1),
            None if low == MOST_SIZE => low.to_string(),
            None if beyond => format!("{low} to {MOST_SIZE}"),
            None => format!("{low} or more"),
        };
        classes.push(class(label, Some(Size(low))));
    }
    classes
}

/// The constructs that count in the region, rising by their begins.
pub fn counted<'a>(view: &'a View) -> impl Iterator<Item = usize> + 'a {
    view.role.iter().filter_map(|role| match role {
        Role::Begin(c) => Some(*c),
        _ => None,
    })
}
