//! Small sets, as rising vectors: most nodes have one successor and one line.

#[derive(Clone, Debug, PartialEq, Eq, PartialOrd, Ord, Hash)]
pub(crate) struct Set<T>(Vec<T>);

impl<T> Default for Set<T> {
    fn default() -> Set<T> {
        Set(Vec::new())
    }
}

impl<T: Copy + Ord> Set<T> {
    pub fn insert(&mut self, item: T) {
        if let Err(place) = self.0.binary_search(&item) {
            self.0.insert(place, item);
        }
    }

    pub fn remove(&mut self, item: T) {
        if let Ok(place) = self.0.binary_search(&item) {
            self.0.remove(place);
        }
    }

    pub fn extend(&mut self, other: &Set<T>) {
        for &item in &other.0 {
            self.insert(item);
        }
    }

    pub fn without(&self, item: T) -> Set<T> {
        Set(self.iter().filter(|&x| x != item).collect())
    }

    pub fn iter(&self) -> impl Iterator<Item = T> + '_ {
        self.0.iter().copied()
    }

    pub fn len(&self) -> usize {
        self.0.len()
    }

    pub fn is_empty(&self) -> bool {
        self.0.is_empty()
    }

    /// The one item of a set of one.
    pub fn only(&self) -> Option<T> {
        match self.0[..] {
            [item] => Some(item),
            _ => None,
        }
    }
}

impl<T: Copy + Ord> FromIterator<T> for Set<T> {
    fn from_iter<I: IntoIterator<Item = T>>(items: I) -> Set<T> {
        let mut items: Vec<T> = items.into_iter().collect();
        items.sort_unstable();
        items.dedup();
        Set(items)
    }
}
