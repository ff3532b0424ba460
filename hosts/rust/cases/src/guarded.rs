//! Slices with guards on both sides.

use crate::chance::Chance;

const GUARD: usize = 64;

/// A slice in the midst of a longer one, whose ends have to stay as they are.
pub struct Guarded<T> {
    whole: Vec<T>,
    before: Vec<T>,
}

impl<T: Copy + PartialEq> Guarded<T> {
    /// Guards made by chance around the items.
    pub fn new(items: &[T], noise: impl Fn(u64) -> T, chance: &mut Chance) -> Self {
        let mut whole: Vec<T> = (0..GUARD).map(|_| noise(chance.word())).collect();
        whole.extend_from_slice(items);
        whole.extend((0..GUARD).map(|_| noise(chance.word())));
        let before = whole.clone();
        Self { whole, before }
    }

    /// So many items, made by chance too.
    pub fn any(length: usize, noise: impl Fn(u64) -> T, chance: &mut Chance) -> Self {
        let items: Vec<T> = (0..length).map(|_| noise(chance.word())).collect();
        Self::new(&items, noise, chance)
    }

    pub fn items(&self) -> &[T] {
        &self.whole[GUARD..self.whole.len() - GUARD]
    }

    pub fn items_mut(&mut self) -> &mut [T] {
        let end = self.whole.len() - GUARD;
        &mut self.whole[GUARD..end]
    }

    /// That nothing but the first items may have been changed: the guards are as they were, and the rest of the items.
    pub fn kept_but(&self, first: usize) -> bool {
        let changed = GUARD..GUARD + first;
        let same = |at: usize| self.whole[at] == self.before[at];
        (0..self.whole.len()).all(|at| changed.contains(&at) || same(at))
    }

    /// That the guards are as they were.
    pub fn guards_kept(&self) -> bool {
        self.kept_but(self.items().len())
    }
}
