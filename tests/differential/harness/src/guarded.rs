//! A lent slice with guards on both sides, and what all of it held before.

pub struct Guarded<T> {
    all: Vec<T>,
    before: Vec<T>,
}

const GUARD: usize = 64;

impl<T: Copy + PartialEq> Guarded<T> {
    /// Holds `contents`, between guards of `guard`'s values.
    pub fn new(contents: impl IntoIterator<Item = T>, mut guard: impl FnMut() -> T) -> Self {
        let mut all: Vec<T> = (0..GUARD).map(|_| guard()).collect();
        all.extend(contents);
        all.extend((0..GUARD).map(|_| guard()));
        Self { before: all.clone(), all }
    }

    /// Of `length` values, all of `value`'s.
    pub fn filled(length: usize, mut value: impl FnMut() -> T) -> Self {
        let contents: Vec<T> = (0..length).map(|_| value()).collect();
        Self::new(contents, value)
    }

    pub fn lent(&mut self) -> &mut [T] {
        let end = self.all.len() - GUARD;
        &mut self.all[GUARD..end]
    }

    pub fn now(&self) -> &[T] {
        &self.all[GUARD..self.all.len() - GUARD]
    }

    /// Whether all but the first `count` lent values are as before, the guards
    /// among them.
    pub fn unchanged_after(&self, count: usize) -> bool {
        let rest = GUARD + count..;
        self.all[..GUARD] == self.before[..GUARD] && self.all[rest.clone()] == self.before[rest]
    }
}
