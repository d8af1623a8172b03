//! An area between two guards, filled with a value that shows what a call leaves alone.

/// Elements before and after the area.
const GUARD: usize = 64;

pub struct Guarded<T> {
    all: Vec<T>,
    guard: T,
    fill: T,
}

impl<T: Copy + PartialEq> Guarded<T> {
    pub fn new(length: usize, guard: T, fill: T) -> Guarded<T> {
        let mut all = vec![guard; GUARD + length + GUARD];
        all[GUARD..GUARD + length].fill(fill);
        Guarded { all, guard, fill }
    }

    pub fn area(&mut self) -> &mut [T] {
        let end = self.all.len() - GUARD;
        &mut self.all[GUARD..end]
    }

    pub fn seen(&self) -> &[T] {
        &self.all[GUARD..self.all.len() - GUARD]
    }

    /// Nothing outside the area was written.
    pub fn intact(&self) -> bool {
        let is_guard = |x: &T| *x == self.guard;
        self.all[..GUARD].iter().all(is_guard) && self.all[self.all.len() - GUARD..].iter().all(is_guard)
    }

    /// Nothing of the area from this element on was written.
    pub fn untouched_from(&self, start: usize) -> bool {
        self.seen()[start..].iter().all(|x| *x == self.fill)
    }

    /// All of the area from this element on has this value.
    pub fn is_from(&self, start: usize, value: T) -> bool {
        self.seen()[start..].iter().all(|x| *x == value)
    }
}
