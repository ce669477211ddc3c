//! Binders in scope: their values while evaluating, their types while typing.

/// What the binders in scope stand for, the nearest first.
#[derive(Debug)]
pub struct Binders<'s, T>(Option<(&'s T, &'s Binders<'s, T>)>);

impl<T> Clone for Binders<'_, T> {
    fn clone(&self) -> Self {
        *self
    }
}

impl<T> Copy for Binders<'_, T> {}

impl<'s, T> Binders<'s, T> {
    pub const NONE: Self = Binders(None);

    /// One binder more, the nearest.
    pub fn with(&'s self, nearest: &'s T) -> Self {
        Binders(Some((nearest, self)))
    }

    /// What binder `outward` stands for, 0 the nearest.
    pub fn get(&self, outward: usize) -> Option<&'s T> {
        let mut scope = self.0;
        for _ in 0..outward {
            scope = scope?.1 .0;
        }
        scope.map(|(nearest, _)| nearest)
    }

    pub fn count(&self) -> usize {
        self.0.map_or(0, |(_, outer)| outer.count() + 1)
    }
}
