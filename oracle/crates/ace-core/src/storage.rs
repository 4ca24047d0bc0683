//! The bounded vector.

/// Forced by `.map_err(|_| CapacityError)`: a unit value used as an error.
#[derive(Debug, Clone, Copy, PartialEq, Eq)]
pub struct CapacityError;

/// At most `N` items in insertion order; a push past that is refused.
///
/// Forced by the published comments ("silently ignores the level if more than ..", "payload.len() + 1 ..
/// leaves only MAX_FRAME - 1 bytes") and by each call of the methods below. Guessed: what a refused
/// `extend_from_slice` leaves behind (here nothing is added); every published caller drops or clears the
/// vector after such a refusal, so it is never seen.
#[derive(Debug, Clone, PartialEq, Eq)]
pub struct Vec<T, const N: usize> {
    items: std::vec::Vec<T>,
}

impl<T, const N: usize> Vec<T, N> {
    pub fn new() -> Self {
        Self {
            items: std::vec::Vec::new(),
        }
    }

    pub fn push(&mut self, item: T) -> Result<(), CapacityError> {
        if self.is_full() {
            return Err(CapacityError);
        }
        self.items.push(item);
        Ok(())
    }

    pub fn extend_from_slice(&mut self, items: &[T]) -> Result<(), CapacityError>
    where
        T: Clone,
    {
        if items.len() > N - self.items.len() {
            return Err(CapacityError);
        }
        self.items.extend_from_slice(items);
        Ok(())
    }

    pub fn is_full(&self) -> bool {
        self.items.len() == N
    }

    pub fn capacity(&self) -> usize {
        N
    }

    pub fn clear(&mut self) {
        self.items.clear();
    }

    pub fn retain(&mut self, keep: impl FnMut(&T) -> bool) {
        self.items.retain(keep);
    }

    pub fn drain(&mut self, range: std::ops::RangeFull) -> std::vec::Drain<'_, T> {
        self.items.drain(range)
    }
}

impl<T, const N: usize> Default for Vec<T, N> {
    fn default() -> Self {
        Self::new()
    }
}

// `iter`, `iter_mut`, `len`, `is_empty` and `&resp` as `&[u8]` come from the slice.
impl<T, const N: usize> std::ops::Deref for Vec<T, N> {
    type Target = [T];

    fn deref(&self) -> &[T] {
        &self.items
    }
}

impl<T, const N: usize> std::ops::DerefMut for Vec<T, N> {
    fn deref_mut(&mut self) -> &mut [T] {
        &mut self.items
    }
}

// Forced by `for (did, client) in &due`.
impl<'a, T, const N: usize> IntoIterator for &'a Vec<T, N> {
    type Item = &'a T;
    type IntoIter = std::slice::Iter<'a, T>;

    fn into_iter(self) -> Self::IntoIter {
        self.items.iter()
    }
}
