//! Stands in for the crate `heapless`, which Debian does not package: its `Vec`, stored in place,
//! with what the given source uses of it. A container only, it computes nothing.

use std::fmt;
use std::mem::MaybeUninit;
use std::ops::Deref;

/// A list of at most `N` elements.
pub struct Vec<T, const N: usize> {
    /// The first `len` places are initialised.
    places: [MaybeUninit<T>; N],
    len: usize,
}

impl<T, const N: usize> Vec<T, N> {
    const FREE: MaybeUninit<T> = MaybeUninit::uninit();

    pub fn new() -> Self {
        Self {
            places: [Self::FREE; N],
            len: 0,
        }
    }

    /// Appends `item`, or hands it back if the list is full.
    pub fn push(&mut self, item: T) -> Result<(), T> {
        match self.places.get_mut(self.len) {
            Some(place) => {
                place.write(item);
                self.len += 1;
                Ok(())
            }
            None => Err(item),
        }
    }
}

/// Length, indexing and iteration are the slice's.
impl<T, const N: usize> Deref for Vec<T, N> {
    type Target = [T];

    fn deref(&self) -> &[T] {
        let filled: *const [MaybeUninit<T>] = &self.places[..self.len];
        // SAFETY: the first `len` places are initialised, and `MaybeUninit<T>` is laid out as `T`.
        unsafe { &*(filled as *const [T]) }
    }
}

impl<T, const N: usize> Default for Vec<T, N> {
    fn default() -> Self {
        Self::new()
    }
}

impl<T: Clone, const N: usize> Clone for Vec<T, N> {
    fn clone(&self) -> Self {
        let mut copy = Self::new();
        for (place, item) in copy.places.iter_mut().zip(self.iter()) {
            place.write(item.clone());
            copy.len += 1;
        }
        copy
    }
}

impl<T: fmt::Debug, const N: usize> fmt::Debug for Vec<T, N> {
    fn fmt(&self, f: &mut fmt::Formatter<'_>) -> fmt::Result {
        f.debug_list().entries(self.iter()).finish()
    }
}

impl<T, const N: usize> Drop for Vec<T, N> {
    fn drop(&mut self) {
        for place in &mut self.places[..self.len] {
            // SAFETY: the first `len` places are initialised, and each is dropped once.
            unsafe { place.assume_init_drop() }
        }
    }
}
