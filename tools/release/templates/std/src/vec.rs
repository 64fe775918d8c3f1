//! A vector whose growth can fail.

use crate::alloc::{AllocError, AllocFailed, Global};
use core::ops::{Deref, DerefMut};

/// A vector: Rust's own, but for calls that allocate, which return an error if there is no memory.
#[derive(Debug, PartialEq, Eq)]
pub struct Vec<T> {
    items: memory::vec::Vec<T>,
}

impl<T> Vec<T> {
    /// An empty vector. It allocates nothing.
    pub const fn new(_: Global) -> Vec<T> {
        Vec {
            items: memory::vec::Vec::new(),
        }
    }

    /// An empty vector with room for this many items.
    pub fn with_capacity(_: Global, capacity: usize) -> Result<Vec<T>, AllocError> {
        let mut items = memory::vec::Vec::new();
        items.try_reserve_exact(capacity)?;
        Ok(Vec { items })
    }

    /// For how many there is room.
    pub fn capacity(&self) -> usize {
        self.items.capacity()
    }

    /// Makes room for this many more items, and for a few beside.
    pub fn reserve(&mut self, additional: usize) -> Result<(), AllocError> {
        Ok(self.items.try_reserve(additional)?)
    }

    /// Makes room for this many more items.
    pub fn reserve_exact(&mut self, additional: usize) -> Result<(), AllocError> {
        Ok(self.items.try_reserve_exact(additional)?)
    }

    /// Appends one. Without memory it is handed back.
    pub fn push(&mut self, item: T) -> Result<(), AllocFailed<T>> {
        match self.items.try_reserve(1) {
            Ok(()) => {
                self.items.push(item);
                Ok(())
            }
            Err(_) => Err(AllocFailed(item)),
        }
    }

    /// Inserts one at an index, before those from there on. Without memory it is handed back.
    pub fn insert(&mut self, index: usize, item: T) -> Result<(), AllocFailed<T>> {
        match self.items.try_reserve(1) {
            Ok(()) => {
                self.items.insert(index, item);
                Ok(())
            }
            Err(_) => Err(AllocFailed(item)),
        }
    }

    /// Takes the last one away.
    pub fn pop(&mut self) -> Option<T> {
        self.items.pop()
    }

    /// Takes all away.
    pub fn clear(&mut self) {
        self.items.clear();
    }

    /// Keeps the first items, at most this many.
    pub fn truncate(&mut self, len: usize) {
        self.items.truncate(len);
    }

    /// All of them.
    pub fn as_slice(&self) -> &[T] {
        &self.items
    }

    /// All of them, to be changed.
    pub fn as_mut_slice(&mut self) -> &mut [T] {
        &mut self.items
    }
}

impl<T: Clone> Vec<T> {
    /// A copy of these.
    pub fn from_slice(alloc: Global, items: &[T]) -> Result<Vec<T>, AllocError> {
        let mut copy = Vec::with_capacity(alloc, items.len())?;
        copy.items.extend_from_slice(items);
        Ok(copy)
    }

    /// Becomes so long, with this one in each new place.
    pub fn resize(&mut self, len: usize, item: T) -> Result<(), AllocError> {
        self.items
            .try_reserve(len.saturating_sub(self.items.len()))?;
        self.items.resize(len, item);
        Ok(())
    }

    /// Appends copies of these.
    pub fn extend_from_slice(&mut self, items: &[T]) -> Result<(), AllocError> {
        self.items.try_reserve(items.len())?;
        self.items.extend_from_slice(items);
        Ok(())
    }

    /// A copy.
    #[allow(clippy::should_implement_trait, reason = "a copy can fail here")]
    pub fn clone(&self) -> Result<Vec<T>, AllocError> {
        Vec::from_slice(Global, &self.items)
    }
}

impl<T> Deref for Vec<T> {
    type Target = [T];

    fn deref(&self) -> &[T] {
        &self.items
    }
}

impl<T> DerefMut for Vec<T> {
    fn deref_mut(&mut self) -> &mut [T] {
        &mut self.items
    }
}

impl<T> AsRef<[T]> for Vec<T> {
    fn as_ref(&self) -> &[T] {
        &self.items
    }
}

impl<T> IntoIterator for Vec<T> {
    type Item = T;
    type IntoIter = memory::vec::IntoIter<T>;

    fn into_iter(self) -> Self::IntoIter {
        self.items.into_iter()
    }
}

impl<'a, T> IntoIterator for &'a Vec<T> {
    type Item = &'a T;
    type IntoIter = core::slice::Iter<'a, T>;

    fn into_iter(self) -> Self::IntoIter {
        self.items.iter()
    }
}

impl<T> From<memory::vec::Vec<T>> for Vec<T> {
    fn from(items: memory::vec::Vec<T>) -> Vec<T> {
        Vec { items }
    }
}
