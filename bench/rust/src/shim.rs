//! What the crates use of Rattle's standard library and Rust's has otherwise: memory that may be refused.

use std::ops::{Deref, DerefMut, Index, IndexMut};
use std::slice::SliceIndex;

#[derive(Clone, Copy, Debug)]
pub struct Global;

#[derive(Clone, Copy, Debug, PartialEq, Eq)]
pub struct AllocError;

pub struct AllocFailed<T>(pub T);

pub trait Threads {}

/// A list that grows as Rust's does.
#[derive(Clone, Debug, PartialEq, Eq)]
pub struct Vec<T>(pub std::vec::Vec<T>);

impl<T> Vec<T> {
    pub fn new(_: Global) -> Self {
        Vec(std::vec::Vec::new())
    }

    pub fn allocator(&self) -> &Global {
        &Global
    }

    pub fn of<const N: usize>(_: Global, items: [T; N]) -> Result<Self, AllocError> {
        Ok(Vec(items.into()))
    }

    pub fn with_capacity(_: Global, count: usize) -> Result<Self, AllocError> {
        Ok(Vec(std::vec::Vec::with_capacity(count)))
    }

    pub fn push(&mut self, item: T) -> Result<(), AllocError> {
        self.0.push(item);
        Ok(())
    }

    pub fn reserve(&mut self, count: usize) -> Result<(), AllocError> {
        self.0.reserve(count);
        Ok(())
    }

    pub fn pop(&mut self) -> Option<T> {
        self.0.pop()
    }

    pub fn truncate(&mut self, count: usize) {
        self.0.truncate(count);
    }

    pub fn retain<F: FnMut(&T) -> bool>(&mut self, keeps: F) {
        self.0.retain(keeps);
    }

    pub fn sort_by_key<K: Ord, F: FnMut(&T) -> K>(&mut self, key: F) -> Result<(), AllocError> {
        self.0.sort_by_key(key);
        Ok(())
    }

    pub fn swap_remove(&mut self, i: usize) -> T {
        self.0.swap_remove(i)
    }

    pub fn remove(&mut self, i: usize) -> T {
        self.0.remove(i)
    }

    pub fn clear(&mut self) {
        self.0.clear();
    }

    pub fn as_slice(&self) -> &[T] {
        &self.0
    }

    pub fn as_mut_slice(&mut self) -> &mut [T] {
        &mut self.0
    }

    pub fn insert(&mut self, i: usize, item: T) -> Result<(), AllocError> {
        self.0.insert(i, item);
        Ok(())
    }
}

impl<T: Clone> Vec<T> {
    pub fn filled(_: Global, item: T, count: usize) -> Result<Self, AllocError> {
        Ok(Vec(vec![item; count]))
    }

    pub fn from_slice(_: Global, items: &[T]) -> Result<Self, AllocError> {
        Ok(Vec(items.to_vec()))
    }

    pub fn extend_from_slice(&mut self, items: &[T]) -> Result<(), AllocError> {
        self.0.extend_from_slice(items);
        Ok(())
    }

    pub fn clone(&self) -> Result<Self, AllocError> {
        Ok(Vec(self.0.clone()))
    }
}

impl<T: Ord> Vec<T> {
    pub fn sort(&mut self) -> Result<(), AllocError> {
        self.0.sort();
        Ok(())
    }
}

impl<T> Deref for Vec<T> {
    type Target = [T];

    fn deref(&self) -> &[T] {
        &self.0
    }
}

impl<T> DerefMut for Vec<T> {
    fn deref_mut(&mut self) -> &mut [T] {
        &mut self.0
    }
}

impl<T, I: SliceIndex<[T]>> Index<I> for Vec<T> {
    type Output = I::Output;

    fn index(&self, i: I) -> &I::Output {
        &self.0[i]
    }
}

impl<T, I: SliceIndex<[T]>> IndexMut<I> for Vec<T> {
    fn index_mut(&mut self, i: I) -> &mut I::Output {
        &mut self.0[i]
    }
}

impl<T> IntoIterator for Vec<T> {
    type Item = T;
    type IntoIter = std::vec::IntoIter<T>;

    fn into_iter(self) -> Self::IntoIter {
        self.0.into_iter()
    }
}

impl<'a, T> IntoIterator for &'a Vec<T> {
    type Item = &'a T;
    type IntoIter = std::slice::Iter<'a, T>;

    fn into_iter(self) -> Self::IntoIter {
        self.0.iter()
    }
}

impl<'a, T> IntoIterator for &'a mut Vec<T> {
    type Item = &'a mut T;
    type IntoIter = std::slice::IterMut<'a, T>;

    fn into_iter(self) -> Self::IntoIter {
        self.0.iter_mut()
    }
}

pub trait CollectIn: Iterator + Sized {
    fn collect_of(self, _: Global) -> Result<Vec<Self::Item>, AllocError> {
        Ok(Vec(self.collect()))
    }
}

impl<I: Iterator> CollectIn for I {}

pub trait ToVecIn<T> {
    fn to_vec_of(&self, alloc: Global) -> Result<Vec<T>, AllocError>;
}

impl<T: Clone> ToVecIn<T> for [T] {
    fn to_vec_of(&self, _: Global) -> Result<Vec<T>, AllocError> {
        Ok(Vec(self.to_vec()))
    }
}
