//! What the crates take of Rattle's own library, over that of Rust. No allocation is refused.
#![allow(warnings)]

use std::borrow::Borrow;
use std::cmp::Ordering;
use std::collections;
use std::ops::{Deref, DerefMut};

#[derive(Clone, Copy, Debug)]
pub struct Global;

#[derive(Clone, Copy, Debug, PartialEq, Eq)]
pub struct NoMemory;

#[derive(Clone, Copy, Debug)]
pub struct AllocError;

pub struct AllocFailed<T>(pub T);

type Made<T> = Result<T, NoMemory>;

#[derive(Debug, PartialEq, Eq, PartialOrd, Ord)]
pub struct Vec<T>(pub std::vec::Vec<T>);

impl<T> Vec<T> {
    pub fn new(_: Global) -> Self {
        Vec(std::vec::Vec::new())
    }

    pub fn of(_: Global, items: std::vec::Vec<T>) -> Made<Self> {
        Ok(Vec(items))
    }

    pub fn with_capacity(_: Global, count: usize) -> Made<Self> {
        Ok(Vec(std::vec::Vec::with_capacity(count)))
    }

    pub fn from_elem(_: Global, item: T, count: usize) -> Made<Self>
    where
        T: Clone,
    {
        Ok(Vec(vec![item; count]))
    }

    pub fn from_slice(_: Global, items: &[T]) -> Made<Self>
    where
        T: Clone,
    {
        Ok(Vec(items.to_vec()))
    }

    pub fn push(&mut self, item: T) -> Made<()> {
        Ok(self.0.push(item))
    }

    pub fn extend_from_slice(&mut self, items: &[T]) -> Made<()>
    where
        T: Clone,
    {
        Ok(self.0.extend_from_slice(items))
    }

    pub fn resize(&mut self, count: usize, item: T) -> Made<()>
    where
        T: Clone,
    {
        Ok(self.0.resize(count, item))
    }

    pub fn sort(&mut self) -> Made<()>
    where
        T: Ord,
    {
        Ok(self.0.sort())
    }

    pub fn sort_by_key<K: Ord>(&mut self, key: impl FnMut(&T) -> K) -> Made<()> {
        Ok(self.0.sort_by_key(key))
    }

    pub fn as_slice(&self) -> &[T] {
        &self.0
    }

    pub fn as_mut_slice(&mut self) -> &mut [T] {
        &mut self.0
    }

    pub fn clear(&mut self) {
        self.0.clear()
    }

    pub fn truncate(&mut self, count: usize) {
        self.0.truncate(count)
    }

    pub fn pop(&mut self) -> Option<T> {
        self.0.pop()
    }
}

impl<T> Deref for Vec<T> {
    type Target = [T];
    fn deref(&self) -> &[T] {
        &self.0
    }
}

impl<T> DerefMut for Vec<T> {
    fn deref_mut(&mut self) -> &mut [T] {
        &mut self.0
    }
}

impl<'a, T> IntoIterator for &'a Vec<T> {
    type Item = &'a T;
    type IntoIter = std::slice::Iter<'a, T>;
    fn into_iter(self) -> Self::IntoIter {
        self.0.iter()
    }
}

impl<T> Borrow<[T]> for Vec<T> {
    fn borrow(&self) -> &[T] {
        &self.0
    }
}

#[macro_export]
macro_rules! vec_in {
    ($alloc:expr; $item:expr; $count:expr) => { $crate::Vec::of($alloc, vec![$item; $count]) };
    ($alloc:expr; $($item:expr),* $(,)?) => { $crate::Vec::of($alloc, vec![$($item),*]) };
}

pub trait TextIn {
    fn text_in(&self, _: Global) -> Made<String>;
}

impl<T: std::fmt::Display> TextIn for T {
    fn text_in(&self, _: Global) -> Made<String> {
        Ok(self.to_string())
    }
}

pub trait CollectIn: Iterator + Sized {
    fn collect_in(self, _: Global) -> Made<Vec<Self::Item>> {
        Ok(Vec(self.collect()))
    }
}

impl<I: Iterator> CollectIn for I {}

#[derive(Debug)]
pub struct BTreeMap<K, V>(collections::BTreeMap<K, V>);

impl<K: Ord, V> BTreeMap<K, V> {
    pub fn new(_: Global) -> Self {
        BTreeMap(collections::BTreeMap::new())
    }

    pub fn insert(&mut self, key: K, value: V) -> Made<Option<V>> {
        Ok(self.0.insert(key, value))
    }

    pub fn get<Q: ?Sized + Ord>(&self, key: &Q) -> Option<&V>
    where
        K: Borrow<Q>,
    {
        self.0.get(key)
    }

    pub fn contains_key<Q: ?Sized + Ord>(&self, key: &Q) -> bool
    where
        K: Borrow<Q>,
    {
        self.0.contains_key(key)
    }

    pub fn len(&self) -> usize {
        self.0.len()
    }

    pub fn is_empty(&self) -> bool {
        self.0.is_empty()
    }
}

#[derive(Debug)]
pub struct BTreeSet<K>(collections::BTreeSet<K>);

impl<K: Ord> BTreeSet<K> {
    pub fn new(_: Global) -> Self {
        BTreeSet(collections::BTreeSet::new())
    }

    pub fn insert(&mut self, key: K) -> Made<bool> {
        Ok(self.0.insert(key))
    }

    pub fn first(&self) -> Option<&K> {
        self.0.first()
    }

    pub fn pop_first(&mut self) -> Option<K> {
        self.0.pop_first()
    }
}
