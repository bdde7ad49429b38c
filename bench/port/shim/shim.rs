// What Rattle's std does differently.
use std::convert::Infallible;
use std::marker::PhantomData;
use std::ops::{Deref, DerefMut};
use std::sync::Mutex;

#[derive(Clone, Copy)]
pub struct Global;

#[derive(Clone, Copy, Debug)]
pub struct AllocError(Infallible);

pub struct AllocFailed<T>(Infallible, PhantomData<T>);

pub trait Drop {}
impl<T: ?Sized> Drop for T {}

pub struct Vec<T>(pub std::vec::Vec<T>);

impl<T> Deref for Vec<T> {
    type Target = [T];
    #[inline(always)]
    fn deref(&self) -> &[T] {
        &self.0
    }
}
impl<T> DerefMut for Vec<T> {
    #[inline(always)]
    fn deref_mut(&mut self) -> &mut [T] {
        &mut self.0
    }
}
impl<T: std::fmt::Debug> std::fmt::Debug for Vec<T> {
    fn fmt(&self, f: &mut std::fmt::Formatter<'_>) -> std::fmt::Result {
        self.0.fmt(f)
    }
}
impl<T: PartialEq> PartialEq for Vec<T> {
    fn eq(&self, other: &Self) -> bool {
        self.0 == other.0
    }
}
impl<T> IntoIterator for Vec<T> {
    type Item = T;
    type IntoIter = std::vec::IntoIter<T>;
    fn into_iter(self) -> Self::IntoIter {
        self.0.into_iter()
    }
}
impl<'a, T> IntoIterator for &'a Vec<T> {
    type Item = &'a T;
    type IntoIter = std::slice::Iter<'a, T>;
    fn into_iter(self) -> Self::IntoIter {
        self.0.iter()
    }
}
impl<'a, T> IntoIterator for &'a mut Vec<T> {
    type Item = &'a mut T;
    type IntoIter = std::slice::IterMut<'a, T>;
    fn into_iter(self) -> Self::IntoIter {
        self.0.iter_mut()
    }
}
impl<T> Vec<T> {
    #[inline(always)]
    pub fn new(_: Global) -> Self {
        Vec(std::vec::Vec::new())
    }
    pub fn with_capacity(_: Global, n: usize) -> Result<Self, AllocError> {
        Ok(Vec(std::vec::Vec::with_capacity(n)))
    }
    pub fn from_slice(_: Global, s: &[T]) -> Result<Self, AllocError>
    where
        T: Clone,
    {
        Ok(Vec(s.to_vec()))
    }
    pub fn from_array<const N: usize>(_: Global, s: [T; N]) -> Result<Self, AllocError> {
        Ok(Vec(s.into()))
    }
    #[inline(always)]
    pub fn push(&mut self, x: T) -> Result<(), AllocFailed<T>> {
        self.0.push(x);
        Ok(())
    }
    pub fn insert(&mut self, at: usize, x: T) -> Result<(), AllocFailed<T>> {
        self.0.insert(at, x);
        Ok(())
    }
    pub fn remove(&mut self, at: usize) -> T {
        self.0.remove(at)
    }
    pub fn swap_remove(&mut self, at: usize) -> T {
        self.0.swap_remove(at)
    }
    pub fn reserve(&mut self, n: usize) -> Result<(), AllocError> {
        self.0.reserve(n);
        Ok(())
    }
    pub fn append(&mut self, other: &mut Vec<T>) -> Result<(), AllocError> {
        self.0.append(&mut other.0);
        Ok(())
    }
    pub fn retain<F: FnMut(&T) -> bool>(&mut self, f: F) {
        self.0.retain(f)
    }
    pub fn dedup(&mut self)
    where
        T: PartialEq,
    {
        self.0.dedup()
    }
    #[inline(always)]
    pub fn pop(&mut self) -> Option<T> {
        self.0.pop()
    }
    #[inline(always)]
    pub fn clear(&mut self) {
        self.0.clear()
    }
    pub fn truncate(&mut self, n: usize) {
        self.0.truncate(n)
    }
    pub fn capacity(&self) -> usize {
        self.0.capacity()
    }
    pub fn resize(&mut self, n: usize, x: T) -> Result<(), AllocError>
    where
        T: Clone,
    {
        self.0.resize(n, x);
        Ok(())
    }
    pub fn extend_from_slice(&mut self, s: &[T]) -> Result<(), AllocError>
    where
        T: Clone,
    {
        self.0.extend_from_slice(s);
        Ok(())
    }
    pub fn clone(&self) -> Result<Self, AllocError>
    where
        T: Clone,
    {
        Ok(Vec(self.0.clone()))
    }
    #[inline(always)]
    pub fn as_slice(&self) -> &[T] {
        &self.0
    }
    #[inline(always)]
    pub fn as_mut_slice(&mut self) -> &mut [T] {
        &mut self.0
    }
    // The stable sorts give one answer; the unstable ones put equal keys as Rattle's do.
    pub fn sort(&mut self) -> Result<(), AllocError>
    where
        T: Ord,
    {
        self.0.sort();
        Ok(())
    }
    pub fn sort_by_key<K: Ord, F: FnMut(&T) -> K>(&mut self, f: F) -> Result<(), AllocError> {
        self.0.sort_by_key(f);
        Ok(())
    }
    pub fn sort_by<F: FnMut(&T, &T) -> std::cmp::Ordering>(&mut self, f: F) -> Result<(), AllocError> {
        self.0.sort_by(f);
        Ok(())
    }
    pub fn sort_unstable(&mut self)
    where
        T: Ord,
    {
        crate::sorts::sort(&mut self.0, &mut |a: &T, b: &T| a < b)
    }
    pub fn sort_unstable_by_key<K: Ord, F: FnMut(&T) -> K>(&mut self, mut f: F) {
        crate::sorts::sort(&mut self.0, &mut |a: &T, b: &T| f(a) < f(b))
    }
}

pub fn filled<T: Clone>(_: Global, x: T, n: usize) -> Result<Vec<T>, AllocError> {
    Ok(Vec(std::vec![x; n]))
}

#[macro_export]
macro_rules! rvec {
    [in $alloc:expr; $x:expr; $n:expr] => { $crate::shim::filled($alloc, $x, $n) };
    [in $alloc:expr; $($x:expr),* $(,)?] => { $crate::shim::Vec::from_array($alloc, [$($x),*]) };
}

pub trait CollectIn: Iterator + Sized {
    fn collect_in(self, _: Global) -> Result<Vec<Self::Item>, AllocError> {
        Ok(Vec(Iterator::collect(self)))
    }
}
impl<I: Iterator> CollectIn for I {}

/// What a search found.
pub struct Note {
    pub name: &'static str,
    pub seconds: f64,
    pub said: String,
}
pub static NOTES: Mutex<std::vec::Vec<Note>> = Mutex::new(std::vec::Vec::new());

/// The user time of this process, in seconds.
pub fn user_time() -> f64 {
    #[repr(C)]
    struct Usage {
        user: [i64; 2],
        system: [i64; 2],
        rest: [i64; 14],
    }
    unsafe extern "C" {
        fn getrusage(who: i32, usage: *mut Usage) -> i32;
    }
    let mut usage = Usage {
        user: [0; 2],
        system: [0; 2],
        rest: [0; 14],
    };
    unsafe { getrusage(0, &mut usage) };
    usage.user[0] as f64 + usage.user[1] as f64 / 1e6
}

type Searched = Result<Option<crate::chip_search::Found>, crate::aq_base::Memory>;

/// Runs a search and notes what it found. PORT_ONLY=a,b leaves the others out.
pub fn noted(name: &'static str, search: impl FnOnce() -> Searched) -> Searched {
    if let Ok(only) = std::env::var("PORT_ONLY") {
        if !only.split(',').any(|one| one == name) {
            return Ok(None);
        }
    }
    let start = user_time();
    let found = search()?;
    let said = match &found {
        None => "nothing".to_string(),
        Some(found) => {
            let (cells, jj, bare, rows) = crate::counts(found.draft.rows.as_slice());
            format!(
                "graph={} cells={} jj={} rows={} bufrows={} missing={}",
                found.graph, cells, jj, rows, bare, found.missing
            )
        }
    };
    NOTES.lock().unwrap().push(Note {
        name,
        seconds: user_time() - start,
        said,
    });
    Ok(found)
}
