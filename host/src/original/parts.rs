//! Stand-ins for small things of other crates: short texts, lists that are not empty, `Either`, `sorted` and `join`.

use std::cmp::Ordering;
use std::fmt;
use std::hash::{Hash, Hasher};
use std::sync::Arc;

/// A text of the sheet: its number and its bytes. Texts are distinct, so equal numbers are equal bytes. The order is by
/// number, so that the attributes of a record are worked in the order of their text numbers.
#[derive(Clone)]
pub struct SmolStr {
    number: u32,
    bytes: Arc<str>,
}

impl SmolStr {
    pub fn of_row(number: u32, bytes: &str) -> Self {
        SmolStr { number, bytes: Arc::from(bytes) }
    }

    pub fn number(&self) -> u32 {
        self.number
    }

    pub fn bytes(&self) -> &Arc<str> {
        &self.bytes
    }
}

impl std::ops::Deref for SmolStr {
    type Target = str;
    fn deref(&self) -> &str {
        &self.bytes
    }
}

impl PartialEq for SmolStr {
    fn eq(&self, other: &Self) -> bool {
        self.number == other.number
    }
}

impl Eq for SmolStr {}

impl PartialOrd for SmolStr {
    fn partial_cmp(&self, other: &Self) -> Option<Ordering> {
        Some(self.cmp(other))
    }
}

impl Ord for SmolStr {
    fn cmp(&self, other: &Self) -> Ordering {
        self.number.cmp(&other.number)
    }
}

impl Hash for SmolStr {
    fn hash<H: Hasher>(&self, state: &mut H) {
        self.number.hash(state)
    }
}

impl fmt::Debug for SmolStr {
    fn fmt(&self, f: &mut fmt::Formatter<'_>) -> fmt::Result {
        fmt::Debug::fmt(&self.bytes, f)
    }
}

/// A list with at least one element.
#[derive(Clone, Debug, PartialEq, Eq)]
pub struct NonEmpty<T> {
    pub head: T,
    pub tail: Vec<T>,
}

impl<T> NonEmpty<T> {
    pub fn singleton(head: T) -> Self {
        NonEmpty { head, tail: Vec::new() }
    }

    pub fn collect(items: impl Iterator<Item = T>) -> Option<Self> {
        let mut items = items;
        let head = items.next()?;
        Some(NonEmpty { head, tail: items.collect() })
    }

    pub fn iter(&self) -> std::iter::Chain<std::iter::Once<&T>, std::slice::Iter<'_, T>> {
        std::iter::once(&self.head).chain(self.tail.iter())
    }
}

impl<T> Extend<T> for NonEmpty<T> {
    fn extend<I: IntoIterator<Item = T>>(&mut self, items: I) {
        self.tail.extend(items)
    }
}

impl<T> IntoIterator for NonEmpty<T> {
    type Item = T;
    type IntoIter = std::iter::Chain<std::iter::Once<T>, std::vec::IntoIter<T>>;
    fn into_iter(self) -> Self::IntoIter {
        std::iter::once(self.head).chain(self.tail)
    }
}

#[macro_export]
macro_rules! nonempty {
    ($head:expr $(, $tail:expr)* $(,)?) => {
        $crate::NonEmpty { head: $head, tail: vec![$($tail),*] }
    };
}

/// One of two.
#[derive(Clone, Debug, PartialEq, Eq)]
pub enum Either<L, R> {
    Left(L),
    Right(R),
}

/// What the text uses of the crate `itertools`.
pub trait Itertools: Iterator + Sized {
    fn sorted(self) -> std::vec::IntoIter<Self::Item>
    where
        Self::Item: Ord,
    {
        let mut items: Vec<_> = self.collect();
        items.sort();
        items.into_iter()
    }

    fn join(self, between: &str) -> String
    where
        Self::Item: fmt::Display,
    {
        self.map(|item| item.to_string()).collect::<Vec<_>>().join(between)
    }
}

impl<I: Iterator> Itertools for I {}
