//! Stands in for the crate `itertools`: unique, sorted, dedup and join.

use std::fmt::Display;

/// Each item once, at its first appearance.
pub struct Unique<I: Iterator> {
    items: I,
    seen: Vec<I::Item>,
}

impl<I: Iterator> Iterator for Unique<I>
where
    I::Item: Clone + Eq,
{
    type Item = I::Item;

    fn next(&mut self) -> Option<I::Item> {
        loop {
            let item = self.items.next()?;
            if !self.seen.contains(&item) {
                self.seen.push(item.clone());
                return Some(item);
            }
        }
    }
}

pub trait Itertools: Iterator {
    fn unique(self) -> Unique<Self>
    where
        Self: Sized,
        Self::Item: Clone + Eq,
    {
        Unique { items: self, seen: Vec::new() }
    }

    fn sorted(self) -> std::vec::IntoIter<Self::Item>
    where
        Self: Sized,
        Self::Item: Ord,
    {
        let mut items: Vec<Self::Item> = self.collect();
        items.sort();
        items.into_iter()
    }

    fn dedup(self) -> std::vec::IntoIter<Self::Item>
    where
        Self: Sized,
        Self::Item: PartialEq,
    {
        let mut items: Vec<Self::Item> = self.collect();
        items.dedup();
        items.into_iter()
    }

    fn join(self, separator: &str) -> String
    where
        Self: Sized,
        Self::Item: Display,
    {
        let items: Vec<String> = self.map(|item| item.to_string()).collect();
        items.join(separator)
    }
}

impl<I: Iterator> Itertools for I {}
