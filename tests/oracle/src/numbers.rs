//! Decimal numbers in a line of text.

use std::fmt::Display;

/// Numbers of a line, taken from the front, each only if it lies in the range of its type.
pub struct Numbers(std::vec::IntoIter<i128>);

impl Numbers {
    /// Reads words of a line; none if one of them is no decimal number.
    pub fn read<'a>(words: impl Iterator<Item = &'a str>) -> Option<Self> {
        let list: Option<Vec<i128>> = words.map(|word| word.parse().ok()).collect();
        Some(Self(list?.into_iter()))
    }

    /// How many are left.
    pub fn left(&self) -> usize {
        self.0.len()
    }

    /// The next number.
    pub fn one<T: TryFrom<i128>>(&mut self) -> Option<T> {
        T::try_from(self.0.next()?).ok()
    }

    /// The next number as a truth value, 0 or 1.
    pub fn flag(&mut self) -> Option<bool> {
        match self.0.next()? {
            0 => Some(false),
            1 => Some(true),
            _ => None,
        }
    }

    /// The next `N` numbers.
    pub fn array<T: TryFrom<i128>, const N: usize>(&mut self) -> Option<[T; N]> {
        let list: Option<Vec<T>> = (0..N).map(|_| self.one()).collect();
        list?.try_into().ok()
    }
}

impl From<Vec<i128>> for Numbers {
    /// The numbers of a list.
    fn from(list: Vec<i128>) -> Self {
        Self(list.into_iter())
    }
}

/// The numbers of a list, separated by one space.
pub fn text<T: Display>(list: impl IntoIterator<Item = T>) -> String {
    let words: Vec<String> = list.into_iter().map(|n| n.to_string()).collect();
    words.join(" ")
}
