//! The tables that a caller lends: filled with a pattern, so that an element that was written shows, and guarded by
//! elements before and behind, so that one written outside the table shows too.

use crate::random::mixed;

/// Elements before and behind each lent part.
const GUARD: usize = 8;

/// An element of a lent table, made from 64 bits of the pattern.
pub trait Element: Copy + PartialEq + std::fmt::Display + std::fmt::LowerHex {
    fn of(bits: u64) -> Self;
}

impl Element for u8 {
    fn of(bits: u64) -> u8 {
        bits as u8
    }
}

impl Element for u32 {
    fn of(bits: u64) -> u32 {
        bits as u32
    }
}

impl Element for u64 {
    fn of(bits: u64) -> u64 {
        bits
    }
}

#[derive(Clone)]
pub struct Guarded<T> {
    name: &'static str,
    elements: Vec<T>,
}

impl<T: Element> Guarded<T> {
    /// `length` elements and their guards; the pattern differs from element to element, table to table and `salt` to `salt`.
    fn new(name: &'static str, length: usize, salt: u64) -> Guarded<T> {
        let table = name.bytes().fold(salt, |bits, byte| mixed(bits ^ u64::from(byte)));
        let elements = (0..length + 2 * GUARD).map(|i| T::of(mixed(table ^ i as u64))).collect();
        Guarded { name, elements }
    }

    pub fn len(&self) -> usize {
        self.elements.len() - 2 * GUARD
    }

    pub fn is_empty(&self) -> bool {
        self.len() == 0
    }

    /// The part that is lent.
    pub fn part(&mut self) -> &mut [T] {
        let end = self.elements.len() - GUARD;
        &mut self.elements[GUARD..end]
    }

    /// The first place where `self`, as the library left it, is not `wanted`; a place outside the table is a guard's.
    fn difference(&self, wanted: &Guarded<T>) -> Option<String> {
        let at = self.elements.iter().zip(&wanted.elements).position(|(is, should)| is != should)?;
        let (is, should) = (self.elements[at], wanted.elements[at]);
        Some(format!("{}[{}] is {is} ({is:#x}) and should be {should} ({should:#x})", self.name, at as i64 - GUARD as i64))
    }
}

/// The lengths of what is lent.
#[derive(Clone, Copy, Debug, PartialEq, Eq)]
pub struct Lengths {
    pub smallest: usize,
    pub largest: usize,
    pub links: usize,
    pub contexts: usize,
    pub stem: usize,
    pub period: usize,
    pub row: usize,
}

impl Lengths {
    /// The shortest that S and P allow.
    pub fn least(stem_room: u64, period_room: u64) -> Lengths {
        let (s, p) = (stem_room as usize, period_room as usize);
        Lengths { smallest: s, largest: s, links: p, contexts: 2 * p, stem: s, period: p, row: 9 }
    }

    pub fn longer(mut self, mut by: impl FnMut() -> usize) -> Lengths {
        for length in self.all() {
            *length += by();
        }
        self
    }

    /// The seven lengths, in the order of the C parameters.
    pub fn all(&mut self) -> [&mut usize; 7] {
        [
            &mut self.smallest,
            &mut self.largest,
            &mut self.links,
            &mut self.contexts,
            &mut self.stem,
            &mut self.period,
            &mut self.row,
        ]
    }
}

/// The seven lent tables: U, W, links, contexts, the two outputs and the row of nine.
#[derive(Clone)]
pub struct Lent {
    pub smallest: Guarded<u32>,
    pub largest: Guarded<u32>,
    pub links: Guarded<u32>,
    pub contexts: Guarded<u64>,
    pub stem: Guarded<u8>,
    pub period: Guarded<u8>,
    pub row: Guarded<u64>,
}

impl Lent {
    pub fn new(lengths: Lengths, salt: u64) -> Lent {
        Lent {
            smallest: Guarded::new("U", lengths.smallest, salt),
            largest: Guarded::new("W", lengths.largest, salt),
            links: Guarded::new("links", lengths.links, salt),
            contexts: Guarded::new("contexts", lengths.contexts, salt),
            stem: Guarded::new("stem", lengths.stem, salt),
            period: Guarded::new("period", lengths.period, salt),
            row: Guarded::new("row", lengths.row, salt),
        }
    }

    /// The first difference of any table, the row first, since it says most.
    pub fn difference(&self, wanted: &Lent) -> Option<String> {
        None.or_else(|| self.row.difference(&wanted.row))
            .or_else(|| self.smallest.difference(&wanted.smallest))
            .or_else(|| self.largest.difference(&wanted.largest))
            .or_else(|| self.links.difference(&wanted.links))
            .or_else(|| self.contexts.difference(&wanted.contexts))
            .or_else(|| self.stem.difference(&wanted.stem))
            .or_else(|| self.period.difference(&wanted.period))
    }
}
