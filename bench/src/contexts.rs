//! Contexts of a rule as two numbers, bit 8q + q', and the states from which a period is accepted for ever.

use crate::rule::{Rule, Target};

#[derive(Clone, Copy, Debug, PartialEq, Eq)]
pub struct Context {
    pub reach: u64,
    pub through: u64,
}

/// One bit in each row.
const COLUMN: u64 = 0x0101_0101_0101_0101;
/// State q joined with itself.
const IDENTITY: u64 = 0x8040_2010_0804_0201;

/// The same set in every row.
#[inline]
fn every_row(set: Target) -> u64 {
    COLUMN * u64::from(set)
}

/// The rows of the states of a target, as a mask.
pub fn rows(target: Target) -> u64 {
    (0..8).filter(|q| target >> q & 1 == 1).fold(0, |mask, q| mask | 255 << (8 * q))
}

impl Context {
    pub fn empty(rule: &Rule) -> Context {
        Context { reach: IDENTITY, through: IDENTITY & every_row(rule.accepting) }
    }

    /// The word longer by a letter, of which `moved` says what it does to each set.
    #[inline]
    pub fn longer(self, moved: &[Target; 256], accepting: Target) -> Context {
        let reach = row_by_row(self.reach, moved);
        let through = row_by_row(self.through, moved);
        Context { reach, through: through | (reach & every_row(accepting)) }
    }

    /// The states from which this period, again and again, is accepted: those that lead by rounds to a round through
    /// acceptance from which rounds lead back.
    pub fn accepted_from(self) -> Target {
        let mut rounds = self.reach | IDENTITY;
        for k in 0..8 {
            let to_k = (rounds >> k & COLUMN) * 255;
            let from_k = (rounds >> (8 * k) & 255) * COLUMN;
            rounds |= to_k & from_k;
        }
        let closes = full_rows(self.through & transposed(rounds));
        full_rows(rounds & every_row(closes))
    }
}

#[inline]
fn row_by_row(pairs: u64, moved: &[Target; 256]) -> u64 {
    u64::from_le_bytes(pairs.to_le_bytes().map(|row| moved[row as usize]))
}

/// The set of rows that are not empty.
fn full_rows(pairs: u64) -> Target {
    pairs.to_le_bytes().iter().enumerate().fold(0, |set, (q, &row)| set | u8::from(row != 0) << q)
}

/// Rows and columns exchanged: blocks of four, of two, of one.
fn transposed(mut pairs: u64) -> u64 {
    for (shift, mask) in [(28, 0x0000_0000_f0f0_f0f0), (14, 0x0000_cccc_0000_cccc), (7, 0x00aa_00aa_00aa_00aa)] {
        let differ = (pairs ^ pairs >> shift) & mask;
        pairs ^= differ ^ differ << shift;
    }
    pairs
}
