//! A second, independent implementation of the rules in `docs/RULES.md`.
//!
//! One concept a file; the numbers of sections in the comments are those of the rules.

#![forbid(unsafe_code)]

pub mod fault;
pub mod memory;
pub mod random;
pub mod registers;
pub mod rights;
pub mod run;
pub mod script;
pub mod tlb;
pub mod unit;
pub mod walk;

/// The two kinds of everything: translations, registers, slots.
#[derive(Clone, Copy, Debug, PartialEq, Eq)]
pub enum Kind {
    Instruction = 0,
    Data = 1,
}

impl Kind {
    pub const BOTH: [Kind; 2] = [Kind::Instruction, Kind::Data];
}

/// The mask of bit `n`, counted from the most significant, as the rules count.
pub(crate) const fn bit(n: u32) -> u32 {
    0x8000_0000 >> n
}

/// Bits 0 to 19 of an address or a word.
pub(crate) const PAGE_NUMBER: u32 = 0xffff_f000;
