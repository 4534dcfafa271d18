//! Registers (section 2): numbers, kept bits, refused writes, composed reads.

use crate::fault::{Cause, Fault};
use crate::{bit, Kind, PAGE_NUMBER};

/// EPN bit 22: the entry that a load makes is live.
pub const EPN_LIVE: u32 = bit(22);
/// EPN bits 28 to 31, and all of M_CASID.
pub const SPACE: u32 = 0xf;

const GROUP_MODE: u32 = bit(0);
const DEFAULT_INHIBIT: u32 = bit(2);
const DEFAULT_WRITE_THROUGH: u32 = bit(3);
const RESERVE: u32 = bit(4);
const DATA_CONTROL_SET: u32 = bit(5);
const CONTROL_CLEAR: u32 = bit(1) | bit(6);
const INDEX: u32 = 0x1f00;
const INDEX_SHIFT: u32 = 8;

#[derive(Clone, Copy, Debug, PartialEq, Eq)]
pub enum Register {
    Control(Kind),
    Protection(Kind),
    Epn(Kind),
    Twc(Kind),
    Rpn(Kind),
    Space,
    TableBase,
    Scratch,
}

/// The registers that each kind has of its own.
#[derive(Clone, Debug, Default)]
pub struct KindRegisters {
    pub control: u32,
    pub protection: u32,
    pub epn: u32,
    pub twc: u32,
    pub rpn: u32,
}

#[derive(Clone, Debug)]
pub struct Registers {
    kinds: [KindRegisters; 2],
    space: u32,
    table_base: u32,
    scratch: u32,
}

/// TWC bits 28 and 29 are 10, which is no size.
pub fn bad_size(word: u32) -> bool {
    word & 0xc == 0x8
}

/// RPN bits 24 to 27 are not all one.
pub fn bad_mark(word: u32) -> bool {
    word & 0xf0 != 0xf0
}

impl Register {
    pub fn from_number(number: u32) -> Result<Register, Fault> {
        use Kind::{Data, Instruction};
        Ok(match number {
            784 => Register::Control(Instruction),
            786 => Register::Protection(Instruction),
            787 => Register::Epn(Instruction),
            789 => Register::Twc(Instruction),
            790 => Register::Rpn(Instruction),
            792 => Register::Control(Data),
            793 => Register::Space,
            794 => Register::Protection(Data),
            795 => Register::Epn(Data),
            796 => Register::TableBase,
            797 => Register::Twc(Data),
            798 => Register::Rpn(Data),
            799 => Register::Scratch,
            _ => return Err(Cause::NoRegister.at(number)),
        })
    }

    fn kept(self) -> u32 {
        match self {
            Register::Control(Kind::Instruction) => 0xa800_1f00,
            Register::Control(Kind::Data) => 0xbc00_1f00,
            Register::Epn(_) => 0xffff_f20f,
            Register::Twc(Kind::Instruction) => 0x0000_01fd,
            Register::Twc(Kind::Data) => 0xffff_f1ff,
            Register::Space => SPACE,
            Register::TableBase => PAGE_NUMBER,
            Register::Protection(_) | Register::Rpn(_) | Register::Scratch => u32::MAX,
        }
    }

    /// Why a write of `word` is refused, if it is.
    pub fn refusal(self, word: u32) -> Option<Cause> {
        match self {
            Register::Control(_) if word & CONTROL_CLEAR != 0 => Some(Cause::ControlBits),
            Register::Control(Kind::Data) if word & DATA_CONTROL_SET == 0 => Some(Cause::ControlBits),
            Register::Twc(_) if bad_size(word) => Some(Cause::SizeBits),
            Register::Rpn(_) if bad_mark(word) => Some(Cause::MarkBits),
            _ => None,
        }
    }
}

impl Default for Registers {
    fn default() -> Self {
        let data = KindRegisters { control: DATA_CONTROL_SET, ..KindRegisters::default() };
        Registers { kinds: [KindRegisters::default(), data], space: 0, table_base: 0, scratch: 0 }
    }
}

impl Registers {
    pub fn of(&self, kind: Kind) -> &KindRegisters {
        &self.kinds[kind as usize]
    }

    pub fn of_mut(&mut self, kind: Kind) -> &mut KindRegisters {
        &mut self.kinds[kind as usize]
    }

    pub fn space(&self) -> u32 {
        self.space
    }

    pub fn table_base(&self) -> u32 {
        self.table_base
    }

    pub fn read(&self, register: Register) -> u32 {
        let data = self.of(Kind::Data);
        match register {
            Register::Control(kind) => self.of(kind).control,
            Register::Protection(kind) => self.of(kind).protection,
            Register::Epn(kind) => self.of(kind).epn,
            Register::Twc(Kind::Instruction) => self.of(Kind::Instruction).twc,
            Register::Twc(Kind::Data) => data.twc & PAGE_NUMBER | second_offset(data.epn),
            Register::Rpn(kind) => self.of(kind).rpn,
            Register::Space => self.space,
            Register::TableBase => self.table_base | first_offset(data.epn),
            Register::Scratch => self.scratch,
        }
    }

    /// Keeps the kept bits of `word`; no test.
    pub fn set(&mut self, register: Register, word: u32) {
        let word = word & register.kept();
        *match register {
            Register::Control(kind) => &mut self.of_mut(kind).control,
            Register::Protection(kind) => &mut self.of_mut(kind).protection,
            Register::Epn(kind) => &mut self.of_mut(kind).epn,
            Register::Twc(kind) => &mut self.of_mut(kind).twc,
            Register::Rpn(kind) => &mut self.of_mut(kind).rpn,
            Register::Space => &mut self.space,
            Register::TableBase => &mut self.table_base,
            Register::Scratch => &mut self.scratch,
        } = word;
    }

    /// The EPN that a miss at `address` sets, which is also what a match is asked with.
    #[inline]
    pub fn key(&self, address: u32) -> u32 {
        address & PAGE_NUMBER | EPN_LIVE | self.space
    }
}

impl KindRegisters {
    pub fn group_mode(&self) -> bool {
        self.control & GROUP_MODE != 0
    }

    pub fn default_inhibit(&self) -> bool {
        self.control & DEFAULT_INHIBIT != 0
    }

    /// Never set in MI_CTR, which does not keep the bit.
    pub fn default_write_through(&self) -> bool {
        self.control & DEFAULT_WRITE_THROUGH != 0
    }

    pub fn reserve(&self) -> bool {
        self.control & RESERVE != 0
    }

    pub fn index(&self) -> usize {
        ((self.control & INDEX) >> INDEX_SHIFT) as usize
    }

    /// The index counts down, around all slots or around those not reserved.
    pub fn count_down(&mut self) {
        let index = (self.control & INDEX) >> INDEX_SHIFT;
        let next = if self.reserve() { (index + 27) % 28 } else { (index + 31) % 32 };
        self.control = self.control & !INDEX | next << INDEX_SHIFT;
    }
}

/// Four times bits 0 to 9: the place of an address in the first table.
pub fn first_offset(address: u32) -> u32 {
    address >> 20 & 0xffc
}

/// Four times bits 10 to 19: the place of an address in a second table.
pub fn second_offset(address: u32) -> u32 {
    address >> 10 & 0xffc
}

#[cfg(test)]
mod tests {
    use super::*;

    #[test]
    fn the_index_counts_down() {
        let after = |control| {
            let mut registers = KindRegisters { control, ..KindRegisters::default() };
            registers.count_down();
            registers.index()
        };
        assert_eq!(after(0), 31);
        let reserved = |index: u32| after(RESERVE | index << INDEX_SHIFT);
        assert_eq!([0, 28, 29, 31].map(reserved), [27, 27, 0, 2]);
    }

    #[test]
    fn an_rpn_without_marks_is_refused() {
        assert_eq!(Register::Rpn(Kind::Data).refusal(0x0000_51e1), Some(Cause::MarkBits));
    }

    #[test]
    fn composed_reads() {
        let mut registers = Registers::default();
        registers.set(Register::Epn(Kind::Data), 0xffff_ffff);
        registers.set(Register::TableBase, 0x1fff);
        registers.set(Register::Twc(Kind::Data), 0x2fff);
        assert_eq!(registers.read(Register::Epn(Kind::Data)), 0xffff_f20f);
        assert_eq!(registers.read(Register::TableBase), 0x1ffc);
        assert_eq!(registers.read(Register::Twc(Kind::Data)), 0x2ffc);
    }
}
