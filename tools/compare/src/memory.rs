//! Board memory (section 1).

use crate::fault::{Cause, Fault};

pub trait Memory {
    fn peek(&self, address: u32) -> Result<u32, Fault>;
    fn poke(&mut self, address: u32, word: u32) -> Result<(), Fault>;
}

/// Bytes lent for writing, the highest byte of a word first.
pub struct Ram<'a>(pub &'a mut [u8]);

/// Bytes lent for reading.
pub struct Rom<'a>(pub &'a [u8]);

/// No memory at all.
pub struct Void;

/// Two memories: the first where the address matches, the second elsewhere.
pub struct Bank<A, B> {
    base: u32,
    mask: u32,
    protect: bool,
    first: A,
    second: B,
}

impl<A: Memory, B: Memory> Bank<A, B> {
    /// Bits 0 to 16, the ones that a bank compares.
    const COMPARED: u32 = 0xffff_8000;

    pub fn new(base: u32, mask: u32, protect: bool, first: A, second: B) -> Self {
        let mask = mask & Self::COMPARED;
        Bank { base: base & mask, mask, protect, first, second }
    }

    fn selects(&self, address: u32) -> bool {
        address & self.mask == self.base
    }
}

fn aligned(address: u32) -> Result<(), Fault> {
    if address.is_multiple_of(4) {
        Ok(())
    } else {
        Err(Cause::Misaligned.at(address))
    }
}

fn peek_bytes(bytes: &[u8], address: u32) -> Result<u32, Fault> {
    aligned(address)?;
    bytes
        .get(address as usize..)
        .and_then(|rest| rest.first_chunk::<4>())
        .map(|word| u32::from_be_bytes(*word))
        .ok_or(Cause::NoWord.at(address))
}

impl Memory for Ram<'_> {
    fn peek(&self, address: u32) -> Result<u32, Fault> {
        peek_bytes(self.0, address)
    }

    fn poke(&mut self, address: u32, word: u32) -> Result<(), Fault> {
        aligned(address)?;
        let place = self
            .0
            .get_mut(address as usize..)
            .and_then(|rest| rest.first_chunk_mut::<4>())
            .ok_or(Cause::NoWord.at(address))?;
        *place = word.to_be_bytes();
        Ok(())
    }
}

impl Memory for Rom<'_> {
    fn peek(&self, address: u32) -> Result<u32, Fault> {
        peek_bytes(self.0, address)
    }

    fn poke(&mut self, address: u32, _word: u32) -> Result<(), Fault> {
        self.peek(address)?;
        Err(Cause::NotStorable.at(address))
    }
}

impl Memory for Void {
    fn peek(&self, address: u32) -> Result<u32, Fault> {
        aligned(address)?;
        Err(Cause::NoWord.at(address))
    }

    fn poke(&mut self, address: u32, _word: u32) -> Result<(), Fault> {
        self.peek(address).map(drop)
    }
}

impl<A: Memory, B: Memory> Memory for Bank<A, B> {
    fn peek(&self, address: u32) -> Result<u32, Fault> {
        if self.selects(address) {
            let inside = address & !self.mask;
            self.first.peek(inside).map_err(|fault| fault.placed(address))
        } else {
            self.second.peek(address)
        }
    }

    fn poke(&mut self, address: u32, word: u32) -> Result<(), Fault> {
        if !self.selects(address) {
            return self.second.poke(address, word);
        }
        if self.protect {
            self.peek(address)?;
            return Err(Cause::NotStorable.at(address));
        }
        let inside = address & !self.mask;
        self.first.poke(inside, word).map_err(|fault| fault.placed(address))
    }
}

#[cfg(test)]
mod tests {
    use super::*;

    #[test]
    fn ram_keeps_whole_words_highest_byte_first() {
        let mut bytes = [0u8; 7];
        let mut ram = Ram(&mut bytes);
        assert_eq!(ram.poke(0, 0x0102_0304), Ok(()));
        assert_eq!(ram.peek(0), Ok(0x0102_0304));
        assert_eq!(ram.peek(4), Err(Cause::NoWord.at(4)));
        assert_eq!(ram.poke(2, 0), Err(Cause::Misaligned.at(2)));
        assert_eq!(bytes, [1, 2, 3, 4, 0, 0, 0]);
    }

    #[test]
    fn rom_and_void_refuse_in_order() {
        let mut rom = Rom(&[1, 2, 3, 4]);
        assert_eq!(rom.peek(0), Ok(0x0102_0304));
        assert_eq!(rom.poke(1, 0), Err(Cause::Misaligned.at(1)));
        assert_eq!(rom.poke(4, 0), Err(Cause::NoWord.at(4)));
        assert_eq!(rom.poke(0, 0), Err(Cause::NotStorable.at(0)));
        assert_eq!(Void.poke(8, 0), Err(Cause::NoWord.at(8)));
        assert_eq!(Void.peek(9), Err(Cause::Misaligned.at(9)));
    }

    #[test]
    fn bank_moves_addresses_and_tells_the_outer_place() {
        let (mut low, mut high) = ([0u8; 8], [0u8; 8]);
        let inner = Bank::new(0, 0x8000_0000, false, Ram(&mut low), Void);
        let mut bank = Bank::new(0x4000_7fff, 0x4000_0001, true, Ram(&mut high), inner);
        assert_eq!(bank.poke(4, 7), Ok(()));
        assert_eq!(bank.peek(4), Ok(7));
        assert_eq!(bank.peek(0x4000_0004), Ok(0));
        assert_eq!(bank.poke(0x4000_0004, 1), Err(Cause::NotStorable.at(0x4000_0004)));
        assert_eq!(bank.poke(0x4000_0008, 1), Err(Cause::NoWord.at(0x4000_0008)));
        assert_eq!(bank.peek(0x8000_0000), Err(Cause::NoWord.at(0x8000_0000)));
    }
}
