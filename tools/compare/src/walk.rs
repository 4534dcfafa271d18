//! The tablewalk (section 4).

use crate::bit;
use crate::fault::{Cause, Fault, Level};
use crate::memory::Memory;
use crate::registers::{bad_mark, bad_size, first_offset, second_offset};
use crate::tlb::Page;
use crate::{Kind, PAGE_NUMBER};

const VALID: u32 = bit(31);

/// The first word for an address, from the table at `base`.
pub fn first(memory: &impl Memory, base: u32, address: u32) -> Result<u32, Fault> {
    let place = base & PAGE_NUMBER | first_offset(address);
    fetch(memory, place, Level::First, |word| match word {
        _ if word & VALID == 0 => Some(Cause::FirstInvalid),
        _ if bad_size(word) => Some(Cause::FirstSize),
        _ => None,
    })
}

/// The second word for an address, from the table that the first word names.
pub fn second(memory: &impl Memory, first: u32, address: u32) -> Result<u32, Fault> {
    let place = first & PAGE_NUMBER | second_offset(address);
    fetch(memory, place, Level::Second, |word| match word {
        _ if word & VALID == 0 => Some(Cause::SecondInvalid),
        _ if bad_mark(word) => Some(Cause::SecondMark),
        _ => None,
    })
}

/// The page of a kind that the tables give for an address, or the fault at which the walk stops.
pub fn reading(memory: &impl Memory, base: u32, kind: Kind, address: u32) -> Result<Page, Fault> {
    let twc = first(memory, base, address)?;
    let rpn = second(memory, twc, address)?;
    Ok(Page::new(kind, address, twc, rpn))
}

fn fetch(
    memory: &impl Memory,
    place: u32,
    level: Level,
    refusal: impl Fn(u32) -> Option<Cause>,
) -> Result<u32, Fault> {
    let word = memory.peek(place).map_err(|fault| fault.during(level))?;
    match refusal(word) {
        Some(cause) => Err(cause.at(place).during(level)),
        None => Ok(word),
    }
}

#[cfg(test)]
mod tests {
    use super::*;
    use crate::memory::{Ram, Void};

    #[test]
    fn the_first_word_is_at_the_base_and_four_times_the_number() {
        let fault = first(&Void, 0x1000, 0x00c0_3000).unwrap_err();
        assert_eq!((fault.place, fault.level), (0x0000_100c, Level::First));
    }

    #[test]
    fn size_bits_10_are_refused() {
        let mut bytes = [0u8; 0x3000];
        let mut ram = Ram(&mut bytes);
        ram.poke(0x1000, 0x0000_2009).unwrap();
        let fault = reading(&ram, 0x1000, Kind::Data, 0).unwrap_err();
        assert_eq!(fault, Cause::FirstSize.at(0x1000).during(Level::First));
        ram.poke(0x1000, 0x0000_2005).unwrap();
        ram.poke(0x2004, 0x1238_01f1).unwrap();
        let page = reading(&ram, 0x1000, Kind::Data, 0x1234).unwrap();
        assert_eq!((page.first, page.base), (0, 0x1238_0000));
    }
}
