//! Pages, entries, the 32 slots of a kind and their search (section 3).

use crate::registers::{KindRegisters, EPN_LIVE, SPACE};
use crate::{bit, Kind};

pub const SLOTS: usize = 32;
/// Slots from here on are spared by a drop-all under the reserve bit.
const RESERVED_FROM: usize = 28;

/// The size of a page; the discriminant is the number of its offset bits.
#[derive(Clone, Copy, Debug, PartialEq, Eq)]
#[repr(u8)]
pub enum PageSize {
    Kb4 = 12,
    Kb16 = 14,
    Kb512 = 19,
    Mb8 = 23,
}

#[derive(Clone, Copy, Debug, PartialEq, Eq)]
pub struct Page {
    pub first: u32,
    pub base: u32,
    pub size: PageSize,
    pub group: u8,
    pub rights: u8,
    pub guarded: bool,
    pub shared: bool,
    pub inhibit: bool,
    pub valid: bool,
    pub write_through: bool,
    pub changed: bool,
}

#[derive(Clone, Copy, Debug, PartialEq, Eq)]
pub struct Entry {
    pub live: bool,
    pub space: u32,
    pub page: Page,
}

/// The slots of one kind.
///
/// A slot's tag is the EPN of its load, and its mask has the bits in which an asked EPN must agree with
/// the tag: the page's number, the live bit and, unless the page is shared, the space. So a match is one
/// comparison, and a search is one pass over two small arrays.
#[derive(Clone, Debug)]
pub struct Tlb {
    tags: [u32; SLOTS],
    masks: [u32; SLOTS],
    pages: [Page; SLOTS],
}

impl PageSize {
    fn of(twc: u32, rpn: u32) -> PageSize {
        match twc >> 2 & 3 {
            0b01 => PageSize::Kb512,
            0b11 => PageSize::Mb8,
            _ if rpn & bit(28) != 0 => PageSize::Kb16,
            _ => PageSize::Kb4,
        }
    }

    #[inline]
    pub fn bytes(self) -> u32 {
        1 << self as u8
    }

    #[inline]
    pub fn offset_mask(self) -> u32 {
        self.bytes() - 1
    }
}

impl Page {
    pub fn new(kind: Kind, epn: u32, twc: u32, rpn: u32) -> Page {
        let size = PageSize::of(twc, rpn);
        let data = kind == Kind::Data;
        Page {
            first: epn & !size.offset_mask(),
            base: rpn & !size.offset_mask(),
            size,
            group: (twc >> 5 & 0xf) as u8,
            rights: (rpn >> 9 & 7) as u8,
            guarded: twc & bit(27) != 0,
            shared: rpn & bit(29) != 0,
            inhibit: rpn & bit(30) != 0,
            valid: twc & rpn & bit(31) != 0,
            write_through: data && twc & bit(30) != 0,
            changed: data && rpn & bit(23) != 0,
        }
    }

    pub fn contains(&self, address: u32) -> bool {
        address & !self.size.offset_mask() == self.first
    }

    /// The physical address of an address in the page.
    #[inline]
    pub fn physical(&self, address: u32) -> u32 {
        self.base | address & self.size.offset_mask()
    }

    fn match_mask(&self) -> u32 {
        let space = if self.shared { 0 } else { SPACE };
        !self.size.offset_mask() | EPN_LIVE | space
    }
}

impl Tlb {
    /// Every slot holds the entry that a load from three zero words makes.
    pub fn new(kind: Kind) -> Tlb {
        let page = Page::new(kind, 0, 0, 0);
        Tlb { tags: [0; SLOTS], masks: [page.match_mask(); SLOTS], pages: [page; SLOTS] }
    }

    /// Fills the slot at the kind's index from the kind's registers, and gives the slot.
    pub fn load(&mut self, kind: Kind, registers: &KindRegisters) -> usize {
        let slot = registers.index();
        let page = Page::new(kind, registers.epn, registers.twc, registers.rpn);
        self.tags[slot] = registers.epn;
        self.masks[slot] = page.match_mask();
        self.pages[slot] = page;
        slot
    }

    /// The lowest slot whose entry matches a key of page number, live bit and current space.
    #[inline]
    pub fn find(&self, key: u32) -> Option<usize> {
        let mut hits = 0u32;
        for slot in 0..SLOTS {
            let hit = (key ^ self.tags[slot]) & self.masks[slot] == 0;
            hits |= u32::from(hit) << slot;
        }
        (hits != 0).then(|| hits.trailing_zeros() as usize)
    }

    #[inline]
    pub fn page(&self, slot: usize) -> &Page {
        &self.pages[slot]
    }

    pub fn entry(&self, slot: usize) -> Entry {
        let tag = self.tags[slot];
        Entry { live: tag & EPN_LIVE != 0, space: tag & SPACE, page: self.pages[slot] }
    }

    /// Ends every entry whose page contains the address.
    pub fn drop_page(&mut self, address: u32) {
        for (tag, page) in self.tags.iter_mut().zip(&self.pages) {
            if page.contains(address) {
                *tag &= !EPN_LIVE;
            }
        }
    }

    /// Ends every entry, but for the reserved slots if they are spared.
    pub fn drop_all(&mut self, spare: bool) {
        let end = if spare { RESERVED_FROM } else { SLOTS };
        for tag in &mut self.tags[..end] {
            *tag &= !EPN_LIVE;
        }
    }
}

#[cfg(test)]
mod tests {
    use super::*;

    #[test]
    fn figures_of_physical_addresses() {
        let page = Page::new(Kind::Data, 0, 1, 0x0000_71f9);
        assert_eq!((page.size, page.physical(0x2345)), (PageSize::Kb16, 0x0000_6345));
        let page = Page::new(Kind::Data, 0, 5, 0x1238_01f1);
        assert_eq!((page.size, page.physical(0x0007_ffff)), (PageSize::Kb512, 0x123f_ffff));
        assert!(page.contains(0x0007_ffff) && !page.contains(0x0008_0000));
        let page = Page::new(Kind::Data, 0, 13, 0x12ff_f1f1);
        assert_eq!((page.size, page.physical(0x007f_ffff)), (PageSize::Mb8, 0x12ff_ffff));
    }

    #[test]
    fn the_lowest_match_is_found() {
        let mut tlb = Tlb::new(Kind::Data);
        let mut registers =
            KindRegisters { epn: 0x1203, twc: 1, rpn: 0x51f1, control: 0x700, ..KindRegisters::default() };
        tlb.load(Kind::Data, &registers);
        registers.control = 0x500;
        registers.rpn |= 4;
        tlb.load(Kind::Data, &registers);
        assert_eq!(tlb.find(0x1203), Some(5));
        assert_eq!(tlb.find(0x1204), Some(5));
        assert_eq!(tlb.find(0x2203), None);
        tlb.drop_page(0x1fff);
        assert_eq!(tlb.find(0x1203), None);
        assert!(!tlb.entry(5).live && tlb.entry(5).space == 3);
    }
}
