//! The translation unit: every call of sections 2 to 7.

use crate::fault::{Cause, Fault};
use crate::memory::Memory;
use crate::registers::{Register, Registers};
use crate::rights::{allowed, group_verdict, Access, GroupVerdict, Privilege};
use crate::tlb::{Entry, Page, Tlb, SLOTS};
use crate::{walk, Kind};

#[derive(Clone, Copy, Debug, PartialEq, Eq)]
pub struct Mode {
    pub privilege: Privilege,
    pub instruction: bool,
    pub data: bool,
}

/// A granted access. The size is 0 where translation is off.
#[derive(Clone, Copy, Debug, PartialEq, Eq)]
pub struct Grant {
    pub address: u32,
    pub size: u32,
    pub inhibit: bool,
    pub write_through: bool,
    pub guarded: bool,
}

#[derive(Clone, Copy, Debug, PartialEq, Eq)]
pub enum Outcome {
    Granted(Grant),
    Miss,
}

#[derive(Clone, Debug)]
pub struct Unit {
    registers: Registers,
    tlbs: [Tlb; 2],
    privilege: Privilege,
    translates: [bool; 2],
    loads: u32,
}

impl Default for Unit {
    fn default() -> Self {
        Unit {
            registers: Registers::default(),
            tlbs: Kind::BOTH.map(Tlb::new),
            privilege: Privilege::Privileged,
            translates: [false; 2],
            loads: 0,
        }
    }
}

impl Unit {
    pub fn new() -> Unit {
        Unit::default()
    }

    pub fn read(&self, number: u32) -> Result<u32, Fault> {
        Ok(self.registers.read(Register::from_number(number)?))
    }

    pub fn write(&mut self, number: u32, word: u32) -> Result<(), Fault> {
        let register = Register::from_number(number)?;
        if let Some(cause) = register.refusal(word) {
            return Err(cause.at(number));
        }
        match register {
            Register::Rpn(kind) => drop(self.load(kind, word)),
            _ => self.registers.set(register, word),
        }
        Ok(())
    }

    pub fn set_mode(&mut self, mode: Mode) {
        self.privilege = mode.privilege;
        self.translates = [mode.instruction, mode.data];
    }

    /// An access of kind 0 fetch, 1 load or 2 store.
    pub fn access(&mut self, kind: u32, address: u32) -> Result<Outcome, Fault> {
        let access = Access::from_number(kind)?;
        Ok(match self.attempt(access, address)? {
            Some(grant) => Outcome::Granted(grant),
            None => {
                self.note_miss(access.kind(), address);
                Outcome::Miss
            }
        })
    }

    /// An access that walks the tables where it would miss.
    pub fn resolve(&mut self, memory: &impl Memory, kind: u32, address: u32) -> Result<Grant, Fault> {
        let access = Access::from_number(kind)?;
        if let Some(grant) = self.attempt(access, address)? {
            return Ok(grant);
        }
        let slot = self.refill(memory, access.kind(), address)?;
        // No slot matched before the load, so the loaded one is the slot that is found.
        let page = self.tlbs[access.kind() as usize].page(slot);
        self.judge(access, page, address)
    }

    pub fn drop_page(&mut self, address: u32) {
        for tlb in &mut self.tlbs {
            tlb.drop_page(address);
        }
    }

    pub fn drop_all(&mut self) {
        for kind in Kind::BOTH {
            let spare = self.registers.of(kind).reserve();
            self.tlbs[kind as usize].drop_all(spare);
        }
    }

    /// The entry in a slot of kind 0 instruction or 1 data. The index that the rules point at the slot
    /// while it is read is put back in any case, so it need not be touched.
    pub fn look(&self, kind: u32, slot: u32) -> Result<Entry, Fault> {
        let tlb = match kind {
            0 => &self.tlbs[Kind::Instruction as usize],
            1 => &self.tlbs[Kind::Data as usize],
            _ => return Err(Cause::NoSuchKind.at(kind)),
        };
        match slot as usize {
            index if index < SLOTS => Ok(tlb.entry(index)),
            _ => Err(Cause::NoSlot.at(slot)),
        }
    }

    /// The number of all loads so far.
    pub fn tally(&self) -> u32 {
        self.loads
    }

    /// An access without its effect: a grant, or nothing for a miss.
    #[inline]
    fn attempt(&self, access: Access, address: u32) -> Result<Option<Grant>, Fault> {
        let kind = access.kind();
        if !self.translates[kind as usize] {
            return Ok(Some(self.untranslated(kind, address)));
        }
        let tlb = &self.tlbs[kind as usize];
        match tlb.find(self.registers.key(address)) {
            Some(slot) => self.judge(access, tlb.page(slot), address).map(Some),
            None => Ok(None),
        }
    }

    fn untranslated(&self, kind: Kind, address: u32) -> Grant {
        let registers = self.registers.of(kind);
        Grant {
            address,
            size: 0,
            inhibit: registers.default_inhibit(),
            write_through: registers.default_write_through(),
            guarded: false,
        }
    }

    /// What an access answers on a match with a page.
    #[inline]
    fn judge(&self, access: Access, page: &Page, address: u32) -> Result<Grant, Fault> {
        if !page.valid {
            return Err(Cause::InvalidPage.at(address));
        }
        let registers = self.registers.of(access.kind());
        match group_verdict(registers.group_mode(), registers.protection, page.group, self.privilege) {
            GroupVerdict::Refused => return Err(Cause::Group.at(address)),
            GroupVerdict::TestAs(privilege) if !allowed(page.rights, privilege, access) => {
                return Err(Cause::Rights.at(address));
            }
            GroupVerdict::TestAs(_) | GroupVerdict::NoTest => {}
        }
        if access == Access::Store && !page.changed {
            return Err(Cause::Unchanged.at(address));
        }
        Ok(Grant {
            address: page.physical(address),
            size: page.size.bytes(),
            inhibit: page.inhibit,
            write_through: page.write_through,
            guarded: page.guarded,
        })
    }

    fn note_miss(&mut self, kind: Kind, address: u32) {
        let epn = self.registers.key(address);
        self.registers.set(Register::Epn(kind), epn);
    }

    /// The walk of a resolve: keeps the registers as far as it comes, and gives the slot that it loads.
    fn refill(&mut self, memory: &impl Memory, kind: Kind, address: u32) -> Result<usize, Fault> {
        self.note_miss(kind, address);
        self.note_miss(Kind::Data, address);
        let first = walk::first(memory, self.registers.table_base(), address)?;
        self.registers.set(Register::Twc(Kind::Data), first);
        self.registers.set(Register::Twc(kind), first);
        let second = walk::second(memory, first, address)?;
        Ok(self.load(kind, second))
    }

    /// An accepted write of an RPN; gives the slot that it fills.
    fn load(&mut self, kind: Kind, rpn: u32) -> usize {
        self.registers.set(Register::Rpn(kind), rpn);
        let registers = self.registers.of_mut(kind);
        let slot = self.tlbs[kind as usize].load(kind, registers);
        registers.count_down();
        self.loads = self.loads.saturating_add(1);
        slot
    }
}

#[cfg(test)]
mod tests {
    use super::*;
    use crate::memory::Void;

    #[test]
    fn a_look_shows_what_a_load_made() {
        let mut unit = Unit::new();
        unit.write(795, 0x0000_1203).unwrap();
        unit.write(797, 0x0000_0023).unwrap();
        unit.write(798, 0x0000_51f1).unwrap();
        assert_eq!((unit.tally(), unit.read(792)), (1, Ok(0x0400_1f00)));
        let entry = unit.look(1, 0).unwrap();
        assert!(entry.live && entry.space == 3 && entry.page.write_through && entry.page.group == 1);
        assert!(!unit.look(0, 0).unwrap().live);
        assert_eq!(unit.look(2, 32), Err(Cause::NoSuchKind.at(2)));
        assert_eq!(unit.look(1, 32), Err(Cause::NoSlot.at(32)));
    }

    #[test]
    fn a_refused_resolve_keeps_what_it_had_set() {
        let mut unit = Unit::new();
        unit.set_mode(Mode { privilege: Privilege::Privileged, instruction: true, data: false });
        unit.write(793, 5).unwrap();
        assert!(unit.resolve(&Void, 0, 0x1234_5678).is_err());
        assert_eq!((unit.read(787), unit.read(795)), (Ok(0x1234_5205), Ok(0x1234_5205)));
    }
}
