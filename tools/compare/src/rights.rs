//! Kinds of access, privileges, group codes and the 48 rights (section 5).

use crate::fault::{Cause, Fault};
use crate::Kind;

#[derive(Clone, Copy, Debug, PartialEq, Eq)]
pub enum Access {
    Fetch = 0,
    Load = 1,
    Store = 2,
}

#[derive(Clone, Copy, Debug, PartialEq, Eq)]
pub enum Privilege {
    Privileged = 0,
    Problem = 1,
}

/// What a group says about an access, before the rights of the page are asked.
#[derive(Clone, Copy, Debug, PartialEq, Eq)]
pub enum GroupVerdict {
    Refused,
    TestAs(Privilege),
    NoTest,
}

impl Access {
    pub fn from_number(number: u32) -> Result<Access, Fault> {
        match number {
            0 => Ok(Access::Fetch),
            1 => Ok(Access::Load),
            2 => Ok(Access::Store),
            _ => Err(Cause::NoSuchKind.at(number)),
        }
    }

    pub fn kind(self) -> Kind {
        match self {
            Access::Fetch => Kind::Instruction,
            Access::Load | Access::Store => Kind::Data,
        }
    }
}

impl Privilege {
    fn exchanged(self) -> Privilege {
        match self {
            Privilege::Privileged => Privilege::Problem,
            Privilege::Problem => Privilege::Privileged,
        }
    }
}

/// The verdict of group `group` under the AP word `protection`.
#[inline]
pub fn group_verdict(mode: bool, protection: u32, group: u8, privilege: Privilege) -> GroupVerdict {
    let code = protection >> (30 - 2 * u32::from(group)) & 3;
    match (mode, code) {
        (_, 0b01) => GroupVerdict::TestAs(privilege),
        (false, 0b00) => GroupVerdict::TestAs(Privilege::Privileged),
        (false, 0b10) => GroupVerdict::TestAs(privilege.exchanged()),
        (false, _) => GroupVerdict::TestAs(Privilege::Problem),
        (true, 0b11) => GroupVerdict::NoTest,
        (true, _) => GroupVerdict::Refused,
    }
}

const F: u8 = 1 << Access::Fetch as u8;
const L: u8 = 1 << Access::Load as u8;
const S: u8 = 1 << Access::Store as u8;

/// By RPN bits 20 to 22 as one number, then by privilege: the accesses that are allowed.
const RIGHTS: [[u8; 2]; 8] = [
    [L | S | F, 0],
    [0, 0],
    [L | S | F, L | F],
    [L | F, 0],
    [L | S | F, L | S | F],
    [0, 0],
    [L | F, L | F],
    [0, 0],
];

#[inline]
pub fn allowed(rights: u8, privilege: Privilege, access: Access) -> bool {
    RIGHTS[usize::from(rights & 7)][privilege as usize] >> access as u8 & 1 != 0
}

#[cfg(test)]
mod tests {
    use super::*;

    #[test]
    fn code_10_exchanges_the_privileges() {
        let load = |privilege| match group_verdict(false, 0x8000_0000, 0, privilege) {
            GroupVerdict::TestAs(tested) => allowed(0, tested, Access::Load),
            _ => panic!("a test of rights"),
        };
        assert!(load(Privilege::Problem));
        assert!(!load(Privilege::Privileged));
    }

    #[test]
    fn the_third_bit_leaves_two_rights() {
        let all = [Access::Fetch, Access::Load, Access::Store];
        let privileges = [Privilege::Privileged, Privilege::Problem];
        let count = [1, 3, 5, 7]
            .iter()
            .flat_map(|&rights| privileges.map(|p| all.map(|a| allowed(rights, p, a))))
            .flatten()
            .filter(|&granted| granted)
            .count();
        assert_eq!(count, 2);
    }
}
