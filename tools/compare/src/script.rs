//! The script language (section 11): reading lines, printing answers.

use std::fmt;

use crate::fault::Fault;
use crate::rights::Privilege;
use crate::unit::{Grant, Mode, Outcome};

/// The longest script, in bytes.
pub const LONGEST: usize = 65_536;

#[derive(Clone, Copy, Debug, PartialEq, Eq)]
pub enum Call {
    Poke { address: u32, word: u32 },
    Peek { address: u32 },
    Write { number: u32, word: u32 },
    Read { number: u32 },
    Mode(Mode),
    Access { kind: u32, address: u32 },
    Resolve { kind: u32, address: u32 },
    Drop { address: u32 },
    DropAll,
    Tally,
}

#[derive(Clone, Copy, Debug, PartialEq, Eq)]
pub enum Answer {
    Ok,
    Value(u32),
    Grant(Grant),
    Miss,
    No(Fault),
}

/// Reads one line; nothing if it does not read.
pub fn read_line(line: &[u8]) -> Option<Call> {
    let body = line.strip_prefix(b"(")?.strip_suffix(b")")?;
    let mut words = Words { rest: body };
    let call = match words.token() {
        b"poke" => Call::Poke { address: words.number()?, word: words.word()? },
        b"peek" => Call::Peek { address: words.number()? },
        b"write" => Call::Write { number: words.number()?, word: words.word()? },
        b"read" => Call::Read { number: words.number()? },
        b"mode" => Call::Mode(words.mode()?),
        b"access" => Call::Access { kind: words.number()?, address: words.number()? },
        b"resolve" => Call::Resolve { kind: words.number()?, address: words.number()? },
        b"drop" => Call::Drop { address: words.number()? },
        b"dropall" => Call::DropAll,
        b"tally" => Call::Tally,
        _ => return None,
    };
    words.rest.is_empty().then_some(call)
}

/// What is left of a form's inside. Every word but the first has one space before it.
struct Words<'a> {
    rest: &'a [u8],
}

impl<'a> Words<'a> {
    /// The bytes up to the next space or bracket, which may be none.
    fn token(&mut self) -> &'a [u8] {
        let ends = |byte: &u8| matches!(byte, b' ' | b'(' | b')');
        let length = self.rest.iter().position(ends).unwrap_or(self.rest.len());
        let (token, rest) = self.rest.split_at(length);
        self.rest = rest;
        token
    }

    fn expect(&mut self, text: &[u8]) -> Option<()> {
        self.rest = self.rest.strip_prefix(text)?;
        Some(())
    }

    fn number(&mut self) -> Option<u32> {
        self.expect(b" ")?;
        number(self.token())
    }

    fn at_most(&mut self, most: u32) -> Option<u32> {
        self.number().filter(|&value| value <= most)
    }

    fn flag(&mut self) -> Option<bool> {
        self.at_most(1).map(|value| value == 1)
    }

    fn mode(&mut self) -> Option<Mode> {
        let problem = self.flag()?;
        let privilege = if problem { Privilege::Problem } else { Privilege::Privileged };
        Some(Mode { privilege, instruction: self.flag()?, data: self.flag()? })
    }

    /// A number or a descriptor.
    fn word(&mut self) -> Option<u32> {
        if !self.rest.starts_with(b" (") {
            return self.number();
        }
        self.expect(b" (")?;
        let word = match self.token() {
            b"seg" => self.base()? + 32 * self.at_most(15)? + 4 * self.at_most(3)? + 1,
            b"page" => self.base()? + self.at_most(4095)?,
            _ => return None,
        };
        self.expect(b")")?;
        Some(word)
    }

    fn base(&mut self) -> Option<u32> {
        self.number().filter(|value| value.is_multiple_of(4096))
    }
}

fn number(token: &[u8]) -> Option<u32> {
    let (digits, radix) = match token.strip_prefix(b"0x") {
        Some(digits) => (digits, 16),
        None => (token, 10),
    };
    if digits.is_empty() {
        return None;
    }
    digits.iter().try_fold(0u32, |value, &byte| {
        let digit = digit(byte).filter(|&digit| digit < radix)?;
        value.checked_mul(radix)?.checked_add(digit)
    })
}

fn digit(byte: u8) -> Option<u32> {
    match byte {
        b'0'..=b'9' => Some(u32::from(byte - b'0')),
        b'a'..=b'f' => Some(u32::from(byte - b'a') + 10),
        _ => None,
    }
}

impl From<Outcome> for Answer {
    fn from(outcome: Outcome) -> Answer {
        match outcome {
            Outcome::Granted(grant) => Answer::Grant(grant),
            Outcome::Miss => Answer::Miss,
        }
    }
}

impl From<Grant> for Answer {
    fn from(grant: Grant) -> Answer {
        Answer::Grant(grant)
    }
}

impl From<u32> for Answer {
    fn from(value: u32) -> Answer {
        Answer::Value(value)
    }
}

impl From<()> for Answer {
    /// Of an accepted call with nothing to tell.
    fn from((): ()) -> Answer {
        Answer::Ok
    }
}

impl<T: Into<Answer>> From<Result<T, Fault>> for Answer {
    fn from(result: Result<T, Fault>) -> Answer {
        result.map_or_else(Answer::No, Into::into)
    }
}

impl fmt::Display for Answer {
    fn fmt(&self, f: &mut fmt::Formatter<'_>) -> fmt::Result {
        match self {
            Answer::Ok => f.write_str("(ok)"),
            Answer::Value(value) => write!(f, "(value 0x{value:08x})"),
            Answer::Grant(grant) => write!(
                f,
                "(grant 0x{:08x} {} {} {} {})",
                grant.address,
                grant.size,
                u8::from(grant.inhibit),
                u8::from(grant.write_through),
                u8::from(grant.guarded)
            ),
            Answer::Miss => f.write_str("(miss)"),
            Answer::No(fault) => write!(
                f,
                "(no {} {} {} 0x{:08x})",
                fault.number(),
                fault.cause.layer(),
                fault.level as u8,
                fault.place
            ),
        }
    }
}

#[cfg(test)]
mod tests {
    use super::*;

    #[test]
    fn numbers() {
        assert_eq!(number(b"0000000000000004294967295"), Some(u32::MAX));
        assert_eq!(number(b"0x00000000000ffffffff"), Some(u32::MAX));
        for bad in ["", "0x", "4294967296", "0x100000000", "0X1", "0xA", "-1", "+1", "1a", "1_0", "00x1"] {
            assert_eq!(number(bad.as_bytes()), None, "{bad}");
        }
    }

    #[test]
    fn descriptors() {
        let word = |text: &str| match read_line(format!("(write 799 {text})").as_bytes()) {
            Some(Call::Write { word, .. }) => Some(word),
            _ => None,
        };
        assert_eq!(word("(seg 0x2000 15 3)"), Some(0x21ed));
        assert_eq!(word("(page 0xfffff000 0xfff)"), Some(u32::MAX));
        for bad in ["(seg 1 0 0)", "(seg 0 16 0)", "(seg 0 0 4)", "(page 0 4096)", "(page  0 1)", "(page 0 1 )"] {
            assert_eq!(word(bad), None, "{bad}");
        }
    }

    #[test]
    fn lines_that_do_not_read() {
        let bad = ["(", ")", "()", "(tally )", " (tally)", "(tally)\r", "(peek)", "(peek 1 2)", "(peek 1))"];
        for bad in bad.into_iter().chain(["(mode 2 0 0)", "(mode 0 0)", "(look 0 0)"]) {
            assert_eq!(read_line(bad.as_bytes()), None, "{bad}");
        }
    }
}
