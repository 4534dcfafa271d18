//! A whole script to its account (section 12).

use std::io::Write;

use crate::fault::Cause;
use crate::memory::{Memory, Ram};
use crate::script::{read_line, Answer, Call, LONGEST};
use crate::unit::Unit;

/// The bytes of the bench's memory.
pub const MEMORY: usize = 32_768;

/// The account of a script: one line for each line that is not empty.
pub fn account(script: &[u8]) -> Vec<u8> {
    let mut account = Vec::with_capacity(script.len());
    if script.len() > LONGEST {
        print(&mut account, Answer::No(Cause::TooLong.at(0)));
        return account;
    }
    let mut bytes = vec![0u8; MEMORY];
    let mut memory = Ram(&mut bytes);
    let mut unit = Unit::new();
    for (number, line) in (1u32..).zip(script.split(|&byte| byte == b'\n')) {
        if line.is_empty() {
            continue;
        }
        let answer = match read_line(line) {
            Some(call) => perform(&mut unit, &mut memory, call),
            None => Answer::No(Cause::Unreadable.at(number)),
        };
        print(&mut account, answer);
    }
    account
}

/// Makes one call and gives its answer.
pub fn perform(unit: &mut Unit, memory: &mut impl Memory, call: Call) -> Answer {
    match call {
        Call::Mode(mode) => unit.set_mode(mode),
        Call::Drop { address } => unit.drop_page(address),
        Call::DropAll => unit.drop_all(),
        Call::Poke { address, word } => return memory.poke(address, word).into(),
        Call::Peek { address } => return memory.peek(address).into(),
        Call::Write { number, word } => return unit.write(number, word).into(),
        Call::Read { number } => return unit.read(number).into(),
        Call::Access { kind, address } => return unit.access(kind, address).into(),
        Call::Resolve { kind, address } => return unit.resolve(memory, kind, address).into(),
        Call::Tally => return unit.tally().into(),
    }
    Answer::Ok
}

fn print(account: &mut Vec<u8>, answer: Answer) {
    writeln!(account, "{answer}").expect("a vector takes every byte");
}

#[cfg(test)]
mod tests {
    use super::*;

    #[test]
    fn the_whole_task() {
        let script = "(poke 0x1000 (seg 0x2000 0 0))\n(poke 0x2004 (page 0x5000 0x1f1))\n(write 796 0x1000)\n\
            (mode 0 0 1)\n(resolve 1 0x1234)\n(poke 0x2004 0)\n(access 1 0x1fff)\n(drop 0x1000)\n\
            (resolve 1 0x1234)\n(peek 0x8000)\n";
        let expected = "(ok)\n(ok)\n(ok)\n(ok)\n(grant 0x00005234 4096 0 0 0)\n(ok)\n\
            (grant 0x00005fff 4096 0 0 0)\n(ok)\n(no 12 walk 2 0x00002004)\n(no 15 bus 0 0x00008000)\n";
        assert_eq!(String::from_utf8(account(script.as_bytes())).unwrap(), expected);
    }

    #[test]
    fn the_longest_script_runs_and_one_byte_more_does_not() {
        let mut script = vec![b'\n'; LONGEST];
        assert_eq!(account(&script), b"");
        script.push(b'\n');
        assert_eq!(account(&script), b"(no 19 script 0 0x00000000)\n");
    }

    #[test]
    fn empty_lines_are_counted() {
        assert_eq!(account(b"\n\n(tally)\n\nx"), b"(value 0x00000000)\n(no 18 script 0 0x00000005)\n");
    }
}
