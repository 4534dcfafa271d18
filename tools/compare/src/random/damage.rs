//! Damage to a script: what a careless hand or a bad line may do to its bytes.

use super::Random;

const BAD_NUMBERS: [&[u8]; 10] =
    [b"0x", b"4294967296", b"0x1ffffffff", b"-1", b"0X10", b"0xAB", b"1f", b"", b"0x0x1", b"99999999999999999999"];
const STRAY_BYTES: [u8; 12] = [b'\r', 0, b'\t', b' ', b'(', b')', b'\n', 0xff, b'0', b'x', b';', 11];

/// The script with a few or many damages.
pub fn damage(random: &mut Random, script: Vec<u8>) -> Vec<u8> {
    let mut lines: Vec<Vec<u8>> = script.split(|&byte| byte == b'\n').map(<[u8]>::to_vec).collect();
    let few = random.within(1, 4) as usize;
    let many = lines.len() / 4 + 1;
    let count = if random.once_in(3) { many } else { few };
    for _ in 0..count {
        let chosen = random.index(lines.len());
        damage_line(random, &mut lines[chosen]);
    }
    let mut script = lines.join(&b'\n');
    if random.once_in(8) {
        let length = random.index(script.len() + 1);
        script.truncate(length);
    }
    script
}

fn damage_line(random: &mut Random, line: &mut Vec<u8>) {
    if line.is_empty() {
        line.push(random.pick(&STRAY_BYTES));
        return;
    }
    let at = random.index(line.len());
    match random.below(10) {
        0 => line[at] ^= 1 << random.below(8),
        1 => line[at] = random.below(256) as u8,
        2 => line.truncate(at),
        3 => drop(line.remove(at)),
        4 => line.insert(at, random.pick(&STRAY_BYTES)),
        5 => double_space(random, line),
        6 => bad_number(random, line),
        7 => lose_bracket(random, line),
        8 => line.extend_from_slice(random.pick(&[b" ", b"\r", b")", b"(tally)"])),
        _ => line.insert(0, random.pick(b" \t(\0")),
    }
}

/// The place of one of the bytes that pass a test.
fn place(random: &mut Random, line: &[u8], test: impl Fn(u8) -> bool) -> Option<usize> {
    let places: Vec<usize> = (0..line.len()).filter(|&at| test(line[at])).collect();
    (!places.is_empty()).then(|| random.pick(&places))
}

fn double_space(random: &mut Random, line: &mut Vec<u8>) {
    if let Some(at) = place(random, line, |byte| byte == b' ') {
        line.insert(at, b' ');
    }
}

fn lose_bracket(random: &mut Random, line: &mut Vec<u8>) {
    if let Some(at) = place(random, line, |byte| matches!(byte, b'(' | b')')) {
        line.remove(at);
    }
}

/// Puts a bad number for the word behind a space.
fn bad_number(random: &mut Random, line: &mut Vec<u8>) {
    if let Some(space) = place(random, line, |byte| byte == b' ') {
        let rest = &line[space + 1..];
        let length = rest.iter().position(|byte| b" ()".contains(byte)).unwrap_or(rest.len());
        let bad = random.pick(&BAD_NUMBERS);
        line.splice(space + 1..space + 1 + length, bad.iter().copied());
    }
}
