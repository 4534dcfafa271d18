//! Random scripts: valid ones, damaged ones, short and long ones.

use super::damage::damage;
use super::world::{spell, World};
use super::Random;
use crate::script::LONGEST;

const REGISTERS: [u32; 13] = [784, 786, 787, 789, 790, 792, 793, 794, 795, 796, 797, 798, 799];

/// The insides of forms that are at the edge of what reads, or over it.
const ODD: [&str; 43] = [
    "",
    "tally ",
    " tally",
    "tally 0",
    "dropall 0",
    "mode 2 0 0",
    "mode 00 0x1 0x001",
    "mode 0 1",
    "peek 4294967295",
    "peek 4294967296",
    "peek 0x100000000",
    "peek 0x0000000000000000000000000000000004",
    "peek 000000000000000000000000000000000000004",
    "peek 0x",
    "peek x",
    "peek 0X4",
    "peek 0xABC",
    "peek -4",
    "peek 18446744073709551616",
    "peek (page 0 0)",
    "poke 0x6ffc (seg 0x2001 0 0)",
    "poke 0x6ffc (seg 0x2000 16 0)",
    "poke 0x6ffc (seg 0x2000 15 3)",
    "poke 0x6ffc (seg 0x2000 0 4)",
    "poke 0x6ffc (seg 0xfffff000 0xf 0x3)",
    "poke 0x6ffc (page 0x5000 4096)",
    "poke 0x6ffc (page 0xfffff000 4095)",
    "poke 0x6ffc (page 0x5001 1)",
    "poke 0x6ffc (page 0x5000)",
    "poke 0x6ffc (page 0x5000 1 1)",
    "poke 0x6ffc (page 0x5000 1) ",
    "poke 0x6ffc ( page 0x5000 1)",
    "poke 0x6ffc(page 0x5000 1)",
    "poke 0x6ffc (page 0x5000 1))",
    "poke 0x6ffc ((page 0x5000 1))",
    "write 799 (seg 4096 0 0)",
    "read 799 799",
    "read",
    "Read 799",
    "look 0 0",
    "resolve 0",
    "access 1 1 1",
    "drop",
];

/// How long a script becomes.
enum Length {
    Lines(u32),
    Bytes(usize),
}

/// A random script.
pub fn script(random: &mut Random) -> Vec<u8> {
    let length = length(random);
    let mut text = String::new();
    let world = World::new(random);
    open(random, &world, &mut text);
    match length {
        Length::Lines(lines) => {
            for _ in 0..lines {
                step(random, &world, &mut text);
            }
            close(random, &world, &mut text);
        }
        Length::Bytes(bytes) => {
            while text.len() < bytes {
                step(random, &world, &mut text);
            }
            text.truncate(bytes);
        }
    }
    let whole = matches!(length, Length::Bytes(_)) && random.once_in(2);
    let script = text.into_bytes();
    if whole || random.once_in(2) {
        script
    } else {
        damage(random, script)
    }
}

fn length(random: &mut Random) -> Length {
    match random.below(100) {
        0..=24 => Length::Lines(random.within(0, 20)),
        25..=74 => Length::Lines(random.within(20, 200)),
        75..=92 => Length::Lines(random.within(200, 1_000)),
        93..=94 => Length::Lines(random.within(1_000, 1_900)),
        95 => Length::Bytes(random.within(60_000, 70_000) as usize),
        _ => Length::Bytes(LONGEST - 2 + random.index(5)),
    }
}

/// Mostly, tables, a base and translations that let the rest of the script find something.
fn open(random: &mut Random, world: &World, text: &mut String) {
    if random.once_in(10) {
        return;
    }
    for place in world.first_words() {
        let word = world.first_word(random);
        line(text, &["poke", &spell(random, place), &word]);
    }
    for place in world.second_words() {
        let word = world.second_word(random);
        line(text, &["poke", &spell(random, place), &word]);
    }
    line(text, &["write", "796", &spell(random, world.base)]);
    line(text, &["write", "794", &protection(random)]);
    line(text, &["write", "786", &protection(random)]);
    line(text, &["mode", random.pick(&["0", "0", "1"]), "1", "1"]);
}

/// Now and then, calls that show the whole state.
fn close(random: &mut Random, world: &World, text: &mut String) {
    if !random.once_in(3) {
        return;
    }
    for number in REGISTERS {
        line(text, &["read", &number.to_string()]);
    }
    line(text, &["tally"]);
    for _ in 0..20 {
        translate(random, world, "access", text);
    }
}

/// One call, or a few that belong together.
fn step(random: &mut Random, world: &World, text: &mut String) {
    match random.below(100) {
        0..=27 => translate(random, world, "resolve", text),
        28..=49 => translate(random, world, "access", text),
        50..=57 => poke_table(random, world, text),
        58..=60 => poke_anywhere(random, text),
        61..=63 => line(text, &["peek", &memory_place(random)]),
        64..=71 => read(random, text),
        72..=76 => load_by_hand(random, world, text),
        77..=78 => write_control(random, world, text),
        79..=80 => write_protection(random, text),
        81..=84 => write_space(random, world, text),
        85..=87 => write_any(random, world, text),
        88..=90 => set_mode(random, text),
        91..=94 => line(text, &["drop", &spell_address(random, world)]),
        95 => line(text, &["dropall"]),
        96..=97 => line(text, &["tally"]),
        98 => text.push('\n'),
        _ => line(text, &[random.pick(&ODD)]),
    }
}

fn line(text: &mut String, words: &[&str]) {
    text.push('(');
    text.push_str(&words.join(" "));
    text.push_str(")\n");
}

fn spell_address(random: &mut Random, world: &World) -> String {
    let address = world.address(random);
    spell(random, address)
}

fn translate(random: &mut Random, world: &World, name: &str, text: &mut String) {
    let kind = match random.below(40) {
        0 => random.pick(&[3, 4, 255, u32::MAX]),
        1..=13 => 0,
        14..=28 => 1,
        _ => 2,
    };
    line(text, &[name, &spell(random, kind), &spell_address(random, world)]);
}

fn poke_table(random: &mut Random, world: &World, text: &mut String) {
    let (place, word) = if random.once_in(4) {
        (world.first_place(random), world.first_word(random))
    } else {
        (world.second_place(random), world.second_word(random))
    };
    line(text, &["poke", &spell(random, place), &word]);
}

/// A place in the memory, at its end, or off a word.
fn memory_place(random: &mut Random) -> String {
    let word = random.below(0x2000) * 4;
    let place = match random.below(8) {
        0 => random.pick(&[0x7ffc, 0x7ffd, 0x7fff, 0x8000, 0x8001, 0x7ffe, u32::MAX, 0xffff_fffc]),
        1 => word + random.within(1, 3),
        2 => random.word(),
        3 => random.within(0, 2) * 0x1000 + random.below(16) * 4,
        _ => word,
    };
    spell(random, place)
}

fn poke_anywhere(random: &mut Random, text: &mut String) {
    let place = memory_place(random);
    let word = random.word();
    line(text, &["poke", &place, &spell(random, word)]);
}

fn register(random: &mut Random) -> u32 {
    match random.below(20) {
        0 => random.pick(&[0, 783, 785, 788, 791, 800, 1024, u32::MAX, 784 + 65_536]),
        _ => random.pick(&REGISTERS),
    }
}

fn read(random: &mut Random, text: &mut String) {
    let number = register(random);
    line(text, &["read", &spell(random, number)]);
}

fn write(random: &mut Random, text: &mut String, number: u32, word: u32) {
    line(text, &["write", &spell(random, number), &spell(random, word)]);
}

fn load_by_hand(random: &mut Random, world: &World, text: &mut String) {
    let [epn, twc, rpn] = random.pick(&[[795, 797, 798], [787, 789, 790]]);
    if !random.once_in(6) {
        let page = world.page(random) & !random.pick(&[0, 0, 0x3fff, 0x7_ffff]);
        let space = world.space(random) | random.flag(0x200, 7, 8) | random.flag(0xd00, 1, 6);
        write(random, text, epn, page | space);
    }
    if !random.once_in(6) {
        let word = world.first_word(random);
        line(text, &["write", &spell(random, twc), &word]);
    }
    let word = world.second_word(random);
    line(text, &["write", &spell(random, rpn), &word]);
}

fn write_control(random: &mut Random, world: &World, text: &mut String) {
    let number = random.pick(&[784, 792]);
    let any = random.below(32);
    let index = random.pick(&[0, 1, 27, 28, 29, 31, any]) << 8;
    let modes = random.flag(0x8000_0000, 1, 4) | random.flag(0x0800_0000, 1, 2);
    let defaults = random.flag(0x2000_0000, 1, 3) | random.flag(0x1000_0000, 1, 3);
    let dropped = random.flag(0x01ff_e0ff, 1, 8);
    let needed = if random.once_in(world.care) { 0 } else { 0x0400_0000 };
    let bad = if random.once_in(world.care) { random.pick(&[0x4000_0000, 0x0200_0000]) } else { 0 };
    write(random, text, number, index | modes | defaults | dropped | needed | bad);
}

fn protection(random: &mut Random) -> String {
    let word = random.word();
    let word = random.pick(&[word, 0x5555_5555, 0x5555_5555, 0, u32::MAX, 0xaaaa_aaaa, word | 0x4000_0001]);
    spell(random, word)
}

fn write_protection(random: &mut Random, text: &mut String) {
    let number = random.pick(&["786", "794"]);
    line(text, &["write", number, &protection(random)]);
}

fn write_space(random: &mut Random, world: &World, text: &mut String) {
    let space = world.space(random) | random.flag(0xffff_fff0, 1, 8);
    write(random, text, 793, space);
}

fn write_any(random: &mut Random, world: &World, text: &mut String) {
    let number = register(random);
    let any = random.word();
    let word = match number {
        796 => random.pick(&[world.base, world.base | 0xfff, 0, 0x7000, 0x8000, any]),
        _ => any,
    };
    write(random, text, number, word);
    if number == 796 && !random.once_in(3) {
        write(random, text, 796, world.base);
    }
}

fn set_mode(random: &mut Random, text: &mut String) {
    let problem = random.below(2);
    let [instruction, data] = [0; 2].map(|_| random.flag(1, 9, 10));
    let words = [problem, instruction, data].map(|value| spell(random, value));
    line(text, &["mode", &words[0], &words[1], &words[2]]);
}
