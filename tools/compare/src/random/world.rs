//! What a random script plays with: tables, addresses, spaces, and words that fit them.

use super::Random;

/// A few places that a script comes back to, so that its calls meet one another.
pub struct World {
    pub base: u32,
    segments: Vec<u32>,
    leaves: Vec<u32>,
    numbers: Vec<u32>,
    spaces: Vec<u32>,
    /// The size bits that first words and TWCs take, as often as they stand here.
    sizes: &'static [u32],
    /// Bad bits in tables and registers come once in so many words.
    pub care: u32,
}

/// Mixes of size bits. Without these, the 8 MB pages would hide most of the others.
const MIXES: [&[u32]; 5] = [&[0], &[0, 0, 0, 1], &[0, 0, 0, 0, 1, 3], &[0, 1, 3], &[1]];
/// The rights bits of second words: all eight, the ones that grant something more often.
const RIGHTS: [u32; 16] = [0, 0, 0, 1, 2, 2, 2, 3, 3, 4, 4, 4, 5, 6, 6, 7];
const SIZES: [u32; 4] = [1 << 12, 1 << 14, 1 << 19, 1 << 23];

impl World {
    pub fn new(random: &mut Random) -> World {
        let count = random.within(1, 3);
        let first = random.pick(&[0, 0, 2, 510, 1022, 1020]);
        World {
            base: random.pick(&[0x1000, 0x1000, 0, 0x4000, 0x7000]),
            segments: (first..first + count.min(1024 - first)).collect(),
            leaves: vec![0x2000, 0x3000, 0x5000, 0x6000][..random.within(1, 4) as usize].to_vec(),
            numbers: numbers(random),
            spaces: (0..random.within(1, 3)).map(|_| random.below(16)).collect(),
            sizes: random.pick(&MIXES),
            care: random.pick(&[8, 40, 200]),
        }
    }

    pub fn space(&self, random: &mut Random) -> u32 {
        random.pick(&self.spaces)
    }

    /// An address, mostly in a page that the tables map or at a border of one.
    pub fn address(&self, random: &mut Random) -> u32 {
        if random.once_in(50) {
            return random.word();
        }
        let any = random.below(4096);
        let inside = self.page(random) | random.pick(&[0, 0xfff, 0x234, any]);
        if !random.once_in(4) {
            return inside;
        }
        let size = random.pick(&SIZES);
        let first = inside & !(size - 1);
        let any = random.below(size);
        let border = random.pick(&[0, size - 1, size, u32::MAX, any]);
        first.wrapping_add(border)
    }

    /// The first address of one of the world's 4 KB pages.
    pub fn page(&self, random: &mut Random) -> u32 {
        random.pick(&self.segments) << 22 | random.pick(&self.numbers) << 12
    }

    pub fn first_words(&self) -> impl Iterator<Item = u32> + '_ {
        self.segments.iter().map(|segment| self.base + 4 * segment)
    }

    pub fn second_words(&self) -> impl Iterator<Item = u32> + '_ {
        let words = |leaf| self.numbers.iter().map(move |number| leaf + 4 * number);
        self.leaves.iter().copied().flat_map(words)
    }

    pub fn first_place(&self, random: &mut Random) -> u32 {
        self.base + 4 * random.pick(&self.segments)
    }

    pub fn second_place(&self, random: &mut Random) -> u32 {
        random.pick(&self.leaves) + 4 * random.pick(&self.numbers)
    }

    /// A word for a first table or a TWC: (seg ..) where it can be told so.
    pub fn first_word(&self, random: &mut Random) -> String {
        let leaf = if random.once_in(self.care) {
            random.pick(&[0x8000, 0x7000, 0xffff_f000, 0])
        } else {
            random.pick(&self.leaves)
        };
        let any = random.below(16);
        let group = random.pick(&[0, 0, 1, 15, any]);
        let bad_size = random.once_in(self.care);
        let size = if bad_size { 2 } else { random.pick(self.sizes) };
        if random.once_in(2) {
            let [leaf, group, size] = [leaf, group, size].map(|value| spell(random, value));
            return format!("(seg {leaf} {group} {size})");
        }
        let valid = u32::from(!random.once_in(self.care));
        let rest = random.flag(0x10, 1, 3) | random.flag(2, 1, 3) | random.flag(0xe00, 1, 8);
        spell(random, leaf | group << 5 | size << 2 | rest | valid)
    }

    /// A word for a second table or an RPN: (page ..) or a number.
    pub fn second_word(&self, random: &mut Random) -> String {
        let base = match random.below(4) {
            0 => random.word() & 0xffff_f000,
            1 => 0x1238_0000,
            _ => random.below(64) << 12,
        };
        let rights = random.pick(&RIGHTS) << 9;
        let marks = if random.once_in(self.care) { random.below(16) << 4 } else { 0xf0 };
        let rest = random.flag(0x100, 3, 4) | random.flag(8, 1, 3) | random.flag(4, 1, 4) | random.flag(2, 1, 3);
        let valid = u32::from(!random.once_in(self.care));
        let low = rights | marks | rest | valid;
        if random.once_in(2) {
            let [base, low] = [base, low].map(|value| spell(random, value));
            return format!("(page {base} {low})");
        }
        spell(random, base | low)
    }
}

/// The second numbers: neighbours, borders of the larger pages, and one anywhere.
fn numbers(random: &mut Random) -> Vec<u32> {
    let choices = [0, 1, 3, 4, 127, 128, 1023, random.below(1024)];
    let many = random.once_in(4);
    match many {
        true => (0..40).chain(choices).collect(),
        false => (0..random.within(1, 6)).map(|_| random.pick(&choices)).collect(),
    }
}

/// A number in one of its spellings.
pub fn spell(random: &mut Random, value: u32) -> String {
    match random.below(16) {
        0 => format!("{value:012}"),
        1 => format!("0x{value:010x}"),
        2 => format!("0x{value:08x}"),
        3..=6 => format!("{value}"),
        _ => format!("0x{value:x}"),
    }
}
