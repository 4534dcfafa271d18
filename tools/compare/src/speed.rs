//! The library's throughput: whole scripts, and accesses that hit.

use std::hint::black_box;
use std::time::Instant;

use compare::random::{self, Random};
use compare::rights::Privilege;
use compare::run::account;
use compare::unit::{Mode, Outcome, Unit};

const ACCESSES: u32 = 20_000_000;

/// Prints scripts, answers and hits per second; there is nothing to differ.
pub fn measure([count, seed]: [u64; 2]) -> u64 {
    let mut random = Random::new(seed);
    let scripts: Vec<Vec<u8>> = (0..count).map(|_| random::script(&mut random)).collect();
    let start = Instant::now();
    let answers: usize = scripts.iter().map(|script| lines(&account(script))).sum();
    let seconds = start.elapsed().as_secs_f64();
    println!("{count} scripts, {answers} answers in {seconds:.3} s: {:.0} answers/s", answers as f64 / seconds);
    hits();
    0
}

fn lines(account: &[u8]) -> usize {
    account.iter().filter(|&&byte| byte == b'\n').count()
}

/// Accesses that all hit, in turn at each of 32 loaded pages.
fn hits() {
    let mut unit = Unit::new();
    unit.set_mode(Mode { privilege: Privilege::Privileged, instruction: true, data: true });
    for page in 0..32u32 {
        for (number, word) in [(795, page << 12 | 0x200), (797, 1), (798, page << 12 | 0x1f1)] {
            unit.write(number, word).expect("an accepted write");
        }
    }
    let start = Instant::now();
    let mut granted = 0u32;
    for turn in 0..ACCESSES {
        let address = black_box(turn.wrapping_mul(4_100) & 0x1_ffff);
        granted += u32::from(matches!(unit.access(1, address), Ok(Outcome::Granted(_))));
    }
    let seconds = start.elapsed().as_secs_f64();
    let each = seconds * 1e9 / f64::from(ACCESSES);
    let rate = f64::from(granted) / seconds / 1e6;
    println!("{granted} hits in {seconds:.3} s: {rate:.1} million/s, {each:.1} ns each");
}
