//! `compare`: the library against the program `bench`, on random scripts or on stored pairs.

mod census;
mod examples;
mod program;
mod speed;

use std::env;
use std::path::Path;
use std::process::ExitCode;

use census::Census;
use compare::random::{self, Random};
use compare::run::account;

const USAGE: &str = "compare BENCH COUNT [SEED] | compare --examples DIR | compare --speed [COUNT [SEED]]";
/// How many scripts with a difference are stored and told in full.
const TOLD: u64 = 10;

fn main() -> ExitCode {
    let arguments: Vec<String> = env::args().skip(1).collect();
    let words: Vec<&str> = arguments.iter().map(String::as_str).collect();
    let result = match words[..] {
        ["--examples", directory] => examples::compare(Path::new(directory)),
        ["--speed", ref rest @ ..] if rest.len() <= 2 => numbers(rest, [2_000, 1]).map(speed::measure),
        [bench, ref rest @ ..] if (1..=2).contains(&rest.len()) => {
            numbers(rest, [0, 1]).and_then(|[count, seed]| compare_random(Path::new(bench), count, seed))
        }
        _ => Err(USAGE.to_string()),
    };
    match result {
        Ok(0) => ExitCode::SUCCESS,
        Ok(_) => ExitCode::from(1),
        Err(message) => {
            eprintln!("{message}");
            ExitCode::from(2)
        }
    }
}

/// The count and the seed, with what stands for them where they are not given.
fn numbers(words: &[&str], mut values: [u64; 2]) -> Result<[u64; 2], String> {
    for (value, word) in values.iter_mut().zip(words) {
        *value = word.parse().map_err(|_| format!("no number: {word}\n{USAGE}"))?;
    }
    Ok(values)
}

/// Compares random scripts; gives the number of differences.
fn compare_random(bench: &Path, count: u64, seed: u64) -> Result<u64, String> {
    let mut random = Random::new(seed);
    let mut census = Census::default();
    let mut differences = 0;
    for number in 0..count {
        let script = random::script(&mut random);
        let ours = account(&script);
        let theirs = program::account(bench, &script).map_err(|error| format!("{}: {error}", bench.display()))?;
        census.add(&script, &ours);
        if ours != theirs {
            differences += 1;
            if differences <= TOLD {
                tell(&format!("difference-{seed}-{number}"), &script, &ours, &theirs)?;
            }
        }
    }
    print!("{census}");
    println!("{count} scripts, {} answers, {differences} differences", census.answers());
    Ok(differences)
}

/// Stores a script on which the two differ, and prints the first line that does.
fn tell(name: &str, script: &[u8], ours: &[u8], theirs: &[u8]) -> Result<(), String> {
    let file = format!("{name}.script");
    std::fs::write(&file, script).map_err(|error| format!("{file}: {error}"))?;
    println!("{file}: {}", difference(ours, theirs));
    Ok(())
}

/// The first line in which two accounts differ.
fn difference(ours: &[u8], theirs: &[u8]) -> String {
    let lines = |account: &[u8]| -> Vec<String> {
        account.split(|&byte| byte == b'\n').map(|line| String::from_utf8_lossy(line).into_owned()).collect()
    };
    let (ours, theirs) = (lines(ours), lines(theirs));
    let at = (0..ours.len().max(theirs.len())).find(|&at| ours.get(at) != theirs.get(at)).unwrap_or(0);
    let show = |lines: &[String]| lines.get(at).cloned().unwrap_or_else(|| "(end)".to_string());
    format!("answer {}: library {} program {}", at + 1, show(&ours), show(&theirs))
}
