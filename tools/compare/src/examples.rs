//! The stored pairs: every NAME.script of a directory with its NAME.account.

use std::fs;
use std::path::{Path, PathBuf};

use compare::run::account;

/// Compares the library with the stored accounts; gives the number of differences.
pub fn compare(directory: &Path) -> Result<u64, String> {
    let scripts = scripts(directory)?;
    let mut differences = 0;
    for path in &scripts {
        let ours = account(&read(path)?);
        let stored = read(&path.with_extension("account"))?;
        if ours != stored {
            differences += 1;
            println!("{}: {}", path.display(), crate::difference(&ours, &stored));
        }
    }
    println!("{} examples, {differences} differences", scripts.len());
    Ok(differences)
}

fn scripts(directory: &Path) -> Result<Vec<PathBuf>, String> {
    let entries = fs::read_dir(directory).map_err(|error| format!("{}: {error}", directory.display()))?;
    let mut paths: Vec<PathBuf> = entries
        .filter_map(|entry| entry.ok().map(|entry| entry.path()))
        .filter(|path| path.extension().is_some_and(|extension| extension == "script"))
        .collect();
    paths.sort();
    Ok(paths)
}

fn read(path: &Path) -> Result<Vec<u8>, String> {
    fs::read(path).map_err(|error| format!("{}: {error}", path.display()))
}
