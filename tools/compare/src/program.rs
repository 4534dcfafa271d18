//! The other program: a process for each script.

use std::io::{self, ErrorKind, Read, Write};
use std::path::Path;
use std::process::{Command, Stdio};
use std::thread;

/// What the program prints for a script. The script goes in from a thread of its own, so that neither
/// pipe can block the other.
pub fn account(bench: &Path, script: &[u8]) -> io::Result<Vec<u8>> {
    let mut child = Command::new(bench).stdin(Stdio::piped()).stdout(Stdio::piped()).spawn()?;
    let (input, output) = (child.stdin.take(), child.stdout.take());
    let mut account = Vec::new();
    let written = thread::scope(|scope| {
        let writer = scope.spawn(move || input.map_or(Ok(()), |mut input| input.write_all(script)));
        let read = output.map_or(Ok(0), |mut output| output.read_to_end(&mut account));
        read.and(writer.join().expect("the writer does not panic"))
    });
    let status = child.wait()?;
    match written {
        // A program that has read enough may close its input.
        Err(error) if error.kind() != ErrorKind::BrokenPipe => Err(error),
        _ if status.code().is_none() => Err(io::Error::other(format!("the program ended by {status}"))),
        _ => Ok(account),
    }
}
