//! Runs a program on an input that fails in the middle: standard input gives
//! the bytes of a file, and then an error instead of an end.
//!   cut_input FILE PROGRAM [ARGUMENT..]
//! Ends with the program's status, or with 2 where something else went wrong.

use std::io::{Error, ErrorKind, Write};
use std::os::fd::OwnedFd;
use std::os::unix::net::UnixStream;
use std::process::{exit, Command, Stdio};

fn run() -> Result<i32, Error> {
    let words: Vec<_> = std::env::args_os().skip(1).collect();
    let [file, program, arguments @ ..] = words.as_slice() else {
        return Err(Error::new(
            ErrorKind::InvalidInput,
            "usage: cut_input FILE PROGRAM [ARGUMENT..]",
        ));
    };
    let (mut ours, mut theirs) = UnixStream::pair()?;
    ours.write_all(&std::fs::read(file)?)?;
    // A peer that closes with a byte unread resets the stream: what it sent is
    // still read, and the read after that fails.
    theirs.write_all(b"x")?;
    drop(ours);
    let stdin = Stdio::from(OwnedFd::from(theirs));
    let status = Command::new(program)
        .args(arguments)
        .stdin(stdin)
        .status()?;
    status
        .code()
        .ok_or_else(|| Error::other(format!("the program was ended: {status}")))
}

fn main() {
    exit(run().unwrap_or_else(|error| {
        eprintln!("cut_input: {error}");
        2
    }))
}
