//! The drill as a program: operations in, what they write out.

use std::fs::File;
use std::io::{self, ErrorKind};
use std::os::fd::AsFd;

fn main() -> io::Result<()> {
    // Standard input has a buffer of its own, which may take in more than the
    // limit. A file has none.
    let input = File::from(io::stdin().as_fd().try_clone_to_owned()?);
    match second::drill::program(input, io::stdout().lock()) {
        // A reader that has seen enough is no fault.
        Err(error) if error.kind() == ErrorKind::BrokenPipe => Ok(()),
        outcome => outcome,
    }
}
