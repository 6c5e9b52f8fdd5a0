//! Reads request records from standard input and writes the answers.

use std::fs::File;
use std::io;
use std::os::fd::AsFd;

fn main() -> io::Result<()> {
    // Read without a buffer in between, so that nothing past the limit is read.
    let input = File::from(io::stdin().as_fd().try_clone_to_owned()?);
    second::run::program(input, io::stdout().lock())
}
