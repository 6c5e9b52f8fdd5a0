//! Prints the table of flags: a line for each flag, with a number for each column.

use std::io::{self, ErrorKind, Write};

use second::table::table;

fn main() -> io::Result<()> {
    match print(io::stdout().lock()) {
        // A reader that has seen enough is no fault.
        Err(error) if error.kind() == ErrorKind::BrokenPipe => Ok(()),
        outcome => outcome,
    }
}

fn print(mut out: impl Write) -> io::Result<()> {
    for row in table() {
        let numbers = row.map(|number| number.to_string());
        writeln!(out, "{}", numbers.join(" "))?;
    }
    out.flush()
}
