//! Shows requests and their answers side by side, in words, with the bytes of
//! each below its words. It takes the file of the requests and the file of the
//! answers.

use std::io::{self, ErrorKind, Write};
use std::{env, fs, process::ExitCode};

use second::words::side_by_side;

fn main() -> ExitCode {
    let files: Vec<String> = env::args().skip(1).collect();
    let [requests, answers] = files.as_slice() else {
        eprintln!("usage: show REQUESTS ANSWERS");
        return ExitCode::from(2);
    };
    match show(requests, answers) {
        Ok(()) => ExitCode::SUCCESS,
        // A reader that has seen enough is no fault.
        Err(error) if error.kind() == ErrorKind::BrokenPipe => ExitCode::SUCCESS,
        Err(error) => {
            eprintln!("show: {error}");
            ExitCode::FAILURE
        }
    }
}

fn show(requests: &str, answers: &str) -> io::Result<()> {
    let requests = read(requests)?;
    let answers = read(answers)?;
    let mut out = io::stdout().lock();
    for line in side_by_side(&requests, &answers) {
        writeln!(out, "{line}")?;
    }
    Ok(())
}

/// The file's bytes, or an error that names it.
fn read(file: &str) -> io::Result<Vec<u8>> {
    fs::read(file).map_err(|error| io::Error::new(error.kind(), format!("{file}: {error}")))
}
