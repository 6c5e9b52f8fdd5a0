//! Writes a stream of operations for the drill: `ops SEED [REQUESTS]`.

use std::io::{self, ErrorKind, Write};
use std::{env, process::ExitCode};

use second::ops::{stream, Plan, REQUESTS};

fn main() -> ExitCode {
    let words: Vec<String> = env::args().skip(1).collect();
    let Some(plan) = read_plan(&words) else {
        eprintln!("usage: ops SEED [REQUESTS]");
        return ExitCode::from(2);
    };
    let mut out = io::stdout().lock();
    match out.write_all(&stream(&plan)).and_then(|()| out.flush()) {
        Ok(()) => ExitCode::SUCCESS,
        // A reader that has seen enough is no fault.
        Err(error) if error.kind() == ErrorKind::BrokenPipe => ExitCode::SUCCESS,
        Err(error) => {
            eprintln!("ops: {error}");
            ExitCode::FAILURE
        }
    }
}

fn read_plan(words: &[String]) -> Option<Plan> {
    let (seed, requests) = match words {
        [seed] => (seed, REQUESTS),
        [seed, requests] => (seed, requests.parse().ok()?),
        _ => return None,
    };
    let seed = seed.parse().ok()?;
    Some(Plan { seed, requests })
}
