//! The gate program: a request on standard input, its answer on standard output. `oracle afresh` closes the facts
//! from nothing before each step that asks; the answer is the same. Exit status: 0 granted, 1 refused, 2 no answer.

use oracle::{gate_by, limits, Way};
use std::io::{self, Read, Write};
use std::process::ExitCode;

fn main() -> ExitCode {
    answered().unwrap_or_else(|error| {
        eprintln!("oracle: {error}");
        ExitCode::from(2)
    })
}

fn answered() -> io::Result<ExitCode> {
    let afresh = std::env::args().nth(1).is_some_and(|way| way == "afresh");
    let way = if afresh { Way::Afresh } else { Way::Kept };
    // One byte past the limit tells that a file is too long, however long it is.
    let mut file = Vec::new();
    io::stdin().lock().take(limits::FILE as u64 + 1).read_to_end(&mut file)?;
    let answer = gate_by(way, &file);
    let mut out = io::stdout().lock();
    write!(out, "answer={}\nplace={}\n", answer.answer, answer.place)?;
    write!(out, "steps={}\ncolumn={}\n", answer.steps, answer.column)?;
    out.flush()?;
    Ok(ExitCode::from(u8::from(answer.answer != 0)))
}
