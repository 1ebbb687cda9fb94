//! The desk: hands a request file to the gate, and writes what was read back as text. Exit status: 0 granted, 1 refused, 2 no
//! answer: the file cannot be read, the output is lost, or two calls of the library do not agree.

use peraduksi::{gate, judge, read, write, Printed, Refusal, FORMS_ROOM, MOST_BYTES, POLICY_ROOM, STEPS_ROOM};
use std::env::args;
use std::fs::File;
use std::io::{self, Read, Write};
use std::process::ExitCode;

const REFUSED: u8 = 1;
const NO_ANSWER: u8 = 2;

fn main() -> ExitCode {
    judged().unwrap_or_else(|error| {
        eprintln!("desk: {error}");
        ExitCode::from(NO_ANSWER)
    })
}

fn judged() -> io::Result<ExitCode> {
    let mut names = args().skip(1);
    let from: Box<dyn Read> = match (names.next(), names.next()) {
        (None, _) => Box::new(io::stdin()),
        (Some(name), None) => Box::new(File::open(name)?),
        _ => return Err(io::Error::other("usage: desk [FILE]")),
    };
    // One byte more than is allowed, so that a longer file is refused for what it is.
    let mut file = Vec::new();
    from.take(MOST_BYTES as u64 + 1).read_to_end(&mut file)?;

    let printed = gate(&file);
    let agrees = agreement(&file, printed);
    let mut out = io::stdout().lock();
    writeln!(out, "answer={}\nplace={}", printed.answer, printed.place)?;
    writeln!(out, "steps={}\ncolumn={}", printed.steps, printed.column)?;
    writeln!(out, "{}", agrees.unwrap_or("DIFFERENT"))?;
    out.flush()?;
    Ok(match (agrees, printed.answer) {
        (None, _) => ExitCode::from(NO_ANSWER),
        (Some(_), 0) => ExitCode::SUCCESS,
        (Some(_), _) => ExitCode::from(REFUSED),
    })
}

/// What reading, judging and writing come to by one call each, where that is what the gate answered.
fn agreement(file: &[u8], printed: Printed) -> Option<&'static str> {
    let given = (printed.answer, printed.place, printed.column);
    let same = |refusal: Refusal| (refusal.number(), refusal.place, refusal.column) == given;
    let (mut forms, mut policy, mut steps) = ([0; FORMS_ROOM], [0; POLICY_ROOM], [0; STEPS_ROOM]);
    let counts = match read(file, &mut forms, &mut policy, &mut steps) {
        Ok(counts) => counts,
        Err(refusal) => return same(refusal).then_some("not read"),
    };
    let alike = judge(counts, &forms, &policy, &steps).map_or_else(same, |()| given == (0, 0, 0));
    let mut text = vec![0; MOST_BYTES];
    let length = write(counts, &forms, &policy, &steps, &mut text).ok()?;
    (alike && text[..length] == *file).then_some("written back the same")
}
