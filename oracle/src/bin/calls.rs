//! Compares calls of another reader, writer, judge and gate over lent tables with those here. The other takes a frame for each call, as
//! compare/driver/calls.c has it, and gives back the answer with what the call leaves behind; numbers are little-endian.

use oracle::generate::{loans, tables, Call, Loan};
use oracle::{gate, judge, read, write, Counts, Logic};
use std::collections::BTreeMap;
use std::io::{self, BufReader, BufWriter, Read, Write};
use std::process::ExitCode;

const USAGE: &str = "usage: calls frames SEED COUNT > FRAMES
       calls answer SEED COUNT > ANSWERS
       calls compare SEED COUNT < ANSWERS";

fn main() -> ExitCode {
    run().unwrap_or_else(|error| {
        eprintln!("calls: {error}");
        ExitCode::from(2)
    })
}

fn run() -> io::Result<ExitCode> {
    let words: Vec<String> = std::env::args().skip(1).collect();
    let [word, seed, count] = &words[..] else {
        return Err(io::Error::other(USAGE));
    };
    let (Ok(seed), Ok(count)) = (seed.parse(), count.parse()) else {
        return Err(io::Error::other(USAGE));
    };
    match word.as_str() {
        "frames" => write_all(exchanges(seed, count).map(|exchange| exchange.frame)),
        "answer" => write_all(exchanges(seed, count).map(|exchange| exchange.back)),
        "compare" => compare(exchanges(seed, count)),
        _ => Err(io::Error::other(USAGE)),
    }
}

/// A call: its frame, and what has to come back for it.
struct Exchange {
    what: &'static str,
    name: String,
    frame: Vec<u8>,
    refusal: u8,
    back: Vec<u8>,
}

/// COUNT calls of reader and gate, and COUNT of writer and judge but for those whose counts are past 16 bits.
fn exchanges(seed: u64, count: usize) -> impl Iterator<Item = Exchange> {
    let files = loans(seed, count).flat_map(|loan| [gate_exchange(&loan), read_exchange(loan)]);
    let others = tables(seed, count).filter_map(|call| {
        let counts = narrow(&call.counts)?;
        Some([write_exchange(&call, &counts), judge_exchange(&call, &counts)])
    });
    files.chain(others.flatten())
}

fn put_wide(bytes: &mut Vec<u8>, numbers: &[usize]) {
    numbers.iter().for_each(|number| bytes.extend((*number as u32).to_le_bytes()));
}

fn put_table(bytes: &mut Vec<u8>, table: &[u16]) {
    table.iter().for_each(|entry| bytes.extend(entry.to_le_bytes()));
}

/// As many as the counts have fields.
const COUNTS: usize = 8;

fn numbers(counts: &Counts) -> [usize; COUNTS] {
    let logic = match counts.logic {
        Logic::Plain => 0,
        Logic::Unit => 1,
    };
    [counts.version, logic, counts.principals, counts.atoms, counts.formulas, counts.lines, counts.goal, counts.steps]
}

fn narrow(counts: &Counts) -> Option<Vec<u16>> {
    numbers(counts).iter().map(|&count| u16::try_from(count).ok()).collect()
}

/// A frame up to the file's bytes; the call's number is 0 for reading, 1 for writing, 2 for judging, 3 for the gate.
fn frame_of(call: usize, bytes: usize, lengths: [usize; 3], counts: &[u16]) -> Vec<u8> {
    let mut frame = Vec::new();
    put_wide(&mut frame, &[call, bytes]);
    put_wide(&mut frame, &lengths);
    put_table(&mut frame, counts);
    frame
}

/// An answer up to what the call leaves behind.
fn back_of(refusal: u8, place: usize, column: usize, number: usize, counts: &[u16]) -> Vec<u8> {
    let mut back = Vec::new();
    put_wide(&mut back, &[refusal.into(), place, column, number]);
    put_table(&mut back, counts);
    back
}

fn read_exchange(loan: Loan) -> Exchange {
    let mut lent = [loan.forms, loan.clauses, loan.steps];
    let lengths = [lent[0].len(), lent[1].len(), lent[2].len()];
    let mut frame = frame_of(0, loan.file.len(), lengths, &[0; COUNTS]);
    frame.extend(&loan.file);
    lent.iter().for_each(|table| put_table(&mut frame, table));
    let [forms, clauses, steps] = &mut lent;
    let answer = read(&loan.file, forms, clauses, steps);
    let counts = narrow(&Counts::from(&answer)).expect("counts that were read");
    let mut back = back_of(answer.refusal, answer.place, answer.column, 0, &counts);
    lent.iter().for_each(|table| put_table(&mut back, table));
    Exchange { what: "read", name: loan.name, frame, refusal: answer.refusal, back }
}

fn gate_exchange(loan: &Loan) -> Exchange {
    let mut frame = frame_of(3, loan.file.len(), [0; 3], &[0; COUNTS]);
    frame.extend(&loan.file);
    let answer = gate(&loan.file);
    let back = back_of(answer.answer, answer.place, answer.column, answer.steps, &[0; COUNTS]);
    Exchange { what: "gate", name: loan.name.clone(), frame, refusal: answer.answer, back }
}

fn table_frame(number: usize, call: &Call, counts: &[u16]) -> Vec<u8> {
    let lengths = [call.forms.len(), call.clauses.len(), call.steps.len()];
    let mut frame = frame_of(number, call.output, lengths, counts);
    [&call.forms, &call.clauses, &call.steps].into_iter().for_each(|table| put_table(&mut frame, table));
    frame
}

fn write_exchange(call: &Call, counts: &[u16]) -> Exchange {
    let mut output = vec![b'x'; call.output];
    let answer = write(&call.counts, &call.tables(), &mut output);
    let back = [back_of(answer.refusal, answer.place, 0, answer.length, counts), output].concat();
    let frame = table_frame(1, call, counts);
    Exchange { what: "write", name: call.name.clone(), frame, refusal: answer.refusal, back }
}

fn judge_exchange(call: &Call, counts: &[u16]) -> Exchange {
    let answer = judge(&call.counts, &call.tables());
    let back = back_of(answer.refusal, answer.place, 0, 0, counts);
    let frame = table_frame(2, call, counts);
    Exchange { what: "judge", name: call.name.clone(), frame, refusal: answer.refusal, back }
}

fn write_all(mut parts: impl Iterator<Item = Vec<u8>>) -> io::Result<ExitCode> {
    let mut out = BufWriter::new(io::stdout().lock());
    parts.try_for_each(|part| out.write_all(&part))?;
    out.flush()?;
    Ok(ExitCode::SUCCESS)
}

/// Holds what came back to what is wanted, byte by byte.
fn compare(exchanges: impl Iterator<Item = Exchange>) -> io::Result<ExitCode> {
    let mut input = BufReader::new(io::stdin().lock());
    let (mut compared, mut differ, mut missing) = (0, 0, 0);
    let mut refusals: BTreeMap<(&str, u8), usize> = BTreeMap::new();
    for exchange in exchanges {
        let mut got = vec![0; exchange.back.len()];
        if missing > 0 || input.read_exact(&mut got).is_err() {
            missing += 1;
            continue;
        }
        compared += 1;
        *refusals.entry((exchange.what, exchange.refusal)).or_default() += 1;
        if got != exchange.back {
            differ += 1;
            let at = got.iter().zip(&exchange.back).position(|(one, other)| one != other).unwrap_or(0);
            println!("{} {}: differs from byte {at} of {} on", exchange.what, exchange.name, got.len());
        }
    }
    let extra = input.read(&mut [0])?;
    if missing + extra > 0 {
        println!("{missing} answers missing, {extra} too many");
    }
    for what in ["read", "gate", "write", "judge"] {
        let met = refusals.iter().filter(|((call, _), _)| *call == what);
        let met: Vec<String> = met.map(|((_, refusal), times)| format!("{refusal} ({times})")).collect();
        println!("{what}: answers wanted: {}", met.join(", "));
    }
    println!("{compared} calls compared, {differ} differ");
    Ok(ExitCode::from(u8::from(differ + missing + extra > 0 || compared == 0)))
}
