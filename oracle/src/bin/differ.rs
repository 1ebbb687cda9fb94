//! Compares another gate with this one, request by request. The other reads frames: a file's length in four bytes,
//! the lowest first, then that many bytes; and prints a line `answer place steps column` for each.

use oracle::generate::{heavy, texts, Text};
use oracle::{gate, limits, GateAnswer};
use std::collections::BTreeMap;
use std::io::{self, BufRead, BufReader, BufWriter, Read, Write};
use std::path::Path;
use std::process::ExitCode;
use std::str::FromStr;

const USAGE: &str = "usage: differ frames SEED COUNT > FRAMES
       differ answer < FRAMES > ANSWERS
       differ compare SEED COUNT [DIR] < ANSWERS
SEED is a number, or `heavy`: the heavy requests in turn";

/// The longest frame. A longer file is cut here: it is over the limit still, and its answer is the same.
const FRAME: usize = 70_000;
const _: () = assert!(FRAME > limits::FILE);

fn main() -> ExitCode {
    let words: Vec<String> = std::env::args().skip(1).collect();
    let words: Vec<&str> = words.iter().map(String::as_str).collect();
    match run(&words) {
        Ok(status) => status,
        Err(error) => {
            eprintln!("differ: {error}");
            ExitCode::from(2)
        }
    }
}

fn run(words: &[&str]) -> io::Result<ExitCode> {
    match *words {
        ["frames", seed, count] => write_frames(requests(seed, number(count)?)?),
        ["answer"] => answer(),
        ["compare", seed, count] => compare(requests(seed, number(count)?)?, None),
        ["compare", seed, count, folder] => compare(requests(seed, number(count)?)?, Some(Path::new(folder))),
        _ => Err(io::Error::other(USAGE)),
    }
}

fn number<N: FromStr>(word: &str) -> io::Result<N> {
    word.parse().map_err(|_| io::Error::other(format!("{word} is no number\n{USAGE}")))
}

/// So many requests, the same each time.
fn requests(seed: &str, count: usize) -> io::Result<Box<dyn Iterator<Item = Text>>> {
    Ok(match seed {
        "heavy" => Box::new(heavy::heavy().into_iter().cycle().take(count)),
        _ => Box::new(texts(number(seed)?, count)),
    })
}

/// What a frame holds of a file.
fn framed(file: &[u8]) -> &[u8] {
    &file[..file.len().min(FRAME)]
}

/// The line that a gate prints.
fn line(answer: GateAnswer) -> String {
    format!("{} {} {} {}", answer.answer, answer.place, answer.steps, answer.column)
}

fn write_frames(requests: impl Iterator<Item = Text>) -> io::Result<ExitCode> {
    let mut out = BufWriter::new(io::stdout().lock());
    for text in requests {
        let file = framed(&text.bytes);
        out.write_all(&(file.len() as u32).to_le_bytes())?;
        out.write_all(file)?;
    }
    out.flush()?;
    Ok(ExitCode::SUCCESS)
}

/// Prints this gate's own lines.
fn answer() -> io::Result<ExitCode> {
    let mut frames = BufReader::new(io::stdin().lock());
    let mut out = BufWriter::new(io::stdout().lock());
    while !frames.fill_buf()?.is_empty() {
        let mut length = [0; 4];
        frames.read_exact(&mut length)?;
        let mut file = vec![0; u32::from_le_bytes(length) as usize];
        frames.read_exact(&mut file)?;
        writeln!(out, "{}", line(gate(&file)))?;
    }
    out.flush()?;
    Ok(ExitCode::SUCCESS)
}

/// Holds the lines on standard input to this gate's answers, and keeps in the folder each file whose lines differ.
fn compare(requests: impl Iterator<Item = Text>, folder: Option<&Path>) -> io::Result<ExitCode> {
    let mut lines = io::stdin().lock().split(b'\n');
    let mut out = BufWriter::new(io::stdout().lock());
    let (mut compared, mut missing, mut differ) = (0, 0, 0);
    let mut answers = BTreeMap::new();
    for text in requests {
        let Some(got) = lines.next().transpose()? else {
            missing += 1;
            continue;
        };
        let got = String::from_utf8_lossy(&got);
        let file = framed(&text.bytes);
        let answer = gate(file);
        let want = line(answer);
        compared += 1;
        *answers.entry(answer.answer).or_insert(0) += 1;
        if got != want {
            differ += 1;
            writeln!(out, "{}: wanted {want}, got {got}", text.name)?;
            if let Some(folder) = folder {
                save(folder, &text.name, file)?;
            }
        }
    }
    let extra = lines.count();
    if missing + extra > 0 {
        writeln!(out, "{} lines for {} requests", compared + extra, compared + missing)?;
    }
    let answers: Vec<String> = answers.iter().map(|(answer, times)| format!("{answer} ({times})")).collect();
    writeln!(out, "answers wanted: {}", answers.join(", "))?;
    writeln!(out, "{compared} compared, {differ} differ")?;
    out.flush()?;
    Ok(ExitCode::from(u8::from(differ + missing + extra > 0 || compared == 0)))
}

fn save(folder: &Path, name: &str, file: &[u8]) -> io::Result<()> {
    std::fs::create_dir_all(folder)?;
    std::fs::write(folder.join(format!("{name}.req")), file)
}
