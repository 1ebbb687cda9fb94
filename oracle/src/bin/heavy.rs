//! `heavy DIR` writes the worst legal requests to a folder, with answers.txt; `heavy` alone times the gate on them.

use oracle::generate::{heavy, Text};
use oracle::{gate, gate_by, Way};
use std::path::Path;
use std::time::{Duration, Instant};

const SMALL: usize = 2_000;

fn main() -> std::io::Result<()> {
    match std::env::args().nth(1) {
        Some(folder) => write_all(Path::new(&folder)),
        None => {
            time_all();
            Ok(())
        }
    }
}

fn write_all(folder: &Path) -> std::io::Result<()> {
    std::fs::create_dir_all(folder)?;
    let mut answers = String::new();
    for text in heavy::heavy().into_iter().chain(heavy::small(1, SMALL)) {
        let answer = gate(&text.bytes);
        answers +=
            &format!("{}.req {} {} {} {}\n", text.name, answer.answer, answer.place, answer.steps, answer.column);
        std::fs::write(folder.join(format!("{}.req", text.name)), text.bytes)?;
    }
    std::fs::write(folder.join("answers.txt"), answers)
}

fn time_all() {
    println!("{:42} {:>7} {:>6} {:>12} {:>12}", "request", "bytes", "steps", "kept", "afresh");
    for text in heavy::heavy() {
        let steps = gate(&text.bytes).steps;
        let times = [Way::Kept, Way::Afresh].map(|way| time_one(way, &text));
        println!("{:42} {:7} {:6} {:>12.1?} {:>12.1?}", text.name, text.bytes.len(), steps, times[0], times[1]);
    }
    let small: Vec<Text> = heavy::small(1, SMALL).collect();
    let bytes: usize = small.iter().map(|text| text.bytes.len()).sum();
    let times = [Way::Kept, Way::Afresh].map(|way| {
        let start = Instant::now();
        small.iter().for_each(|text| _ = std::hint::black_box(gate_by(way, &text.bytes)));
        start.elapsed()
    });
    println!("{:42} {bytes:7} {:>6} {:>12.1?} {:>12.1?}", format!("{SMALL} small requests"), "", times[0], times[1]);
}

/// The least of a few runs.
fn time_one(way: Way, text: &Text) -> Duration {
    let run = |_| {
        let start = Instant::now();
        std::hint::black_box(gate_by(way, &text.bytes));
        start.elapsed()
    };
    (0..5).map(run).min().unwrap_or_default()
}
