//! `bench`: the proved library and the oracle, timed over the same inputs in turn, in one run.
//!
//! A sample is as many calls as take about a millisecond. The two sides' samples alternate; the median of each is printed with
//! the least and the most, and the ratio of the medians with the middle half of the ratios, sample by sample.

use compare::narrow;
use oracle::generate::{heavy, Text};
use oracle::{limits, Counts, ReadAnswer, Tables, Way};
use std::hint::black_box;
use std::time::{Duration, Instant};

mod stack;

const SAMPLES: usize = 101;
const SAMPLE: Duration = Duration::from_millis(1);
const SMALL: usize = 200;

/// A request in tables, as the oracle reads it.
struct Request {
    name: String,
    file: Vec<u8>,
    counts: Counts,
    forms: Vec<u16>,
    clauses: Vec<u16>,
    steps: Vec<u16>,
}

impl Request {
    fn of(text: &Text) -> Request {
        let (mut forms, mut clauses, mut steps) = empty();
        let answer: ReadAnswer = oracle::read(&text.bytes, &mut forms, &mut clauses, &mut steps);
        assert_eq!(answer.refusal, 0, "{} is read", text.name);
        let counts = Counts::from(&answer);
        Request { name: text.name.clone(), file: text.bytes.clone(), counts, forms, clauses, steps }
    }

    fn tables(&self) -> Tables<'_> {
        Tables { forms: &self.forms, clauses: &self.clauses, steps: &self.steps }
    }

    fn narrow(&self) -> peraduksi::Counts {
        narrow(&self.counts).expect("the counts were read")
    }
}

fn empty() -> (Vec<u16>, Vec<u16>, Vec<u16>) {
    (vec![0; limits::FORMS_ROOM], vec![0; limits::CLAUSES_ROOM], vec![0; limits::STEPS_ROOM])
}

fn main() {
    let requests: Vec<Request> = heavy::heavy().iter().map(Request::of).collect();
    let small: Vec<Text> = heavy::small(1, SMALL).collect();
    println!("{:52} {:>24} {:>24} {:>20}", "one call", "library", "oracle", "library / oracle");
    let is_read = |request: &&Request| ["longest", "one-head"].iter().any(|name| request.name.contains(name));
    for request in requests.iter().filter(is_read) {
        let bytes = request.file.len();
        bench_read(&format!("read {} ({bytes} bytes)", request.name), request);
        bench_write(&format!("write {} ({bytes} bytes)", request.name), request);
    }
    for request in &requests {
        bench_judge(&format!("judge {} ({} steps)", request.name, request.counts.steps), request, Way::Kept);
    }
    for request in &requests {
        bench_gate(&format!("gate {}", request.name), &[&request.file]);
    }
    let files: Vec<&[u8]> = small.iter().map(|text| &text.bytes[..]).collect();
    bench_gate(&format!("gate, {SMALL} small requests"), &files);
    println!("\nagainst an oracle that closes the facts from nothing at each question");
    let asks = |request: &&Request| {
        ["h-asking-31-worlds-16", "h-many-n", "h-many-b"].iter().any(|name| request.name.starts_with(name))
    };
    for request in requests.iter().filter(asks) {
        bench_judge(&format!("judge {}", request.name), request, Way::Afresh);
    }
    stack::report(&requests[0], &requests[1]);
}

fn bench_read(name: &str, request: &Request) {
    let (mut forms, mut clauses, mut steps) = empty();
    let ours = || _ = black_box(peraduksi::read(black_box(&request.file), &mut forms, &mut clauses, &mut steps));
    let (mut forms, mut clauses, mut steps) = empty();
    let theirs = || _ = black_box(oracle::read(black_box(&request.file), &mut forms, &mut clauses, &mut steps));
    bench(name, ours, theirs);
}

fn bench_write(name: &str, request: &Request) {
    let (mut one, mut other) = (vec![0; limits::FILE], vec![0; limits::FILE]);
    let (tables, counts) = (request.tables(), request.narrow());
    let ours =
        || _ = black_box(peraduksi::write(black_box(counts), tables.forms, tables.clauses, tables.steps, &mut one));
    let theirs = || _ = black_box(oracle::write(black_box(&request.counts), &tables, &mut other));
    bench(name, ours, theirs);
}

fn bench_judge(name: &str, request: &Request, way: Way) {
    let (tables, counts) = (request.tables(), request.narrow());
    let ours = || _ = black_box(peraduksi::judge(black_box(counts), tables.forms, tables.clauses, tables.steps));
    let theirs = || _ = black_box(oracle::judge_by(way, black_box(&request.counts), &tables));
    bench(name, ours, theirs);
}

fn bench_gate(name: &str, files: &[&[u8]]) {
    let ours = || files.iter().for_each(|file| _ = black_box(peraduksi::gate(black_box(file))));
    let theirs = || files.iter().for_each(|file| _ = black_box(oracle::gate(black_box(file))));
    bench(name, ours, theirs);
}

fn bench(name: &str, mut ours: impl FnMut(), mut theirs: impl FnMut()) {
    let (mine, other) = (calls_for(&mut ours), calls_for(&mut theirs));
    let mut times: Vec<[f64; 2]> = (0..SAMPLES).map(|_| [time(mine, &mut ours), time(other, &mut theirs)]).collect();
    let mut ratios: Vec<f64> = times.iter().map(|[mine, other]| mine / other).collect();
    ratios.sort_by(f64::total_cmp);
    let [mine, other] = [0, 1].map(|side| {
        times.sort_by(|a, b| a[side].total_cmp(&b[side]));
        [0, SAMPLES / 2, SAMPLES - 1].map(|at| times[at][side])
    });
    println!(
        "{name:52} {:>24} {:>24} {:>8.2} ({:.2}-{:.2})",
        spread(mine),
        spread(other),
        mine[1] / other[1],
        ratios[SAMPLES / 4],
        ratios[3 * SAMPLES / 4]
    );
}

/// Median, least and most, in microseconds.
fn spread([least, median, most]: [f64; 3]) -> String {
    format!("{median:.2} us ({least:.2}-{most:.2})")
}

/// How many calls take about as long as a sample.
fn calls_for(call: &mut impl FnMut()) -> u32 {
    let mut calls = 1;
    loop {
        let start = Instant::now();
        (0..calls).for_each(|_| call());
        if start.elapsed() >= SAMPLE {
            return calls;
        }
        calls *= 2;
    }
}

/// Microseconds a call.
fn time(calls: u32, call: &mut impl FnMut()) -> f64 {
    let start = Instant::now();
    (0..calls).for_each(|_| call());
    start.elapsed().as_secs_f64() * 1e6 / f64::from(calls)
}
