//! `tables COUNT SEED`: COUNT calls of the reader and the gate, and COUNT of writer and judge, made of the proved library and
//! of the oracle alike. Every answer, table and output must be the same.

use compare::{narrow, ours, theirs};
use oracle::generate::{loans, tables};
use std::collections::BTreeMap;
use std::fmt::Debug;
use std::process::ExitCode;

#[derive(Default)]
struct Count {
    compared: usize,
    differ: usize,
    answers: BTreeMap<u8, usize>,
}

impl Count {
    fn compare<T: PartialEq + Debug>(&mut self, what: &str, name: &str, answer: u8, got: T, want: T) {
        self.compared += 1;
        *self.answers.entry(answer).or_insert(0) += 1;
        if got != want {
            self.differ += 1;
            println!("{what} {name}: wanted {want:?}, got {got:?}");
        }
    }

    fn report(&self, what: &str) {
        let answers: Vec<String> = self.answers.iter().map(|(answer, times)| format!("{answer} ({times})")).collect();
        println!("{what}: {} compared, {} differ; answers wanted: {}", self.compared, self.differ, answers.join(", "));
    }
}

fn main() -> ExitCode {
    let mut words = std::env::args().skip(1).map(|word| word.parse::<u64>());
    let (Some(Ok(count)), Some(Ok(seed)), None) = (words.next(), words.next(), words.next()) else {
        eprintln!("usage: tables COUNT SEED");
        return ExitCode::from(2);
    };
    let count = count as usize;
    let (mut read, mut gate, mut write, mut judge) = <(Count, Count, Count, Count)>::default();
    for loan in loans(seed, count) {
        let want = theirs::read(&loan);
        read.compare("read", &loan.name, want.answer.refusal, ours::read(&loan), want);
        let want = theirs::gate(&loan.file);
        gate.compare("gate", &loan.name, want.answer, ours::gate(&loan.file), want);
    }
    let mut wide = 0;
    for call in tables(seed, count) {
        let Some(counts) = narrow(&call.counts) else {
            wide += 1;
            continue;
        };
        let want = theirs::write(&call);
        write.compare("write", &call.name, want.answer.refusal, ours::write(&call, counts), want);
        let want = theirs::judge(&call);
        judge.compare("judge", &call.name, want.refusal, ours::judge(&call, counts), want);
    }
    let all = [(&read, "read"), (&gate, "gate"), (&write, "write"), (&judge, "judge")];
    for (counted, what) in all {
        counted.report(what);
    }
    println!("{wide} calls left out: a count past 16 bits, which the library cannot be given");
    let fine = all.iter().all(|(counted, _)| counted.compared > 0 && counted.differ == 0);
    ExitCode::from(u8::from(!fine))
}
