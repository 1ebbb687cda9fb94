//! Each call once where it grants and once where it refuses, and what it leaves behind.

use peraduksi::{gate, judge, read, write, Counts, Logic, Reason, Refusal, Version};
use peraduksi::{FORMS_ROOM, POLICY_ROOM, STACK, STEPS_ROOM};

const GRANTED: &[u8] = include_bytes!("../../examples/granted.req");
const REFUSED: &[u8] = include_bytes!("../../examples/refused.req");
const UNIT: &[u8] = include_bytes!("../../examples/unit.req");
const PLAIN: &[u8] = include_bytes!("../../examples/plain.req");

struct Tables {
    forms: Vec<u16>,
    policy: Vec<u16>,
    steps: Vec<u16>,
}

/// Tables that hold something before the call.
fn lent() -> Tables {
    Tables { forms: vec![7; FORMS_ROOM], policy: vec![7; POLICY_ROOM], steps: vec![7; STEPS_ROOM] }
}

fn read_into(tables: &mut Tables, file: &[u8]) -> Result<Counts, Refusal> {
    read(file, &mut tables.forms, &mut tables.policy, &mut tables.steps)
}

#[test]
fn reads_judges_and_writes_back() {
    let mut t = lent();
    let counts = read_into(&mut t, GRANTED).expect("it reads");
    let told = Counts { version: Version::ONE, logic: Logic::Plain, ..Counts::default() };
    assert_eq!(counts, Counts { principals: 2, atoms: 1, formulas: 5, policy: 3, goal: 0, steps: 7, ..told });
    assert_eq!(t.policy[..5], [2, 3, 4, 0, 0]);
    assert_eq!(judge(counts, &t.forms, &t.policy, &t.steps), Ok(()));
    let mut out = vec![7; GRANTED.len() + 2];
    assert_eq!(write(counts, &t.forms, &t.policy, &t.steps, &mut out), Ok(GRANTED.len()));
    assert_eq!(out, [GRANTED, &[0, 0]].concat());
    assert_eq!(gate(GRANTED).answer, 0);
}

#[test]
fn a_refused_step_has_its_place() {
    let mut t = lent();
    let counts = read_into(&mut t, REFUSED).expect("it reads");
    let refusal = judge(counts, &t.forms, &t.policy, &t.steps).unwrap_err();
    assert_eq!(refusal, Refusal { reason: Reason::FactAbsent, place: 6, column: 0 });
    assert_eq!(refusal.to_string(), "refused with 9 at 6: needed fact absent, or another atom");
}

#[test]
fn a_refused_reading_leaves_zeros() {
    let mut t = lent();
    let cut = &GRANTED[..GRANTED.len() - 1];
    assert_eq!(read_into(&mut t, cut), Err(Refusal { reason: Reason::OutOfShape, place: 22, column: 9 }));
    assert!([&t.forms, &t.policy, &t.steps].iter().all(|table| table.iter().all(|&entry| entry == 0)));
}

#[test]
fn version_2_says_its_logic() {
    let mut t = lent();
    for (file, logic, answer) in [(UNIT, Logic::Unit, 0), (PLAIN, Logic::Plain, 9)] {
        let mut counts = read_into(&mut t, file).expect("it reads");
        assert_eq!((counts.version, counts.logic), (Version::TWO, logic));
        assert_eq!(gate(file).answer, answer);
        let judged = judge(counts, &t.forms, &t.policy, &t.steps).map_or_else(Refusal::number, |()| 0);
        assert_eq!(judged, answer);
        let mut out = vec![7; file.len()];
        assert_eq!(write(counts, &t.forms, &t.policy, &t.steps, &mut out), Ok(file.len()));
        assert_eq!(out, file);
        // Version 1 has plain alone.
        counts.version = Version::ONE;
        let wanted = Refusal { reason: Reason::UnitInVersion1, place: 0, column: 0 };
        let refused = write(counts, &t.forms, &t.policy, &t.steps, &mut out).err();
        assert_eq!(refused, (logic == Logic::Unit).then_some(wanted));
        counts.version = Version(3);
        let wanted = Refusal { reason: Reason::OutOfRange, place: 1, column: 0 };
        assert_eq!(judge(counts, &t.forms, &t.policy, &t.steps), Err(wanted));
    }
}

#[test]
fn a_line_out_of_shape_has_its_column() {
    let file = b"version=1\nprincipals=2\natoms=01\n";
    let refusal = read_into(&mut lent(), file).unwrap_err();
    assert_eq!(refusal, Refusal { reason: Reason::OutOfShape, place: 3, column: 8 });
    assert_eq!(refusal.to_string(), "refused with 2 at 3, column 8: line missing, out of shape, or without LF");
}

#[test]
fn short_tables_and_short_outputs() {
    let mut t = lent();
    let counts = read_into(&mut t, GRANTED).expect("it reads");
    let mut out = vec![7; GRANTED.len() - 1];
    let short = write(counts, &t.forms, &t.policy, &t.steps, &mut out);
    assert_eq!(short, Err(Refusal { reason: Reason::OutputTooShort, place: 0, column: 0 }));
    assert!(out.iter().all(|&byte| byte == 0));
    let none = judge(counts, &[], &t.policy, &t.steps);
    assert_eq!(none, Err(Refusal { reason: Reason::TableTooShort, place: 0, column: 0 }));
}

/// What a thread of `std` itself has on its stack beside the call.
const AROUND: usize = 16 * 1_024;

#[test]
fn the_stack_that_is_named_is_enough() {
    let mut t = lent();
    let mut out = vec![7; GRANTED.len()];
    let calls = || {
        let counts = read_into(&mut t, GRANTED).expect("it reads");
        let written = write(counts, &t.forms, &t.policy, &t.steps, &mut out);
        (judge(counts, &t.forms, &t.policy, &t.steps), written, gate(GRANTED).answer, gate(REFUSED).answer)
    };
    let got = std::thread::scope(|scope| {
        let thread = std::thread::Builder::new().stack_size(STACK + AROUND);
        thread.spawn_scoped(scope, calls).expect("a thread").join().expect("an end")
    });
    assert_eq!(got, (Ok(()), Ok(GRANTED.len()), 0, 9));
}
