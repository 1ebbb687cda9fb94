//! The refusals of writer and judge on tables, and what the writer leaves in its output.

use oracle::generate::document::P1;
use oracle::generate::{self, Call};
use oracle::{judge, limits, read, refusal, write, Answer, Counts, Logic, WriteAnswer};

/// P1 in tables just long enough.
fn p1() -> Call {
    let mut call = Call {
        name: "p1".into(),
        counts: Counts::default(),
        forms: vec![0; limits::FORMS_ROOM],
        clauses: vec![0; limits::CLAUSES_ROOM],
        steps: vec![0; limits::STEPS_ROOM],
        output: P1.len(),
    };
    let answer = read(P1.as_bytes(), &mut call.forms, &mut call.clauses, &mut call.steps);
    call.counts = Counts::from(&answer);
    call
}

fn write_call(call: &Call) -> (WriteAnswer, Vec<u8>) {
    let mut out = vec![0xaa; call.output];
    (write(&call.counts, &call.tables(), &mut out), out)
}

/// Writer and judge both refuse P1 so changed, and nothing is written.
fn refuses(refusal: u8, place: usize, change: impl Fn(&mut Call)) {
    let mut call = p1();
    change(&mut call);
    let (answer, out) = write_call(&call);
    assert_eq!(answer, WriteAnswer { refusal, place, length: 0 });
    assert!(out.iter().all(|&byte| byte == 0));
    assert_eq!(judge(&call.counts, &call.tables()), Answer { refusal, place });
}

#[test]
fn p1_is_written_and_followed_by_zeros() {
    for longer in [0, 1, 1_000] {
        let mut call = p1();
        call.output += longer;
        let (answer, out) = write_call(&call);
        assert_eq!(answer, WriteAnswer { refusal: 0, place: 0, length: P1.len() });
        assert_eq!(&out[..P1.len()], P1.as_bytes());
        assert!(out[P1.len()..].iter().all(|&byte| byte == 0));
        assert_eq!(judge(&call.counts, &call.tables()), Answer::default());
    }
}

#[test]
fn an_output_too_short_is_14_and_no_matter_to_the_judge() {
    for output in [0, 1, P1.len() - 1] {
        let call = Call { output, ..p1() };
        let (answer, out) = write_call(&call);
        assert_eq!(answer, WriteAnswer { refusal: refusal::OUTPUT_TOO_SHORT, place: 0, length: 0 });
        assert!(out.iter().all(|&byte| byte == 0));
        assert_eq!(judge(&call.counts, &call.tables()), Answer::default());
    }
}

#[test]
fn tables_too_short_come_first() {
    refuses(13, 0, |call| call.forms.truncate(limits::FORMS_ROOM - 1));
    refuses(13, 0, |call| call.clauses.truncate(limits::CLAUSES_ROOM - 1));
    refuses(13, 0, |call| call.steps.truncate(limits::STEPS_ROOM - 1));
    refuses(13, 0, |call| {
        call.steps.clear();
        call.counts.principals = 0;
        call.output = 0;
    });
}

#[test]
fn counts_are_refused_at_their_lines() {
    for far in [65_535, 1 << 16, 1 << 32, usize::MAX] {
        refuses(3, 2, |call| call.counts.principals = far);
        refuses(3, 3, |call| call.counts.atoms = far);
        refuses(3, 4, |call| call.counts.formulas = far);
        refuses(3, 10, |call| call.counts.lines = far);
        refuses(3, 14, |call| call.counts.goal = far);
        refuses(3, 15, |call| call.counts.steps = far);
    }
    refuses(3, 2, |call| call.counts.principals = 0);
    refuses(3, 2, |call| call.counts.principals = 17);
    refuses(3, 3, |call| call.counts.atoms = 0);
    refuses(3, 3, |call| call.counts.atoms = 257);
    refuses(3, 4, |call| call.counts.formulas = 0);
    refuses(3, 4, |call| call.counts.formulas = 1_025);
    refuses(3, 10, |call| call.counts.lines = 129);
    refuses(3, 14, |call| call.counts.goal = 5);
    refuses(3, 15, |call| call.counts.steps = 0);
    refuses(3, 15, |call| call.counts.steps = 2_049);
}

#[test]
fn entries_are_refused_at_their_lines() {
    refuses(3, 5, |call| call.forms[0] = 8);
    refuses(3, 5, |call| call.forms[1] = 1);
    refuses(3, 5, |call| call.forms[2] = 1);
    refuses(3, 5, |call| call.forms[..3].copy_from_slice(&[1, 1, 0]));
    refuses(3, 6, |call| call.forms[4] = 2);
    refuses(4, 6, |call| call.forms[5] = 1);
    refuses(3, 6, |call| call.forms[4..6].copy_from_slice(&[9, 9]));
    refuses(4, 7, |call| call.forms[7] = 2);
    refuses(3, 8, |call| call.forms[11] = 2);
    refuses(3, 11, |call| call.clauses[0] = 5);
    refuses(5, 12, |call| call.forms[9..12].copy_from_slice(&[2, 0, 0]));
    refuses(3, 16, |call| call.steps[0] = 18);
    refuses(3, 18, |call| call.steps[5] = 1);
}

/// P1 in version 2, with this logic.
fn told(call: &mut Call, logic: Logic) {
    call.counts.version = 2;
    call.counts.logic = logic;
    call.output += "logic=plain\n".len();
}

#[test]
fn version_and_logic_are_written_as_told() {
    for (logic, line) in [(Logic::Plain, "logic=plain\n"), (Logic::Unit, "logic=unit\n")] {
        let mut call = p1();
        told(&mut call, logic);
        let text = P1.replacen("version=1\n", &format!("version=2\n{line}"), 1);
        let (answer, out) = write_call(&call);
        assert_eq!(answer, WriteAnswer { refusal: 0, place: 0, length: text.len() });
        assert_eq!(&out[..text.len()], text.as_bytes());
        assert_eq!(judge(&call.counts, &call.tables()), Answer::default());
        let read_back = read(text.as_bytes(), &mut call.forms, &mut call.clauses, &mut call.steps);
        assert_eq!(Counts::from(&read_back), call.counts);
        // 14 counts the longer text.
        call.output = text.len() - 1;
        assert_eq!(write_call(&call).0, WriteAnswer { refusal: refusal::OUTPUT_TOO_SHORT, place: 0, length: 0 });
    }
}

#[test]
fn unit_told_with_version_1_comes_after_13_and_before_every_line() {
    refuses(16, 0, |call| call.counts.logic = Logic::Unit);
    refuses(16, 0, |call| {
        call.counts = Counts { version: 1, logic: Logic::Unit, ..Counts::default() };
        call.forms[3_000] = 1;
        call.output = 0;
    });
    refuses(13, 0, |call| {
        call.counts.logic = Logic::Unit;
        call.steps.clear();
    });
}

#[test]
fn a_version_that_is_not_there_is_3_at_line_1_with_either_logic() {
    for version in [0, 3, 65_535, 65_537, 65_538, usize::MAX] {
        for logic in [Logic::Plain, Logic::Unit] {
            refuses(3, 1, |call| call.counts = Counts { version, logic, ..Counts::default() });
        }
    }
}

#[test]
fn lines_of_version_2_are_one_higher() {
    for logic in [Logic::Plain, Logic::Unit] {
        let refuses = |refusal: u8, place: usize, change: &dyn Fn(&mut Call)| {
            refuses(refusal, place, |call| {
                told(call, logic);
                change(call);
            })
        };
        refuses(3, 3, &|call| call.counts.principals = 0);
        refuses(3, 4, &|call| call.counts.atoms = 257);
        refuses(3, 5, &|call| call.counts.formulas = 0);
        refuses(3, 6, &|call| call.forms[0] = 8);
        refuses(4, 7, &|call| call.forms[5] = 1);
        refuses(15, 7, &|call| call.forms.copy_within(0..3, 3));
        refuses(3, 11, &|call| call.counts.lines = 129);
        refuses(3, 12, &|call| call.clauses[0] = 5);
        refuses(5, 13, &|call| call.forms[9..12].copy_from_slice(&[2, 0, 0]));
        refuses(3, 15, &|call| call.counts.goal = 5);
        refuses(3, 16, &|call| call.counts.steps = 0);
        refuses(3, 17, &|call| call.steps[0] = 18);
        refuses(3, 0, &|call| call.forms[3_000] = 1);
        refuses(13, 0, &|call| call.forms.clear());
    }
}

#[test]
fn a_formula_that_stands_twice_is_refused_at_the_second() {
    let again = |call: &mut Call, from: usize, to: usize| call.forms.copy_within(3 * from..3 * from + 3, 3 * to);
    refuses(15, 6, |call| again(call, 0, 1));
    refuses(15, 9, |call| again(call, 0, 4));
    refuses(15, 9, |call| again(call, 1, 4));
    // After 3 and 4 of earlier lines, before anything later: 3 and 4, a class, an entry past the counts, the output.
    refuses(3, 5, |call| {
        call.forms[1] = 1;
        again(call, 1, 2);
    });
    refuses(4, 6, |call| {
        call.forms[5] = 1;
        again(call, 0, 2);
    });
    refuses(15, 7, |call| {
        again(call, 1, 2);
        call.forms[9] = 8;
        call.clauses[0] = 9;
        call.counts.goal = 9;
        call.steps[0] = 18;
        call.forms[3_000] = 1;
        call.output = 0;
    });
    // An unused operand that is not 0 is 3 before it could make a difference.
    refuses(3, 6, |call| call.forms[3..6].copy_from_slice(&[0, 0, 1]));
    // A copy behind the count is an entry past the counts.
    refuses(3, 0, |call| again(call, 1, 5));
    // Policy lines and the goal may repeat a number.
    let mut call = p1();
    call.clauses[..3].copy_from_slice(&[2, 2, 2]);
    assert_eq!(judge(&call.counts, &call.tables()), Answer { refusal: 9, place: 6 });
}

#[test]
fn a_goal_of_no_class_is_refused_at_its_line() {
    // `says 0 bot` is no chunk, so an `imp` from it is no goal.
    refuses(5, 14 + 3, |call| {
        call.forms[15..24].copy_from_slice(&[2, 0, 0, 6, 0, 5, 5, 6, 0]);
        call.counts.formulas = 8;
        call.counts.goal = 7;
    });
}

#[test]
fn entries_past_the_counts_come_after_all_lines() {
    for at in [15, limits::FORMS_ROOM - 1] {
        refuses(3, 0, |call| call.forms[at] = 1);
    }
    for at in [3, limits::CLAUSES_ROOM - 1] {
        refuses(3, 0, |call| call.clauses[at] = 1);
    }
    for at in [14, 15, limits::STEPS_ROOM - 1] {
        refuses(3, 0, |call| call.steps[at] = 1);
    }
    refuses(3, 0, |call| call.clauses.push(1));
    refuses(3, 0, |call| {
        call.forms.push(1);
        call.output = 0;
    });
    refuses(3, 18, |call| {
        call.forms.push(1);
        call.steps[5] = 1;
    });
}

#[test]
fn a_tail_comes_before_any_answer_about_a_step() {
    refuses(3, 0, |call| {
        call.steps[0] = 0;
        call.clauses[127] = 1;
    });
    let mut call = p1();
    call.steps[0] = 0;
    assert_eq!(judge(&call.counts, &call.tables()), Answer { refusal: 7, place: 1 });
}

#[test]
fn writer_and_judge_refuse_the_same_tables() {
    let mut met = [0; 17];
    for call in generate::tables(21, 6_000) {
        let (written, out) = write_call(&call);
        let judged = judge(&call.counts, &call.tables());
        met[usize::from(written.refusal)] += 1;
        if matches!(written.refusal, refusal::NONE | refusal::OUTPUT_TOO_SHORT) {
            assert!(matches!(judged.refusal, 0 | 7..=12), "{}", call.name);
        } else {
            assert_eq!(judged, Answer { refusal: written.refusal, place: written.place }, "{}", call.name);
        }
        assert_eq!(written.length == 0, written.refusal != refusal::NONE, "{}", call.name);
        assert!(out[written.length..].iter().all(|&byte| byte == 0), "{}", call.name);
    }
    assert!([0, 3, 4, 5, 13, 14, 15, 16].iter().all(|&refusal: &usize| met[refusal] > 20), "{met:?}");
}
