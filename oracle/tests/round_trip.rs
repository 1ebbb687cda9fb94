//! What reads is written back the same, and what is written reads back the same.

use oracle::generate;
use oracle::{gate, judge, limits, read, refusal, write, Counts, GateAnswer, Tables};

#[test]
fn a_text_that_reads_is_written_back() {
    let (mut forms, mut clauses, mut steps) =
        (vec![0; limits::FORMS_ROOM], vec![0; limits::CLAUSES_ROOM], vec![0; limits::STEPS_ROOM]);
    let mut read_well = 0;
    for text in generate::texts(31, 12_000).chain(generate::heavy::heavy()) {
        let answer = read(&text.bytes, &mut forms, &mut clauses, &mut steps);
        if answer.refusal != refusal::NONE {
            continue;
        }
        read_well += 1;
        let tables = Tables { forms: &forms, clauses: &clauses, steps: &steps };
        let mut out = vec![1; text.bytes.len()];
        let written = write(&Counts::from(&answer), &tables, &mut out);
        assert_eq!((written.refusal, written.place, written.length), (0, 0, text.bytes.len()), "{}", text.name);
        assert_eq!(out, text.bytes, "{}", text.name);
    }
    assert!(read_well > 5_000, "{read_well}");
}

#[test]
fn tables_that_are_written_read_back() {
    let mut written_well = 0;
    for call in generate::tables(32, 4_000) {
        let mut out = vec![1; call.output];
        let written = write(&call.counts, &call.tables(), &mut out);
        if written.refusal != refusal::NONE {
            continue;
        }
        written_well += 1;
        let text = &out[..written.length];
        let (mut forms, mut clauses, mut steps) =
            (vec![9; call.forms.len()], vec![9; call.clauses.len()], vec![9; call.steps.len()]);
        let answer = read(text, &mut forms, &mut clauses, &mut steps);
        assert_eq!(Counts::from(&answer), call.counts, "{}", call.name);
        assert_eq!((&forms, &clauses, &steps), (&call.forms, &call.clauses, &call.steps), "{}", call.name);
        let judged = judge(&call.counts, &call.tables());
        let want = GateAnswer { answer: judged.refusal, place: judged.place, steps: call.counts.steps, column: 0 };
        assert_eq!(gate(text), want, "{}", call.name);
    }
    assert!(written_well > 1_000, "{written_well}");
}
