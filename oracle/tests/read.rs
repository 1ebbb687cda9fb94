//! What the reader leaves in lent tables.

use oracle::generate::document::P1;
use oracle::generate::{self, Loan};
use oracle::{limits, read, refusal, ReadAnswer};

fn lend(file: &[u8], fill: u16, lengths: [usize; 3]) -> (ReadAnswer, [Vec<u16>; 3]) {
    let [mut forms, mut clauses, mut steps] = lengths.map(|length| vec![fill; length]);
    let answer = read(file, &mut forms, &mut clauses, &mut steps);
    (answer, [forms, clauses, steps])
}

const ROOM: [usize; 3] = [limits::FORMS_ROOM, limits::CLAUSES_ROOM, limits::STEPS_ROOM];

fn is_zero(tables: &[Vec<u16>; 3]) -> bool {
    tables.iter().flatten().all(|&entry| entry == 0)
}

fn refused(refusal: u8, place: usize) -> ReadAnswer {
    ReadAnswer { refusal, place, ..ReadAnswer::default() }
}

#[test]
fn p1_is_read_into_zeroed_tables() {
    for longer in [0, 1, 50] {
        let (answer, [forms, clauses, steps]) = lend(P1.as_bytes(), 0xffff, ROOM.map(|room| room + longer));
        let want = ReadAnswer {
            version: 1,
            principals: 2,
            atoms: 1,
            formulas: 5,
            lines: 3,
            steps: 7,
            ..ReadAnswer::default()
        };
        assert_eq!(answer, want);
        assert_eq!(forms[..15], [0, 0, 0, 6, 0, 0, 5, 1, 0, 7, 1, 0, 6, 1, 0]);
        assert_eq!(clauses[..3], [2, 3, 4]);
        assert_eq!(steps[..14], [7, 0, 10, 0, 11, 0, 4, 0, 7, 2, 10, 1, 11, 0]);
        assert!(forms[15..].iter().chain(&clauses[3..]).chain(&steps[14..]).all(|&entry| entry == 0));
    }
}

#[test]
fn a_table_too_short_comes_before_a_file_too_long() {
    for (short, room) in ROOM.into_iter().enumerate() {
        for length in [0, 1, room - 1] {
            let mut lengths = ROOM;
            lengths[short] = length;
            for file in [P1.as_bytes(), &[b'v'; 65_537], b""] {
                let (answer, tables) = lend(file, 7, lengths);
                assert_eq!(answer, refused(refusal::TABLE_TOO_SHORT, 0));
                assert!(is_zero(&tables));
            }
        }
    }
    let (answer, tables) = lend(&[b'v'; 65_537], 7, ROOM);
    assert_eq!(answer, refused(refusal::FILE_TOO_LONG, 0));
    assert!(is_zero(&tables));
}

#[test]
fn a_late_refusal_leaves_nothing_behind() {
    for file in [format!("{P1}end"), P1.replace("step=hit", "step=hits"), P1.replace("goal=0", "goal=9")] {
        let (answer, tables) = lend(file.as_bytes(), 7, ROOM);
        assert!(answer.refusal != refusal::NONE && answer.place > 13);
        assert!(is_zero(&tables));
    }
}

#[test]
fn every_loan_comes_back_as_promised() {
    for Loan { name, file, forms, clauses, steps } in generate::loans(11, 4_000) {
        let mut tables = [forms, clauses, steps];
        let short = tables.iter().zip(ROOM).any(|(table, room)| table.len() < room);
        let [forms, clauses, steps] = &mut tables;
        let answer = read(&file, forms, clauses, steps);
        assert_eq!(short, answer.refusal == refusal::TABLE_TOO_SHORT, "{name}");
        if answer.refusal != refusal::NONE {
            let column = answer.column;
            assert_eq!(answer, ReadAnswer { column, ..refused(answer.refusal, answer.place) }, "{name}");
            assert_eq!(column > 0, answer.refusal == refusal::OUT_OF_SHAPE, "{name}");
            assert!(column <= 22, "{name}");
            assert!(is_zero(&tables), "{name}");
            continue;
        }
        assert_eq!(answer.place, 0, "{name}");
        let past = [3 * answer.formulas, answer.lines, 2 * answer.steps];
        for (table, past) in tables.iter().zip(past) {
            assert!(table[past..].iter().all(|&entry| entry == 0), "{name}");
        }
    }
}
