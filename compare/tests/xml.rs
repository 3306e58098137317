//! The model of order 1 gives the numbers and tapes of the readings.

use compare::paper::xml::{judged, tape_of, Judged};
use compare::paper::{answer, Answer};
use compare::texts::specimens::{lent, LINES, TAPES};

fn answer_of(text: &[u8], lent: usize) -> Answer {
    tape_of(text, &vec![7; lent]).0
}

#[test]
fn numbers() {
    for line in LINES {
        for text in line.texts {
            let number = answer_of(text, 100).number;
            let shown = text.escape_ascii();
            assert_eq!(number, line.number, "reading {}: {shown}", line.reading);
        }
    }
}

#[test]
fn tapes() {
    for (text, tape) in TAPES {
        assert_eq!(judged(text), Judged::Tape(tape.to_vec()));
    }
}

#[test]
fn marks_lent() {
    for (text, marks, number) in lent() {
        let given = answer_of(&text, marks).number;
        assert_eq!(given, number, "{marks} marks, {}", text.escape_ascii());
    }
}

#[test]
fn what_is_left() {
    assert_eq!(
        tape_of(b"<a/>", &[7; 6]),
        (answer(0, 4), vec![2, 0, 1, 1, 0, 0])
    );
    assert_eq!(tape_of(b"<a/>", &[7; 3]), (answer(19, 0), vec![0; 3]));
    assert_eq!(tape_of(b"<a>", &[7; 3]), (answer(17, 0), vec![0; 3]));
    assert_eq!(
        tape_of(&[b' '; 65_537], &[7; 3]),
        (answer(1, 0), vec![7; 3])
    );
}
