//! What the model of the printing program prints, beside lines worked out by hand from paper 01.

use compare::prints::{input_of, input_of_lines, printed, SPECIMEN};
use compare::tape::Tape;

fn prints(input: &[u8], lines: &str) {
    assert_eq!(String::from_utf8_lossy(&printed(input)), lines);
}

#[test]
fn specimen() {
    let whole = input_of_lines(SPECIMEN);
    let lines =
        "read 0 3\nlower 0 3\n0 3 2 1 0 0 0 0 0 0\n1 0 0 0 0 0 0 0 0 0\n2 0 1 1 1 0 0 0 0 1\nDT\n";
    prints(&whole, lines);
    prints(&[&whole[..], b"more"].concat(), lines);
    prints(&whole[..whole.len() - 1], "short\n");
    assert_eq!(whole[8..31], *b"schemaelementnameDtypeT");
}

#[test]
fn headers() {
    prints(b"", "short\n");
    prints(&[0, 0, 1], "short\n");
    prints(&[0, 0, 1, 0], "short\n");
    prints(&[1, 0, 1, 0], "read 1 0\n");
    prints(&[1, 0, 1, 0, 0, 0, 0], "read 1 0\n");
    prints(&[0, 0, 0, 0, 1, 0x40, 0, 0], "read 1 0\n");
    prints(&[0, 0, 0, 0, 0, 0x40, 0, 0], "short\n");
    prints(&[0; 8], "read 0 0\nlower 12 0\n");
}

#[test]
fn refusals() {
    prints(&input_of_lines("<schema></></>"), "read 6 2\n");
    prints(
        &input_of_lines("<schema><element name=D type=T/><simpleType name=A></>"),
        "read 0 4\nlower 13 3\n",
    );
    let tape = Tape {
        text: b"x".to_vec(),
        marks: [1, 0, 0, 1].repeat(256),
    };
    prints(&input_of(&tape), "read 7 255\n");
}
