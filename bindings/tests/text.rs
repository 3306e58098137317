//! The tape of a text through the bindings: what is written, every refusal with its number and words, the limits.

use lubiksan::{limits, tape_of, Event, NoTape, ReadAs, SchemaSheet, Tape};

type Tried = Result<(), Box<dyn std::error::Error>>;

/// The worked example of the readings of order 1: 18 marks.
const WORKED: &str =
    "<?xml version=\"1.0\"?><a>x<!--y--><b c=\"&lt; \"\n d='\"'/><![CDATA[z]]></a>";
const WORKED_MARKS: [u32; 18] = [1, 0, 22, 1, 2, 2, 34, 1, 36, 1, 39, 5, 47, 1, 50, 1, 3, 0];

/// The words of 5.
const BYTE: &str = "a byte above 127 that is of no character up to U+017F";

/// The refusal of a text with this room; every mark is 0 then.
fn refused(text: &[u8], room: usize) -> Option<NoTape> {
    let mut marks = vec![7; room];
    let refusal = tape_of(text, &mut marks).err()?;
    assert!(marks.iter().all(|&mark| mark == 0), "{refusal}");
    Some(refusal)
}

#[test]
fn the_tape_points_into_the_text() -> Tried {
    let mut marks = [7; 20];
    assert_eq!(tape_of(WORKED.as_bytes(), &mut marks)?, 18);
    assert_eq!(
        (&marks[..18], &marks[18..]),
        (&WORKED_MARKS[..], &[0, 0][..])
    );
    let tape = Tape::of_text(WORKED.into())?;
    assert_eq!(
        (tape.text(), tape.marks()),
        (WORKED.as_bytes(), &WORKED_MARKS[..])
    );
    let Some(Event::Empty(tag)) = tape.events().nth(1) else {
        return Err("an empty tag was expected".into());
    };
    let attributes: Vec<(&[u8], &[u8])> = tag.attributes().collect();
    assert_eq!(attributes, [(&b"c"[..], &b"&lt; "[..]), (b"d", b"\"")]);
    assert_eq!(SchemaSheet::cleared(ReadAs::Original).read(&tape)?, 3);
    Ok(())
}

#[test]
fn a_part_of_the_marks_is_read() -> Tried {
    let tape = Tape::of_text(WORKED.into())?;
    let (text, marks) = tape.into_buffers();
    let mut sheet = SchemaSheet::cleared(ReadAs::Original);
    assert_eq!(sheet.read_buffers(&text, &marks[..4])?, 1);
    assert_eq!(sheet.read_buffers(&text, &marks[4..])?, 2);
    assert_eq!((sheet.events_done(), sheet.open_tags()), (3, 0));
    Ok(())
}

#[test]
fn refusals_have_their_number_and_words() {
    let doctype = WORKED.replacen("?>", "?><!DOCTYPE a>", 1);
    let high = WORKED.replacen('y', "\u{180}", 1);
    let tried: [(&str, usize, u32, &str); 6] = [
        (&high, 18, 5, BYTE),
        (
            &WORKED[..WORKED.len() - 1],
            0,
            17,
            "the text is not well-formed XML",
        ),
        (&doctype, 18, 18, "the text has a document type"),
        (
            WORKED,
            17,
            19,
            "the tags of the text take more marks than lent",
        ),
        ("<!DOCTYPE a [\u{180}", 0, 5, BYTE),
        ("<a><a>", 0, 17, "the text is not well-formed XML"),
    ];
    for (text, room, number, words) in tried {
        let refusal = refused(text.as_bytes(), room);
        assert_eq!(
            refusal.map(|refusal| refusal.number()),
            Some(number),
            "{text}"
        );
        let said = refusal.map(|refusal| refusal.to_string());
        assert_eq!(said, Some(format!("{words} (refused with {number})")));
    }
}

#[test]
fn under_one_nothing_is_changed() {
    let mut marks = vec![7; limits::MARKS + 1];
    assert_eq!(tape_of(WORKED.as_bytes(), &mut marks), Err(NoTape::Lengths));
    assert!(marks.iter().all(|&mark| mark == 7));
    let words = "a buffer has a length that is not taken: a text has at most 65536 bytes and 16384 marks (refused with 1)";
    assert_eq!(NoTape::Lengths.to_string(), words);
}

/// A root of this length in bytes.
fn long(length: usize) -> Vec<u8> {
    let mut text = vec![b' '; length];
    text[..2].copy_from_slice(b"<a");
    text[length - 2..].copy_from_slice(b"/>");
    text
}

#[test]
fn the_longest_text_is_taken() {
    let mut marks = vec![7; 4];
    assert_eq!(tape_of(&long(limits::TEXT), &mut marks), Ok(4));
    assert_eq!(marks, [2, 0, 1, 1]);
    let mut marks = vec![7; 4];
    assert_eq!(
        tape_of(&long(limits::TEXT + 1), &mut marks),
        Err(NoTape::Lengths)
    );
    assert_eq!(marks, [7; 4]);
}

#[test]
fn letters_up_to_017f_are_read() -> Tried {
    let text =
        "<\u{e9}l\u{e9}ment \u{df}=\"\u{17f}\u{80}\"><!--\u{d7}-->\u{a0}</\u{e9}l\u{e9}ment>";
    let tape = Tape::of_text(text.into())?;
    let Some(Event::Start(tag)) = tape.events().next() else {
        return Err("a start tag was expected".into());
    };
    assert_eq!(tag.name(), "\u{e9}l\u{e9}ment".as_bytes());
    let attributes: Vec<(&[u8], &[u8])> = tag.attributes().collect();
    assert_eq!(
        attributes,
        [("\u{df}".as_bytes(), "\u{17f}\u{80}".as_bytes())]
    );
    let malformed = ["<\u{d7}/>", "<a\u{f7}/>", "<\u{b7}/>", "<\u{e9}></\u{c9}>"];
    for text in malformed {
        assert_eq!(
            refused(text.as_bytes(), 4),
            Some(NoTape::Malformed),
            "{text}"
        );
    }
    let bytes: [&[u8]; 7] = [
        b"<a>\xc3</a>",
        b"<a>\xa9</a>",
        b"<a/>\xc5",
        b"<a>\xc0\x80</a>",
        b"<a>\xe2\x80\x99</a>",
        b"<a>e\xcc\x81</a>",
        b"\xef\xbb\xbf<a/>",
    ];
    for text in bytes {
        assert_eq!(refused(text, 4), Some(NoTape::Byte));
    }
    Ok(())
}

#[test]
fn a_character_is_cut_at_the_last_byte() {
    // A root, then a comment up to the last byte of the longest text.
    let of = |letters: &str| {
        let filler = " ".repeat(limits::TEXT - 8 - letters.len());
        let mut text = format!("<a/>{filler}<!--").into_bytes();
        text.extend(letters.bytes());
        text
    };
    // Not whole, so 17; with half of a character at the end 5 comes first.
    assert_eq!(refused(&of("\u{e9}"), 4), Some(NoTape::Malformed));
    let mut cut = of("x\u{e9}");
    cut.pop();
    cut.insert(0, b' ');
    assert_eq!(cut.len(), limits::TEXT);
    assert_eq!(refused(&cut, 4), Some(NoTape::Byte));
    cut.push(0xa9);
    let mut marks = [7; 4];
    assert_eq!(tape_of(&cut, &mut marks), Err(NoTape::Lengths));
}

/// A root with so many empty tags in it: 6 marks and 4 for each.
fn many(tags: usize) -> String {
    format!("<r>{}</r>", "<a/>".repeat(tags))
}

#[test]
fn the_most_marks_are_taken() -> Tried {
    let most = (limits::MARKS - 6) / 4;
    let mut marks = vec![7; limits::MARKS];
    let used = tape_of(many(most).as_bytes(), &mut marks)?;
    assert_eq!(used, 6 + 4 * most);
    assert!(marks[used..].iter().all(|&mark| mark == 0));
    assert_eq!(
        SchemaSheet::cleared(ReadAs::Original)
            .read_buffers(many(most).as_bytes(), &marks[..used])?,
        2 + most
    );
    assert_eq!(
        refused(many(most + 1).as_bytes(), limits::MARKS),
        Some(NoTape::ShortMarks)
    );
    assert_eq!(
        Tape::of_text(many(most + 1).into()),
        Err(NoTape::ShortMarks)
    );
    // 2,730 nested tags take 6 marks each, 16,380, and one empty tag the last four.
    let full = format!("{}<a/>{}", "<a>".repeat(2_730), "</a>".repeat(2_730));
    assert_eq!(tape_of(full.as_bytes(), &mut marks), Ok(limits::MARKS));
    Ok(())
}

#[test]
fn marks_that_are_just_enough_are_taken() {
    for text in ["<a/>", "<a></a>", WORKED, &many(100)] {
        let mut marks = vec![7; limits::MARKS];
        let used = tape_of(text.as_bytes(), &mut marks).unwrap_or(0);
        let mut enough = vec![7; used];
        assert_eq!(tape_of(text.as_bytes(), &mut enough), Ok(used));
        assert_eq!(enough, &marks[..used]);
        assert_eq!(refused(text.as_bytes(), used - 1), Some(NoTape::ShortMarks));
    }
}
