//! The numbers of the header that no constant of the library names, columns, kinds and choices, tried on the calls: what
//! stands under each is worked out by hand from paper 01.

use lubiksan_sys::*;

/// A schema sheet and a graph sheet of small size.
struct Sheets {
    rows: Vec<u32>,
    names: Vec<u8>,
    graph_rows: Vec<u32>,
    graph_names: Vec<u8>,
}

const ROWS: usize = 40;

impl Sheets {
    /// The sheets after this text was read, with a choice.
    fn of(text: &str, choice: u32) -> Sheets {
        let mut sheets = Sheets {
            rows: vec![9; ROWS * LUBIKSAN_ROW],
            names: vec![9; 400],
            graph_rows: vec![9; ROWS * LUBIKSAN_ROW],
            graph_names: vec![9; 400],
        };
        let mut place = 77;
        // SAFETY: each address and its length are those of one vector; all are lent for the call.
        let number = unsafe {
            lubiksan_clear(
                sheets.rows.as_mut_ptr(),
                sheets.rows.len(),
                sheets.names.as_mut_ptr(),
                sheets.names.len(),
                choice,
                &mut place,
            )
        };
        assert_eq!((number, place), (LUBIKSAN_ACCEPTED, 0));
        sheets.read(text);
        sheets
    }

    fn read(&mut self, text: &str) {
        let (text, marks) = tape(text);
        let mut place = 77;
        // SAFETY: each address and its length are those of one vector; all are lent for the call.
        let number = unsafe {
            lubiksan_read(
                self.rows.as_mut_ptr(),
                self.rows.len(),
                self.names.as_mut_ptr(),
                self.names.len(),
                text.as_ptr(),
                text.len(),
                marks.as_ptr(),
                marks.len(),
                &mut place,
            )
        };
        assert_eq!(number, LUBIKSAN_ACCEPTED);
    }

    /// The rows used after a lowering.
    fn lower(&mut self) -> usize {
        let mut scratch = [9; LUBIKSAN_SCRATCH_MIN];
        let mut place = 77;
        // SAFETY: each address and its length are those of one vector; all are lent for the call.
        let number = unsafe {
            lubiksan_lower(
                self.rows.as_ptr(),
                self.rows.len(),
                self.names.as_ptr(),
                self.names.len(),
                self.graph_rows.as_mut_ptr(),
                self.graph_rows.len(),
                self.graph_names.as_mut_ptr(),
                self.graph_names.len(),
                scratch.as_mut_ptr(),
                scratch.len(),
                &mut place,
            )
        };
        assert_eq!(number, LUBIKSAN_ACCEPTED);
        place
    }

    fn schema(&self, row: usize, column: usize) -> u32 {
        self.rows[LUBIKSAN_ROW * row + column]
    }

    fn graph(&self, row: usize, column: usize) -> u32 {
        self.graph_rows[LUBIKSAN_ROW * row + column]
    }

    /// The text of the pair whose offset stands in the column.
    fn graph_text(&self, row: usize, column: usize) -> &[u8] {
        let from = self.graph(row, column) as usize;
        let length = self.graph(row, column + 1) as usize;
        &self.graph_names[from..from + length]
    }

    /// The first row of the graph with this tag.
    fn first(&self, used: usize, tag: u32) -> usize {
        let found = (1..used).find(|&row| self.graph(row, LUBIKSAN_TAG_AT) == tag);
        found.expect("the graph has such a row")
    }

    /// The label of a row by both calls: its number, where it lies, where it starts and its length.
    fn label(&self, row: usize, words: &[u8]) -> (u32, u32, usize, usize) {
        let (mut in_words, mut start, mut length) = (77, 77, 77);
        // SAFETY: each address and its length are those of one slice; all are lent for the call.
        let (number, alone) = unsafe {
            let number = lubiksan_label(
                self.graph_rows.as_ptr(),
                self.graph_rows.len(),
                self.graph_names.as_ptr(),
                self.graph_names.len(),
                words.as_ptr(),
                words.len(),
                row,
                &mut in_words,
                &mut start,
                &mut length,
            );
            let alone = lubiksan_label_number(
                self.graph_rows.as_ptr(),
                self.graph_rows.len(),
                self.graph_names.as_ptr(),
                self.graph_names.len(),
                words.as_ptr(),
                words.len(),
                row,
            );
            (number, alone)
        };
        assert_eq!(number, alone, "row {row}");
        (number, in_words, start, length)
    }
}

/// `<a b="c">`, `<a/>` and `</a>`, one after the other, as a tape: not every list of them is a whole document.
fn tape(text: &str) -> (Vec<u8>, Vec<u32>) {
    let mut marks = Vec::new();
    let mut at = 0;
    for tag in text.split_inclusive('>') {
        let inside = &tag[1..tag.len() - 1];
        match inside.strip_prefix('/') {
            Some(_) => marks.extend([LUBIKSAN_END, 0]),
            None => marks.extend(start(inside, at + 1)),
        }
        at += tag.len();
    }
    (text.as_bytes().to_vec(), marks)
}

/// The record of a start or empty tag whose inside stands at `at`.
fn start(inside: &str, at: usize) -> Vec<u32> {
    let (kind, inside) = match inside.strip_suffix('/') {
        Some(inside) => (LUBIKSAN_EMPTY, inside),
        None => (LUBIKSAN_START, inside),
    };
    let mut pairs = Vec::new();
    let mut from = at;
    for (index, part) in inside.split(' ').enumerate() {
        match part.split_once('=') {
            None => pairs.extend([from, part.len()]),
            Some((key, value)) => {
                pairs.extend([from, key.len(), from + key.len() + 2, value.len() - 2]);
            }
        }
        assert_eq!(index > 0, part.contains('='));
        from += part.len() + 1;
    }
    let count = (pairs.len() / 2 - 1) / 2;
    let numbers = pairs.into_iter().map(|number| number as u32);
    [kind, count as u32].into_iter().chain(numbers).collect()
}

#[test]
fn the_numbers_of_row_0() {
    let text = "<schema><element name='Doc' type='T'/><complexType name='Type'><simpleContent><extension base='xs:string'><x><y>";
    let sheets = Sheets::of(text, LUBIKSAN_BY_STANDARD);
    let at = |column| sheets.schema(0, column);
    // Row 0, the namespace, the element and the type; "Doc", "T", "Type" and "xs:string".
    assert_eq!(at(LUBIKSAN_ROWS_USED_AT), 4);
    assert_eq!(at(LUBIKSAN_NAMES_USED_AT), 17);
    assert_eq!(at(LUBIKSAN_CONTEXT_AT), LUBIKSAN_IN_COMPLEX_TYPE);
    // Seven events, of which one is an empty tag; all below the type nest in it.
    assert_eq!(at(LUBIKSAN_EVENTS_DONE_AT), 7);
    assert_eq!(at(LUBIKSAN_OPEN_TAGS_AT), 6);
    assert_eq!(at(LUBIKSAN_NESTING_AT), 4);
    assert_eq!(at(LUBIKSAN_ROOT_SEEN_AT), 1);
    assert_eq!(at(LUBIKSAN_EXTENSION_AT), 1);
    assert_eq!(at(LUBIKSAN_CHOICE_AT), LUBIKSAN_BY_STANDARD);
    let sheets = Sheets::of("<schema><simpleType name='S'>", LUBIKSAN_AS_ORIGINAL);
    let at = |column| sheets.schema(0, column);
    assert_eq!(at(LUBIKSAN_CONTEXT_AT), LUBIKSAN_IN_SIMPLE_TYPE);
    assert_eq!(
        (at(LUBIKSAN_ROOT_SEEN_AT), at(LUBIKSAN_EXTENSION_AT)),
        (1, 0)
    );
    assert_eq!(at(LUBIKSAN_CHOICE_AT), LUBIKSAN_AS_ORIGINAL);
    // One finished type without a base, and an open one.
    let red = "<schema><simpleType name='S'><a/></simpleType><simpleType name='T'>";
    let sheets = Sheets::of(red, LUBIKSAN_BY_STANDARD);
    assert_eq!(sheets.schema(0, LUBIKSAN_REFUSED_TYPES_AT), 1);
    let none = Sheets::of("<a>", LUBIKSAN_BY_STANDARD);
    assert_eq!(none.schema(0, LUBIKSAN_CONTEXT_AT), LUBIKSAN_OUTSIDE);
    assert_eq!(none.schema(0, LUBIKSAN_ROOT_SEEN_AT), 0);
    assert_eq!(none.schema(0, LUBIKSAN_CHOICE_AT), LUBIKSAN_BY_STANDARD);
}

#[test]
fn the_choices() {
    let text = "<schema><annotation></annotation><element name='D' type='T'/></schema>";
    for (choice, kept) in [(LUBIKSAN_AS_ORIGINAL, 0), (LUBIKSAN_BY_STANDARD, 1)] {
        let mut sheets = Sheets::of(text, choice);
        sheets.lower();
        assert_eq!(sheets.graph(0, LUBIKSAN_ROOTS_AT), kept);
        assert_eq!(sheets.graph(0, LUBIKSAN_TYPES_AT), 0);
    }
}

#[test]
fn the_numbers_of_a_row() {
    let text = "<schema><element name='Doc' type='T'/><complexType name='T'><sequence>\
                <element name='MsgId' type='Max_35' minOccurs='0' maxOccurs='7'/>\
                <element name='One' type='xs:date'/><element name='Any' type='T' maxOccurs='unbounded'/>\
                <element name='May' type='T' minOccurs='0'/></sequence></complexType>\
                <simpleType name='Long'><restriction base='xs:string'><minLength value='4294967299'/>\
                </restriction></simpleType></schema>"
        .replace('\'', "\"");
    let mut sheets = Sheets::of(&text, LUBIKSAN_BY_STANDARD);
    let used = sheets.lower();
    assert_eq!(sheets.graph(0, LUBIKSAN_ROWS_USED_AT) as usize, used);
    assert_eq!(sheets.graph(0, LUBIKSAN_ROOTS_AT), 1);
    assert_eq!(sheets.graph(0, LUBIKSAN_TYPES_AT), 2);
    let field = sheets.first(used, LUBIKSAN_IR_FIELD);
    assert_eq!(sheets.graph_text(field, LUBIKSAN_FIRST_AT), b"MsgId");
    assert_eq!(sheets.graph_text(field, LUBIKSAN_SECOND_AT), b"msg_id");
    assert_eq!(sheets.graph_text(field, LUBIKSAN_THIRD_AT), b"Max35");
    assert_eq!(sheets.graph(field, LUBIKSAN_A_AT), LUBIKSAN_NAMED);
    assert_eq!(sheets.graph(field, LUBIKSAN_B_AT), LUBIKSAN_BOUNDED);
    assert_eq!(sheets.graph(field, LUBIKSAN_C_AT), 7);
    let cardinalities = [1, 2, 3].map(|behind| sheets.graph(field + behind, LUBIKSAN_B_AT));
    assert_eq!(
        cardinalities,
        [LUBIKSAN_REQUIRED, LUBIKSAN_VEC, LUBIKSAN_OPTIONAL]
    );
    assert_eq!(sheets.graph(field + 1, LUBIKSAN_A_AT), LUBIKSAN_DATE);
    let least = sheets.first(used, LUBIKSAN_IR_MIN_LENGTH);
    assert_eq!(sheets.graph(least, LUBIKSAN_A_AT), 3);
    assert_eq!(sheets.graph(least, LUBIKSAN_B_AT), 1);
    // Event 1 named the root.
    let root = sheets.first(used, LUBIKSAN_IR_ROOT);
    assert_eq!(sheets.graph(root, LUBIKSAN_C_AT), 1);
    let used = sheets.graph(0, LUBIKSAN_NAMES_USED_AT) as usize;
    assert!(sheets.graph_names[used - 1] != 0);
    assert!(sheets.graph_names[used..].iter().all(|&byte| byte == 0));

    let words = b"a\nbb\nccc\ndddd\neeeee\n";
    let (number, buffer, start, length) = sheets.label(field, words);
    assert_eq!((number, buffer), (LUBIKSAN_ACCEPTED, LUBIKSAN_IN_NAMES));
    assert_eq!(&sheets.graph_names[start..start + length], b"Max35");
    let (number, buffer, start, length) = sheets.label(field + 1, words);
    assert_eq!((number, buffer), (LUBIKSAN_ACCEPTED, LUBIKSAN_IN_WORDS));
    assert_eq!(&words[start..start + length], b"dddd");
    assert_eq!(sheets.label(root, words), (LUBIKSAN_NO_LABEL, 0, 0, 0));
}

#[test]
fn the_built_in_types() {
    let kinds = [
        ("xs:string", LUBIKSAN_STRING),
        ("boolean", LUBIKSAN_BOOL),
        ("xs:decimal", LUBIKSAN_DECIMAL),
        ("date", LUBIKSAN_DATE),
        ("xs:dateTime", LUBIKSAN_DATE_TIME),
        ("Max35Text", LUBIKSAN_NAMED),
    ];
    for (name, kind) in kinds {
        // SAFETY: the address and the length are those of one text.
        let found = unsafe { lubiksan_map_builtin(name.as_ptr(), name.len()) };
        assert_eq!(found, kind, "{name}");
    }
}
