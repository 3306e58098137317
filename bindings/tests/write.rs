//! The schema written back: the text by hand, every refusal with its number and place, what is left in the text, and the text read again.

use lubiksan::{limits, ReadAs, Refusal, SchemaSheet, Tape, TapeBuilder};

type Tried = Result<(), Box<dyn std::error::Error>>;

/// A row of a sheet with its texts, a and b.
type Given<'r> = (u32, &'r [&'r str], u32, u32);

/// The sheet of these rows behind row 0, with the context, its open tags and root seen as given.
fn sheet_of(rows: &[Given<'_>], context: u32, seen: u32) -> SchemaSheet<'static> {
    let (mut names, mut numbers) = (Vec::new(), vec![0; limits::ROW]);
    for (tag, texts, a, b) in rows {
        let mut ten = vec![*tag];
        for text in *texts {
            ten.extend([names.len() as u32, text.len() as u32]);
            names.extend(text.bytes());
        }
        ten.resize(7, 0);
        ten.extend([*a, *b, 0]);
        numbers.extend(ten);
    }
    numbers[1] = rows.len() as u32 + 1;
    numbers[2] = names.len() as u32;
    numbers[3] = context;
    numbers[5] = seen;
    numbers[7] = context.min(2);
    SchemaSheet::from_buffers(numbers, names)
}

/// One of each kind of row; the base of S is not built in, so that one type is counted as refused.
const ALL: [Given<'static>; 20] = [
    (1, &["urn:x"], 1, 0),
    (2, &["D", "T"], 0, 0),
    (3, &["S", ""], 0, 0),
    (4, &["it's"], 0, 0),
    (5, &["say \"x\""], 0, 0),
    (6, &[], 0, 1),
    (7, &[], 4_294_967_295, 4_294_967_295),
    (8, &["&lt;"], 0, 0),
    (9, &[">]]>"], 0, 0),
    (10, &[], 18, 0),
    (11, &[], 0, 0),
    (12, &["T"], 0, 0),
    (17, &["a", "b"], 1, 1),
    (18, &["c", "d"], 0, 0),
    (13, &["C"], 0, 0),
    (14, &["V", "S"], 0, 0),
    (20, &["Ccy", "xs:string"], 1, 0),
    (20, &["x", "y"], 0, 0),
    (15, &["E"], 0, 0),
    (15, &["F", "##any"], 1, 0),
];

/// The text of these rows, written by hand from the order.
const TEXT: &str = "<xs:schema xmlns:xs=\"http://www.w3.org/2001/XMLSchema\" targetNamespace=\"urn:x\">\
<xs:element name=\"D\" type=\"T\"/>\
<xs:simpleType name=\"S\"><xs:restriction base=\"\">\
<xs:enumeration value=\"it's\"/><xs:pattern value='say \"x\"'/>\
<xs:minLength value=\"4294967296\"/><xs:maxLength value=\"18446744073709551615\"/>\
<xs:minInclusive value=\"&lt;\"/><xs:maxInclusive value=\">]]>\"/>\
<xs:totalDigits value=\"18\"/><xs:fractionDigits value=\"0\"/>\
</xs:restriction></xs:simpleType>\
<xs:complexType name=\"T\"><xs:sequence>\
<xs:element name=\"a\" type=\"b\" minOccurs=\"1\" maxOccurs=\"1\"/>\
<xs:element name=\"c\" type=\"d\" minOccurs=\"0\" maxOccurs=\"unbounded\"/>\
</xs:sequence></xs:complexType>\
<xs:complexType name=\"C\"><xs:choice></xs:choice></xs:complexType>\
<xs:complexType name=\"V\"><xs:simpleContent><xs:extension base=\"S\">\
<xs:attribute name=\"Ccy\" type=\"xs:string\" use=\"required\"/><xs:attribute name=\"x\" type=\"y\"/>\
</xs:extension></xs:simpleContent></xs:complexType>\
<xs:complexType name=\"E\"><xs:sequence><xs:any/></xs:sequence></xs:complexType>\
<xs:complexType name=\"F\"><xs:sequence><xs:any namespace=\"##any\"/></xs:sequence></xs:complexType>\
</xs:schema>";

#[test]
fn each_kind_of_row_is_written_and_read_again() -> Tried {
    let sheet = sheet_of(&ALL, 0, 1);
    let text = sheet.to_xsd()?;
    assert_eq!(text, TEXT);
    for read_as in [ReadAs::Original, ReadAs::Standard] {
        let mut again = SchemaSheet::cleared(read_as);
        again.read(&Tape::of_text(text.clone().into())?)?;
        assert_eq!(again.rows_used(), sheet.rows_used());
        assert_eq!(again.names()[..again.names_used()], *sheet.names());
        // All but c, which is the number of an event in the text that was read.
        let rows = |sheet: &SchemaSheet<'_>| -> Vec<Vec<u32>> {
            let tens = sheet.rows().chunks(limits::ROW);
            let used = tens.take(sheet.rows_used()).skip(1);
            used.map(|ten| ten[..limits::ROW - 1].to_vec()).collect()
        };
        assert_eq!(rows(&again), rows(&sheet));
        assert_eq!(again.to_xsd()?, text);
    }
    Ok(())
}

#[test]
fn an_open_type_is_left_out_and_not_judged() -> Tried {
    let rows = [
        (1, &["u"][..], 0, 0),
        (2, &["D", "T"], 0, 0),
        (12, &["T<"], 0, 0),
    ];
    let text = "<xs:schema xmlns:xs=\"http://www.w3.org/2001/XMLSchema\" targetNamespace=\"u\">\
                <xs:element name=\"D\" type=\"T\"/></xs:schema>";
    assert_eq!(sheet_of(&rows, 3, 1).to_xsd()?, text);
    let finished = sheet_of(&rows, 1, 1).to_xsd();
    assert_eq!(finished, Err(Refusal::NoValue { row: 3 }));
    Ok(())
}

/// Number, place and the text afterwards, of as many bytes as lent, each 9 before.
fn written(sheet: &SchemaSheet<'_>, lent: usize) -> (u32, usize, Vec<u8>) {
    let mut text = vec![9; lent];
    let (number, place) = match sheet.write_xsd(&mut text) {
        Ok(length) => (0, length),
        Err(refusal) => (refusal.number(), refusal.place()),
    };
    (number, place, text)
}

#[test]
fn refusals_have_number_and_place_and_leave_zeros_or_the_text() {
    let (lent, zeros) = (TEXT.len() + 2, vec![0; TEXT.len() + 2]);
    let kept = vec![9; lent];
    let good = sheet_of(&ALL, 0, 1);
    let accepted = [TEXT.as_bytes(), &[0, 0]].concat();
    assert_eq!(written(&good, lent), (0, TEXT.len(), accepted));
    assert_eq!(written(&good, TEXT.len()).0, 0);
    let short = TEXT.len() - 1;
    assert_eq!(written(&good, short), (23, 0, vec![0; short]));
    assert_eq!(written(&good, 0), (23, 0, Vec::new()));
    assert_eq!(written(&good, limits::TEXT).0, 0);
    let long = limits::TEXT + 1;
    assert_eq!(written(&good, long), (1, 0, vec![9; long]));
    assert_eq!(written(&sheet_of(&ALL, 0, 2), lent), (2, 0, kept));
    let cleared = sheet_of(&[(1, &[""], 0, 0)], 0, 0);
    assert_eq!(written(&cleared, lent), (12, 0, zeros.clone()));
    for (row, value) in [
        (1, "a<"),
        (4, "\"'"),
        (8, "&am"),
        (9, "&#31;"),
        (17, "\u{1}"),
    ] {
        let mut rows = ALL;
        let texts = [value, "t"];
        let count = rows[row - 1].1.len();
        rows[row - 1].1 = &texts[..count];
        let refused = written(&sheet_of(&rows, 0, 1), lent);
        assert_eq!(refused, (22, row, zeros.clone()), "{row}: {value:?}");
    }
}

#[test]
fn refusals_of_a_writing_are_said_in_words() -> Tried {
    let mut sheet = SchemaSheet::cleared(ReadAs::Standard);
    let said = |sheet: &SchemaSheet<'_>| sheet.to_xsd().map_err(|refusal| refusal.to_string());
    assert_eq!(
        said(&sheet),
        Err("no schema element was read (refused with 12)".to_owned())
    );
    let mut piece = TapeBuilder::new();
    piece.start("schema", &[("targetNamespace", "a<b")])?;
    sheet.read(&piece.finish())?;
    let words = "a value can't stand in XML as it is (refused with 22, row 1)";
    assert_eq!(said(&sheet), Err(words.to_owned()));
    let longest = "x".repeat(limits::TEXT - 50);
    let mut piece = TapeBuilder::new();
    piece.start("schema", &[("targetNamespace", &longest)])?;
    sheet.clear(ReadAs::Standard)?;
    sheet.read(&piece.finish())?;
    let words = "the schema's text is longer than lent (refused with 23)";
    assert_eq!(said(&sheet), Err(words.to_owned()));
    Ok(())
}
