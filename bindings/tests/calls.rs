//! The calls through the bindings: every refusal with its number, place and event; lent buffers.

use lubiksan::{
    limits, Cause, Context, Graph, Kind, NoTape, PieceFull, ReadAs, Refusal, SchemaSheet, Tape,
    TapeBuilder, TypeDef, TypeRef,
};

type Tried = Result<(), Box<dyn std::error::Error>>;

fn refused(sheet: &mut SchemaSheet<'_>, marks: &[u32]) -> (u32, usize, Option<usize>) {
    let tape = Tape::from_buffers(b"schemacomplexType\xff".to_vec(), marks.to_vec());
    match sheet.read(&tape) {
        Ok(place) => (0, place, None),
        Err(refusal) => (refusal.number(), refusal.place(), refusal.event()),
    }
}

#[test]
fn refusals_have_number_place_and_event() -> Tried {
    let mut sheet = SchemaSheet::cleared(ReadAs::Original);
    assert_eq!(refused(&mut sheet, &[1, 0, 0, 6]), (0, 1, None));
    assert_eq!(refused(&mut sheet, &[2, 0, 0, 6, 4, 0]), (3, 1, Some(2)));
    assert_eq!(refused(&mut sheet, &[2, 0, 0, 99]), (4, 0, Some(2)));
    assert_eq!(refused(&mut sheet, &[2, 0, 16, 2]), (5, 0, Some(2)));
    assert_eq!(refused(&mut sheet, &[3, 0, 3, 0]), (6, 1, Some(3)));
    let mut small = SchemaSheet::with_room(2, 0, ReadAs::Original)?;
    let mut piece = TapeBuilder::new();
    piece.start("schema", &[("targetNamespace", "x")])?;
    assert!(matches!(small.read(&piece.finish()), Err(Refusal::NoRoom(at)) if at.event == 0));
    Ok(())
}

#[test]
fn each_pair_holds_whole_characters() -> Tried {
    // `a`, é in two bytes, ß in two bytes.
    let read = |marks: &[u32]| {
        let tape = Tape::from_buffers("a\u{e9}\u{df}".into(), marks.to_vec());
        let answer = SchemaSheet::cleared(ReadAs::Standard).read(&tape);
        answer.map_err(|refusal| refusal.number())
    };
    assert_eq!(read(&[2, 1, 0, 1, 1, 2, 3, 2]), Ok(1));
    assert_eq!(read(&[2, 1, 0, 1, 1, 1, 2, 3]), Err(5));
    assert_eq!(read(&[2, 1, 0, 1, 1, 2, 3, 1]), Err(5));
    assert_eq!(read(&[2, 1, 0, 2, 2, 1, 3, 2]), Err(5));
    assert_eq!(read(&[2, 1, 0, 2, 2, 9, 3, 2]), Err(4));
    assert_eq!(read(&[3, 0, 3, 0]), Err(6));
    // Under no pair any bytes may stand.
    let tape = Tape::from_buffers(vec![b'a', 0xc3, 0xff], vec![2, 0, 0, 1]);
    assert_eq!(SchemaSheet::cleared(ReadAs::Standard).read(&tape)?, 1);
    Ok(())
}

#[test]
fn graphs_have_what_case_brings_in() -> Tried {
    let text = "<schema><element name='\u{e9}' type='\u{149}_\u{b5}'/>\
        <complexType name='\u{149}_\u{b5}'><sequence><element name='\u{c9}t\u{130}' type='\u{df}_a'/></sequence></complexType>\
        <simpleType name='SS_a'><restriction base='string'><enumeration value='x\u{130}-\u{149}'/></restriction></simpleType></schema>";
    let mut sheet = SchemaSheet::cleared(ReadAs::Standard);
    sheet.read(&Tape::of_text(text.into())?)?;
    let mut graph = Graph::new();
    sheet.lower(&mut graph)?;
    let names: Vec<&str> = graph.types().map(|found| found.name()).collect();
    assert_eq!(names, ["SSA", "\u{2bc}N\u{39c}"]);
    let root = graph.roots().next().ok_or("a root was expected")?;
    assert_eq!(
        (root.xml_name, root.type_name),
        ("\u{e9}", "\u{149}_\u{b5}")
    );
    let Some(TypeDef::CodeList(codes)) = graph.types().next() else {
        return Err("a code list was expected".into());
    };
    let code = codes.codes().next().ok_or("a code was expected")?;
    assert_eq!(code.rust_name, "Xi\u{307}\u{2bc}N");
    let Some(TypeDef::Struct(found)) = graph.types().nth(1) else {
        return Err("a struct was expected".into());
    };
    let field = found.fields().next().ok_or("a field was expected")?;
    assert_eq!(field.rust_name, "\u{e9}t_i");
    assert!(matches!(field.type_ref, TypeRef::Named("SSA")));

    // Stored it is a graph; reduced it keeps all, since the root's name normalises to the type's.
    let (rows, names) = (graph.rows().to_vec(), graph.names().to_vec());
    let stored = Graph::from_buffers(rows.clone(), names.clone())?;
    assert_eq!(stored.reduced()?.types().count(), 2);
    // The three characters are of graphs alone, and U+03BC of neither.
    let other = String::from_utf8(names)?.replace('\u{39c}', "\u{3bc}");
    assert!(Graph::from_buffers(rows, other.into()).is_err());
    let tape = Tape::of_text("<a b='\u{2bc}'/>".into());
    assert_eq!(tape, Err(NoTape::Byte));
    let mut piece = TapeBuilder::new();
    piece.empty("a", &[("b", "\u{39c}")])?;
    assert!(matches!(sheet.read(&piece.finish()), Err(Refusal::Byte(at)) if at.place == 0));
    let written = sheet.to_xsd()?;
    assert!(
        written.contains("name=\"\u{c9}t\u{130}\" type=\"\u{df}_a\""),
        "{written}"
    );
    Ok(())
}

#[test]
fn deep_and_nameless_tags_are_refused() -> Tried {
    let mut sheet = SchemaSheet::cleared(ReadAs::Original);
    let mut piece = TapeBuilder::new();
    for _ in 0..256 {
        piece.start("a", &[])?;
    }
    assert!(matches!(sheet.read(&piece.finish()), Err(Refusal::TooDeep(at)) if at.event == 255));
    sheet.clear(ReadAs::Original)?;
    let mut piece = TapeBuilder::new();
    piece.start("schema", &[])?;
    piece.start("simpleType", &[])?;
    let refusal = sheet.read(&piece.finish()).err().ok_or("refused")?;
    assert_eq!(
        refusal.to_string(),
        "a type without a name (refused with 9, event 1)"
    );
    Ok(())
}

#[test]
fn the_choice_is_kept_by_every_reading() -> Tried {
    for (read_as, names) in [
        (ReadAs::Original, &["a"][..]),
        (ReadAs::Standard, &["a", "c"]),
    ] {
        let mut sheet = SchemaSheet::cleared(read_as);
        let mut piece = TapeBuilder::new();
        piece.start("schema", &[])?;
        piece.start("element", &[("name", "a"), ("type", "b")])?;
        piece.close()?;
        piece.empty("element", &[("name", "c"), ("type", "d")])?;
        piece.close()?;
        piece.close()?;
        let refusal = sheet.read(&piece.finish()).err().ok_or("refused")?;
        assert_eq!((refusal.number(), refusal.place()), (6, 5));
        let found: Vec<&str> = sheet.declared().map(|declared| declared.name).collect();
        assert_eq!((sheet.read_as(), found.as_slice()), (read_as, names));
        sheet.lower(&mut Graph::new())?;
        let again = SchemaSheet::from_buffers(sheet.rows().to_vec(), sheet.names().to_vec());
        assert_eq!(again.read_as(), read_as);
    }
    let mut rows = SchemaSheet::cleared(ReadAs::Original).rows().to_vec();
    rows[9] = 2;
    let mut other = SchemaSheet::from_buffers(rows, Vec::new());
    assert_eq!(other.check(), Err(Refusal::NotGood));
    Ok(())
}

#[test]
fn heads_have_the_number_of_their_event() -> Tried {
    let mut sheet = SchemaSheet::cleared(ReadAs::Standard);
    let mut piece = TapeBuilder::new();
    piece.start("schema", &[])?;
    piece.start("annotation", &[])?;
    piece.close()?;
    piece.start("complexType", &[("name", "a_b")])?;
    sheet.read(&piece.finish())?;
    // The second piece refuses a nameless type, which has no number; the third goes on behind the events that are done.
    let mut piece = TapeBuilder::new();
    piece.start("sequence", &[])?;
    piece.close()?;
    piece.start("choice", &[])?;
    piece.close()?;
    piece.close()?;
    piece.start("simpleType", &[])?;
    assert!(sheet.read(&piece.finish()).is_err());
    let mut piece = TapeBuilder::new();
    piece.empty("element", &[("name", "c"), ("type", "a_b")])?;
    sheet.read(&piece.finish())?;
    let found: Vec<_> = sheet.declared().map(|it| (it.name, it.event())).collect();
    assert_eq!(found, [("a_b", Some(3)), ("c", Some(9))]);
    let mut graph = Graph::new();
    sheet.lower(&mut graph)?;
    let roots: Vec<_> = graph.roots().map(|it| (it.xml_name, it.event())).collect();
    let types: Vec<_> = graph.types().map(|it| (it.name(), it.event())).collect();
    assert_eq!(roots, [("c", Some(9))]);
    assert_eq!(types, [("AB", Some(3))]);
    Ok(())
}

#[test]
fn unknown_numbers_stay_unknown_and_others_are_below_the_events() -> Tried {
    let mut piece = TapeBuilder::new();
    piece.start("schema", &[])?;
    piece.start("complexType", &[("name", "T")])?;
    let mut sheet = SchemaSheet::with_room(6, 20, ReadAs::Original)?;
    sheet.read(&piece.finish())?;
    let (mut rows, names) = (sheet.rows().to_vec(), sheet.names().to_vec());
    for (c, good) in [(0, true), (1, true), (2, false), (u32::MAX, false)] {
        rows[29] = c;
        let mut stored = SchemaSheet::from_buffers(rows.clone(), names.clone());
        assert_eq!(stored.check().is_ok(), good, "{c}");
    }
    rows[29] = 0;
    let mut stored = SchemaSheet::from_buffers(rows, names);
    let mut piece = TapeBuilder::new();
    piece.start("sequence", &[])?;
    piece.close()?;
    piece.empty("any", &[])?;
    piece.close()?;
    piece.empty("element", &[("name", "b"), ("type", "t")])?;
    stored.read(&piece.finish())?;
    let found: Vec<_> = stored.declared().map(|it| (it.name, it.event())).collect();
    assert_eq!(found, [("T", None), ("b", Some(6))]);
    let mut graph = Graph::new();
    stored.lower(&mut graph)?;
    assert_eq!(graph.types().next().and_then(|it| it.event()), None);
    let again = Graph::from_buffers(graph.rows().to_vec(), graph.names().to_vec())?;
    assert_eq!(again.roots().next().and_then(|it| it.event()), Some(6));
    Ok(())
}

#[test]
fn lowering_refuses_by_number() -> Tried {
    let mut graph = Graph::new();
    assert_eq!(
        SchemaSheet::cleared(ReadAs::Original).lower(&mut graph),
        Err(Refusal::NoRoot)
    );
    let sheet = unknown_base()?;
    assert_eq!(
        sheet.lower(&mut graph),
        Err(Refusal::UnknownBase { row: 2 })
    );
    let (mut rows, mut names, mut scratch) = ([0; 20], [0; 0], [0; 63]);
    let mut none = Graph::lend(&mut rows, &mut names, &mut scratch);
    assert_eq!(sheet.lower(&mut none), Err(Refusal::Scratch));
    assert_eq!(
        SchemaSheet::from_buffers(vec![1; 20], vec![]).lower(&mut graph),
        Err(Refusal::NotGood)
    );
    assert_eq!(
        SchemaSheet::from_buffers(vec![1; 19], vec![]).check(),
        Err(Refusal::Lengths)
    );
    Ok(())
}

/// Tag and name of types, whether the last is open, row and name of the type that is refused and of the one before it.
type Repeated<'n> = (
    &'n [(&'n str, &'n str)],
    bool,
    (usize, &'n str),
    (usize, &'n str),
);

/// The sheet of these types: their tags and names, all finished but the last where `open`.
fn of_types(
    types: &[(&str, &str)],
    open: bool,
) -> Result<SchemaSheet<'static>, Box<dyn std::error::Error>> {
    let mut piece = TapeBuilder::new();
    piece.start("schema", &[])?;
    piece.empty("element", &[("name", "AB"), ("type", "AB")])?;
    for (index, (tag, name)) in types.iter().enumerate() {
        piece.start(tag, &[("name", name)])?;
        piece.empty("restriction", &[("base", "string")])?;
        if !open || index + 1 < types.len() {
            piece.close()?;
        }
    }
    let mut sheet = SchemaSheet::cleared(ReadAs::Original);
    sheet.read(&piece.finish())?;
    Ok(sheet)
}

#[test]
fn types_of_one_name_are_both_named() -> Tried {
    let (simple, complex) = ("simpleType", "complexType");
    let lists: [Repeated<'_>; 5] = [
        (
            &[(simple, "a_b"), (complex, "AB")],
            false,
            (4, "AB"),
            (3, "a_b"),
        ),
        (
            &[(complex, "AB"), (simple, "a_b")],
            false,
            (3, "AB"),
            (4, "a_b"),
        ),
        (
            &[(simple, "A"), (simple, "B"), (simple, "b_"), (simple, "A")],
            false,
            (5, "b_"),
            (4, "B"),
        ),
        (
            &[(complex, "AB"), (complex, "a_b"), (simple, "A_B")],
            true,
            (4, "a_b"),
            (3, "AB"),
        ),
        (
            &[(complex, "T"), (complex, "T"), (complex, "T")],
            false,
            (4, "T"),
            (3, "T"),
        ),
    ];
    for (types, open, again, first) in lists {
        let sheet = of_types(types, open)?;
        let refusal = sheet.lower(&mut Graph::new()).err().ok_or("refused")?;
        assert_eq!((refusal.number(), refusal.place()), (20, again.0));
        assert_eq!(refusal.event(), None);
        let words = format!(
            "two types have the same name in the graph: {:?} and {:?} (refused with 20, rows {} and {})",
            first.1, again.1, first.0, again.0
        );
        assert_eq!(refusal.to_string(), words);
    }
    let sheet = of_types(&[(complex, "AB"), (simple, "a_b")], true)?;
    assert_eq!(sheet.lower(&mut Graph::new())?, 4);
    Ok(())
}

fn unknown_base() -> Result<SchemaSheet<'static>, Box<dyn std::error::Error>> {
    let mut piece = TapeBuilder::new();
    piece.start("schema", &[])?;
    piece.start("simpleType", &[("name", "T")])?;
    piece.empty("restriction", &[("base", "xs:QName")])?;
    piece.close()?;
    let mut sheet = SchemaSheet::cleared(ReadAs::Original);
    sheet.read(&piece.finish())?;
    let found = sheet.declared().next().ok_or("a type")?;
    assert_eq!(
        (found.row, found.kind, found.name, found.second),
        (2, Kind::SimpleType, "T", "xs:QName")
    );
    assert_eq!(
        (sheet.context(), sheet.open_tags(), sheet.root_seen()),
        (Context::Schema, 1, true)
    );
    Ok(sheet)
}

#[test]
fn a_graph_too_small_is_refused_and_empty() -> Tried {
    let mut piece = TapeBuilder::new();
    piece.start("schema", &[])?;
    piece.empty("element", &[("name", "D"), ("type", "T")])?;
    let mut sheet = SchemaSheet::cleared(ReadAs::Original);
    sheet.read(&piece.finish())?;
    let (mut rows, mut names, mut scratch) = ([0; 20], [0; 2], [0; 64]);
    let mut small = Graph::lend(&mut rows, &mut names, &mut scratch);
    assert_eq!(sheet.lower(&mut small), Err(Refusal::GraphRoom));
    assert_eq!(
        (
            small.roots().count(),
            small.types().count(),
            small.rows().len()
        ),
        (0, 0, 0)
    );
    Ok(())
}

#[test]
fn lent_buffers_are_the_callers() -> Tried {
    let (mut rows, mut names) = (vec![9; 40], vec![9; 8]);
    let mut sheet = SchemaSheet::lend(&mut rows, &mut names);
    assert_eq!(sheet.check(), Err(Refusal::NotGood));
    sheet.clear(ReadAs::Original)?;
    let mut piece = TapeBuilder::new();
    piece.empty("schema", &[("targetNamespace", "urn:a")])?;
    sheet.read(&piece.finish())?;
    assert_eq!((rows[6], &names[..]), (1, &b"urn:a\0\0\0"[..]));
    Ok(())
}

#[test]
fn a_piece_keeps_its_limits() -> Tried {
    let mut piece = TapeBuilder::new();
    let long = "x".repeat(limits::TEXT);
    assert_eq!(
        piece.start(&long, &[("a", "")]),
        Err(PieceFull::TooLong {
            text: limits::TEXT + 1,
            marks: 8
        })
    );
    piece.start(&long, &[])?;
    assert_eq!(piece.empty("y", &[]), Err(PieceFull::Full));
    for _ in 0..(limits::MARKS - 4) / 2 {
        piece.close()?;
    }
    assert_eq!(piece.close(), Err(PieceFull::Full));
    let tape = piece.finish();
    assert_eq!(tape.events().count(), 1 + (limits::MARKS - 4) / 2);
    Ok(())
}

#[test]
fn the_table_of_causes_has_every_number_that_is_returned() {
    let numbers: Vec<u32> = Cause::ALL.iter().map(|cause| cause.number()).collect();
    let returned: Vec<u32> = include_str!("../sys/src/returned.rs")
        .lines()
        .filter_map(|line| line.strip_prefix("pub const ")?.strip_suffix(';'))
        .filter_map(|line| line.split_once(" = ")?.1.parse().ok())
        .collect();
    assert_eq!(returned.split_first(), Some((&0, numbers.as_slice())));
    assert_eq!(numbers[..20], (1..=20).collect::<Vec<u32>>());
    for &cause in Cause::ALL {
        assert_eq!(Cause::of(cause.number()), cause);
    }
    let mut words: Vec<String> = Cause::ALL.iter().map(ToString::to_string).collect();
    words.sort();
    words.dedup();
    assert_eq!(words.len(), numbers.len());
    assert_eq!(Cause::of(99), Cause::Unknown(99));
    assert_eq!(Cause::Unknown(99).number(), 99);
}

/// A row of ten numbers: tag, first pair, a.
fn row(tag: u32, at: u32, length: u32, a: u32) -> [u32; 10] {
    [tag, at, length, 0, 0, 0, 0, a, 0, 0]
}

#[test]
fn a_stored_graph_is_judged_by_the_library() -> Tried {
    let good = [
        [0, 3, 2, 0, 1, 0, 0, 0, 0, 0],
        row(1, 0, 1, 0),
        row(5, 1, 1, 4),
    ]
    .concat();
    let graph = Graph::from_buffers(good.clone(), b"uA".to_vec())?;
    assert_eq!(graph.types().next().map(|it| it.name()), Some("A"));
    // A newtype without a built-in type, a type more than there is, a byte above 127, a number behind the used rows.
    for (at, number) in [(27, 0), (27, 6), (4, 2), (22, 2), (35, 1)] {
        let mut rows = good.clone();
        rows.resize(40, 0);
        rows[at] = number;
        let refusal = Graph::from_buffers(rows, b"uA".to_vec()).err();
        assert_eq!(refusal, Some(Refusal::GraphForm), "{at}");
    }
    let refusal = Graph::from_buffers(good.clone(), b"u\x80".to_vec()).err();
    assert_eq!(refusal, Some(Refusal::GraphForm));
    for rows in [0, 10, 25, 40_970] {
        let refusal = Graph::from_buffers(vec![0; rows], Vec::new()).err();
        assert_eq!(refusal, Some(Refusal::Lengths), "{rows}");
    }
    Ok(())
}

#[test]
fn reduction_refuses_by_number() -> Tried {
    let twice = [
        [0, 4, 3, 0, 2, 0, 0, 0, 0, 0],
        row(1, 0, 1, 0),
        row(5, 1, 1, 4),
        row(3, 2, 1, 0),
    ]
    .concat();
    let graph = Graph::from_buffers(twice, b"uAA".to_vec())?;
    let refusal = graph.reduced().err().ok_or("refused")?;
    assert_eq!((refusal.number(), refusal.place()), (21, 0));
    assert_eq!(
        refusal.to_string(),
        "the graph has not the form of a type graph, or two types of one name (refused with 21)"
    );
    assert_eq!(Graph::new().reduced().err(), Some(Refusal::Lengths));
    Ok(())
}

#[test]
fn a_reduced_graph_takes_the_room_that_it_needs() -> Tried {
    let text = "<schema targetNamespace='u'><element name='D' type='A'/>\
                <simpleType name='A'><restriction base='string'/></simpleType>\
                <simpleType name='BB'><restriction base='string'/></simpleType></schema>";
    let mut sheet = SchemaSheet::cleared(ReadAs::Standard);
    sheet.read(&Tape::of_text(text.into())?)?;
    let mut graph = Graph::new();
    assert_eq!(sheet.lower(&mut graph)?, 5);
    // Row 0, the namespace, the root and A; the names u, D, A, A.
    for (rows, names, given) in [
        (40, 4, Ok(4)),
        (30, 4, Err(Refusal::GraphRoom)),
        (40, 3, Err(Refusal::GraphRoom)),
        (35, 4, Err(Refusal::Lengths)),
    ] {
        let (mut rows, mut names) = (vec![7; rows], vec![7; names]);
        let mut target = Graph::lend(&mut rows, &mut names, &mut []);
        assert_eq!(graph.reduce(&mut target), given);
        let types: Vec<&str> = target.types().map(|it| it.name()).collect();
        assert_eq!(types, if given.is_ok() { &["A"][..] } else { &[] });
        match given {
            Err(Refusal::GraphRoom) => assert!(rows.iter().all(|&n| n == 0)),
            Err(_) => assert!(rows.iter().all(|&n| n == 7)),
            Ok(_) => assert_eq!((rows[1], rows[4], &names[..]), (4, 1, &b"uDAA"[..])),
        }
    }
    Ok(())
}
