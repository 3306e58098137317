//! Damaged graphs and sheets: refused or read, never a panic, never a look outside.

use lubiksan::{Graph, ReadAs, SchemaSheet, TapeBuilder, TypeDef};

/// A fixed-seed generator (xorshift).
struct Random(u64);

impl Random {
    fn next(&mut self) -> u64 {
        self.0 ^= self.0 << 13;
        self.0 ^= self.0 >> 7;
        self.0 ^= self.0 << 17;
        self.0
    }

    fn below(&mut self, limit: usize) -> usize {
        (self.next() % limit.max(1) as u64) as usize
    }
}

/// An empty tag with its attributes.
type Child = (&'static str, &'static [(&'static str, &'static str)]);

const TYPES: [(&str, &[Child]); 5] = [
    (
        "sequence",
        &[
            (
                "element",
                &[("name", "Id"), ("type", "T"), ("maxOccurs", "4")],
            ),
            (
                "element",
                &[("name", "Dt"), ("type", "xs:date"), ("minOccurs", "0")],
            ),
        ],
    ),
    ("choice", &[("element", &[("name", "A"), ("type", "T")])]),
    ("simpleContent", &[]),
    (
        "restriction",
        &[
            ("maxLength", &[("value", "4294967297")]),
            ("pattern", &[("value", "[A-Z]")]),
        ],
    ),
    (
        "restriction",
        &[
            ("enumeration", &[("value", "ABC")]),
            ("enumeration", &[("value", "D-E")]),
        ],
    ),
];

/// A sheet with a type of every kind.
fn sheet() -> Result<SchemaSheet<'static>, Box<dyn std::error::Error>> {
    let mut piece = TapeBuilder::new();
    piece.start("schema", &[("targetNamespace", "urn:x")])?;
    piece.empty("element", &[("name", "Document"), ("type", "T0")])?;
    for (i, (content, children)) in TYPES.iter().enumerate() {
        let tag = if *content == "restriction" {
            "simpleType"
        } else {
            "complexType"
        };
        piece.start(tag, &[("name", format!("T{i}").as_str())])?;
        piece.start(content, &[("base", "xs:string")])?;
        if *content == "simpleContent" {
            piece.start("extension", &[("base", "Amount")])?;
            piece.empty(
                "attribute",
                &[("name", "Ccy"), ("type", "Code"), ("use", "required")],
            )?;
            piece.close()?;
        }
        for (child, attributes) in *children {
            piece.empty(child, attributes)?;
        }
        piece.close()?;
        piece.close()?;
    }
    piece.start("complexType", &[("name", "Open")])?;
    piece.empty("any", &[("namespace", "##any")])?;
    piece.close()?;
    let mut sheet = SchemaSheet::with_room(60, 400, ReadAs::Original)?;
    sheet.read(&piece.finish())?;
    Ok(sheet)
}

/// Changes up to four numbers or bytes.
fn damage(rows: &mut Vec<u32>, names: &mut Vec<u8>, random: &mut Random) {
    for _ in 0..=random.below(4) {
        match random.below(6) {
            0 => {
                let at = random.below(names.len());
                names[at] = random.next() as u8;
            }
            1 => rows.truncate(random.below(rows.len() + 1)),
            2 => names.truncate(random.below(names.len() + 1)),
            _ => put_number(rows, random),
        }
        if rows.is_empty() || names.is_empty() {
            return;
        }
    }
}

/// Another number, most often near what is there.
fn put_number(rows: &mut [u32], random: &mut Random) {
    let at = random.below(rows.len());
    rows[at] = match random.below(4) {
        0 => rows[at].wrapping_add(1),
        1 => rows[at].wrapping_sub(1),
        2 => random.below(30) as u32,
        _ => random.next() as u32,
    };
}

/// Looks at all that a graph shows; the bytes seen.
fn look(graph: &Graph<'_>) -> usize {
    let roots: usize = graph
        .roots()
        .map(|root| root.xml_name.len() + root.type_name.len())
        .sum();
    let types: usize = graph
        .types()
        .map(|found| format!("{found:?}").len() + children(&found))
        .sum();
    let words = b"a\nb\nc\nd\ne\n";
    let labels = (0..graph.rows().len() / 10 + 2).filter(|&row| graph.label(row, words).is_ok());
    roots + types + labels.count() + graph.namespace().len()
}

fn children(found: &TypeDef<'_>) -> usize {
    match found {
        TypeDef::Struct(it) => it.fields().map(|field| format!("{field:?}").len()).sum(),
        TypeDef::Choice(it) => it
            .variants()
            .map(|variant| format!("{variant:?}").len())
            .sum(),
        TypeDef::CodeList(it) => it.codes().map(|code| format!("{code:?}").len()).sum(),
        TypeDef::Newtype(it) => it
            .facets()
            .map(|facet| format!("{facet:?}{}", it.inner()).len())
            .sum(),
        TypeDef::Value(it) => it
            .attributes()
            .map(|a| format!("{a:?}{}", it.value()).len())
            .sum(),
        TypeDef::Opaque(it) => it.namespace().map_or(0, str::len),
    }
}

#[test]
fn damaged_graphs_never_panic() -> Result<(), Box<dyn std::error::Error>> {
    let mut graph = Graph::new();
    sheet()?.lower(&mut graph)?;
    let (good_rows, good_names) = (graph.rows().to_vec(), graph.names().to_vec());
    assert_eq!(
        look(&Graph::from_buffers(good_rows.clone(), good_names.clone())?),
        look(&graph)
    );
    let mut random = Random(11);
    let mut taken = 0;
    for _ in 0..60_000 {
        let (mut rows, mut names) = (good_rows.clone(), good_names.clone());
        damage(&mut rows, &mut names, &mut random);
        if let Ok(graph) = Graph::from_buffers(rows, names) {
            taken += 1;
            assert!(look(&graph) < 1_000_000);
        }
    }
    assert!(
        (100..59_000).contains(&taken),
        "{taken} of 60,000 graphs were taken"
    );
    Ok(())
}

#[test]
fn damaged_sheets_never_panic() -> Result<(), Box<dyn std::error::Error>> {
    let good = sheet()?;
    let (good_rows, good_names) = (good.rows().to_vec(), good.names().to_vec());
    let mut random = Random(12);
    let mut graph = Graph::new();
    let mut taken = 0;
    for _ in 0..60_000 {
        let (mut rows, mut names) = (good_rows.clone(), good_names.clone());
        damage(&mut rows, &mut names, &mut random);
        let mut sheet = SchemaSheet::from_buffers(rows.clone(), names.clone());
        let seen: usize = sheet
            .declared()
            .map(|found| found.name.len() + found.second.len())
            .sum();
        assert!(seen < 100_000_000);
        match sheet.check() {
            Ok(()) => {
                taken += 1;
                let _ = sheet.lower(&mut graph);
                assert!(look(&graph) < 1_000_000);
            }
            Err(refusal) => assert!(matches!(refusal.number(), 1 | 2)),
        }
        assert_eq!((sheet.rows(), sheet.names()), (&rows[..], &names[..]));
    }
    assert!(
        (100..59_000).contains(&taken),
        "{taken} of 60,000 sheets were taken"
    );
    Ok(())
}
