//! Random schemas with awkward names: `rust` prints source that compiles, or `names` refuses the schema.

mod common;

use std::fmt::Write;
use std::sync::Mutex;

use common::{cases, compiles, side_by_side, tells_of_names, to_rust, Folder, Random};

/// Names that Rust, XML or this program may stumble over.
const NAMES: [&str; 68] = [
    "A",
    "a",
    "B",
    "AB",
    "a_b",
    "Ab",
    "type",
    "self",
    "Self",
    "super",
    "crate",
    "_",
    "",
    "__",
    "1",
    "1st",
    "a-b",
    "a.b",
    "a b",
    "Option",
    "Vec",
    "String",
    "Box",
    "bool",
    "str",
    "u8",
    "std",
    "core",
    "Debug",
    "Clone",
    "PartialEq",
    "derive",
    "fn",
    "async",
    "gen",
    "try",
    "dyn",
    "union",
    "static",
    "macro_rules",
    "value",
    "value_",
    "None",
    "Some",
    "Ok",
    "Default",
    "x*/y",
    "`tick`",
    "back\\slash",
    "{brace}",
    "line\nbreak",
    "tab\tbed",
    "a:b",
    "'quote'",
    "Document",
    "r#raw",
    "é",
    "É_b",
    "ß_a",
    "İ",
    "ı_a",
    "ŉ_a",
    "µ_a",
    "æ",
    "Größe",
    "ĺª·×",
    "ſ_ĳ",
    "\u{80}",
];

fn name(random: &mut Random) -> String {
    let one = NAMES[random.below(NAMES.len())];
    match random.below(3) {
        0 => format!("{one}{}", random.below(9)),
        1 => format!("{one}{}", NAMES[random.below(NAMES.len())]),
        _ => one.to_owned(),
    }
}

/// A type that is there, or sometimes a built-in one or none.
fn reference(types: &[String], random: &mut Random) -> String {
    match random.below(12) {
        0 => "xs:boolean".to_owned(),
        1 => "xs:date".to_owned(),
        2 => "xs:string".to_owned(),
        _ => types[random.below(types.len())].clone(),
    }
}

fn schema(random: &mut Random) -> String {
    let types: Vec<String> = (0..1 + random.below(8)).map(|_| name(random)).collect();
    let mut text = format!("<schema targetNamespace=\"{}\">\n", name(random));
    for own in &types {
        let inside = content(&types, random);
        let _ = writeln!(text, "{}", inside.replace("NAME", own));
    }
    text + "</schema>"
}

/// A type, `NAME` standing for its name.
fn content(types: &[String], random: &mut Random) -> String {
    let complex = |inside: String| format!("<complexType name=\"NAME\">{inside}</complexType>");
    let restriction = |inside: String| format!("<restriction base='string'>{inside}</restriction>");
    let simple = |inside: String| {
        format!(
            "<simpleType name=\"NAME\">{}</simpleType>",
            restriction(inside)
        )
    };
    match random.below(12) {
        0 => complex("<sequence><any namespace=\"a\nb`*/\"/></sequence>".to_owned()),
        1 | 2 => simple(children("enumeration", types, random)),
        3 => simple(children("pattern", types, random)),
        4..=6 => complex(format!(
            "<choice>{}</choice>",
            children("element", types, random)
        )),
        7 => {
            let attributes = children("attribute", types, random);
            complex(format!(
                "<simpleContent><extension base='date'>{attributes}</extension></simpleContent>"
            ))
        }
        _ => complex(format!(
            "<sequence>{}</sequence>",
            children("element", types, random)
        )),
    }
}

fn children(tag: &str, types: &[String], random: &mut Random) -> String {
    let mut text = String::new();
    for _ in 0..random.below(5) {
        let (name, kind) = (name(random), reference(types, random));
        let occurs = [
            "",
            " minOccurs='0'",
            " maxOccurs='unbounded'",
            " maxOccurs='3'",
        ][random.below(4)];
        let _ = write!(
            text,
            "<{tag} name=\"{name}\" type=\"{kind}\" value=\"{name}\"{occurs}/>"
        );
    }
    text
}

/// Prints the schema of a number; was it printed, and not refused?
fn printed(folder: &Folder, number: usize) -> bool {
    let mut random = Random(1 + number as u64 * 6_700_417);
    // The first numbers of near seeds are near each other.
    for _ in 0..20 {
        random.next();
    }
    let file = folder.put(&format!("s{number}.xsd"), schema(&mut random));
    let ran = to_rust(&file, &folder.path(&format!("s{number}.rs")));
    match ran.status {
        Some(0) => true,
        Some(1) if tells_of_names(&ran.err) => false,
        other => panic!("{other:?} {}", ran.err),
    }
}

#[test]
fn random_schemas_compile_or_are_refused() {
    let folder = Folder::new();
    let schemas = cases(400);
    let numbers: Vec<usize> = (0..schemas).collect();
    let good = Mutex::new(Vec::new());
    side_by_side(&numbers, |&number| {
        if printed(&folder, number) {
            good.lock().unwrap().push(number);
        }
    });
    let good = good.into_inner().unwrap();
    assert!(
        good.len() > schemas / 2 && good.len() < schemas,
        "{} of {schemas}",
        good.len()
    );
    let modules: String = good
        .iter()
        .map(|number| format!("pub mod s{number};\n"))
        .collect();
    compiles(&folder.put("all.rs", modules), "2021");
}
