//! The header against this crate and against the library: every macro and every prototype, both ways. What the library's
//! sources do not name, columns and kinds, is tried on the calls by `answers.rs`.

use std::collections::BTreeMap;
use std::error::Error;
use std::fs;
use std::path::{Path, PathBuf};

type Tried = Result<(), Box<dyn Error>>;

/// Names with their numbers.
type Numbers = BTreeMap<String, u64>;

/// The types that a call takes, and the one that it gives.
#[derive(Debug, PartialEq, Eq)]
struct Call {
    takes: Vec<String>,
    gives: String,
}

/// Calls by name; of each the names of its parameters too.
type Calls = BTreeMap<String, (Call, Vec<String>)>;

/// Constants whose macro has another name than theirs behind the prefix.
type Renamed = &'static [(&'static str, &'static str)];

/// The library's constants and cases with numbers, by file: the prefix behind `LUBIKSAN_` of their macros, and those with another name.
const SOURCES: [(&str, &str, Renamed); 9] = [
    ("lubiksan/src/version.rt", "", &[]),
    (
        "sheet/src/limits.rt",
        "",
        &[
            ("TEXT", "TEXT_MAX"),
            ("MARKS", "MARKS_MAX"),
            ("ATTRIBUTES", "ATTRIBUTES_MAX"),
            ("EVENTS", "EVENTS_MAX"),
            ("OPEN_TAGS", "OPEN_TAGS_MAX"),
            ("LEAST_ROWS", "ROWS_MIN"),
            ("ROWS", "ROWS_MAX"),
            ("NAMES", "NAMES_MAX"),
            ("PATTERN", "PATTERN_MAX"),
            ("PATTERN_OPENS", "PATTERN_OPENS_MAX"),
        ],
    ),
    (
        "sheet/src/refusal.rt",
        "",
        &[
            ("BAD_LENGTH", "LENGTHS"),
            ("BAD_RECORD", "RECORD"),
            ("BAD_PAIR", "PAIR"),
            ("NOT_ASCII", "BYTE"),
            ("NO_TAG_OPEN", "CLOSE"),
            ("TOO_MANY_OPEN", "OPEN_TAGS"),
            ("TOO_MANY_EVENTS", "EVENTS"),
            ("MISSING_ATTRIBUTE", "ATTRIBUTE"),
            ("INVALID_ATTRIBUTE_VALUE", "VALUE"),
            ("NO_ROOM", "ROOM"),
            ("SHORT_SCRATCH", "SCRATCH"),
            ("NO_ROOM_IN_GRAPH", "GRAPH_ROOM"),
            ("BAD_LABEL", "NO_LABEL"),
            ("SHORT_MARKS", "MARKS"),
            ("REPEATED_NAME", "NAME_TWICE"),
        ],
    ),
    ("xsd_parser/src/kinds.rt", "", &[("CLOSE", "END")]),
    ("xsd_types/src/contexts.rt", "IN_", &[("NONE", "OUTSIDE")]),
    (
        "xsd_types/src/tags.rt",
        "XSD_",
        &[
            ("BOUND_ELEMENT", "XSD_BOUNDED"),
            ("UNBOUNDED_ELEMENT", "XSD_UNBOUNDED"),
            ("CHOICE_VARIANT", "XSD_VARIANT"),
        ],
    ),
    (
        "ir_types/src/tags.rt",
        "IR_",
        &[("VALUE_WITH_ATTRIBUTES", "IR_VALUE")],
    ),
    ("ir_row/src/lib.rt", "", &[]),
    (
        "ir_call/src/lib.rt",
        "",
        &[("LEAST_SCRATCH", "SCRATCH_MIN")],
    ),
];

/// The macros that no constant of the library names; `answers.rs` tries them, and `c.rs` measures the stack.
const TRIED_ON_CALLS: [&str; 37] = [
    "TAPE_STACK",
    "CLEAR_STACK",
    "READ_STACK",
    "LOWER_STACK",
    "REDUCE_STACK",
    "WRITE_STACK",
    "PATTERN_STACK",
    "OTHER_STACK",
    "TAG_AT",
    "FIRST_AT",
    "SECOND_AT",
    "THIRD_AT",
    "A_AT",
    "B_AT",
    "C_AT",
    "ROWS_USED_AT",
    "NAMES_USED_AT",
    "CONTEXT_AT",
    "NESTING_AT",
    "ROOT_SEEN_AT",
    "EVENTS_DONE_AT",
    "OPEN_TAGS_AT",
    "EXTENSION_AT",
    "CHOICE_AT",
    "REFUSED_TYPES_AT",
    "ROOTS_AT",
    "TYPES_AT",
    "AS_ORIGINAL",
    "BY_STANDARD",
    "NAMED",
    "STRING",
    "BOOL",
    "DECIMAL",
    "DATE",
    "DATE_TIME",
    "IN_NAMES",
    "IN_WORDS",
];

fn here() -> &'static Path {
    Path::new(env!("CARGO_MANIFEST_DIR"))
}

fn crates() -> PathBuf {
    here().join("../../crates")
}

fn header() -> Result<String, Box<dyn Error>> {
    let text = fs::read_to_string(crates().join("lubiksan/include/lubiksan.h"))?;
    let mut plain = String::new();
    for (index, part) in text.split("/*").enumerate() {
        let behind = part.split_once("*/").map(|(_, behind)| behind);
        plain += match index {
            0 => part,
            _ => behind.ok_or("a comment is not ended")?,
        };
    }
    Ok(plain)
}

/// The text of a folder's sources without line comments.
fn sources(folder: &Path, ending: &str) -> Result<String, Box<dyn Error>> {
    let mut files: Vec<PathBuf> = fs::read_dir(folder)?
        .map(|entry| Ok(entry?.path()))
        .collect::<Result<_, std::io::Error>>()?;
    files.retain(|file| file.extension().is_some_and(|found| found == ending));
    files.sort();
    let mut text = String::new();
    for file in files {
        text += &without_comments(&fs::read_to_string(file)?);
    }
    Ok(text)
}

fn without_comments(text: &str) -> String {
    let code = |line: &str| format!("{}\n", line.split("//").next().unwrap_or_default());
    text.lines().map(code).collect()
}

/// `#define NAME NUMBER`, and nothing else but the guard.
fn macros() -> Result<Numbers, Box<dyn Error>> {
    let mut found = Numbers::new();
    for line in header()?.lines() {
        let words: Vec<&str> = line.split_whitespace().collect();
        match words[..] {
            ["#define", "LUBIKSAN_H"] => {}
            ["#define", name, number] => {
                let before = found.insert(name.to_owned(), number.parse()?);
                assert_eq!(before, None, "{name} is defined twice");
            }
            ["#define", ..] => return Err(format!("{line}: it is not NAME NUMBER").into()),
            _ => {}
        }
    }
    Ok(found)
}

/// `const NAME: TYPE = NUMBER;`; constants of other forms are passed over.
fn constants(text: &str) -> Numbers {
    let mut found = Numbers::new();
    for line in text.lines() {
        let line = line.trim_start_matches("pub ");
        let parts = line
            .strip_prefix("const ")
            .and_then(|rest| rest.trim_end().strip_suffix(';'))
            .and_then(|rest| rest.split_once(" = "))
            .and_then(|(declared, number)| Some((declared.split_once(':')?.0, number)));
        if let Some((name, number)) = parts {
            if let Ok(number) = number.parse() {
                found.insert(name.to_owned(), number);
            }
        }
    }
    found
}

/// The cases of enums that have a number, `Name = NUMBER,` where they are declared or `Enum::Name => NUMBER,` where they are told, in upper case.
fn cases(text: &str) -> Numbers {
    let mut found = Numbers::new();
    for line in text.lines() {
        let Some(line) = line.trim().strip_suffix(',') else {
            continue;
        };
        let declared = line.split_once(" = ");
        let told = line
            .split_once(" => ")
            .and_then(|(case, number)| Some((case.split_once("::")?.1, number)));
        if let Some((name, number)) = declared.or(told) {
            let name = name.trim_end_matches("(_)");
            let plain = name.chars().all(char::is_alphanumeric);
            if let (true, Ok(number)) = (plain, number.parse()) {
                found.insert(upper(name), number);
            }
        }
    }
    found
}

/// A name of a case as one of a constant: `NoRoom` as `NO_ROOM`.
fn upper(name: &str) -> String {
    let mut told = String::new();
    for letter in name.chars() {
        if letter.is_uppercase() && !told.is_empty() {
            told.push('_');
        }
        told.push(letter.to_ascii_uppercase());
    }
    told
}

fn parameters(text: &str) -> impl Iterator<Item = &str> {
    text.split(',')
        .map(str::trim)
        .filter(|part| !part.is_empty())
}

fn c_type(name: &str) -> Result<&'static str, Box<dyn Error>> {
    match name {
        "uint8_t" => Ok("u8"),
        "uint32_t" => Ok("u32"),
        "uint64_t" => Ok("u64"),
        "size_t" => Ok("usize"),
        _ => Err(format!("the type {name} is not known").into()),
    }
}

/// A parameter of C as its Rust type and its name.
fn c_parameter(text: &str) -> Result<(String, String), Box<dyn Error>> {
    match text.split_once('*') {
        None => {
            let (kind, name) = text.split_once(' ').ok_or("a parameter has no name")?;
            Ok((c_type(kind)?.to_owned(), name.to_owned()))
        }
        Some((kind, name)) => {
            let kind = kind.trim();
            let pointer = match kind.strip_prefix("const ") {
                Some(kind) => format!("*const {}", c_type(kind)?),
                None => format!("*mut {}", c_type(kind)?),
            };
            Ok((pointer, name.to_owned()))
        }
    }
}

/// The prototypes of the header.
fn prototypes() -> Result<Calls, Box<dyn Error>> {
    let text = header()?;
    let code: String = text
        .lines()
        .filter(|line| !line.starts_with('#'))
        .map(|line| format!("{line} "))
        .collect();
    let code = code.replace("extern \"C\" {", "").replace('}', "");
    let mut found = Calls::new();
    for text in code
        .split(';')
        .map(str::trim)
        .filter(|text| !text.is_empty())
    {
        let text = text.split_whitespace().collect::<Vec<_>>().join(" ");
        let (head, rest) = text.split_once('(').ok_or("a prototype has no brackets")?;
        let (gives, name) = head.split_once(' ').ok_or("a prototype has no type")?;
        let inside = rest.strip_suffix(')').ok_or("a prototype is not closed")?;
        let (mut takes, mut names) = (Vec::new(), Vec::new());
        for parameter in parameters(inside).filter(|&text| text != "void") {
            let (kind, name) = c_parameter(parameter)?;
            takes.push(kind);
            names.push(name);
        }
        let gives = c_type(gives)?.to_owned();
        found.insert(name.to_owned(), (Call { takes, gives }, names));
    }
    Ok(found)
}

/// The functions behind a mark in a text, up to what ends their heads.
fn functions(text: &str, mark: &str, end: &[char]) -> Result<Calls, Box<dyn Error>> {
    let mut found = Calls::new();
    for part in text.split(mark).skip(1) {
        let (name, rest) = part.split_once('(').ok_or("a function has no brackets")?;
        let (inside, rest) = rest.split_once(')').ok_or("a function is not closed")?;
        let gives = rest
            .trim_start()
            .strip_prefix("->")
            .ok_or("nothing is given")?;
        let gives = gives.split(end).next().unwrap_or_default().trim();
        let (mut takes, mut names) = (Vec::new(), Vec::new());
        for parameter in parameters(inside) {
            let (name, kind) = parameter.split_once(':').ok_or("a parameter has no type")?;
            takes.push(kind.trim().to_owned());
            names.push(name.to_owned());
        }
        let gives = gives.to_owned();
        found.insert(name.to_owned(), (Call { takes, gives }, names));
    }
    Ok(found)
}

/// A parameter of the library as C passes it: a slice is an address and a length.
fn passed(kind: &str) -> Result<Vec<String>, Box<dyn Error>> {
    let (pointer, rest) = match (kind.strip_prefix("&mut "), kind.strip_prefix('&')) {
        (Some(rest), _) => ("*mut ", rest),
        (None, Some(rest)) => ("*const ", rest),
        (None, None) => return Ok(vec![kind.to_owned()]),
    };
    match rest
        .strip_prefix('[')
        .and_then(|rest| rest.strip_suffix(']'))
    {
        Some(element) => Ok(vec![format!("{pointer}{element}"), "usize".to_owned()]),
        None => Ok(vec![format!("{pointer}{rest}")]),
    }
}

#[test]
fn every_macro_is_a_constant_of_this_crate_and_the_other_way_round() -> Tried {
    assert_eq!(macros()?, constants(&sources(&here().join("src"), "rs")?));
    Ok(())
}

#[test]
fn every_macro_has_the_number_of_the_library() -> Tried {
    let macros = macros()?;
    let mut held: Vec<String> = TRIED_ON_CALLS
        .iter()
        .map(|name| format!("LUBIKSAN_{name}"))
        .collect();
    for (file, prefix, renamed) in SOURCES {
        let text = without_comments(&fs::read_to_string(crates().join(file))?);
        let mut constants = constants(&text);
        constants.append(&mut cases(&text));
        assert!(!constants.is_empty(), "{file} has no constant");
        for (name, number) in constants {
            let other = renamed.iter().find(|(from, _)| *from == name);
            let told = other.map_or(format!("{prefix}{name}"), |(_, to)| (*to).to_owned());
            let told = format!("LUBIKSAN_{told}");
            assert_eq!(macros.get(&told), Some(&number), "{told}, {name} of {file}");
            held.push(told);
        }
    }
    held.sort();
    assert_eq!(macros.into_keys().collect::<Vec<_>>(), held);
    Ok(())
}

#[test]
fn every_prototype_is_a_declaration_of_this_crate() -> Tried {
    let declared = functions(&sources(&here().join("src"), "rs")?, "pub fn ", &[';'])?;
    assert_eq!(prototypes()?, declared);
    Ok(())
}

#[test]
fn every_prototype_is_a_function_that_the_library_exports() -> Tried {
    let text = sources(&crates().join("lubiksan/src"), "rt")?;
    let mark = "#[unsafe(no_mangle)]\npub extern \"C\" fn ";
    assert_eq!(
        text.matches("no_mangle").count(),
        text.matches(mark).count()
    );
    let mut exported = BTreeMap::new();
    for (name, (call, _)) in functions(&text, mark, &['\n'])? {
        let takes: Result<Vec<Vec<String>>, _> =
            call.takes.iter().map(|kind| passed(kind)).collect();
        let (takes, gives) = (takes?.concat(), call.gives);
        exported.insert(name, Call { takes, gives });
    }
    let told: BTreeMap<String, Call> = prototypes()?
        .into_iter()
        .map(|(name, (call, _))| (name, call))
        .collect();
    assert_eq!(told, exported);
    Ok(())
}

#[test]
fn the_version_is_that_of_the_crates_and_of_the_archive() -> Tried {
    let number = lubiksan_sys::LUBIKSAN_VERSION;
    // SAFETY: the call takes nothing.
    assert_eq!(unsafe { lubiksan_sys::lubiksan_version() }, number);
    let version = format!(
        "{}.{}.{}",
        number / 10_000,
        number / 100 % 100,
        number % 100
    );
    for manifest in ["", "../", "../xml/", "../../tool/", "../../examples/rust/"] {
        let text = fs::read_to_string(here().join(manifest).join("Cargo.toml"))?;
        let told = text
            .lines()
            .find_map(|line| line.strip_prefix("version = "));
        assert_eq!(told, Some(format!("{version:?}").as_str()), "{manifest}");
    }
    Ok(())
}
