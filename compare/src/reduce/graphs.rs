//! Graphs to try, as rows with their texts.

use crate::paper::sheet::{names_used, rows_used, Lent, Row, Sheet};
use crate::random::Random;

/// The largest room.
pub const LARGEST: Lent = Lent {
    rows: 40_960,
    names: 65_536,
};

/// Names of types and references.
pub const NAMES: [&str; 12] = [
    "A",
    "B",
    "_B",
    "AB",
    "Doc",
    "",
    "date",
    "Date",
    "xs:string",
    "a_b",
    "x:Doc",
    "b",
];

/// Names of roots' types.
pub const ROOTS: [&str; 16] = [
    "A",
    "_a",
    "b",
    "_b",
    "a_b",
    "a-b",
    "AB",
    "x:Doc",
    "Doc",
    "_doc",
    "_",
    "",
    "date",
    "xs:string",
    "_date",
    "z9",
];

/// The sheet of these rows, with row 0 as they ask for.
pub fn sheet_of(rows: &[Row], lent: Lent) -> Sheet {
    let count = |low: u32, high: u32| {
        let counted = rows.iter().filter(|row| (low..=high).contains(&row.tag));
        counted.count() as u32
    };
    let mut row0 = [0; 10];
    row0[1] = rows_used(rows) as u32;
    row0[2] = names_used(rows) as u32;
    row0[3] = count(2, 2);
    row0[4] = count(3, 8);
    Sheet::packed(row0, rows, lent)
}

/// The room that these rows take.
pub fn exact(rows: &[Row]) -> Lent {
    Lent {
        rows: 10 * rows_used(rows),
        names: names_used(rows),
    }
}

/// The row with a named reference, or with a built-in one.
fn referring(mut row: Row, reference: Option<&str>) -> Row {
    match reference {
        Some(name) => row.texts.push(name.to_owned()),
        None => row.a = 3,
    }
    row
}

/// How many kinds of types with two references there are.
pub const KINDS: usize = 4;

/// A type of a kind with two references.
pub fn with_references(kind: usize, name: &str, to: [Option<&str>; 2]) -> Vec<Row> {
    let field = |to| referring(Row::new(9, &["F", "f"]), to);
    match kind % KINDS {
        0 => vec![Row::new(3, &[name]), field(to[0]), field(to[1])],
        1 => {
            let variant = |to| referring(Row::new(10, &["V", "V"]), to);
            vec![Row::new(4, &[name]), variant(to[0]), variant(to[1])]
        }
        2 => {
            let attribute = referring(Row::new(19, &["a", "a"]), to[1]);
            vec![referring(Row::new(7, &[name]), to[0]), attribute]
        }
        _ => vec![
            Row::new(3, &[name]),
            field(None),
            field(to[1]),
            field(to[0]),
        ],
    }
}

/// The namespace and roots of these types.
pub fn front(roots: &[&str]) -> Vec<Row> {
    let rows = roots.iter().map(|root| Row::new(2, &["R", root]));
    [Row::new(1, &["u"])].into_iter().chain(rows).collect()
}

/// Rows of a random graph in the form, with any numbers that it allows; two types may have one name.
pub fn random(random: &mut Random) -> Vec<Row> {
    let some = random.below(4);
    let roots: Vec<&str> = (0..some)
        .map(|_| ROOTS[random.below(ROOTS.len())])
        .collect();
    let mut rows = front(&roots);
    for row in &mut rows[1..] {
        row.c = random.below(3) as u32 * 70_000;
    }
    let mut left: Vec<&str> = NAMES.to_vec();
    for _ in 0..random.below(9) {
        let name = left[random.below(left.len())];
        if random.below(40) > 0 && left.len() > 1 {
            left.retain(|&other| other != name);
        }
        rows.extend(random_type(random, name));
    }
    rows
}

fn random_type(random: &mut Random, name: &str) -> Vec<Row> {
    let tag = 3 + random.below(6) as u32;
    let mut head = Row::new(tag, &[name]);
    head.c = random.below(4) as u32 * 999;
    match tag {
        5 => head.a = 1 + random.below(5) as u32,
        7 => head = random_reference(random, head),
        8 if random.below(2) == 1 => {
            head.a = 1;
            head.texts.push("urn".to_owned());
        }
        _ => {}
    }
    let count = random.below(4);
    let children: Vec<Row> = (0..count).filter_map(|_| child(random, tag)).collect();
    [head].into_iter().chain(children).collect()
}

/// A child of a head.
fn child(random: &mut Random, head: u32) -> Option<Row> {
    let number = random.next_u64() as u32;
    let row = match head {
        3 => {
            let row = random_reference(random, Row::new(9, &["Fld", "fld"]));
            let b = random.below(4) as u32;
            let c = if b == 3 { 2 + number % 5 } else { 0 };
            Row { b, c, ..row }
        }
        4 => random_reference(random, Row::new(10, &["Vrt", "Vrt"])),
        5 => match 11 + random.below(7) as u32 {
            tag @ (11 | 14 | 15) => Row::new(tag, &["[0-9]"]),
            tag @ (12 | 13) => Row::new(tag, &[]).with(number, number % 7),
            tag => Row::new(tag, &[]).with(number, 0),
        },
        6 => Row::new(18, &["CODE", "Code"]),
        7 => {
            let row = random_reference(random, Row::new(19, &["Ccy", "ccy"]));
            Row {
                b: number % 2,
                ..row
            }
        }
        _ => return None,
    };
    Some(row)
}

fn random_reference(random: &mut Random, row: Row) -> Row {
    match random.below(3) {
        0 => Row {
            a: 1 + random.below(5) as u32,
            ..row
        },
        _ => referring(row, Some(NAMES[random.below(NAMES.len())])),
    }
}

/// A chain of types, each with one field, from the first to the last; `backwards` the first stands last.
pub fn chain(count: usize, backwards: bool) -> Vec<Row> {
    let names: Vec<String> = (0..=count).map(|k| format!("T{k}")).collect();
    chain_of(&names, backwards)
}

/// The same of types of these names, of which the last is only led to.
pub fn chain_of(names: &[String], backwards: bool) -> Vec<Row> {
    let link = |pair: &[String]| vec![Row::new(3, &[&pair[0]]), Row::new(9, &["F", "f", &pair[1]])];
    let mut types: Vec<Vec<Row>> = names.windows(2).map(link).collect();
    if backwards {
        types.reverse();
    }
    let front = front(&[&names[0]]);
    front.into_iter().chain(types.concat()).collect()
}
