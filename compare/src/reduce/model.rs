//! A model of order 6: "From a graph, write a second one holding all roots and exactly the types that some chain of references reaches from
//! a root."

use std::collections::{HashMap, HashSet, VecDeque};

use super::form::{is_form, pairs_of};
use super::graphs::sheet_of;
use crate::leaves::normalize_type_name;
use crate::paper::sheet::{fits, good_lengths, rows_used, Row, Sheet};
use crate::paper::{answer, Answer};

/// A graph: the namespace and the roots, then each type with its children.
#[derive(Clone, Debug, PartialEq, Eq)]
pub struct Parted {
    front: Vec<Row>,
    types: Vec<Vec<Row>>,
}

/// Which types are reached.
pub type Reach = fn(&Parted) -> Vec<bool>;

impl Parted {
    /// The graph of a sheet in the form.
    fn of(sheet: &Sheet) -> Parted {
        let rows = sheet.rows[1] as usize;
        let mut parted = Parted {
            front: Vec::new(),
            types: Vec::new(),
        };
        for ten in sheet.rows.chunks_exact(10).take(rows).skip(1) {
            let row = row_of(ten, &sheet.names);
            match (row.tag, parted.types.last_mut()) {
                (1 | 2, _) => parted.front.push(row),
                (9.., Some(last)) => last.push(row),
                _ => parted.types.push(vec![row]),
            }
        }
        parted
    }

    /// "the type named by its normalised type name"
    fn root_names(&self) -> HashSet<String> {
        let roots = self.front.iter().filter(|row| row.tag == 2);
        roots
            .map(|row| normalize_type_name(&row.texts[1]))
            .collect()
    }

    /// No two types have one name.
    fn is_distinct(&self) -> bool {
        let names: HashSet<&str> = self.types.iter().map(|rows| name(rows)).collect();
        names.len() == self.types.len()
    }

    /// The rows with the types that are reached.
    fn rows(self, reached: &[bool]) -> Vec<Row> {
        let types = self.types.into_iter().zip(reached);
        let kept = types.filter_map(|(rows, &is)| is.then_some(rows));
        self.front.into_iter().chain(kept.flatten()).collect()
    }
}

/// A row with its texts.
fn row_of(ten: &[u32], names: &[u8]) -> Row {
    let pairs = ten[1..7].chunks_exact(2).take(pairs_of(ten).unwrap_or(0));
    let text = |pair: &[u32]| {
        let bytes = &names[pair[0] as usize..][..pair[1] as usize];
        String::from_utf8_lossy(bytes).into_owned()
    };
    Row {
        tag: ten[0],
        texts: pairs.map(text).collect(),
        a: ten[7],
        b: ten[8],
        c: ten[9],
    }
}

/// The name of a type.
fn name(rows: &[Row]) -> &str {
    &rows[0].texts[0]
}

/// "a named reference leads to the type of that name, or nowhere": of a value, a field, a variant, an attribute.
fn references(rows: &[Row]) -> impl Iterator<Item = &str> {
    let named = rows
        .iter()
        .filter(|row| matches!(row.tag, 7 | 9 | 10 | 19) && row.a == 0);
    named.filter_map(|row| row.texts.last().map(String::as_str))
}

/// By repeated passes: after pass k those that a chain of k types reaches.
pub fn by_passes(graph: &Parted) -> Vec<bool> {
    let roots = graph.root_names();
    let mut reached = vec![false; graph.types.len()];
    loop {
        let met = graph.types.iter().zip(&reached).filter(|(_, &is)| is);
        let led: HashSet<&str> = met.flat_map(|(rows, _)| references(rows)).collect();
        let reaches = |rows: &Vec<Row>| roots.contains(name(rows)) || led.contains(name(rows));
        let next: Vec<bool> = graph.types.iter().map(reaches).collect();
        if next == reached {
            return reached;
        }
        reached = next;
    }
}

/// By a queue of types, each of which is looked at once.
pub fn by_queue(graph: &Parted) -> Vec<bool> {
    let places: HashMap<&str, usize> = graph
        .types
        .iter()
        .enumerate()
        .map(|(place, rows)| (name(rows), place))
        .collect();
    let mut reached = vec![false; graph.types.len()];
    let roots = graph.root_names();
    let mut queue: VecDeque<usize> = VecDeque::new();
    let mut meet = |name: &str, queue: &mut VecDeque<usize>| {
        if let Some(&place) = places.get(name) {
            if !std::mem::replace(&mut reached[place], true) {
                queue.push_back(place);
            }
        }
    };
    roots.iter().for_each(|root| meet(root, &mut queue));
    while let Some(place) = queue.pop_front() {
        references(&graph.types[place]).for_each(|name| meet(name, &mut queue));
    }
    reached
}

/// The reduction of a graph into a target: the answer, and the target afterwards. "21 .. after 1 and before 15; nothing changed on 21, target
/// zero on 15; accepted, place is rows used".
pub fn reduced(source: &Sheet, target: &Sheet, reach: Reach) -> (Answer, Sheet) {
    if !good_lengths(source.lent()) || !good_lengths(target.lent()) {
        return (answer(1, 0), target.clone());
    }
    let graph = is_form(source).then(|| Parted::of(source));
    let Some(graph) = graph.filter(Parted::is_distinct) else {
        return (answer(21, 0), target.clone());
    };
    let reached = reach(&graph);
    let rows = graph.rows(&reached);
    if !fits(&rows, target.lent()) {
        let zeros = Sheet {
            rows: vec![0; target.rows.len()],
            names: vec![0; target.names.len()],
        };
        return (answer(15, 0), zeros);
    }
    let place = rows_used(&rows) as u32;
    (answer(0, place), sheet_of(&rows, target.lent()))
}

/// The number of the call that judges the form alone.
pub fn form_number(source: &Sheet) -> Answer {
    let number = match (good_lengths(source.lent()), is_form(source)) {
        (false, _) => 1,
        (true, false) => 21,
        (true, true) => 0,
    };
    answer(number, 0)
}

#[cfg(test)]
mod tests {
    use super::{by_passes, by_queue, reduced};
    use crate::paper::answer;
    use crate::paper::sheet::{Lent, Row};
    use crate::reduce::graphs::sheet_of;

    const ROOM: Lent = Lent {
        rows: 200,
        names: 100,
    };

    /// D leads to A by its normalised name, A to C by a field, C and B to B; X is reached from itself alone.
    #[test]
    fn a_chain_and_a_circle_by_hand() {
        let front = [Row::new(1, &["u"]), Row::new(2, &["D", "_a"])];
        let kept = [
            Row::new(3, &["A"]),
            Row::new(9, &["F", "f", "C"]),
            Row::new(4, &["B"]),
            Row::new(10, &["V", "V", "B"]),
            Row::new(7, &["C", "B"]),
        ];
        let alone = [Row::new(3, &["X"]), Row::new(9, &["F", "f", "X"])];
        let source = [&front[..], &kept[..2], &alone, &kept[2..]].concat();
        let expected = sheet_of(&[&front[..], &kept].concat(), ROOM);
        for reach in [by_passes, by_queue] {
            let before = sheet_of(&[Row::new(1, &["w"])], ROOM);
            let given = reduced(&sheet_of(&source, ROOM), &before, reach);
            assert_eq!(given, (answer(0, 8), expected.clone()));
        }
    }

    /// A reference is taken as it stands, and a root's name is not cut at a colon.
    #[test]
    fn names_by_hand() {
        let cases = [
            (["a_b", "AB"], true),
            (["a_b", "a_b"], false),
            (["x:Doc", "Doc"], false),
            (["_", ""], true),
            (["date", "date"], true),
            (["date", "Date"], false),
            (["xs:string", "xs:string"], true),
        ];
        for ([root, name], is) in cases {
            let rows = [
                Row::new(1, &["u"]),
                Row::new(2, &["D", root]),
                Row::new(3, &[name]),
            ];
            let before = sheet_of(&rows, ROOM);
            let (given, _) = reduced(&before, &before, by_queue);
            assert_eq!(given, answer(0, 3 + u32::from(is)), "{root} and {name}");
        }
        let rows = [
            Row::new(1, &["u"]),
            Row::new(2, &["D", "A"]),
            Row::new(3, &["A"]),
            Row::new(9, &["F", "f", "_b"]),
            Row::new(3, &["B"]),
        ];
        let before = sheet_of(&rows, ROOM);
        assert_eq!(reduced(&before, &before, by_queue).0, answer(0, 5));
    }
}
