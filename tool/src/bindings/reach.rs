//! Which types a root reaches, and where a circle of types is broken.

use std::collections::{BTreeSet, HashMap};

use lubiksan::{Graph, Refusal};

use super::model::{Field, Kind, Many, Type};
use super::tree::Node;

/// The names of the types that the roots reach, by the library's reduction.
///
/// # Errors
///
/// As [`Graph::reduced`].
pub fn used_types(graph: &Graph<'_>) -> Result<BTreeSet<String>, Refusal> {
    let reduced = graph.reduced()?;
    Ok(reduced
        .types()
        .map(|found| found.name().to_owned())
        .collect())
}

/// What the tags of a type refer to, as it is written.
pub fn references_of<'d>(node: &Node<'d>) -> Vec<&'d str> {
    let tags = node.all();
    let kinds = tags
        .iter()
        .flat_map(|tag| [tag.attribute("type"), tag.attribute("base")]);
    kinds.flatten().collect()
}

/// Boxes the fields by which a type would hold itself: of each circle the one that closes it.
pub fn break_circles(types: &mut [Type]) {
    let index: HashMap<String, usize> = types
        .iter()
        .enumerate()
        .map(|(at, found)| (found.rust.clone(), at))
        .collect();
    let mut state = vec![State::New; types.len()];
    for start in 0..types.len() {
        walk(types, &index, &mut state, start);
    }
}

/// The types that have a value, of a choice with the number of the variant of its smallest one. The others hold another value of themselves each time.
pub fn starts(types: &[Type]) -> HashMap<String, usize> {
    let known: BTreeSet<&str> = types.iter().map(|found| found.rust.as_str()).collect();
    let mut starts: HashMap<String, usize> = HashMap::new();
    loop {
        let before = starts.len();
        for found in types {
            let has = |field: &Field| {
                !known.contains(field.holds.as_str()) || starts.contains_key(&field.holds)
            };
            let start = match &found.kind {
                _ if starts.contains_key(&found.rust) => None,
                Kind::Choice(variants) => variants.iter().position(has),
                Kind::Struct(fields, _) => {
                    let mut required = fields.iter().filter(|field| field.many == Many::One);
                    required.all(has).then_some(0)
                }
                _ => Some(0),
            };
            if let Some(start) = start {
                starts.insert(found.rust.clone(), start);
            }
        }
        if starts.len() == before {
            return starts;
        }
    }
}

#[derive(Clone, Copy, PartialEq, Eq)]
enum State {
    New,
    Open,
    Done,
}

/// Goes from a type into those that it holds; a field that leads to one that is still open is boxed.
fn walk(types: &mut [Type], index: &HashMap<String, usize>, state: &mut [State], start: usize) {
    let mut open = vec![(start, 0)];
    while let Some((at, next)) = open.pop() {
        if next == 0 && state.get(at) != Some(&State::New) {
            continue;
        }
        set(state, at, State::Open);
        let held = types
            .get_mut(at)
            .and_then(|found| held(&mut found.kind).into_iter().nth(next));
        let Some(field) = held else {
            set(state, at, State::Done);
            continue;
        };
        open.push((at, next + 1));
        if let Some(&inner) = index.get(&field.holds) {
            match state.get(inner) {
                Some(State::Open) => field.boxed = true,
                Some(State::New) => open.push((inner, 0)),
                _ => {}
            }
        }
    }
}

fn set(state: &mut [State], at: usize, to: State) {
    if let Some(state) = state.get_mut(at) {
        *state = to;
    }
}

/// The fields that hold their type directly.
fn held(kind: &mut Kind) -> Vec<&mut Field> {
    let fields = match kind {
        Kind::Struct(fields, _) | Kind::Choice(fields) => fields.iter_mut(),
        _ => return Vec::new(),
    };
    fields.filter(|field| field.many != Many::List).collect()
}
