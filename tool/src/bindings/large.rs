//! Which fields are boxed for their size.
//!
//! A type of ISO 20022 can have thousands of bytes, most of them of elements that are not there. Where such a type may be missing, or is one branch of
//! several, what stands in its place is an address: a value is smaller by that, so it takes less time to be made, to grow in a list and to be freed.

use std::collections::HashMap;

use super::model::{Field, Kind, Many, Type};

/// More bytes than these are boxed.
const LARGE: usize = 128;

const WORD: usize = 8;

/// Boxes what is large and may be missing; circles have their boxes by now.
pub fn box_large(types: &mut [Type]) {
    let mut sizes: HashMap<String, usize> = HashMap::new();
    loop {
        let before = sizes.len();
        for found in types.iter_mut() {
            if !sizes.contains_key(&found.rust) {
                let size = size(&mut found.kind, &sizes);
                sizes.extend(size.map(|size| (found.rust.clone(), size)));
            }
        }
        if sizes.len() == before {
            return;
        }
    }
}

/// About how many bytes a type has; none as long as that of another one in it is not known.
fn size(kind: &mut Kind, sizes: &HashMap<String, usize>) -> Option<usize> {
    let bytes = match kind {
        Kind::Codes(_) | Kind::Boolean => 1,
        Kind::Text(_) => 2 * WORD,
        Kind::Any => 9 * WORD,
        Kind::Value(text, attributes) => {
            let fields = attributes.iter_mut().chain([text.as_mut()]);
            together(fields.map(|field| of_field(field, false, sizes)))?
        }
        Kind::Struct(fields, _) => {
            let maybe = |field: &mut Field| of_field(field, field.many == Many::Maybe, sizes);
            together(fields.iter_mut().map(maybe))?
        }
        Kind::Choice(fields) => {
            let sizes = fields.iter_mut().map(|field| of_field(field, true, sizes));
            let all: Option<Vec<usize>> = sizes.collect();
            all?.into_iter().max().unwrap_or_default() + WORD
        }
    };
    Some(bytes)
}

/// The sum, each of them in whole words.
fn together(sizes: impl Iterator<Item = Option<usize>>) -> Option<usize> {
    let words = sizes.map(|size| size.map(|size| size.next_multiple_of(WORD)));
    words.sum()
}

/// The bytes of a field, which is boxed where that `may` be and it is large.
fn of_field(field: &mut Field, may: bool, sizes: &HashMap<String, usize>) -> Option<usize> {
    if field.many == Many::List {
        return Some(3 * WORD);
    }
    if field.boxed {
        return Some(WORD);
    }
    let size = match field.holds == super::write::STRING {
        true => 3 * WORD,
        false => *sizes.get(&field.holds)?,
    };
    field.boxed = may && size > LARGE;
    Some(if field.boxed { WORD } else { size })
}
