//! Which references need a box: those to a type that holds the owner again, lists not counted.

use std::collections::HashMap;

use lubiksan::{Cardinality, Graph, TypeDef, TypeRef};

/// Which type holds which.
pub struct Boxes<'g> {
    index: HashMap<&'g str, usize>,
    held: Vec<Vec<usize>>,
}

impl<'g> Boxes<'g> {
    /// The types of a graph.
    pub fn of(graph: &'g Graph<'_>) -> Boxes<'g> {
        let names = graph.types().map(|found| found.name());
        let index: HashMap<&str, usize> = names.enumerate().map(|(at, name)| (name, at)).collect();
        let held = graph.types().map(|found| {
            let names = held_by(&found).into_iter();
            names.filter_map(|name| index.get(name).copied()).collect()
        });
        let held = held.collect();
        Boxes { index, held }
    }

    /// The type `held` holds `owner`, itself or through others.
    pub fn needed(&self, owner: &str, held: &str) -> bool {
        let (Some(&owner), Some(&held)) = (self.index.get(owner), self.index.get(held)) else {
            return false;
        };
        let mut seen = vec![false; self.held.len()];
        let mut rest = vec![held];
        while let Some(at) = rest.pop() {
            if at == owner {
                return true;
            }
            let first = seen
                .get_mut(at)
                .is_some_and(|seen| !std::mem::replace(seen, true));
            if first {
                rest.extend(self.held.get(at).into_iter().flatten());
            }
        }
        false
    }
}

/// The named types inside a type, those in lists left out.
fn held_by<'g>(found: &TypeDef<'g>) -> Vec<&'g str> {
    let one = |c: Cardinality| matches!(c, Cardinality::Required | Cardinality::Optional);
    let references: Vec<TypeRef<'g>> = match found {
        TypeDef::Struct(it) => it
            .fields()
            .filter(|f| one(f.cardinality))
            .map(|f| f.type_ref)
            .collect(),
        TypeDef::Choice(it) => it.variants().map(|v| v.type_ref).collect(),
        TypeDef::Value(it) => std::iter::once(it.value())
            .chain(it.attributes().map(|a| a.type_ref))
            .collect(),
        _ => Vec::new(),
    };
    let name = |reference| match reference {
        TypeRef::Named(name) => Some(name),
        TypeRef::Builtin(_) => None,
    };
    references.into_iter().filter_map(name).collect()
}
