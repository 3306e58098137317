//! References to the types of a schema by a prefix of its own namespace. The graph takes the prefix as a part of the name.

use std::collections::BTreeSet;

use lubiksan::names::normalize_type_name;

use crate::document::Document;

/// The prefixes that the first tag of a schema binds to the schema's own namespace.
pub struct Own<'d> {
    prefixes: Vec<&'d str>,
}

impl<'d> Own<'d> {
    /// Those of a document.
    pub fn of(document: &'d Document) -> Own<'d> {
        let Some(tag) = document.events().first() else {
            return Own {
                prefixes: Vec::new(),
            };
        };
        let namespace = document.attribute(tag, "targetNamespace");
        let bound = document.attributes(tag).filter_map(|(name, value, _)| {
            let prefix = name.strip_prefix("xmlns:")?;
            namespace
                .is_some_and(|(own, _)| own == value)
                .then_some(prefix)
        });
        Own {
            prefixes: bound.collect(),
        }
    }

    /// It is one of these prefixes.
    pub fn has(&self, prefix: &str) -> bool {
        self.prefixes.contains(&prefix)
    }

    /// The name in the graph of one of the `known` types, where it is referred to by one of these prefixes.
    pub fn named(&self, kind: &str, known: &BTreeSet<String>) -> Option<String> {
        let (prefix, local) = kind.split_once(':')?;
        let name = normalize_type_name(local);
        (self.has(prefix) && known.contains(&name)).then_some(name)
    }
}
