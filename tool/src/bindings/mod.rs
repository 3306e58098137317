//! Rust crates that read and write the messages of schemas, by serde and quick-xml.
//!
//! | Module | Holds |
//! |---|---|
//! | `tree` | the tags of a schema as a tree, with the texts of its annotations |
//! | `reach` | the types that a root reaches; where a circle of types is broken |
//! | `model`, `make` | the types as the bindings have them, by the schema where the graph is not the schema |
//! | `own` | references by a prefix of the schema's own namespace |
//! | `whole` | for `diff`: types inside elements, and the text of what no type has |
//! | `large` | which fields are boxed for their size |
//! | `bases`, `rules`, `regexes` | built-in types, facets, patterns as regular expressions |
//! | `write`, `package` | the source of a module; the files of a crate |
//! | `run` | the command |
//! | `support.rs` | the module that all schemas share, copied into the crate |

mod bases;
mod large;
mod make;
mod model;
mod own;
mod package;
mod reach;
mod regexes;
mod rules;
mod run;
mod tree;
mod whole;
mod write;

pub(crate) use make::schema;
pub use make::Wanted;
pub(crate) use model::{Check, Facet, Field, Group, Kind, Many, Part, Rest, Schema, Type};
pub use package::{crate_of, module_of, Made, Modules};
pub use reach::used_types;
pub use run::run;
