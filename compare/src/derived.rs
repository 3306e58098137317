//! Copies of parser.rs and lower.rs that build.rs derives from the unchanged files: the private
//! leaves are `pub(crate)` in them, and `//!` is `//`. Nothing else differs. `handlers` and `prepared`
//! are child modules of the copy of parser.rs: they call its handlers, on any state and on a list of
//! events.

#![allow(dead_code)]

pub(crate) mod xsd {
    pub(crate) use crate::xsd::types;

    pub(crate) mod parser {
        include!(concat!(env!("OUT_DIR"), "/parser.rs"));

        pub(crate) mod handlers;
        pub(crate) mod prepared;
    }
}

pub(crate) mod ir {
    pub(crate) use crate::ir::types;

    pub(crate) mod lower {
        include!(concat!(env!("OUT_DIR"), "/lower.rs"));
    }
}
