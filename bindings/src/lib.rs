//! Schema text or events in, a type graph out: safe Rust over the static library `lubiksan`, whose calls are proved to meet
//! their contracts. This crate carries buffers to the library and words back; it decides nothing.
//!
//! | Type | Is |
//! |---|---|
//! | [`TapeBuilder`], [`Tape`] | a piece of a run of events: start tags, empty tags, closes |
//! | [`Tape::of_text`], [`tape_of`], [`NoTape`] | the tape of a schema text, or why it has none |
//! | [`SchemaSheet`] | the state of a reading: what the events so far say. It is two buffers and can be stored |
//! | [`ReadAs`] | the choice made when a sheet is cleared: as the original, or a schema ends at its own tag |
//! | [`SchemaSheet::to_xsd`] | the schema written back as text |
//! | [`Graph`] | the type graph of a schema, with typed views that borrow from it |
//! | [`Refusal`], [`Cause`] | why a call was refused: the library's number, a sentence, the place |
//! | [`check_version`] | is the archive that was linked the one that this crate was written for? |
//! | [`Pattern`] | what a pattern is by the grammar of XML Schema's regular expressions |
//! | [`columns`] | the rows of a graph by column, for storing, and back |
//! | [`names`] | the text functions of the library: local name, numbers, built-in types, Rust names |
//!
//! ```
//! use lubiksan::{Cardinality, Graph, ReadAs, SchemaSheet, TapeBuilder, TypeDef};
//!
//! let mut piece = TapeBuilder::new();
//! piece.start("xs:schema", &[("targetNamespace", "urn:example")])?;
//! piece.empty("xs:element", &[("name", "Document"), ("type", "Payment")])?;
//! piece.start("xs:complexType", &[("name", "Payment")])?;
//! piece.start("xs:sequence", &[])?;
//! piece.empty("xs:element", &[("name", "MsgId"), ("type", "xs:string"), ("minOccurs", "0")])?;
//! for _ in 0..3 {
//!     piece.close()?;
//! }
//!
//! let mut sheet = SchemaSheet::cleared(ReadAs::Standard);
//! sheet.read(&piece.finish())?;
//! let mut graph = Graph::new();
//! sheet.lower(&mut graph)?;
//!
//! assert_eq!(graph.namespace(), "urn:example");
//! let Some(TypeDef::Struct(payment)) = graph.types().next() else {
//!     return Err("a struct was expected".into());
//! };
//! let field = payment.fields().next().ok_or("a field was expected")?;
//! assert_eq!((field.xml_name, field.rust_name), ("MsgId", "msg_id"));
//! assert_eq!(field.cardinality, Cardinality::Optional);
//! # Ok::<(), Box<dyn std::error::Error>>(())
//! ```
//!
//! The same from the text of a schema, which the library reads itself:
//!
//! ```
//! use lubiksan::{Graph, ReadAs, SchemaSheet, Tape};
//!
//! let text = "<xs:schema><xs:element name='Document' type='Payment'/></xs:schema>";
//! let mut sheet = SchemaSheet::cleared(ReadAs::Standard);
//! sheet.read(&Tape::of_text(text.into())?)?;
//! let mut graph = Graph::new();
//! sheet.lower(&mut graph)?;
//! assert_eq!(graph.roots().count(), 1);
//! # Ok::<(), Box<dyn std::error::Error>>(())
//! ```
//!
//! A refusal says what is wrong and where:
//!
//! ```
//! use lubiksan::{ReadAs, Refusal, SchemaSheet, TapeBuilder};
//!
//! let mut piece = TapeBuilder::new();
//! piece.start("schema", &[])?;
//! piece.start("complexType", &[])?;
//! let refusal = SchemaSheet::cleared(ReadAs::Standard).read(&piece.finish());
//! assert!(matches!(refusal, Err(Refusal::MissingAttribute(at)) if at.event == 1));
//! # Ok::<(), Box<dyn std::error::Error>>(())
//! ```

#![deny(missing_docs)]
#![deny(unsafe_code)]

mod buffer;
mod calls;
mod cause;
pub mod columns;
mod graph;
pub mod limits;
pub mod names;
mod pattern;
mod refusal;
mod sheet;
mod tape;
mod text;
mod version;

pub use cause::Cause;
pub use graph::{
    Attribute, Builtin, Cardinality, CharacterCount, Choice, Code, CodeList, DigitCount, Facet,
    Field, Graph, Label, Newtype, Opaque, Root, Struct, TypeDef, TypeRef, Value, Variant,
};
pub use pattern::{Pattern, PatternFacet, Unjudged};
pub use refusal::{At, Refusal, TypeAt};
pub use sheet::{Context, Declared, Kind, ReadAs, SchemaSheet};
pub use tape::{Event, Events, PieceFull, Tag, Tape, TapeBuilder};
pub use text::{tape_of, NoTape};
pub use version::{check_version, Version, WrongVersion};
