//! A schema file of any length, in UTF-8, read into a schema sheet of the crate `lubiksan`, with file, line and column of what is refused.
//!
//! The library reads texts of up to 65,536 bytes and without characters above U+017F itself. Any other text is read here: quick-xml cuts it
//! into markup, every test that XML 1.0 asks for beyond that is made here, and the events go to the library in pieces. Names and values must
//! do without characters above U+017F, comments and text need not.
//!
//! | Item | Is |
//! |---|---|
//! | [`Schema`], [`NotRead`], [`Place`] | a schema read into a sheet; why it was not read, and where |
//! | [`Document`] | the events of a text, read in one of the two ways, in pieces for the library |
//! | [`taped`], [`xml`] | the two ways |
//! | [`words`] | texts of a schema in words for people |
//!
//! ```
//! use lubiksan::ReadAs;
//! use lubiksan_xml::Schema;
//!
//! let text = "<schema><!-- — --><element name='Document' type='Payment'/></schema>";
//! let schema = Schema::of_bytes(text.into(), ReadAs::Standard)?;
//! let graph = schema.graph()?;
//! let root = graph.roots().next().ok_or("a root was expected")?;
//! assert_eq!(root.xml_name, "Document");
//! let place = schema.place(root.event()).ok_or("its place is known")?;
//! assert_eq!((place.line, place.column), (1, 19));
//! # Ok::<(), Box<dyn std::error::Error>>(())
//! ```
//!
//! What is refused has its place:
//!
//! ```
//! use lubiksan::ReadAs;
//! use lubiksan_xml::Schema;
//!
//! let open = "<schema>\n  <complexType name='A'>\n</schema>";
//! let refused = Schema::of_bytes(open.into(), ReadAs::Standard).err().ok_or("it is refused")?;
//! let words = "3:1: the close of \"schema\" where \"complexType\" of line 2 is open (refused with 17)";
//! assert_eq!(refused.to_string(), words);
//! # Ok::<(), Box<dyn std::error::Error>>(())
//! ```

#![deny(missing_docs)]
#![deny(unsafe_code)]

pub mod document;
mod scan;
mod schema;
pub mod taped;
pub mod words;
pub mod xml;

pub use document::{Document, NoDocument};
pub use schema::{NotRead, Place, Schema, Why};
pub use xml::{Fault, Unread};
