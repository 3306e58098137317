//! The type graph and its typed views.

mod rows;
mod types;

pub use types::{
    Attribute, Builtin, Cardinality, CharacterCount, Choice, Code, CodeList, DigitCount, Facet,
    Field, Newtype, Opaque, Root, Struct, TypeDef, TypeRef, Value, Variant,
};

use lubiksan_sys as sys;

use crate::buffer::Buffer;
use crate::calls::{self, Answer};
use crate::limits::{NAMES, ROW, ROW_NUMBERS, SCRATCH};
use crate::refusal::Refusal;
use rows::Rows;
use types::Types;

/// The type graph of a schema. Its views borrow from it and copy nothing.
///
/// A graph comes from [`SchemaSheet::lower`](crate::SchemaSheet::lower), or from stored buffers, whose form is then
/// tested once ([`Graph::from_buffers`]). One that holds nothing has no roots and no types.
///
/// ```
/// use lubiksan::{Graph, ReadAs, SchemaSheet, TapeBuilder};
///
/// let mut piece = TapeBuilder::new();
/// piece.start("schema", &[])?;
/// piece.empty("element", &[("name", "D"), ("type", "T")])?;
/// let mut sheet = SchemaSheet::cleared(ReadAs::Standard);
/// sheet.read(&piece.finish())?;
/// let mut graph = Graph::new();
/// assert_eq!(sheet.lower(&mut graph)?, 3);
/// let root = graph.roots().next().ok_or("a root was expected")?;
/// assert_eq!((root.xml_name, root.type_name), ("D", "T"));
/// // Event 0 is the schema, event 1 the element.
/// assert_eq!(root.event(), Some(1));
///
/// let stored = (graph.rows().to_vec(), graph.names().to_vec());
/// assert_eq!(Graph::from_buffers(stored.0, stored.1)?.roots().count(), 1);
/// assert!(Graph::from_buffers(vec![7; 20], Vec::new()).is_err());
/// # Ok::<(), Box<dyn std::error::Error>>(())
/// ```
#[derive(Debug)]
pub struct Graph<'a> {
    rows: Buffer<'a, u32>,
    names: Buffer<'a, u8>,
    scratch: Buffer<'a, u32>,
    /// The rows used; 0 where the graph holds nothing.
    used: usize,
}

/// The label of a row: the type that it refers to.
#[derive(Clone, Copy, Debug, PartialEq, Eq)]
pub enum Label<'g, 'w> {
    /// A part of the graph's names: a named type.
    Name(&'g [u8]),
    /// A part of the lent words: a built-in type.
    Word(&'w [u8]),
}

impl Default for Graph<'static> {
    fn default() -> Self {
        Graph::new()
    }
}

impl Graph<'static> {
    /// An empty graph of full size.
    pub fn new() -> Graph<'static> {
        Graph::owned(vec![0; ROW_NUMBERS], vec![0; NAMES], 0)
    }

    /// The graph in stored buffers.
    ///
    /// # Errors
    ///
    /// [`Refusal::GraphForm`] where they have not the form of a graph, [`Refusal::Lengths`] where a length is not taken.
    pub fn from_buffers(rows: Vec<u32>, names: Vec<u8>) -> Result<Graph<'static>, Refusal> {
        let answer = calls::graph_form(&rows, &names);
        if answer.number != sys::LUBIKSAN_ACCEPTED {
            return Err(Refusal::of(answer, 0));
        }
        let used = rows
            .get(sys::LUBIKSAN_ROWS_USED_AT)
            .map_or(0, |&n| n as usize);
        Ok(Graph::owned(rows, names, used))
    }

    fn owned(rows: Vec<u32>, names: Vec<u8>, used: usize) -> Graph<'static> {
        let scratch = Buffer::Owned(vec![0; SCRATCH]);
        Graph {
            rows: Buffer::Owned(rows),
            names: Buffer::Owned(names),
            scratch,
            used,
        }
    }
}

impl<'a> Graph<'a> {
    /// An empty graph in lent buffers, with a scratch of at least [`SCRATCH`] numbers, however many types the schema has.
    pub fn lend(rows: &'a mut [u32], names: &'a mut [u8], scratch: &'a mut [u32]) -> Graph<'a> {
        Graph {
            rows: Buffer::Lent(rows),
            names: Buffer::Lent(names),
            scratch: Buffer::Lent(scratch),
            used: 0,
        }
    }

    /// Calls what writes a graph, the lowering or the reduction, on the buffers and notes what it left.
    pub(crate) fn fill(
        &mut self,
        write: impl FnOnce(&mut [u32], &mut [u8], &mut [u32]) -> Answer,
    ) -> Answer {
        let answer = write(&mut self.rows, &mut self.names, &mut self.scratch);
        match answer.number {
            sys::LUBIKSAN_ACCEPTED => self.used = answer.place,
            sys::LUBIKSAN_LENGTHS | sys::LUBIKSAN_NOT_GOOD => {}
            sys::LUBIKSAN_SCRATCH | sys::LUBIKSAN_GRAPH_FORM => {}
            _ => self.used = 0,
        }
        answer
    }

    /// What the roots use: a graph with all of them and the types that some chain of references reaches from one, in their order.
    /// A root leads to the type of its normalised type name, a named reference to the type of that name.
    ///
    /// ```
    /// use lubiksan::{Graph, ReadAs, SchemaSheet, Tape};
    ///
    /// let text = "<schema><element name='D' type='_a'/>\
    ///     <simpleType name='A'><restriction base='string'/></simpleType>\
    ///     <simpleType name='B'><restriction base='string'/></simpleType></schema>";
    /// let mut sheet = SchemaSheet::cleared(ReadAs::Standard);
    /// sheet.read(&Tape::of_text(text.into())?)?;
    /// let mut graph = Graph::new();
    /// sheet.lower(&mut graph)?;
    /// let used = graph.reduced()?;
    /// let names: Vec<_> = used.types().map(|it| it.name().to_owned()).collect();
    /// assert_eq!((graph.types().count(), names), (2, vec!["A".to_owned()]));
    /// assert_eq!(used.reduced()?.rows(), used.rows());
    /// # Ok::<(), Box<dyn std::error::Error>>(())
    /// ```
    ///
    /// # Errors
    ///
    /// [`Refusal::GraphForm`] where two types have one name, [`Refusal::Lengths`] of a graph that holds nothing.
    pub fn reduced(&self) -> Result<Graph<'static>, Refusal> {
        // No row and no name is added: the rooms of this graph are enough.
        let mut target = Graph::owned(vec![0; self.rows().len()], vec![0; self.names().len()], 0);
        self.reduce(&mut target)?;
        Ok(target)
    }

    /// [`Graph::reduced`] into a graph that is lent; the rows used.
    ///
    /// # Errors
    ///
    /// As [`Graph::reduced`], with the target as it was, or [`Refusal::GraphRoom`] where it is too small; it is empty then.
    pub fn reduce(&self, target: &mut Graph<'_>) -> Result<usize, Refusal> {
        let (rows, names) = (self.rows(), self.names());
        let answer = target.fill(|target_rows, target_names, _| {
            calls::reduce(rows, names, target_rows, target_names)
        });
        match answer.number {
            sys::LUBIKSAN_ACCEPTED => Ok(answer.place),
            _ => Err(Refusal::of(answer, 0)),
        }
    }

    /// The target namespace.
    pub fn namespace(&self) -> &str {
        self.used_rows()
            .skip(1)
            .next_row()
            .map_or("", |row| row.text(rows::FIRST))
    }

    /// The root elements, in the order of the schema.
    pub fn roots(&self) -> impl Iterator<Item = Root<'_>> {
        self.used_rows()
            .skip(2)
            .iter()
            .take_while(Root::is_root)
            .map(Root::of)
    }

    /// The types, in the order of the graph.
    pub fn types(&self) -> impl Iterator<Item = TypeDef<'_>> {
        Types::of(self.used_rows())
    }

    /// The rows in use, ten numbers each.
    pub fn rows(&self) -> &[u32] {
        self.rows.get(..ROW * self.used).unwrap_or_default()
    }

    /// The names in use.
    pub fn names(&self) -> &[u8] {
        let used = self.rows().get(sys::LUBIKSAN_NAMES_USED_AT);
        let used = used.map_or(0, |&n| n as usize);
        self.names.get(..used).unwrap_or_default()
    }

    /// The label of a row: `words` are five words, each ended by a newline byte, for the built-in types.
    ///
    /// ```
    /// use lubiksan::{Graph, Label, ReadAs, SchemaSheet, TapeBuilder};
    ///
    /// let mut piece = TapeBuilder::new();
    /// piece.start("schema", &[])?;
    /// piece.start("simpleType", &[("name", "Max35Text")])?;
    /// piece.empty("restriction", &[("base", "xs:string")])?;
    /// piece.close()?;
    /// let mut sheet = SchemaSheet::cleared(ReadAs::Standard);
    /// sheet.read(&piece.finish())?;
    /// let mut graph = Graph::new();
    /// sheet.lower(&mut graph)?;
    /// let words = b"String\nbool\nDecimal\nDate\nDateTime\n";
    /// assert_eq!(graph.label(2, words)?, Label::Word(b"String"));
    /// assert_eq!(graph.check_label(2, words), Ok(()));
    /// assert!(graph.check_label(1, words).is_err());
    /// # Ok::<(), Box<dyn std::error::Error>>(())
    /// ```
    ///
    /// # Errors
    ///
    /// [`Refusal::NoLabel`] for a row that has none, or a list of words that is not five.
    pub fn label<'w>(&self, row: usize, words: &'w [u8]) -> Result<Label<'_, 'w>, Refusal> {
        let part = calls::label(self.rows(), self.names(), words, row);
        if part.number != sys::LUBIKSAN_ACCEPTED {
            return Err(Refusal::NoLabel);
        }
        let range = part.start..part.start.saturating_add(part.length);
        if part.in_words {
            words.get(range).map(Label::Word).ok_or(Refusal::NoLabel)
        } else {
            self.names()
                .get(range)
                .map(Label::Name)
                .ok_or(Refusal::NoLabel)
        }
    }

    /// Has the row a label? The number of [`Graph::label`] alone.
    ///
    /// # Errors
    ///
    /// As [`Graph::label`].
    pub fn check_label(&self, row: usize, words: &[u8]) -> Result<(), Refusal> {
        match calls::label_number(self.rows(), self.names(), words, row) {
            sys::LUBIKSAN_ACCEPTED => Ok(()),
            _ => Err(Refusal::NoLabel),
        }
    }

    fn used_rows(&self) -> Rows<'_> {
        Rows::new(self.rows(), self.names())
    }
}
