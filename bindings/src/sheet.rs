//! The state of a reading.

use lubiksan_sys as sys;

use crate::buffer::Buffer;
use crate::calls::{self, Answer};
use crate::graph::Graph;
use crate::limits::{NAMES, ROW, ROWS, ROW_NUMBERS, TEXT};
use crate::names::same_normalized;
use crate::refusal::{Refusal, TypeAt};
use crate::tape::Tape;

/// The schema sheet: what the events read so far say, in rows of ten numbers and a names buffer. Both can be stored
/// and taken up again ([`SchemaSheet::from_buffers`]); the library judges the sheet at every call, so one that is not
/// good is refused and never read.
///
/// ```
/// use lubiksan::{ReadAs, SchemaSheet, TapeBuilder};
///
/// let mut sheet = SchemaSheet::cleared(ReadAs::Standard);
/// let mut piece = TapeBuilder::new();
/// piece.start("schema", &[])?;
/// assert_eq!(sheet.read(&piece.finish())?, 1);
///
/// // Stored, taken up again and read on.
/// let (rows, names) = (sheet.rows().to_vec(), sheet.names().to_vec());
/// let mut again = SchemaSheet::from_buffers(rows, names);
/// again.check()?;
/// let mut piece = TapeBuilder::new();
/// piece.close()?;
/// again.read(&piece.finish())?;
/// assert_eq!(again.events_done(), 2);
/// # Ok::<(), Box<dyn std::error::Error>>(())
/// ```
#[derive(Debug)]
pub struct SchemaSheet<'a> {
    rows: Buffer<'a, u32>,
    names: Buffer<'a, u8>,
}

/// How a schema is read: chosen when a sheet is cleared, and kept in the sheet.
///
/// ```
/// use lubiksan::{ReadAs, SchemaSheet, TapeBuilder};
///
/// let mut piece = TapeBuilder::new();
/// piece.start("schema", &[])?;
/// piece.start("annotation", &[])?;
/// piece.close()?;
/// piece.empty("element", &[("name", "Document"), ("type", "Payment")])?;
/// piece.close()?;
/// let piece = piece.finish();
///
/// let mut sheet = SchemaSheet::cleared(ReadAs::Standard);
/// sheet.read(&piece)?;
/// assert_eq!((sheet.read_as(), sheet.declared().count()), (ReadAs::Standard, 1));
///
/// sheet.clear(ReadAs::Original)?;
/// sheet.read(&piece)?;
/// assert_eq!((sheet.read_as(), sheet.declared().count()), (ReadAs::Original, 0));
/// # Ok::<(), Box<dyn std::error::Error>>(())
/// ```
#[derive(Clone, Copy, Debug, PartialEq, Eq)]
pub enum ReadAs {
    /// As the Rust original reads: any close at the top level of a schema ends it, and a type without a name is refused
    /// wherever it starts there. Sheets stored before there was a choice are such sheets.
    Original,
    /// By the standard: a schema ends at its own tag, only its direct children become elements or types, and whatever stands
    /// below another tag is passed over.
    Standard,
}

impl ReadAs {
    /// The number that the library takes.
    fn choice(self) -> u32 {
        match self {
            ReadAs::Original => sys::LUBIKSAN_AS_ORIGINAL,
            ReadAs::Standard => sys::LUBIKSAN_BY_STANDARD,
        }
    }
}

/// What a reading stands in.
#[derive(Clone, Copy, Debug, PartialEq, Eq)]
pub enum Context {
    /// Outside a schema.
    Outside,
    /// In a schema, outside its types.
    Schema,
    /// In a simple type.
    SimpleType,
    /// In a complex type.
    ComplexType,
}

/// What a head of the sheet declares.
#[derive(Clone, Copy, Debug, PartialEq, Eq, PartialOrd, Ord, Hash)]
pub enum Kind {
    /// A global element.
    Element,
    /// A simple type.
    SimpleType,
    /// A complex type.
    ComplexType,
}

/// An element or a type of the sheet.
#[derive(Clone, Copy, Debug, PartialEq, Eq)]
pub struct Declared<'s> {
    /// Its row in the sheet, from 0.
    pub row: usize,
    /// What it is.
    pub kind: Kind,
    /// Its name as in the schema.
    pub name: &'s str,
    /// The type of an element, the base of a simple type or of simple content, else empty.
    pub second: &'s str,
    event: Option<u32>,
}

impl Declared<'_> {
    /// The number in the run, from 0, of the event that gave it its name: the start or empty tag of an element, the start tag of a type.
    /// `None` where it is not known: in sheets stored before there were numbers, and for event 0 of a run begun inside a schema.
    ///
    /// Content, bases and the close leave it as it is, and it does not depend on the pieces in which the events were read.
    ///
    /// ```
    /// use lubiksan::{ReadAs, SchemaSheet, TapeBuilder};
    ///
    /// let mut sheet = SchemaSheet::cleared(ReadAs::Standard);
    /// let mut piece = TapeBuilder::new();
    /// piece.start("schema", &[])?;
    /// sheet.read(&piece.finish())?;
    /// let mut piece = TapeBuilder::new();
    /// piece.start("complexType", &[("name", "Party")])?;
    /// piece.start("sequence", &[])?;
    /// sheet.read(&piece.finish())?;
    /// let party = sheet.declared().next().ok_or("a type was expected")?;
    /// assert_eq!((party.name, party.event()), ("Party", Some(1)));
    /// # Ok::<(), Box<dyn std::error::Error>>(())
    /// ```
    pub fn event(&self) -> Option<u32> {
        self.event
    }

    fn at(&self) -> TypeAt {
        TypeAt {
            row: self.row,
            name: self.name.to_owned(),
        }
    }
}

impl SchemaSheet<'static> {
    /// A sheet of full size, cleared to be read so. There is no default: what is read depends on it.
    pub fn cleared(read_as: ReadAs) -> SchemaSheet<'static> {
        let mut sheet = SchemaSheet::from_buffers(vec![0; ROW_NUMBERS], vec![0; NAMES]);
        // Full lengths are taken, so clearing is not refused; were it, each call on the sheet would say so.
        let _ = sheet.clear(read_as);
        sheet
    }

    /// A sheet with this room, cleared to be read so.
    ///
    /// # Errors
    ///
    /// [`Refusal::Lengths`] for under 2 or over 4,096 rows, or over 65,536 bytes of names.
    pub fn with_room(
        rows: usize,
        names: usize,
        read_as: ReadAs,
    ) -> Result<SchemaSheet<'static>, Refusal> {
        if rows > ROWS || names > NAMES {
            return Err(Refusal::Lengths);
        }
        let mut sheet = SchemaSheet::from_buffers(vec![0; ROW * rows], vec![0; names]);
        sheet.clear(read_as)?;
        Ok(sheet)
    }

    /// The sheet of these buffers, whatever they hold.
    pub fn from_buffers(rows: Vec<u32>, names: Vec<u8>) -> SchemaSheet<'static> {
        SchemaSheet {
            rows: Buffer::Owned(rows),
            names: Buffer::Owned(names),
        }
    }
}

impl<'a> SchemaSheet<'a> {
    /// The sheet in lent buffers, whatever they hold: clear it, or read on where they stand.
    pub fn lend(rows: &'a mut [u32], names: &'a mut [u8]) -> SchemaSheet<'a> {
        SchemaSheet {
            rows: Buffer::Lent(rows),
            names: Buffer::Lent(names),
        }
    }

    /// Clears the sheet and chooses how it is read from then on.
    ///
    /// # Errors
    ///
    /// [`Refusal::Lengths`]; nothing is changed then.
    pub fn clear(&mut self, read_as: ReadAs) -> Result<(), Refusal> {
        let answer = calls::clear(&mut self.rows, &mut self.names, read_as.choice());
        accepted(answer, 0).map(|_| ())
    }

    /// Fills in the count of refused types of a sheet that was stored before there was one. A sheet that has 0 there, or the right count,
    /// is taken; nothing else is changed, so that it goes on where it stood.
    ///
    /// # Errors
    ///
    /// [`Refusal::Lengths`] or [`Refusal::NotGood`]; nothing is changed then.
    ///
    /// ```
    /// use lubiksan::{ReadAs, SchemaSheet, TapeBuilder};
    ///
    /// let mut piece = TapeBuilder::new();
    /// piece.start("schema", &[])?;
    /// piece.start("simpleType", &[("name", "Code")])?;
    /// piece.empty("restriction", &[("base", "Text")])?;
    /// piece.close()?;
    /// let mut sheet = SchemaSheet::cleared(ReadAs::Standard);
    /// sheet.read(&piece.finish())?;
    /// assert_eq!(sheet.refused_types(), 1);
    ///
    /// // As it would have been stored before.
    /// let mut rows = sheet.rows().to_vec();
    /// rows[17] = 0;
    /// let mut before = SchemaSheet::from_buffers(rows, sheet.names().to_vec());
    /// assert!(before.check().is_err());
    /// before.convert()?;
    /// before.check()?;
    /// assert_eq!(before.refused_types(), 1);
    /// # Ok::<(), Box<dyn std::error::Error>>(())
    /// ```
    pub fn convert(&mut self) -> Result<(), Refusal> {
        let answer = calls::convert(&mut self.rows, &self.names);
        accepted(answer, 0).map(|_| ())
    }

    /// Is the sheet good? Nothing is changed.
    ///
    /// # Errors
    ///
    /// [`Refusal::Lengths`] or [`Refusal::NotGood`].
    pub fn check(&mut self) -> Result<(), Refusal> {
        self.read(&Tape::default()).map(|_| ())
    }

    /// Reads a piece and gives the number of its events.
    ///
    /// # Errors
    ///
    /// The [`Refusal`] of the first refused event: the events before it are done, it and the rest of the piece are
    /// not. Or that of the call: then nothing is changed.
    pub fn read(&mut self, tape: &Tape) -> Result<usize, Refusal> {
        self.read_buffers(tape.text(), tape.marks())
    }

    /// Reads a piece that lies in these buffers, whatever they hold, and gives the number of its events: so a part of
    /// the marks of a long text is read without a copy.
    ///
    /// # Errors
    ///
    /// As [`SchemaSheet::read`].
    pub fn read_buffers(&mut self, text: &[u8], marks: &[u32]) -> Result<usize, Refusal> {
        let done = self.events_done();
        let answer = calls::read(&mut self.rows, &mut self.names, text, marks);
        accepted(answer, done)
    }

    /// Lowers the finished types into `graph` and gives the rows that it uses.
    ///
    /// # Errors
    ///
    /// The [`Refusal`] of the call; the graph is empty then, or as it was where a length was refused.
    ///
    /// ```
    /// use lubiksan::{Graph, ReadAs, Refusal, SchemaSheet, TapeBuilder};
    ///
    /// let mut piece = TapeBuilder::new();
    /// piece.start("schema", &[])?;
    /// for name in ["Amount_SimpleType", "AmountSimpleType"] {
    ///     piece.start("complexType", &[("name", name)])?;
    ///     piece.close()?;
    /// }
    /// let mut sheet = SchemaSheet::cleared(ReadAs::Standard);
    /// sheet.read(&piece.finish())?;
    /// let Err(Refusal::RepeatedName { again, first }) = sheet.lower(&mut Graph::new()) else {
    ///     return Err("two types of one name are refused".into());
    /// };
    /// assert_eq!((first.name.as_str(), first.row), ("Amount_SimpleType", 2));
    /// assert_eq!((again.name.as_str(), again.row), ("AmountSimpleType", 3));
    /// # Ok::<(), Box<dyn std::error::Error>>(())
    /// ```
    pub fn lower(&self, graph: &mut Graph<'_>) -> Result<usize, Refusal> {
        let answer = graph.fill(|rows, names, scratch| {
            calls::lower(&self.rows, &self.names, rows, names, scratch)
        });
        match answer.number {
            sys::LUBIKSAN_NAME_TWICE => Err(self.repeated_name(answer)),
            _ => accepted(answer, 0),
        }
    }

    /// 20 with both types: the one of the place, and the first one in lowering's order that has its name.
    fn repeated_name(&self, answer: Answer) -> Refusal {
        let types = self.finished_types();
        let again = types.iter().find(|found| found.row == answer.place);
        let first = again.and_then(|again| {
            let mut before = types.iter().take_while(|found| found.row != again.row);
            before.find(|found| same_normalized(found.name, again.name))
        });
        match again.zip(first) {
            Some((again, first)) => Refusal::RepeatedName {
                again: again.at(),
                first: first.at(),
            },
            None => Refusal::of(answer, 0),
        }
    }

    /// The finished types in lowering's order: simple ones before complex.
    fn finished_types(&self) -> Vec<Declared<'_>> {
        let mut heads: Vec<Declared<'_>> = self.declared().collect();
        if matches!(self.context(), Context::SimpleType | Context::ComplexType) {
            heads.pop();
        }
        heads.retain(|head| head.kind != Kind::Element);
        heads.sort_by_key(|head| head.kind);
        heads
    }

    /// Writes the finished elements and types as schema text into `text`, whatever it held, and gives how many bytes; the rest is zero.
    /// [`SchemaSheet::to_xsd`] lends a text of its own.
    ///
    /// # Errors
    ///
    /// The [`Refusal`] of the call: [`Refusal::NoRoot`], [`Refusal::NoValue`] or [`Refusal::TextRoom`], all of the text is zero then; or
    /// [`Refusal::Lengths`] (also where over 65,536 bytes are lent) or [`Refusal::NotGood`], and it is as it was.
    pub fn write_xsd(&self, text: &mut [u8]) -> Result<usize, Refusal> {
        accepted(calls::write(&self.rows, &self.names, text), 0)
    }

    /// The finished elements and types as schema text, in one line, tags with the prefix `xs:`. Read again it gives the same rows and
    /// names, but for the numbers of events. A type that is still open is left out, and so is what no sheet keeps: annotations, comments,
    /// other attributes and other facets.
    ///
    /// # Errors
    ///
    /// [`Refusal::NoRoot`]; [`Refusal::NoValue`] with the first row that has a value which XML 1.0 can't hold in an attribute: values stay
    /// as they are, nothing is escaped; [`Refusal::TextRoom`] for a text of over 65,536 bytes; [`Refusal::Lengths`] or
    /// [`Refusal::NotGood`].
    ///
    /// ```
    /// use lubiksan::{ReadAs, Refusal, SchemaSheet, Tape, TapeBuilder};
    ///
    /// let text = "<schema><!-- a note --><element name='D' type='T'/><complexType name='T'><choice/></complexType></schema>";
    /// let mut sheet = SchemaSheet::cleared(ReadAs::Standard);
    /// sheet.read(&Tape::of_text(text.into())?)?;
    /// assert_eq!(
    ///     sheet.to_xsd()?,
    ///     "<xs:schema xmlns:xs=\"http://www.w3.org/2001/XMLSchema\" targetNamespace=\"\">\
    ///      <xs:element name=\"D\" type=\"T\"/>\
    ///      <xs:complexType name=\"T\"><xs:sequence><xs:any/></xs:sequence></xs:complexType></xs:schema>"
    /// );
    ///
    /// // Events need not come from XML, and a value may be one that XML can't hold.
    /// let mut piece = TapeBuilder::new();
    /// piece.start("schema", &[])?;
    /// piece.empty("element", &[("name", "a<b"), ("type", "T")])?;
    /// sheet.clear(ReadAs::Standard)?;
    /// sheet.read(&piece.finish())?;
    /// assert_eq!(sheet.to_xsd(), Err(Refusal::NoValue { row: 2 }));
    /// # Ok::<(), Box<dyn std::error::Error>>(())
    /// ```
    pub fn to_xsd(&self) -> Result<String, Refusal> {
        let mut text = vec![0; TEXT];
        let length = self.write_xsd(&mut text)?;
        text.truncate(length);
        // What the call writes is UTF-8, so nothing is lost.
        Ok(String::from_utf8_lossy(&text).into_owned())
    }

    /// The rows, ten numbers each.
    pub fn rows(&self) -> &[u32] {
        &self.rows
    }

    /// The names.
    pub fn names(&self) -> &[u8] {
        &self.names
    }

    /// How many rows are used, row 0 counted.
    pub fn rows_used(&self) -> usize {
        self.number(0, sys::LUBIKSAN_ROWS_USED_AT) as usize
    }

    /// How many bytes of names are used.
    pub fn names_used(&self) -> usize {
        self.number(0, sys::LUBIKSAN_NAMES_USED_AT) as usize
    }

    /// How many events were read.
    pub fn events_done(&self) -> usize {
        self.number(0, sys::LUBIKSAN_EVENTS_DONE_AT) as usize
    }

    /// How many tags are open.
    pub fn open_tags(&self) -> u32 {
        self.number(0, sys::LUBIKSAN_OPEN_TAGS_AT)
    }

    /// How the sheet is read; no reading changes it.
    pub fn read_as(&self) -> ReadAs {
        match self.number(0, sys::LUBIKSAN_CHOICE_AT) {
            sys::LUBIKSAN_BY_STANDARD => ReadAs::Standard,
            _ => ReadAs::Original,
        }
    }

    /// How many finished simple types lowering would refuse by 13, as the sheet counts them: an unknown base, and no code enum. The open
    /// type does not count. Above 0, no graph comes of the sheet.
    pub fn refused_types(&self) -> usize {
        self.rows
            .get(sys::LUBIKSAN_REFUSED_TYPES_AT)
            .map_or(0, |&count| count as usize)
    }

    /// A schema element was read.
    pub fn root_seen(&self) -> bool {
        self.number(0, sys::LUBIKSAN_ROOT_SEEN_AT) == 1
    }

    /// What the reading stands in.
    pub fn context(&self) -> Context {
        match self.number(0, sys::LUBIKSAN_CONTEXT_AT) {
            sys::LUBIKSAN_IN_SCHEMA => Context::Schema,
            sys::LUBIKSAN_IN_SIMPLE_TYPE => Context::SimpleType,
            sys::LUBIKSAN_IN_COMPLEX_TYPE => Context::ComplexType,
            _ => Context::Outside,
        }
    }

    /// The elements and types in order of arrival, the open type too.
    pub fn declared(&self) -> impl Iterator<Item = Declared<'_>> {
        (2..self.rows_used())
            .map_while(|row| self.declared_at(row))
            .flatten()
    }

    /// The element or type of a row; nothing inside for another row, none past the end.
    fn declared_at(&self, row: usize) -> Option<Option<Declared<'_>>> {
        let tag = *self.rows.get(row.checked_mul(ROW)?)?;
        let kind = match tag {
            sys::LUBIKSAN_XSD_ELEMENT => Kind::Element,
            sys::LUBIKSAN_XSD_SIMPLE_TYPE => Kind::SimpleType,
            sys::LUBIKSAN_XSD_SEQUENCE..=sys::LUBIKSAN_XSD_NO_CONTENT => Kind::ComplexType,
            _ => return Some(None),
        };
        let second = match tag {
            sys::LUBIKSAN_XSD_ANY => "",
            _ => self.text(row, sys::LUBIKSAN_SECOND_AT),
        };
        Some(Some(Declared {
            row,
            kind,
            name: self.text(row, sys::LUBIKSAN_FIRST_AT),
            second,
            event: Some(self.number(row, sys::LUBIKSAN_C_AT)).filter(|&event| event > 0),
        }))
    }

    /// The texts of a row, from 0, that are not empty, in the order of its pairs: a name, then a type, base or namespace; or a value.
    pub fn texts(&self, row: usize) -> impl Iterator<Item = &str> {
        let columns = [
            sys::LUBIKSAN_FIRST_AT,
            sys::LUBIKSAN_SECOND_AT,
            sys::LUBIKSAN_THIRD_AT,
        ];
        let texts = columns.map(|column| self.text(row, column));
        texts.into_iter().filter(|text| !text.is_empty())
    }

    pub(crate) fn number(&self, row: usize, column: usize) -> u32 {
        self.rows.get(ROW * row + column).copied().unwrap_or(0)
    }

    /// The text of the pair whose offset stands in the column; empty where it lies outside the names.
    pub(crate) fn text(&self, row: usize, column: usize) -> &str {
        let (offset, length) = (self.number(row, column), self.number(row, column + 1));
        let behind = self.names.get(offset as usize..).unwrap_or_default();
        let bytes = behind.get(..length as usize).unwrap_or_default();
        std::str::from_utf8(bytes).unwrap_or_default()
    }
}

fn accepted(answer: Answer, done: usize) -> Result<usize, Refusal> {
    match answer.number {
        sys::LUBIKSAN_ACCEPTED => Ok(answer.place),
        _ => Err(Refusal::of(answer, done)),
    }
}
