//! The ten numbers of a row, those of row 0, and the tags and other numbers that they hold.

/// Column of a row: the tag.
pub const LUBIKSAN_TAG_AT: usize = 0;
/// Column of a row: offset of the first pair; its length stands behind it.
pub const LUBIKSAN_FIRST_AT: usize = 1;
/// Column of a row: offset of the second pair.
pub const LUBIKSAN_SECOND_AT: usize = 3;
/// Column of a row: offset of the third pair.
pub const LUBIKSAN_THIRD_AT: usize = 5;
/// Column of a row: a.
pub const LUBIKSAN_A_AT: usize = 7;
/// Column of a row: b.
pub const LUBIKSAN_B_AT: usize = 8;
/// Column of a row: c; of a head the number of its event.
pub const LUBIKSAN_C_AT: usize = 9;
/// Column of row 0, of both sheets: rows used, row 0 counted.
pub const LUBIKSAN_ROWS_USED_AT: usize = 1;
/// Column of row 0, of both sheets: bytes of names used.
pub const LUBIKSAN_NAMES_USED_AT: usize = 2;
/// Column of row 0, of the schema sheet: the context.
pub const LUBIKSAN_CONTEXT_AT: usize = 3;
/// Column of row 0, of the schema sheet: the nesting inside a type.
pub const LUBIKSAN_NESTING_AT: usize = 4;
/// Column of row 0, of the schema sheet: 1 where a schema tag was read.
pub const LUBIKSAN_ROOT_SEEN_AT: usize = 5;
/// Column of row 0, of the schema sheet: events done.
pub const LUBIKSAN_EVENTS_DONE_AT: usize = 6;
/// Column of row 0, of the schema sheet: tags open.
pub const LUBIKSAN_OPEN_TAGS_AT: usize = 7;
/// Column of row 0, of the schema sheet: 1 inside an extension.
pub const LUBIKSAN_EXTENSION_AT: usize = 8;
/// Column of row 0, of the schema sheet: the choice of its clearing.
pub const LUBIKSAN_CHOICE_AT: usize = 9;
/// Place among all numbers of the rows of the schema sheet: how many finished simple types lowering refuses, a of row 1.
pub const LUBIKSAN_REFUSED_TYPES_AT: usize = 17;
/// Column of row 0, of the graph sheet: how many roots.
pub const LUBIKSAN_ROOTS_AT: usize = 3;
/// Column of row 0, of the graph sheet: how many types.
pub const LUBIKSAN_TYPES_AT: usize = 4;
/// Context: outside a schema.
pub const LUBIKSAN_OUTSIDE: u32 = 0;
/// Context: in a schema, outside its types.
pub const LUBIKSAN_IN_SCHEMA: u32 = 1;
/// Context: in a simple type.
pub const LUBIKSAN_IN_SIMPLE_TYPE: u32 = 2;
/// Context: in a complex type.
pub const LUBIKSAN_IN_COMPLEX_TYPE: u32 = 3;
/// Tag of the schema sheet: the target namespace, always row 1 (namespace).
pub const LUBIKSAN_XSD_NAMESPACE: u32 = 1;
/// Tag of the schema sheet: an element of the schema (name, type).
pub const LUBIKSAN_XSD_ELEMENT: u32 = 2;
/// Tag of the schema sheet: a simple type (name, base); its facets follow.
pub const LUBIKSAN_XSD_SIMPLE_TYPE: u32 = 3;
/// Tag of the schema sheet: an enumeration (value).
pub const LUBIKSAN_XSD_ENUMERATION: u32 = 4;
/// Tag of the schema sheet: a pattern (value).
pub const LUBIKSAN_XSD_PATTERN: u32 = 5;
/// Tag of the schema sheet: minLength in characters, a low, b high 32 bits.
pub const LUBIKSAN_XSD_MIN_LENGTH: u32 = 6;
/// Tag of the schema sheet: maxLength in characters, a low, b high 32 bits.
pub const LUBIKSAN_XSD_MAX_LENGTH: u32 = 7;
/// Tag of the schema sheet: minInclusive (value).
pub const LUBIKSAN_XSD_MIN_INCLUSIVE: u32 = 8;
/// Tag of the schema sheet: maxInclusive (value).
pub const LUBIKSAN_XSD_MAX_INCLUSIVE: u32 = 9;
/// Tag of the schema sheet: totalDigits, a.
pub const LUBIKSAN_XSD_TOTAL_DIGITS: u32 = 10;
/// Tag of the schema sheet: fractionDigits, a.
pub const LUBIKSAN_XSD_FRACTION_DIGITS: u32 = 11;
/// Tag of the schema sheet: a complex type with a sequence (name); its elements follow.
pub const LUBIKSAN_XSD_SEQUENCE: u32 = 12;
/// Tag of the schema sheet: a complex type with a choice (name); its elements follow.
pub const LUBIKSAN_XSD_CHOICE: u32 = 13;
/// Tag of the schema sheet: a complex type with simple content (name, base); its attributes follow.
pub const LUBIKSAN_XSD_SIMPLE_CONTENT: u32 = 14;
/// Tag of the schema sheet: a complex type of any content (name, namespace where a is 1).
pub const LUBIKSAN_XSD_ANY: u32 = 15;
/// Tag of the schema sheet: a complex type without content (name).
pub const LUBIKSAN_XSD_NO_CONTENT: u32 = 16;
/// Tag of the schema sheet: an element of a sequence (name, type), a min, b max.
pub const LUBIKSAN_XSD_BOUNDED: u32 = 17;
/// Tag of the schema sheet: an element of a sequence without a largest number (name, type), a min.
pub const LUBIKSAN_XSD_UNBOUNDED: u32 = 18;
/// Tag of the schema sheet: an element of a choice (name, type).
pub const LUBIKSAN_XSD_VARIANT: u32 = 19;
/// Tag of the schema sheet: an attribute (name, type), a required.
pub const LUBIKSAN_XSD_ATTRIBUTE: u32 = 20;
/// Tag of the graph sheet: the target namespace, always row 1 (namespace).
pub const LUBIKSAN_IR_NAMESPACE: u32 = 1;
/// Tag of the graph sheet: a root element (xml name, type name).
pub const LUBIKSAN_IR_ROOT: u32 = 2;
/// Tag of the graph sheet: a struct (name); fields follow.
pub const LUBIKSAN_IR_STRUCT: u32 = 3;
/// Tag of the graph sheet: an enum (name); variants follow.
pub const LUBIKSAN_IR_ENUM: u32 = 4;
/// Tag of the graph sheet: a newtype (name), a the inner kind, never [`LUBIKSAN_NAMED`]; constraints follow.
pub const LUBIKSAN_IR_NEWTYPE: u32 = 5;
/// Tag of the graph sheet: a list of codes (name); codes follow.
pub const LUBIKSAN_IR_CODE_ENUM: u32 = 6;
/// Tag of the graph sheet: a value with attributes (name, reference); attributes follow.
pub const LUBIKSAN_IR_VALUE: u32 = 7;
/// Tag of the graph sheet: any content (name, namespace where a is 1).
pub const LUBIKSAN_IR_OPAQUE: u32 = 8;
/// Tag of the graph sheet: a field (xml name, Rust name, reference), b cardinality, c bound.
pub const LUBIKSAN_IR_FIELD: u32 = 9;
/// Tag of the graph sheet: a variant (xml name, the same name, reference).
pub const LUBIKSAN_IR_VARIANT: u32 = 10;
/// Tag of the graph sheet: a pattern (value).
pub const LUBIKSAN_IR_PATTERN: u32 = 11;
/// Tag of the graph sheet: minLength in characters, a low, b high 32 bits.
pub const LUBIKSAN_IR_MIN_LENGTH: u32 = 12;
/// Tag of the graph sheet: maxLength in characters, a low, b high 32 bits.
pub const LUBIKSAN_IR_MAX_LENGTH: u32 = 13;
/// Tag of the graph sheet: minInclusive (value).
pub const LUBIKSAN_IR_MIN_INCLUSIVE: u32 = 14;
/// Tag of the graph sheet: maxInclusive (value).
pub const LUBIKSAN_IR_MAX_INCLUSIVE: u32 = 15;
/// Tag of the graph sheet: totalDigits, a.
pub const LUBIKSAN_IR_TOTAL_DIGITS: u32 = 16;
/// Tag of the graph sheet: fractionDigits, a.
pub const LUBIKSAN_IR_FRACTION_DIGITS: u32 = 17;
/// Tag of the graph sheet: a code (xml value, Rust name).
pub const LUBIKSAN_IR_CODE: u32 = 18;
/// Tag of the graph sheet: an attribute (xml name, Rust name, reference), b required.
pub const LUBIKSAN_IR_ATTRIBUTE: u32 = 19;
/// Kind of a reference: a named type; of lubiksan_map_builtin: none.
pub const LUBIKSAN_NAMED: u32 = 0;
/// Kind of a reference: text.
pub const LUBIKSAN_STRING: u32 = 1;
/// Kind of a reference: true or false.
pub const LUBIKSAN_BOOL: u32 = 2;
/// Kind of a reference: a decimal number.
pub const LUBIKSAN_DECIMAL: u32 = 3;
/// Kind of a reference: a date.
pub const LUBIKSAN_DATE: u32 = 4;
/// Kind of a reference: a date with a time.
pub const LUBIKSAN_DATE_TIME: u32 = 5;
/// Cardinality of a field: once.
pub const LUBIKSAN_REQUIRED: u32 = 0;
/// Cardinality of a field: once or not.
pub const LUBIKSAN_OPTIONAL: u32 = 1;
/// Cardinality of a field: any number of times.
pub const LUBIKSAN_VEC: u32 = 2;
/// Cardinality of a field: at most c times, c above 1.
pub const LUBIKSAN_BOUNDED: u32 = 3;
/// The label is a part of the names.
pub const LUBIKSAN_IN_NAMES: u32 = 0;
/// The label is a part of the word list.
pub const LUBIKSAN_IN_WORDS: u32 = 1;
