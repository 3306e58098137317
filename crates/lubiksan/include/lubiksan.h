/* The calls of the static library lubiksan (.ci/archive makes it): the text leaves; the tape of a schema text; a schema sheet
   cleared, a piece of a tape read into it, and one stored earlier converted; a schema sheet written back as schema text; a schema
   sheet lowered to a graph sheet; the label of a row of a graph sheet; a graph sheet reduced to what its roots reach; a pattern
   judged; the rows of a graph sheet turned into columns for storing, and back.

   A buffer is a pointer and a length in elements. Every pointer is valid, also for a length of 0 (any pointer that is not null
   and is aligned for its type), and the buffers of a call and what it stores do not overlap. Any bytes and numbers are taken.
   A text is ASCII and the characters from U+0080 to U+017F in UTF-8, of two bytes each; in a graph U+02BC, U+0307 and U+039C may
   stand too, which case brings in. Each pair of a tape, and each used pair of a sheet, holds whole characters.
   Nothing is allocated and nothing is kept between calls: what goes from call to call is the sheet. Of the C library the archive
   uses memset alone. It is for x86-64 Linux. */
#ifndef LUBIKSAN_H
#define LUBIKSAN_H

#include <stddef.h>
#include <stdint.h>

#ifdef __cplusplus
extern "C" {
#endif

/* The version of this header: 10,000 for the first number, 100 for the second, 1 for the third. An archive of another version gives
   another number by lubiksan_version. */
#define LUBIKSAN_VERSION 500

/* Limits. Other lengths of a sheet or a tape give LUBIKSAN_LENGTHS. The numbers of rows are a multiple of LUBIKSAN_ROW and at
   least LUBIKSAN_ROWS_MIN. */
#define LUBIKSAN_ROW 10
#define LUBIKSAN_ROWS_MIN 20
#define LUBIKSAN_ROWS_MAX 40960
#define LUBIKSAN_NAMES_MAX 65536
#define LUBIKSAN_SCRATCH_MIN 64 /* numbers of a lowering's scratch, at least */
#define LUBIKSAN_TEXT_MAX 65536
#define LUBIKSAN_MARKS_MAX 16384
/* Of a tape: attributes of a tag, tags open at once, events of a run. */
#define LUBIKSAN_ATTRIBUTES_MAX 32
#define LUBIKSAN_OPEN_TAGS_MAX 255
#define LUBIKSAN_EVENTS_MAX 1000000
/* Of a pattern: its bytes, and bytes ( of one that is judged. */
#define LUBIKSAN_PATTERN_MAX 1024
#define LUBIKSAN_PATTERN_OPENS_MAX 32

/* Bytes of stack that a call takes below the frame that calls it, as measured on x86-64 Linux and rounded up to 1,024. */
#define LUBIKSAN_TAPE_STACK 45056
#define LUBIKSAN_CLEAR_STACK 1024
#define LUBIKSAN_READ_STACK 1024
#define LUBIKSAN_LOWER_STACK 1024
#define LUBIKSAN_REDUCE_STACK 70656
#define LUBIKSAN_WRITE_STACK 1024
#define LUBIKSAN_PATTERN_STACK 2048
#define LUBIKSAN_OTHER_STACK 1024 /* any other call */

/* The numbers returned, with what is left and which place is stored; where no place is named it is 0. */
#define LUBIKSAN_ACCEPTED 0      /* the result; a reading's place is the events read, a lowering's and a reduction's the rows used
                                    of the graph written, a tape's the marks used, a writing's the length of the text */
#define LUBIKSAN_LENGTHS 1       /* a buffer has a length outside the limits, a clearing's choice is above 1, or the two lengths of a
                                    turning differ: nothing is changed */
#define LUBIKSAN_NOT_GOOD 2      /* the schema sheet is not good, as a cleared one is and one that a reading leaves; of lubiksan_convert: it would
                                    not be with the right count either, or its count is neither 0 nor right: nothing is changed */
/* 3 to 11: an event was refused. The place is its number in the piece, from 0, and the sheet holds the state after the events before it. */
#define LUBIKSAN_RECORD 3        /* kind not 1 to 3, record cut short, too many attributes, a close with any */
#define LUBIKSAN_PAIR 4          /* a pair outside the text or out of order */
#define LUBIKSAN_BYTE 5          /* a byte above 127 under a pair that is of no character of a text, or of one that an end of the pair cuts;
                                    also of lubiksan_tape: anywhere in the text; of lubiksan_pattern: any byte above 127 */
#define LUBIKSAN_CLOSE 6         /* a close with no tag open */
#define LUBIKSAN_OPEN_TAGS 7     /* a start with LUBIKSAN_OPEN_TAGS_MAX tags open */
#define LUBIKSAN_EVENTS 8        /* LUBIKSAN_EVENTS_MAX events are done */
#define LUBIKSAN_ATTRIBUTE 9     /* an attribute that must be there is missing */
#define LUBIKSAN_VALUE 10        /* the value of an attribute is no number of its width; also of lubiksan_parse_u32 and _u64 */
#define LUBIKSAN_ROOM 11         /* the state after the event needs more rows or names than lent */
/* 12 to 15 and 20: lowering. Under 12, 13, 15 and 20 all of graph and scratch is 0, under 14 nothing is changed. Of several the first
   in the order 14, 12, 13, 20, 15 is returned. */
#define LUBIKSAN_NO_ROOT 12      /* no schema tag was read; also of lubiksan_write: all of the text is 0 */
#define LUBIKSAN_UNKNOWN_BASE 13 /* a simple type's base is not built in; the place is the row of the first such type */
#define LUBIKSAN_SCRATCH 14      /* the scratch has fewer than LUBIKSAN_SCRATCH_MIN numbers */
#define LUBIKSAN_GRAPH_ROOM 15   /* the graph needs more rows or names than lent; also of lubiksan_reduce: all of its target is 0 */
#define LUBIKSAN_NO_LABEL 16     /* label: the row has no type reference, or the word list is not five words */
/* 17 to 19: the tape of a text, and 5 before them. All marks are 0. */
#define LUBIKSAN_MALFORMED 17    /* the text is not well formed by XML 1.0 (Fifth Edition), or not whole */
#define LUBIKSAN_DOCTYPE 18      /* the bytes <!DOCTYPE with only a well-formed prolog, or nothing, before them */
#define LUBIKSAN_MARKS 19        /* the tape needs more marks than lent */
#define LUBIKSAN_NAME_TWICE 20   /* lowering: two finished types normalise to the same name; the place is the row of the first head, simple
                                    types before complex ones, whose name came before */
#define LUBIKSAN_GRAPH_FORM 21   /* a graph is not in the form of a graph sheet, or, of lubiksan_reduce, two of its types have one name:
                                    nothing is changed */
/* 22 and 23: lubiksan_write, after 1, 2 and 12 and tried in this order. All of the text is 0. */
#define LUBIKSAN_NO_VALUE 22     /* a value that XML 1.0 cannot hold in an attribute: a <, both quotes, a forbidden control byte, an & that starts no
                                    predefined entity or legal character reference; the place is the first such row, 1 for the namespace */
#define LUBIKSAN_TEXT_ROOM 23    /* the text is longer than lent */
/* 24 and 25: lubiksan_pattern, after 1 and 5 and tried in the order 25, 24. */
#define LUBIKSAN_NO_PATTERN 24   /* no derivation of the pattern exists by the productions of XML Schema Part 2 (Second Edition), Appendix F */
#define LUBIKSAN_PATTERN_ASIDE 25 /* not judged: the bytes \p, \P or -[ anywhere, or more than LUBIKSAN_PATTERN_OPENS_MAX bytes ( */

/* Kinds of events on a tape: kind, count of attributes, then pairs of offset and length into the text: the tag's name, then key
   and value of each attribute. A close is just its kind and 0. */
#define LUBIKSAN_START 1
#define LUBIKSAN_EMPTY 2
#define LUBIKSAN_END 3

/* Choices of a clearing. */
#define LUBIKSAN_AS_ORIGINAL 0   /* the first close that is not a type's ends the schema, be it an annotation's or an element's, and what
                                    follows is lost; a type without a name is refused, below an element too */
#define LUBIKSAN_BY_STANDARD 1   /* its own close ends the schema; only its direct children become elements and types, and what stands
                                    deeper in other tags is passed over, a type without a name too */

/* The ten numbers of a row: tag, three pairs of offset and length into the names, a, b, c. */
#define LUBIKSAN_TAG_AT 0
#define LUBIKSAN_FIRST_AT 1
#define LUBIKSAN_SECOND_AT 3
#define LUBIKSAN_THIRD_AT 5
#define LUBIKSAN_A_AT 7
#define LUBIKSAN_B_AT 8
#define LUBIKSAN_C_AT 9

/* Numbers of row 0. Of both sheets: rows used, names used. */
#define LUBIKSAN_ROWS_USED_AT 1
#define LUBIKSAN_NAMES_USED_AT 2
/* Of the schema sheet. */
#define LUBIKSAN_CONTEXT_AT 3
#define LUBIKSAN_NESTING_AT 4
#define LUBIKSAN_ROOT_SEEN_AT 5
#define LUBIKSAN_EVENTS_DONE_AT 6
#define LUBIKSAN_OPEN_TAGS_AT 7
#define LUBIKSAN_EXTENSION_AT 8
#define LUBIKSAN_CHOICE_AT 9
/* Of the graph sheet. */
#define LUBIKSAN_ROOTS_AT 3
#define LUBIKSAN_TYPES_AT 4

/* Contexts of the schema sheet. */
#define LUBIKSAN_OUTSIDE 0
#define LUBIKSAN_IN_SCHEMA 1
#define LUBIKSAN_IN_SIMPLE_TYPE 2
#define LUBIKSAN_IN_COMPLEX_TYPE 3

/* Tags of the schema sheet: in brackets the texts of a row, in the order of its pairs, and its numbers. In the heads, which are the
   elements (2) and types (3, 12 to 16), c is the number in the run, from 0, of the event that gave the row its name: the start or
   empty tag of an element, the start tag of a type. Content, bases and the close leave it. 0 is unknown: in sheets stored before
   there were numbers, and for event 0 of a run begun inside a schema. Any other c of a head is below the events done, and no order
   among them is asked. Where c is not named it is 0. */
#define LUBIKSAN_XSD_NAMESPACE 1       /* target namespace, always row 1 (namespace), a the finished simple types that lowering refuses */
#define LUBIKSAN_XSD_ELEMENT 2         /* element of the schema (name, type) */
#define LUBIKSAN_XSD_SIMPLE_TYPE 3     /* simple type (name, base); its facets follow */
#define LUBIKSAN_XSD_ENUMERATION 4     /* (value) */
#define LUBIKSAN_XSD_PATTERN 5         /* (value) */
#define LUBIKSAN_XSD_MIN_LENGTH 6      /* characters: a low, b high 32 bits */
#define LUBIKSAN_XSD_MAX_LENGTH 7      /* characters: a low, b high 32 bits */
#define LUBIKSAN_XSD_MIN_INCLUSIVE 8   /* (value) */
#define LUBIKSAN_XSD_MAX_INCLUSIVE 9   /* (value) */
#define LUBIKSAN_XSD_TOTAL_DIGITS 10   /* digits: a */
#define LUBIKSAN_XSD_FRACTION_DIGITS 11 /* digits: a */
#define LUBIKSAN_XSD_SEQUENCE 12       /* complex type (name); tags 17 and 18 follow */
#define LUBIKSAN_XSD_CHOICE 13         /* complex type (name); tag 19 follows */
#define LUBIKSAN_XSD_SIMPLE_CONTENT 14 /* complex type (name, base); tag 20 follows */
#define LUBIKSAN_XSD_ANY 15            /* complex type (name, namespace where a is 1) */
#define LUBIKSAN_XSD_NO_CONTENT 16     /* complex type without content yet (name); only while it is open */
#define LUBIKSAN_XSD_BOUNDED 17        /* element of a sequence (name, type), a min, b max */
#define LUBIKSAN_XSD_UNBOUNDED 18      /* element of a sequence (name, type), a min */
#define LUBIKSAN_XSD_VARIANT 19        /* element of a choice (name, type) */
#define LUBIKSAN_XSD_ATTRIBUTE 20      /* (name, type), a required */

/* Tags of the graph sheet. A reference is a kind in a; of kind LUBIKSAN_NAMED the type's name stands in the pair. A root (2) and a
   type (3 to 8) have in c what their head in the schema sheet has: the number of their event, 0 where it is unknown. */
#define LUBIKSAN_IR_NAMESPACE 1        /* target namespace, always row 1 (namespace) */
#define LUBIKSAN_IR_ROOT 2             /* root element (xml name, type name) */
#define LUBIKSAN_IR_STRUCT 3           /* (name); fields follow */
#define LUBIKSAN_IR_ENUM 4             /* (name); variants follow */
#define LUBIKSAN_IR_NEWTYPE 5          /* (name), a the inner kind, never LUBIKSAN_NAMED; constraints follow */
#define LUBIKSAN_IR_CODE_ENUM 6        /* (name); codes follow */
#define LUBIKSAN_IR_VALUE 7            /* value with attributes (name, reference); attributes follow */
#define LUBIKSAN_IR_OPAQUE 8           /* (name, namespace where a is 1) */
#define LUBIKSAN_IR_FIELD 9            /* (xml name, Rust name, reference), b cardinality, c bound */
#define LUBIKSAN_IR_VARIANT 10         /* (xml name, the same name, reference) */
#define LUBIKSAN_IR_PATTERN 11         /* (value) */
#define LUBIKSAN_IR_MIN_LENGTH 12      /* characters: a low, b high 32 bits */
#define LUBIKSAN_IR_MAX_LENGTH 13      /* characters: a low, b high 32 bits */
#define LUBIKSAN_IR_MIN_INCLUSIVE 14   /* (value) */
#define LUBIKSAN_IR_MAX_INCLUSIVE 15   /* (value) */
#define LUBIKSAN_IR_TOTAL_DIGITS 16    /* digits: a */
#define LUBIKSAN_IR_FRACTION_DIGITS 17 /* digits: a */
#define LUBIKSAN_IR_CODE 18            /* (xml value, Rust name) */
#define LUBIKSAN_IR_ATTRIBUTE 19       /* (xml name, Rust name, reference), b required */

/* Kinds of a reference, and the built-in types of lubiksan_map_builtin: a named type or none, else a built-in one. The word list
   of lubiksan_label has a word for each built-in type, in this order. */
#define LUBIKSAN_NAMED 0
#define LUBIKSAN_STRING 1
#define LUBIKSAN_BOOL 2
#define LUBIKSAN_DECIMAL 3
#define LUBIKSAN_DATE 4
#define LUBIKSAN_DATE_TIME 5

/* Cardinalities of a field. */
#define LUBIKSAN_REQUIRED 0
#define LUBIKSAN_OPTIONAL 1
#define LUBIKSAN_VEC 2
#define LUBIKSAN_BOUNDED 3 /* c is the bound, above 1; otherwise c is 0 */

/* The buffers of a label. */
#define LUBIKSAN_IN_NAMES 0
#define LUBIKSAN_IN_WORDS 1

/* The version of the archive; LUBIKSAN_VERSION where it is that of this header. */
uint32_t lubiksan_version(void);

/* Where the local name, the part after the last colon, begins in the name. */
size_t lubiksan_local_name(const uint8_t *name, size_t length);

/* An optional plus sign, then one or more digits, within the width; or a minus sign, then one or more zeros, which is 0. White space
   (the bytes 9, 10, 13 and 32, and no other) may stand before and behind, and nowhere else. LUBIKSAN_ACCEPTED with the value stored,
   or LUBIKSAN_VALUE with the value as it was. */
uint32_t lubiksan_parse_u32(const uint8_t *text, size_t length, uint32_t *value);
uint32_t lubiksan_parse_u64(const uint8_t *text, size_t length, uint64_t *value);

/* The built-in type of a name, after its last colon: LUBIKSAN_NAMED where there is none, else LUBIKSAN_STRING to LUBIKSAN_DATE_TIME. */
uint32_t lubiksan_map_builtin(const uint8_t *name, size_t length);

/* The conversions return how many bytes the converted name has, or SIZE_MAX where out is shorter. In both cases out holds the first
   bytes of the converted name, as far as out reaches, and behind them what it held. Letters up to U+017F have their case: a normalised
   name has at most one byte more than the name, a code form half as many again, a snake form twice as many. */
size_t lubiksan_normalize_type_name(const uint8_t *name, size_t length, uint8_t *out, size_t room);
size_t lubiksan_xml_to_snake_case(const uint8_t *name, size_t length, uint8_t *out, size_t room);
size_t lubiksan_code_to_pascal_case(const uint8_t *value, size_t length, uint8_t *out, size_t room);

/* 1 where the two names normalise to the same text, else 0. */
uint32_t lubiksan_same_normalized(const uint8_t *a, size_t a_length, const uint8_t *b, size_t b_length);

/* Whether a pattern is a regular expression of XML Schema, by the productions of Part 2 (Second Edition), Appendix F, alone: 0, 1, 5, 24
   or 25, tried in the order 1, 5, 25, 24. Nothing is stored but 0 in *place. The stack is that of LUBIKSAN_PATTERN_OPENS_MAX
   expressions inside one another. */
uint32_t lubiksan_pattern(const uint8_t *pattern, size_t length, size_t *place);

/* Writes the tape of a schema text into marks, whatever they held: 0, 1, 5 or 17 to 19, tried in the order 1, 5, 18, 17, 19, each
   over the whole text; the place in *place. The pairs point into the text, which is read with lubiksan_read together with the
   first *place marks; the marks behind them are 0. Comments, instructions, CDATA and text give no event, references and white
   space in values stay as written, and tags with more than LUBIKSAN_ATTRIBUTES_MAX attributes are written too. The call keeps its
   open tags on the stack. */
uint32_t lubiksan_tape(const uint8_t *text, size_t text_length, uint32_t *marks, size_t marks_length, size_t *place);

/* Makes a schema sheet empty, whatever it held: LUBIKSAN_ACCEPTED or LUBIKSAN_LENGTHS. *place is set to 0. The choice says where the
   schema ends, and which of its tags become rows. It is kept in the sheet, no reading changes it, and sheets stored before there was a
   choice have LUBIKSAN_AS_ORIGINAL. Any other choice gives LUBIKSAN_LENGTHS. */
uint32_t lubiksan_clear(uint32_t *rows, size_t rows_length, uint8_t *names, size_t names_length, uint32_t choice, size_t *place);

/* Reads a piece of a tape into a schema sheet: 0 to 11, the place in *place. */
uint32_t lubiksan_read(uint32_t *rows, size_t rows_length, uint8_t *names, size_t names_length, const uint8_t *text,
                       size_t text_length, const uint32_t *marks, size_t marks_length, size_t *place);

/* The number of a schema sheet's rows that counts its finished simple types which lowering refuses by LUBIKSAN_UNKNOWN_BASE: a of row 1.
   Every reading keeps it right, and a sheet is good only if it is; the open type does not count. Where a root was seen and the
   lengths and the scratch are enough, lowering gives LUBIKSAN_UNKNOWN_BASE exactly if it is above 0. */
#define LUBIKSAN_REFUSED_TYPES_AT 17

/* Fills in the count of a schema sheet that was stored before there was one, and has 0 there, or has the right count:
   LUBIKSAN_ACCEPTED, LUBIKSAN_LENGTHS or LUBIKSAN_NOT_GOOD. *place is set to 0. Nothing else is changed. Without it such a sheet
   is not good, unless its count is 0. A converted sheet goes on where it stood: its events done and its numbers stay. */
uint32_t lubiksan_convert(uint32_t *rows, size_t rows_length, const uint8_t *names, size_t names_length, size_t *place);

/* Writes the finished part of a schema sheet, which is unchanged, as schema text, whatever text held: 0, 1, 2, 12, 22 or 23, tried in
   this order, the place in *place. The finished part is all rows behind row 0 but an open type's. Text is 0 to LUBIKSAN_TEXT_MAX
   bytes long, and 0 behind what is written; under 1 and 2 it is unchanged. There is no XML declaration and nothing between tags;
   values are copied byte by byte. */
uint32_t lubiksan_write(const uint32_t *rows, size_t rows_length, const uint8_t *names, size_t names_length, uint8_t *text,
                        size_t text_length, size_t *place);

/* Lowers the finished types of a schema sheet, which is unchanged, to a graph sheet, whatever that held: 0, 1, 2, 12 to 15 or
   20, the place in *place. The scratch has at least LUBIKSAN_SCRATCH_MIN numbers, however many types
   there are, and all of it is 0 afterwards; a graph with room for the types makes the call faster. */
uint32_t lubiksan_lower(const uint32_t *rows, size_t rows_length, const uint8_t *names, size_t names_length,
                        uint32_t *graph_rows, size_t graph_rows_length, uint8_t *graph_names, size_t graph_names_length,
                        uint32_t *scratch, size_t scratch_length, size_t *place);

/* The type reference of a row of a graph sheet, rows counted from 0: LUBIKSAN_ACCEPTED or LUBIKSAN_NO_LABEL. Stored are the buffer in
   which the label lies, LUBIKSAN_IN_NAMES or LUBIKSAN_IN_WORDS, where it starts there, and its length; under LUBIKSAN_NO_LABEL all
   three are 0. The word list is five words, each ended by a newline byte, and nothing after. */
uint32_t lubiksan_label(const uint32_t *graph_rows, size_t graph_rows_length, const uint8_t *graph_names,
                        size_t graph_names_length, const uint8_t *words, size_t words_length, size_t row,
                        uint32_t *in_words, size_t *start, size_t *length);

/* The number alone that lubiksan_label gives for the same arguments. */
uint32_t lubiksan_label_number(const uint32_t *graph_rows, size_t graph_rows_length, const uint8_t *graph_names,
                               size_t graph_names_length, const uint8_t *words, size_t words_length, size_t row);

/* Whether a graph sheet has the form that a lowering gives it: LUBIKSAN_ACCEPTED, LUBIKSAN_LENGTHS or LUBIKSAN_GRAPH_FORM. *place is set
   to 0. Judged are the order and the numbers of the rows, the counts in row 0, that the pairs cover the names, that each used pair
   holds a text, in which U+02BC, U+0307 and U+039C may stand too, and zeros behind the used parts; not judged are what the names say, c of roots and types, and how many children a type has. */
uint32_t lubiksan_graph_form(const uint32_t *graph_rows, size_t graph_rows_length, const uint8_t *graph_names,
                             size_t graph_names_length, size_t *place);

/* Writes from a graph sheet, which is unchanged, a second one, whatever that held: all roots, and exactly the types that some chain of
   references reaches from a root, in their order, with their rows. A root leads to the type named by its type name as
   lubiksan_normalize_type_name converts it, a named reference to the type of that name, or nowhere. 0, 1, 15 or 21, tried in the order
   1, 21, 15; the place in *place. */
uint32_t lubiksan_reduce(const uint32_t *graph_rows, size_t graph_rows_length, const uint8_t *graph_names,
                         size_t graph_names_length, uint32_t *rows, size_t rows_length, uint8_t *names, size_t names_length,
                         size_t *place);

/* Turns rows into ten columns, one after the other, each number below the first of its column stored as its difference from the
   number above, modulo 4294967296: LUBIKSAN_ACCEPTED or LUBIKSAN_LENGTHS. *place is set to 0. The two lengths are one and the same,
   within the limits of rows. Every number is turned, row 0 and what is not used too, and no number is judged. */
uint32_t lubiksan_columns(const uint32_t *rows, size_t rows_length, uint32_t *columns, size_t columns_length, size_t *place);

/* Restores the rows: the inverse of lubiksan_columns, which undoes it, and is undone by it, for all numbers. */
uint32_t lubiksan_rows(const uint32_t *columns, size_t columns_length, uint32_t *rows, size_t rows_length, size_t *place);

#ifdef __cplusplus
}
#endif

#endif
