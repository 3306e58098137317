//! The calls.

extern "C" {
    /// The version of the archive, to be held against [`LUBIKSAN_VERSION`](crate::LUBIKSAN_VERSION).
    pub fn lubiksan_version() -> u32;

    /// Where the local name begins in a name.
    pub fn lubiksan_local_name(name: *const u8, length: usize) -> usize;

    /// A number of 32 bits from its text.
    pub fn lubiksan_parse_u32(text: *const u8, length: usize, value: *mut u32) -> u32;

    /// A number of 64 bits from its text.
    pub fn lubiksan_parse_u64(text: *const u8, length: usize, value: *mut u64) -> u32;

    /// The built-in type of a name.
    pub fn lubiksan_map_builtin(name: *const u8, length: usize) -> u32;

    /// The name of a type in the graph.
    pub fn lubiksan_normalize_type_name(
        name: *const u8,
        length: usize,
        out: *mut u8,
        room: usize,
    ) -> usize;

    /// The name of a field.
    pub fn lubiksan_xml_to_snake_case(
        name: *const u8,
        length: usize,
        out: *mut u8,
        room: usize,
    ) -> usize;

    /// The name of a code.
    pub fn lubiksan_code_to_pascal_case(
        value: *const u8,
        length: usize,
        out: *mut u8,
        room: usize,
    ) -> usize;

    /// 1 where two names of types normalise to the same text, else 0.
    pub fn lubiksan_same_normalized(
        a: *const u8,
        a_length: usize,
        b: *const u8,
        b_length: usize,
    ) -> u32;

    /// Writes the tape of a schema text into the marks.
    pub fn lubiksan_tape(
        text: *const u8,
        text_length: usize,
        marks: *mut u32,
        marks_length: usize,
        place: *mut usize,
    ) -> u32;

    /// Makes a schema sheet empty, with a choice.
    pub fn lubiksan_clear(
        rows: *mut u32,
        rows_length: usize,
        names: *mut u8,
        names_length: usize,
        choice: u32,
        place: *mut usize,
    ) -> u32;

    /// Reads a piece of a tape into a schema sheet.
    pub fn lubiksan_read(
        rows: *mut u32,
        rows_length: usize,
        names: *mut u8,
        names_length: usize,
        text: *const u8,
        text_length: usize,
        marks: *const u32,
        marks_length: usize,
        place: *mut usize,
    ) -> u32;

    /// Fills in the count of a schema sheet that was stored before there was one.
    pub fn lubiksan_convert(
        rows: *mut u32,
        rows_length: usize,
        names: *const u8,
        names_length: usize,
        place: *mut usize,
    ) -> u32;

    /// Lowers the finished types of a schema sheet to a graph sheet.
    pub fn lubiksan_lower(
        rows: *const u32,
        rows_length: usize,
        names: *const u8,
        names_length: usize,
        graph_rows: *mut u32,
        graph_rows_length: usize,
        graph_names: *mut u8,
        graph_names_length: usize,
        scratch: *mut u32,
        scratch_length: usize,
        place: *mut usize,
    ) -> u32;

    /// Writes the finished part of a schema sheet as schema text.
    pub fn lubiksan_write(
        rows: *const u32,
        rows_length: usize,
        names: *const u8,
        names_length: usize,
        text: *mut u8,
        text_length: usize,
        place: *mut usize,
    ) -> u32;

    /// The type reference of a row of a graph sheet.
    pub fn lubiksan_label(
        graph_rows: *const u32,
        graph_rows_length: usize,
        graph_names: *const u8,
        graph_names_length: usize,
        words: *const u8,
        words_length: usize,
        row: usize,
        in_words: *mut u32,
        start: *mut usize,
        length: *mut usize,
    ) -> u32;

    /// Whether a pattern is a regular expression of XML Schema.
    pub fn lubiksan_pattern(pattern: *const u8, length: usize, place: *mut usize) -> u32;

    /// The number alone of [`lubiksan_label`].
    pub fn lubiksan_label_number(
        graph_rows: *const u32,
        graph_rows_length: usize,
        graph_names: *const u8,
        graph_names_length: usize,
        words: *const u8,
        words_length: usize,
        row: usize,
    ) -> u32;

    /// Whether a graph sheet has the form of one.
    pub fn lubiksan_graph_form(
        graph_rows: *const u32,
        graph_rows_length: usize,
        graph_names: *const u8,
        graph_names_length: usize,
        place: *mut usize,
    ) -> u32;

    /// Writes a second graph sheet with all roots of the first and the types that some chain of references reaches from one.
    pub fn lubiksan_reduce(
        graph_rows: *const u32,
        graph_rows_length: usize,
        graph_names: *const u8,
        graph_names_length: usize,
        rows: *mut u32,
        rows_length: usize,
        names: *mut u8,
        names_length: usize,
        place: *mut usize,
    ) -> u32;

    /// Turns the rows of a sheet into ten columns of differences.
    pub fn lubiksan_columns(
        rows: *const u32,
        rows_length: usize,
        columns: *mut u32,
        columns_length: usize,
        place: *mut usize,
    ) -> u32;

    /// Restores the rows from such columns.
    pub fn lubiksan_rows(
        columns: *const u32,
        columns_length: usize,
        rows: *mut u32,
        rows_length: usize,
        place: *mut usize,
    ) -> u32;
}
