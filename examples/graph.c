/* Reads a schema file and prints its types: tape, clear, read, lower, label. It is C99 and C++.

   Build, in the folder of a delivery (in the repository: -Icrates/lubiksan/include and target/staticlib/liblubiksan.a):

       cc -std=c99 -Wall -Wextra -Werror -Iinclude examples/graph.c lib/liblubiksan.a -o graph
       c++ -x c++ -Wall -Wextra -Werror -Iinclude examples/graph.c -x none lib/liblubiksan.a -o graph

   Run:  ./graph FILE.xsd

   The file is UTF-8 without characters above U+017F, of at most 65,536 bytes. Others are read by the program `lubiksan` and by the Rust
   crate `lubiksan-xml`, which put pieces of tapes together and hand them to lubiksan_read one after the other. */
#include <stdio.h>
#include <stdlib.h>

#include "lubiksan.h"

#define ROWS LUBIKSAN_ROWS_MAX
#define NAMES LUBIKSAN_NAMES_MAX
#define SCRATCH LUBIKSAN_SCRATCH_MIN

/* A sheet of full size. */
struct sheet {
    uint32_t rows[ROWS];
    uint8_t names[NAMES];
};

static struct sheet schema, graph;
static uint32_t scratch[SCRATCH];

/* The text of the file, and its tape; the text has a byte more than is taken, so that a longer file is noticed. */
static uint8_t text[LUBIKSAN_TEXT_MAX + 1];
static size_t text_length;
static uint32_t marks[LUBIKSAN_MARKS_MAX];
static size_t marks_used;

static const char words[] = "String\nbool\nDecimal\nDate\nDateTime\n";

/* Says what was refused, with its number and place; gives 0. */
static int refused(const char *what, uint32_t number, size_t place) {
    fprintf(stderr, "%s is refused with %u, place %lu\n", what, (unsigned)number, (unsigned long)place);
    return 0;
}

/* Reads the file into the text; 0 where it can't be read. */
static int read_file(const char *name) {
    FILE *file = fopen(name, "rb");
    if (file == NULL) {
        fprintf(stderr, "%s: it can't be read\n", name);
        return 0;
    }
    text_length = fread(text, 1, sizeof text, file);
    int good = !ferror(file);
    fclose(file);
    return good;
}

/* From the text to the graph: the rows that it uses, 0 where a call refuses. */
static size_t read_schema(void) {
    size_t place = 0;
    uint32_t number = lubiksan_tape(text, text_length, marks, LUBIKSAN_MARKS_MAX, &marks_used);
    if (number != LUBIKSAN_ACCEPTED) {
        return refused("the text", number, marks_used);
    }
    number = lubiksan_clear(schema.rows, ROWS, schema.names, NAMES, LUBIKSAN_BY_STANDARD, &place);
    if (number != LUBIKSAN_ACCEPTED) {
        return refused("the clearing", number, place);
    }
    number = lubiksan_read(schema.rows, ROWS, schema.names, NAMES, text, text_length, marks, marks_used, &place);
    if (number != LUBIKSAN_ACCEPTED) {
        return refused("an event", number, place);
    }
    number = lubiksan_lower(schema.rows, ROWS, schema.names, NAMES, graph.rows, ROWS, graph.names, NAMES, scratch, SCRATCH,
                            &place);
    if (number != LUBIKSAN_ACCEPTED) {
        return refused("the lowering", number, place);
    }
    return place;
}

/* Prints the text of a row whose offset stands in the column. */
static void print_text(const uint32_t *row, size_t column) {
    printf("%.*s", (int)row[column + 1], (const char *)graph.names + row[column]);
}

/* Prints the type that a row refers to, where it does. */
static void print_label(size_t row, size_t used) {
    uint32_t in_words;
    size_t start, length;
    uint32_t number = lubiksan_label(graph.rows, LUBIKSAN_ROW * used, graph.names, graph.rows[LUBIKSAN_NAMES_USED_AT],
                                     (const uint8_t *)words, sizeof words - 1, row, &in_words, &start, &length);
    if (number == LUBIKSAN_ACCEPTED) {
        const char *from = in_words == LUBIKSAN_IN_WORDS ? words : (const char *)graph.names;
        printf(": %.*s", (int)length, from + start);
    }
}

/* What a type is. */
static const char *kind_of(uint32_t tag) {
    switch (tag) {
    case LUBIKSAN_IR_STRUCT:
        return "struct";
    case LUBIKSAN_IR_ENUM:
        return "choice";
    case LUBIKSAN_IR_NEWTYPE:
        return "newtype";
    case LUBIKSAN_IR_CODE_ENUM:
        return "codes";
    case LUBIKSAN_IR_VALUE:
        return "value";
    default:
        return "opaque";
    }
}

/* Prints a row: a root, a type, or a part of the type before it; facets are left out. */
static void print_row(size_t index, size_t used) {
    const uint32_t *row = graph.rows + LUBIKSAN_ROW * index;
    uint32_t tag = row[LUBIKSAN_TAG_AT];
    if (tag >= LUBIKSAN_IR_PATTERN && tag <= LUBIKSAN_IR_FRACTION_DIGITS) {
        return;
    }
    if (tag == LUBIKSAN_IR_ROOT) {
        printf("root ");
        print_text(row, LUBIKSAN_FIRST_AT);
        printf(": ");
        print_text(row, LUBIKSAN_SECOND_AT);
    } else if (tag <= LUBIKSAN_IR_OPAQUE) {
        printf("%s ", kind_of(tag));
        print_text(row, LUBIKSAN_FIRST_AT);
        print_label(index, used);
    } else {
        printf("    ");
        print_text(row, tag == LUBIKSAN_IR_VARIANT ? LUBIKSAN_FIRST_AT : LUBIKSAN_SECOND_AT);
        print_label(index, used);
    }
    printf("\n");
}

int main(int argc, char **argv) {
    if (argc != 2) {
        fprintf(stderr, "usage: graph FILE.xsd\n");
        return 2;
    }
    if (lubiksan_version() != LUBIKSAN_VERSION) {
        fprintf(stderr, "the archive has another version than the header\n");
        return EXIT_FAILURE;
    }
    size_t used = read_file(argv[1]) ? read_schema() : 0;
    for (size_t row = 2; row < used; row++) {
        print_row(row, used);
    }
    return used > 0 ? EXIT_SUCCESS : EXIT_FAILURE;
}
