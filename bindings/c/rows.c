/* Runs the rows of bindings/rows.jsonl, which stand on standard input in the plain form of bindings/rows.py, by each
 * call of jp.h that asks a query: what nodes it selects, its canonical text, and why it or its document is refused.
 * Prints how many rows were run, or the first lines that are answered otherwise. */
#define _GNU_SOURCE
#include "jp.h"

#include <stdio.h>
#include <stdlib.h>
#include <string.h>

static const struct jp_limit unlimited = JP_UNLIMITED;

#define MOST_FIELDS 4096
#define ROOM ((size_t)1 << 20)

static int failures = 0;

/* A field of the row: its name, and its text, which both stand in the line. */
struct field {
    const char *name;
    uint8_t *text;
    size_t length;
};

static struct field fields[MOST_FIELDS];
static size_t fields_length;
static size_t line_number = 0;
static uint8_t out[ROOM];

static void expect(int holds, const char *what, const char *call) {
    if (!holds) {
        failures += 1;
        if (failures <= 10) {
            fprintf(stderr, "line %zu: %s by %s\n", line_number, what, call);
        }
    }
}

static int digit(char sign) {
    return sign <= '9' ? sign - '0' : sign - 'a' + 10;
}

/* Reads a word, which is a name, `=` and hexadecimal digits, in place. */
static struct field field_of(char *word) {
    char *digits = strchr(word, '=');
    if (digits == NULL) {
        abort();
    }
    *digits = '\0';
    digits += 1;
    struct field field = {word, (uint8_t *)digits, strlen(digits) / 2};
    for (size_t at = 0; at < field.length; at += 1) {
        field.text[at] = (uint8_t)(digit(digits[2 * at]) * 16 + digit(digits[2 * at + 1]));
    }
    return field;
}

static void read_fields(char *line) {
    fields_length = 0;
    for (char *word = strtok(line, " \n"); word != NULL; word = strtok(NULL, " \n")) {
        if (fields_length == MOST_FIELDS) {
            abort();
        }
        fields[fields_length] = field_of(word);
        fields_length += 1;
    }
}

/* The field of that name that comes after `from` others of it, or null. */
static const struct field *nth(const char *name, size_t from) {
    for (size_t at = 0; at < fields_length; at += 1) {
        if (strcmp(fields[at].name, name) == 0 && from-- == 0) {
            return &fields[at];
        }
    }
    return NULL;
}

static const struct field *get(const char *name) {
    return nth(name, 0);
}

static int is(const char *name, const char *text) {
    const struct field *field = get(name);
    return field != NULL && field->length == strlen(text) && memcmp(field->text, text, field->length) == 0;
}

/* A number that a field has, or what is given, where the row has none. */
static size_t number(const char *name, size_t given) {
    const struct field *field = get(name);
    char digits[24] = {0};
    if (field == NULL || field->length >= sizeof digits) {
        return given;
    }
    memcpy(digits, field->text, field->length);
    return strtoull(digits, NULL, 10);
}

/* Whether the row says nothing of that name, or this text. */
static int agrees(const char *name, const uint8_t *text, size_t length) {
    const struct field *field = get(name);
    return field == NULL || (field->length == length && memcmp(field->text, text, length) == 0);
}

/* The profiles by their numbers. */
static const char *const profiles[] = {"Standard", "Extended", "Decimal", "ExtendedDecimal"};

static uint32_t profile(void) {
    uint32_t number = JP_STANDARD;
    while (number < JP_EXTENDED_DECIMAL && !is("profile", profiles[number])) {
        number++;
    }
    return number;
}

/* Writes the lines of the nodes, and gives their length. */
static size_t lines_of(uint32_t form, uint8_t *lines) {
    size_t end = 0;
    for (size_t at = 0; at < number("nodes", 0); at += 1) {
        const struct field *path = nth("path", at), *value = nth("value", at);
        if (form != JP_VALUES) {
            memcpy(lines + end, path->text, path->length);
            end += path->length;
        }
        if (form == JP_BOTH) {
            lines[end++] = '\t';
        }
        if (form != JP_PATHS) {
            memcpy(lines + end, value->text, value->length);
            end += value->length;
        }
        lines[end++] = '\n';
    }
    return end;
}

/* Whether the status, the kind and the place are those of the row. */
static int is_reported(const struct jp_report *report) {
    struct jp_report named;
    uint8_t name[32];
    if (get("refused") == NULL) {
        return report->status == JP_DONE;
    }
    const uint32_t status = is("refused", "Query") ? JP_QUERY_REFUSED : JP_DOCUMENT_REFUSED;
    return report->status == status && report->place == number("place", report->place)
           && jp_kind_name(status, report->kind, name, sizeof name, &named) == JP_DONE
           && agrees("kind", name, named.length);
}

/* Expects what the row says of a report and a text, which is that of the nodes in the form, or the path of a number. */
static void expect_answer(const struct jp_report *report, const uint8_t *text, uint32_t form, const char *call) {
    static uint8_t lines[ROOM];
    expect(is_reported(report), "another status, kind or place", call);
    if (get("nodes") != NULL) {
        const size_t length = lines_of(form, lines);
        expect(report->length == length && (length == 0 || memcmp(text, lines, length) == 0), "other nodes", call);
    } else if (is("refused", "Document")) {
        expect(agrees("at", text, report->length), "another path of a number", call);
    }
}

static void try_eval(const struct field *query, const struct field *document, uint32_t form) {
    struct jp_report report;
    struct jp_question questions[] = {{0, query->length, {9, 9, 9, 9, 9}}, {0, query->length, {9, 9, 9, 9, 9}}};
    jp_eval(query->text, query->length, document->text, document->length, form, profile(), &unlimited, out, ROOM,
            &report);
    expect_answer(&report, out, form, "jp_eval");
    jp_eval_many(query->text, query->length, questions, 2, document->text, document->length, form, profile(),
                 &unlimited, out, ROOM);
    expect_answer(&questions[0].report, out, form, "jp_eval_many");
    expect_answer(&questions[1].report, out + questions[0].report.length, form, "jp_eval_many");
}

static void try_kept(struct jp_handle *query, struct jp_handle *kept, const struct field *document, uint32_t form) {
    struct jp_report report;
    struct jp_text text;
    jp_ask(query, document->text, document->length, form, 0, JP_ALL, &unlimited, &text, &report);
    expect_answer(&report, text.start, form, "jp_ask");
    if (kept->full) {
        jp_ask_document(query, kept, form, 0, JP_ALL, &unlimited, &text, &report);
        expect_answer(&report, text.start, form, "jp_ask_document");
    }
}

static int is_node(const struct jp_node *node, size_t at) {
    const struct field *path = nth("path", at), *value = nth("value", at);
    if (path == NULL) {
        return node->path.length == 0 && node->value.length == 0;
    }
    return node->path.length == path->length && memcmp(node->path.start, path->text, path->length) == 0
           && (value == NULL
               || (node->value.length == value->length
                   && memcmp(node->value.start, value->text, value->length) == 0));
}

/* One node after another, the first alone, and whether there is one. */
static void try_nodes(struct jp_handle *query, struct jp_handle *kept, const struct field *document) {
    struct jp_cursor cursor = JP_START;
    struct jp_report report;
    struct jp_node node;
    uint32_t exists;
    for (size_t at = 0; at <= number("nodes", 0); at += 1) {
        jp_next(&cursor, query, kept, JP_NO_LIMIT, &node, &report);
        expect(report.status == JP_DONE && is_node(&node, at), "another node", "jp_next");
    }
    jp_first(query, document->text, document->length, JP_NO_LIMIT, &node, &report);
    expect(report.status == JP_DONE && is_node(&node, 0), "another node", "jp_first");
    jp_exists(query, document->text, document->length, JP_NO_LIMIT, &exists, &report);
    expect(report.status == JP_DONE && exists == (number("nodes", 0) > 0), "another answer", "jp_exists");
}

static void try_handles(const struct field *query, const struct field *document) {
    struct jp_handle kept_query = JP_EMPTY, kept_document = JP_EMPTY;
    struct jp_report report;
    jp_query_new(query->text, query->length, profile(), &kept_query, &report);
    if (report.status == JP_DONE) {
        jp_document_new(document->text, document->length, profile(), &kept_document, out, ROOM, &report);
        if (report.status != JP_DONE) {
            expect_answer(&report, out, JP_PATHS, "jp_document_new");
        }
        for (uint32_t form = get("value") != NULL ? JP_VALUES : JP_PATHS; form <= JP_BOTH; form += 1) {
            if (form == JP_PATHS || get("value") != NULL) {
                try_kept(&kept_query, &kept_document, document, form);
            }
        }
        if (get("nodes") != NULL) {
            try_nodes(&kept_query, &kept_document, document);
        }
    } else {
        expect(is_reported(&report), "another status, kind or place", "jp_query_new");
    }
    jp_clear(&kept_query);
    jp_clear(&kept_document);
}

/* What is told of a document that is refused. */
static void try_document_told(const struct field *document) {
    static const struct {
        uint32_t part;
        const char *name;
    } parts[] = {{JP_DOCUMENT_SENTENCE, "sentence"}, {JP_DOCUMENT_REASON, "reason"}};
    struct jp_report report;
    struct jp_place place;
    for (size_t at = 0; at < sizeof parts / sizeof parts[0]; at += 1) {
        jp_explain_document(document->text, document->length, profile(), parts[at].part, &place, out, ROOM, &report);
        expect(agrees(parts[at].name, out, report.length), parts[at].name, "jp_explain_document");
        expect(place.offset == number("place", place.offset) && place.line == number("line", place.line)
                   && place.column == number("column", place.column),
               "another place", "jp_explain_document");
    }
}

/* What is told of a query: its canonical text, or why it is refused. */
static void try_query(const struct field *query) {
    struct jp_report report;
    jp_check(query->text, query->length, profile(), &report);
    expect(is("refused", "Query") ? is_reported(&report) : report.status == JP_DONE, "another answer", "jp_check");
    jp_canon(query->text, query->length, profile(), out, ROOM, &report);
    expect(agrees("canonical", out, report.length), "another canonical text", "jp_canon");
    jp_explain(query->text, query->length, profile(), JP_SENTENCE, out, ROOM, &report);
    if (is("refused", "Query")) {
        expect(agrees("sentence", out, report.length), "another sentence", "jp_explain");
        jp_explain(query->text, query->length, profile(), JP_SUGGESTION, out, ROOM, &report);
        expect(agrees("suggestion", out, report.length), "another suggestion", "jp_explain");
    } else {
        expect(report.length == 0, "a sentence", "jp_explain");
    }
}

static void try_row(void) {
    const struct field *query = get("query"), *document = get("document");
    try_query(query);
    if (document == NULL) {
        return;
    }
    try_eval(query, document, JP_PATHS);
    if (get("value") != NULL) {
        try_eval(query, document, JP_VALUES);
        try_eval(query, document, JP_BOTH);
    }
    try_handles(query, document);
    if (is("refused", "Document")) {
        try_document_told(document);
    }
}

/* Whether C is one of the languages that can't run the row. */
static int is_skipped(void) {
    for (size_t at = 0; nth("not", at) != NULL; at += 1) {
        const struct field *language = nth("not", at);
        if (language->length == 1 && language->text[0] == 'c') {
            return 1;
        }
    }
    return 0;
}

/* The fields that this program knows. */
static void expect_known(void) {
    static const char known[] = " query profile document nodes path value canonical refused kind place line column at "
                                "reason sentence suggestion not ";
    for (size_t at = 0; at < fields_length; at += 1) {
        char name[32];
        snprintf(name, sizeof name, " %s ", fields[at].name);
        expect(strstr(known, name) != NULL, fields[at].name, "its name");
    }
}

int main(void) {
    char *line = NULL;
    size_t room = 0, count = 0, ran = 0;
    while (getline(&line, &room, stdin) > 0) {
        read_fields(line);
        if (line_number == 0) {
            count = number("rows", 0);
        } else if (!is_skipped()) {
            expect_known();
            try_row();
            ran += 1;
        }
        line_number += 1;
    }
    const size_t rows = line_number > 0 ? line_number - 1 : 0;
    expect(rows > 0 && rows == count, "another number of rows than the head says", "the file");
    printf("%zu rows by C, %zu not\n", ran, rows - ran);
    free(line);
    return failures == 0 ? 0 : 1;
}
