/* Tests what jp.h promises of buffers, bytes, limits and handles: rooms of 0, of one too little, of the
 * length and of more; a query and a document that are no UTF-8; no text at all; as many steps as are
 * needed, and one less; handles that are empty, cleared twice, filled again, used for the other kind, and a
 * million of them, which leave no memory behind; a document that is too large; explanations, of documents
 * too, and names of kinds. Prints nothing where all is so. */
#define _DEFAULT_SOURCE
#include "jp.h"

#include <malloc.h>
#include <stdio.h>
#include <stdlib.h>
#include <string.h>
#include <sys/mman.h>

static const struct jp_limit unlimited = JP_UNLIMITED;

static int failures = 0;

static void expect(int holds, const char *what, size_t room) {
    if (!holds) {
        failures += 1;
        fprintf(stderr, "%s does not hold at a room of %zu\n", what, room);
    }
}

struct row {
    const char *query;
    size_t query_length;
    const char *document;
    size_t document_length;
    uint32_t form;
    struct jp_report expected;
    const char *text;
};

#define ROW(query, document, form, status, kind, place, text, steps) \
    { query, sizeof query - 1, document, sizeof document - 1, form,  \
      {status, kind, place, sizeof text - 1, steps}, text }

static const struct row rows[] = {
    ROW("$.a[*]", "{\"a\":[1,[2,{}]]}", JP_BOTH, 0, 0, 0, "$['a'][0]\t1\n$['a'][1]\t[2,{}]\n", 11),
    ROW("$.a[*]", "{\"a\":[1,[2,{}]]}", JP_PATHS, 0, 0, 0, "$['a'][0]\n$['a'][1]\n", 11),
    ROW("$.a[*]", "{\"a\":[1,[2,{}]]}", JP_VALUES, 0, 0, 0, "1\n[2,{}]\n", 11),
    ROW("$[0:0]", "{\"a\":[1,2]}", JP_VALUES, 0, 0, 0, "", 5),
    ROW("$.a[01]", "[1,]", JP_VALUES, 1, JP_SYNTAX, 5, "", 0),
    ROW("", "", JP_VALUES, 1, JP_SYNTAX, 0, "", 0),
    ROW("$.\xff", "[]", JP_VALUES, 1, JP_SYNTAX, 2, "", 0),
    ROW("$['\0']", "[]", JP_VALUES, 1, JP_SYNTAX, 3, "", 0),
    ROW("$", "", JP_VALUES, 3, JP_NOT_JSON, 0, "", 0),
    ROW("$", "\"\xff\"", JP_VALUES, 3, JP_NOT_JSON, 1, "", 0),
    ROW("$.a", "[1,]", JP_VALUES, 3, JP_NOT_JSON, 3, "", 0),
    ROW("$", "{\"a\":[0,2.5]}", JP_VALUES, 3, JP_NUMBER_NOT_WHOLE, 8, "$['a'][1]", 0),
    ROW("$", "[]", 3, 2, 0, 0, "", 0),
};

/* A call with so much room gives the row's report, and fills the buffer whole or leaves it alone. */
static void try_room(const struct row *row, size_t room) {
    uint8_t *out = malloc(room + 1);
    struct jp_report report = {9, 9, 9, 9, 9};
    memset(out, '#', room + 1);
    uint32_t status = jp_eval((const uint8_t *)row->query, row->query_length,
                              (const uint8_t *)row->document, row->document_length, row->form,
                              JP_STANDARD, &unlimited, out, room, &report);
    expect(status == row->expected.status, "the status", room);
    expect(memcmp(&report, &row->expected, sizeof report) == 0, "the report", room);
    size_t written = room >= row->expected.length ? row->expected.length : 0;
    expect(memcmp(out, row->text, written) == 0, "the text", room);
    for (size_t at = written; at <= room; at += 1) {
        expect(out[at] == '#', "what stands behind the text", room);
    }
    free(out);
}

/* Many queries with so much room: one refused among others, one with no node, one of no bytes. */
static void try_many(size_t room) {
    static const char queries[] = "$.a[*]$.a[01]$.b$.a";
    static const char document[] = "{\"a\":[1,[2,{}]]}";
    static const char text[] = "$['a'][0]\n$['a'][1]\n$['a']\n";
    static const struct jp_limit eleven = {11, 0, 0};
    static const struct jp_report expected[] = {
        {0, 0, 0, 20, 11},
        {JP_QUERY_REFUSED, JP_SYNTAX, 5, 0, 0},
        {0, 0, 0, 0, 5},
        {0, 0, 0, 7, 6},
        {JP_QUERY_REFUSED, JP_SYNTAX, 0, 0, 0},
    };
    struct jp_question questions[] = {
        {0, 6, {9, 9, 9, 9, 9}},
        {6, 7, {9, 9, 9, 9, 9}},
        {13, 3, {9, 9, 9, 9, 9}},
        {16, 9, {9, 9, 9, 9, 9}},
        {99, 9, {9, 9, 9, 9, 9}},
    };
    uint8_t *out = malloc(room + 1);
    memset(out, '#', room + 1);
    size_t size = jp_eval_many((const uint8_t *)queries, sizeof queries - 1, questions, 5,
                               (const uint8_t *)document, sizeof document - 1, JP_PATHS,
                               JP_STANDARD, &eleven, out, room);
    expect(size == sizeof text - 1, "the size of all texts", room);
    for (size_t at = 0; at < 5; at += 1) {
        expect(memcmp(&questions[at].report, &expected[at], sizeof expected[at]) == 0, "a report", room);
    }
    size_t written = room >= size ? size : 0;
    expect(memcmp(out, text, written) == 0, "the texts", room);
    for (size_t at = written; at <= room; at += 1) {
        expect(out[at] == '#', "what stands behind the texts", room);
    }
    free(out);
}

/* Many queries of which each asks for other members of the document, one is refused, and no one asks for `e`. */
static void try_many_members(void) {
    static const char queries[] = "$.d$[01]$.b[*].c$.x$['a'].b";
    static const char document[] = "{\"e\":[1,{\"a\":2}],\"a\":{\"b\":7,\"d\":8},\"b\":[{\"c\":10},{\"c\":\"\"}],\"d\":9}";
    static const char text[] = "9\n10\n\"\"\n7\n";
    static const size_t lengths[] = {2, 0, 6, 0, 2};
    struct jp_question questions[] = {
        {0, 3, {9, 9, 9, 9, 9}},
        {3, 5, {9, 9, 9, 9, 9}},
        {8, 8, {9, 9, 9, 9, 9}},
        {16, 3, {9, 9, 9, 9, 9}},
        {19, 8, {9, 9, 9, 9, 9}},
    };
    uint8_t out[16];
    size_t size = jp_eval_many((const uint8_t *)queries, sizeof queries - 1, questions, 5,
                               (const uint8_t *)document, sizeof document - 1, JP_VALUES, JP_STANDARD,
                               &unlimited, out, sizeof out);
    expect(size == sizeof text - 1 && memcmp(out, text, size) == 0, "the texts of all members", 16);
    for (size_t at = 0; at < 5; at += 1) {
        const struct jp_report *report = &questions[at].report;
        expect(report->status == (at == 1 ? JP_QUERY_REFUSED : JP_DONE) && report->length == lengths[at],
               "a report of members", 16);
    }
}

/* Many queries over what is no document, and no queries at all. */
static void try_many_refused(void) {
    struct jp_question questions[] = {{0, 1, {9, 9, 9, 9, 9}}, {0, 0, {9, 9, 9, 9, 9}}};
    uint8_t out[16] = {0};
    const uint8_t document[] = "[2.5]";
    expect(jp_eval_many((const uint8_t *)"$", 1, questions, 2, document, 5, JP_VALUES, JP_STANDARD,
                        &unlimited, out, sizeof out)
                   == 4
               && memcmp(out, "$[0]", 5) == 0,
           "the path of a number", 16);
    expect(questions[0].report.status == JP_DOCUMENT_REFUSED
               && questions[0].report.kind == JP_NUMBER_NOT_WHOLE && questions[0].report.place == 1,
           "the document's report", 16);
    expect(questions[1].report.status == JP_QUERY_REFUSED, "the query's report", 16);
    expect(jp_eval_many((const uint8_t *)"", 0, questions, 0, document, 5, JP_VALUES, JP_STANDARD,
                        &unlimited, out, sizeof out)
               == 0,
           "no queries", 16);
}

/* Whether the report is one of a document of that kind. */
static int is_document_refused(const struct jp_report *report, uint32_t kind) {
    return report->status == JP_DOCUMENT_REFUSED && report->kind == kind && report->place == 0
           && report->length == 0 && report->steps == 0;
}

/* A document of 2^32 bytes is too large for each call, whatever it has; where a query is refused, that is
 * told. The bytes are zeros, which take no memory until they are written. */
static void try_too_large(void) {
    const size_t size = (size_t)1 << 32;
    const uint8_t query[] = "$..a$.a$";
    struct jp_report report;
    struct jp_handle handle = JP_EMPTY;
    struct jp_question questions[] = {
        {0, 4, {9, 9, 9, 9, 9}}, {4, 3, {9, 9, 9, 9, 9}}, {1, 2, {9, 9, 9, 9, 9}}};
    uint8_t out[1];
    uint8_t *document =
        mmap(NULL, size, PROT_READ, MAP_PRIVATE | MAP_ANONYMOUS | MAP_NORESERVE, -1, 0);
    expect(document != MAP_FAILED, "a mapping", size);
    if (document == MAP_FAILED) {
        return;
    }
    for (size_t at = 0; at < 2; at += 1) {
        jp_eval(query + questions[at].start, questions[at].size, document, size, JP_VALUES, JP_STANDARD,
                &unlimited, out, 0, &report);
        expect(is_document_refused(&report, JP_DOCUMENT_TOO_LARGE), "too large", at);
    }
    jp_eval(query + 1, 2, document, size, JP_VALUES, JP_STANDARD, &unlimited, out, 0, &report);
    expect(report.status == JP_QUERY_REFUSED, "the query first", size);
    expect(jp_eval_many(query, sizeof query - 1, questions, 3, document, size, JP_VALUES, JP_STANDARD,
                        &unlimited, out, 0)
               == 0,
           "no text", size);
    expect(is_document_refused(&questions[0].report, JP_DOCUMENT_TOO_LARGE)
               && is_document_refused(&questions[1].report, JP_DOCUMENT_TOO_LARGE)
               && questions[2].report.status == JP_QUERY_REFUSED,
           "too large for many queries", size);
    jp_document_new(document, size, JP_STANDARD, &handle, out, 0, &report);
    expect(is_document_refused(&report, JP_DOCUMENT_TOO_LARGE), "too large to be kept", size);
    struct jp_place place = {9, 9, 9};
    jp_explain_document(document, size, JP_DECIMAL, JP_DOCUMENT_LINE, &place, out, 0, &report);
    expect(is_document_refused(&report, JP_DOCUMENT_TOO_LARGE) && place.offset == 0 && place.line == 0
               && place.column == 0,
           "too large to be explained", size);
    munmap(document, size);
}

/* Expects of a call that explains, with so many bytes less than its text has, the report and the buffer. */
static void expect_told(const struct jp_report *report, uint32_t status, const uint8_t *out, const char *text,
                        size_t less) {
    const size_t length = strlen(text);
    expect(report->status == status, "the status", length - less);
    expect(report->length == length && report->kind == 0 && report->place == 0 && report->steps == 0, "the report",
           length - less);
    expect(less > 0 || memcmp(out, text, length) == 0, "the text", length);
    expect((less == 0 && length > 0) || out[0] == '#', "a buffer left alone", length - less);
}

/* The engine's sentence for a refused query, with a zero behind it. What it says is in bindings/rows.jsonl. */
static void sentence_of_query(const char *query, char out[128]) {
    struct jp_report report;
    jp_explain((const uint8_t *)query, strlen(query), JP_STANDARD, JP_SENTENCE, (uint8_t *)out, 127, &report);
    expect(report.length > 0 && report.length < 128, "a sentence", 127);
    out[report.length < 128 ? report.length : 0] = '\0';
}

/* The parts of explanations, in rooms that just suffice and one less. */
static void try_explanations(void) {
    char whole[256], sentence[128];
    sentence_of_query("$[?@.a = 1]", sentence);
    snprintf(whole, sizeof whole, "  $[?@.a = 1]\n          ^\n%s\nTry: $[?@.a == 1]\n", sentence);
    const struct {
        const char *query;
        uint32_t profile, part, status;
        const char *text;
    } told[] = {
        {"$[?@.a = 1]", JP_STANDARD, JP_EXPLANATION, JP_DONE, whole},
        {"$[?@.a = 1]", JP_STANDARD, JP_SENTENCE, JP_DONE, sentence},
        {"$[?@.a = 1]", JP_STANDARD, JP_SUGGESTION, JP_DONE, "$[?@.a == 1]"},
        {"$[?distinct(@.*)]", JP_EXTENDED, JP_EXPLANATION, JP_DONE, ""},
        {"$[\xff", JP_STANDARD, JP_EXPLANATION, JP_DONE, ""},
        {"$[", 4, JP_EXPLANATION, JP_USAGE, ""},
        {"$[", JP_STANDARD, 3, JP_USAGE, ""},
    };
    for (size_t at = 0; at < sizeof told / sizeof told[0]; at += 1) {
        for (size_t less = 0; less <= (told[at].text[0] != '\0'); less += 1) {
            size_t length = strlen(told[at].text);
            uint8_t out[256] = {'#'};
            struct jp_report report = {9, 9, 9, 9, 9};
            uint32_t status = jp_explain((const uint8_t *)told[at].query, strlen(told[at].query), told[at].profile,
                                         told[at].part, out, length - less, &report);
            expect(status == report.status, "the status", length - less);
            expect_told(&report, told[at].status, out, told[at].text, less);
        }
    }
}

/* The engine's sentence for bytes that are no document, in the same way. */
static void sentence_of_document(const char *document, char out[128]) {
    struct jp_report report;
    struct jp_place place;
    jp_explain_document((const uint8_t *)document, strlen(document), JP_STANDARD, JP_DOCUMENT_SENTENCE, &place,
                        (uint8_t *)out, 127, &report);
    expect(report.length > 0 && report.length < 128, "a sentence", 127);
    out[report.length < 128 ? report.length : 0] = '\0';
}

/* The parts of what is told of documents, in rooms that just suffice and one less. */
static void try_documents_explained(void) {
    char comma[128], zero[128], comma_line[256], zero_line[256];
    sentence_of_document("[1,\n]", comma);
    sentence_of_document("[0,-0]", zero);
    snprintf(comma_line, sizeof comma_line, "line 2, column 1: %s\n", comma);
    snprintf(zero_line, sizeof zero_line, "line 1, column 4, at $[1]: %s\n", zero);
    const struct {
        const char *document;
        uint32_t profile, part, status;
        struct jp_place place;
        const char *text;
    } told[] = {
        {"[1,\n]", JP_STANDARD, JP_DOCUMENT_LINE, JP_DONE, {4, 2, 1}, comma_line},
        {"[\"\xc3\xa9\",]", JP_EXTENDED, JP_DOCUMENT_SENTENCE, JP_DONE, {6, 1, 6}, comma},
        {"{\"a\":1", JP_STANDARD, JP_DOCUMENT_REASON, JP_DONE, {6, 1, 7}, "EndInObject"},
        {"[0,-0]", JP_STANDARD, JP_DOCUMENT_LINE, JP_DONE, {3, 1, 4}, zero_line},
        {"[0,-0]", JP_DECIMAL, JP_DOCUMENT_LINE, JP_DONE, {0, 0, 0}, ""},
        {"[\xff", JP_DECIMAL, JP_DOCUMENT_REASON, JP_DONE, {1, 1, 2}, "NotUtf8"},
        {"[1]", JP_STANDARD, JP_DOCUMENT_LINE, JP_DONE, {0, 0, 0}, ""},
        {"[", JP_STANDARD, 3, JP_USAGE, {0, 0, 0}, ""},
        {"[", 4, JP_DOCUMENT_LINE, JP_USAGE, {0, 0, 0}, ""},
    };
    for (size_t at = 0; at < sizeof told / sizeof told[0]; at += 1) {
        for (size_t less = 0; less <= (told[at].text[0] != '\0'); less += 1) {
            size_t length = strlen(told[at].text);
            uint8_t out[256] = {'#'};
            struct jp_report report = {9, 9, 9, 9, 9};
            struct jp_place place = {9, 9, 9};
            uint32_t status =
                jp_explain_document((const uint8_t *)told[at].document, strlen(told[at].document), told[at].profile,
                                    told[at].part, &place, out, length - less, &report);
            expect(status == report.status, "the status", length - less);
            expect_told(&report, told[at].status, out, told[at].text, less);
            expect(memcmp(&place, &told[at].place, sizeof place) == 0, "the place", length - less);
        }
    }
}

/* The name of each kind of the header, and that there are no others. */
static void try_names(void) {
    static const struct {
        uint32_t status, kind;
        const char *name;
    } named[] = {
        {JP_QUERY_REFUSED, JP_SYNTAX, "Syntax"},
        {JP_QUERY_REFUSED, JP_TOO_DEEP, "TooDeep"},
        {JP_QUERY_REFUSED, JP_NOT_WHOLE, "NotWhole"},
        {JP_QUERY_REFUSED, JP_NUMBER_RANGE, "NumberRange"},
        {JP_QUERY_REFUSED, JP_INDEX_RANGE, "IndexRange"},
        {JP_QUERY_REFUSED, JP_UNKNOWN_FUNCTION, "UnknownFunction"},
        {JP_QUERY_REFUSED, JP_ARGUMENT_COUNT, "ArgumentCount"},
        {JP_QUERY_REFUSED, JP_NOT_SINGULAR, "NotSingular"},
        {JP_QUERY_REFUSED, JP_ILL_TYPED, "IllTyped"},
        {JP_DOCUMENT_REFUSED, JP_NOT_JSON, "NotJson"},
        {JP_DOCUMENT_REFUSED, JP_NUMBER_NOT_WHOLE, "NotWhole"},
        {JP_DOCUMENT_REFUSED, JP_LIST_TOO_LONG, "ListTooLong"},
        {JP_DOCUMENT_REFUSED, JP_NUMBER_BEYOND_DECIMAL, "NumberRange"},
        {JP_DOCUMENT_REFUSED, JP_DOCUMENT_TOO_LARGE, "DocumentTooLarge"},
        {JP_QUERY_REFUSED, 0, NULL},
        {JP_QUERY_REFUSED, 12, NULL},
        {JP_DOCUMENT_REFUSED, 7, NULL},
        {JP_NO_MEMORY, 1, NULL},
    };
    for (size_t at = 0; at < sizeof named / sizeof named[0]; at += 1) {
        const char *name = named[at].name == NULL ? "" : named[at].name;
        uint8_t out[32];
        struct jp_report report = {9, 9, 9, 9, 9};
        uint32_t status = jp_kind_name(named[at].status, named[at].kind, out, sizeof out, &report);
        expect(status == (uint32_t)(named[at].name == NULL ? JP_USAGE : JP_DONE), "a kind", at);
        expect(report.length == strlen(name) && memcmp(out, name, report.length) == 0, "a name", at);
    }
}

/* Canonical texts in the same rooms, and that a query is accepted. */
static void try_queries(void) {
    static const char query[] = "$ .a [ ?distinct(@.b) ]";
    static const char text[] = "$['a'][?distinct(@['b'])]";
    const size_t length = sizeof text - 1;
    struct jp_report report;
    for (size_t room = length - 1; room <= length; room += 1) {
        uint8_t out[sizeof text] = {0};
        expect(jp_canon((const uint8_t *)query, sizeof query - 1, JP_EXTENDED, out, room, &report) == 0,
               "the status", room);
        expect(report.length == length, "the length", room);
        expect(memcmp(out, room < length ? "" : text, room < length ? 1 : length) == 0, "the text", room);
    }
    expect(jp_check((const uint8_t *)query, sizeof query - 1, JP_EXTENDED, &report) == JP_DONE, "accepted", 0);
    expect(jp_check((const uint8_t *)query, sizeof query - 1, JP_STANDARD, &report) == JP_QUERY_REFUSED
               && report.kind == JP_UNKNOWN_FUNCTION && report.place == 8,
           "refused", 0);
    expect(jp_check((const uint8_t *)query, sizeof query - 1, 4, &report) == JP_USAGE, "no profile", 0);
}

static uint32_t keep_query(const char *query, struct jp_handle *handle) {
    struct jp_report report;
    return jp_query_new((const uint8_t *)query, strlen(query), JP_STANDARD, handle, &report);
}

static uint32_t keep_document(const char *document, struct jp_handle *handle) {
    struct jp_report report;
    uint8_t out[16];
    /* Bytes that are gone when the call has returned. */
    uint8_t *bytes = malloc(strlen(document) + 1);
    memcpy(bytes, document, strlen(document));
    uint32_t status = jp_document_new(bytes, strlen(document), JP_STANDARD, handle, out, sizeof out, &report);
    free(bytes);
    return status;
}

/* Each row's query and document by way of handles: what jp_eval answers, of the document's fault too. */
static void try_handles_as(const struct row *row) {
    struct jp_handle query = JP_EMPTY, document = JP_EMPTY;
    struct jp_report report = {9, 9, 9, 9, 9};
    uint8_t out[64] = {0};
    uint32_t status = jp_query_new((const uint8_t *)row->query, row->query_length, JP_STANDARD, &query, &report);
    if (status == JP_DONE) {
        status = jp_document_new((const uint8_t *)row->document, row->document_length, JP_STANDARD, &document, out,
                                 sizeof out, &report);
    }
    struct jp_text text = {out, report.length};
    for (int again = 0; status == JP_DONE && again < 2; again += 1) {
        uint32_t answered =
            jp_ask_document(&query, &document, row->form, 0, JP_ALL, &unlimited, &text, &report);
        status = again == 1 ? answered : status;
    }
    expect(status == row->expected.status, "the status by handles", sizeof out);
    expect(memcmp(&report, &row->expected, sizeof report) == 0, "the report by handles", sizeof out);
    expect(text.length == row->expected.length, "the length by handles", sizeof out);
    expect(text.length == 0 || memcmp(text.start, row->text, text.length) == 0, "the text by handles", sizeof out);
    jp_clear(&query);
    jp_clear(&document);
}

/* The status of jp_ask_document, and the first byte that it lends, or '#' where it lends none. */
static uint32_t first_of_kept(struct jp_handle *query, struct jp_handle *document, uint8_t *first) {
    struct jp_report report;
    struct jp_text text;
    uint32_t status = jp_ask_document(query, document, JP_VALUES, 0, JP_ALL, &unlimited, &text, &report);
    *first = text.length > 0 ? text.start[0] : '#';
    return status;
}

/* Handles that keep nothing, or the other kind, are a status. */
static void try_no_handles(void) {
    struct jp_handle query = JP_EMPTY, document = JP_EMPTY;
    uint8_t first;
    expect(first_of_kept(&query, &document, &first) == JP_USAGE, "empty handles", 16);
    jp_clear(&query);
    expect(keep_query("$.a", &query) == JP_DONE, "a query kept", 16);
    expect(first_of_kept(&query, &document, &first) == JP_USAGE, "no document", 16);
    expect(keep_document("{\"a\":1}", &document) == JP_DONE, "a document kept", 16);
    expect(first_of_kept(&document, &query, &first) == JP_USAGE, "changed over", 16);
    expect(first_of_kept(&query, &document, &first) == JP_DONE && first == '1', "both kept", 16);
    expect(keep_document("{\"a\":2}", &document) == JP_DONE, "another in its place", 16);
    expect(first_of_kept(&query, &document, &first) == JP_DONE && first == '2', "the other", 16);
    expect(keep_document("[2.5]", &document) == JP_DOCUMENT_REFUSED, "no document", 16);
    expect(first_of_kept(&query, &document, &first) == JP_USAGE, "refused", 16);
    expect(keep_document("{}", &query) == JP_DONE, "a document in place of a query", 16);
    jp_clear(&query);
    jp_clear(&query);
    jp_clear(&document);
    expect(first_of_kept(&query, &document, &first) == JP_USAGE && first == '#', "cleared", 16);
}

/* The report of one query over one document within a limit: by jp_eval, by jp_eval_many after another question,
 * and by handles. */
static void report_within(const char *query, const char *document, const struct jp_limit *limit,
                          struct jp_report reports[3]) {
    const uint8_t *text = (const uint8_t *)query, *bytes = (const uint8_t *)document;
    size_t length = strlen(query), bytes_length = strlen(document);
    struct jp_handle kept_query = JP_EMPTY, kept_document = JP_EMPTY;
    struct jp_question questions[2] = {{0, length, {9, 9, 9, 9, 9}}, {0, length, {9, 9, 9, 9, 9}}};
    struct jp_text lent;
    uint8_t out[64];
    jp_eval(text, length, bytes, bytes_length, JP_PATHS, JP_STANDARD, limit, out, sizeof out, &reports[0]);
    jp_eval_many(text, length, questions, 2, bytes, bytes_length, JP_PATHS, JP_STANDARD, limit, out, sizeof out);
    reports[1] = questions[1].report;
    keep_query(query, &kept_query);
    keep_document(document, &kept_document);
    jp_ask_document(&kept_query, &kept_document, JP_PATHS, 0, JP_ALL, limit, &lent, &reports[2]);
    jp_clear(&kept_query);
    jp_clear(&kept_document);
}

/* As many steps as are needed suffice, and one less does not, by each call. */
static void try_limits(void) {
    static const struct {
        const char *query, *document;
        uint64_t steps;
    } needed[] = {
        {"$[*]", "[]", 2},
        {"$[*]", "[1,2]", 7},
        {"$..*", "[1,2]", 9},
        {"$[?@==2]", "[1,2]", 9},
    };
    for (size_t at = 0; at < sizeof needed / sizeof needed[0]; at += 1) {
        uint64_t steps = needed[at].steps;
        const struct jp_limit suffices = {steps, 0, 0}, does_not = {steps - 1, 0, 0};
        struct jp_report enough[3], fewer[3];
        report_within(needed[at].query, needed[at].document, &suffices, enough);
        report_within(needed[at].query, needed[at].document, &does_not, fewer);
        for (size_t call = 0; call < 3; call += 1) {
            expect(enough[call].status == JP_DONE && enough[call].steps == steps, "a limit that suffices", at);
            expect(fewer[call].status == JP_STEPS_USED_UP && fewer[call].kind == 0 && fewer[call].place == 0
                       && fewer[call].length == 0 && fewer[call].steps == steps - 1,
                   "a limit that is one less", at);
        }
    }
    const struct jp_limit one_step = {1, 0, 0};
    struct jp_report named[3];
    report_within("$[1]", "[1,2]", &one_step, named);
    expect(named[0].status == JP_DONE && named[0].steps == 0, "a location that is named", 1);
    expect(named[1].status == JP_STEPS_USED_UP && named[1].steps == 1, "the same of a document that was read", 1);
}

/* As many nodes and bytes of their paths as there are come out, and with a limit of one less nothing does, by each
 * call; of two limits the one is told that is reached first. */
static void try_outputs(void) {
    static const struct {
        const char *query, *document;
        struct jp_limit limit;
        uint32_t status;
    } outputs[] = {
        {"$[*]", "[1,2]", {0, 2, 10}, JP_DONE},
        {"$[*]", "[1,2]", {0, 1, 0}, JP_TOO_MANY_NODES},
        {"$[*]", "[1,2]", {0, 1, 5}, JP_TOO_MANY_NODES},
        {"$[*]", "[1,2]", {0, 1, 4}, JP_TOO_MANY_BYTES},
        {"$[*]", "[1,2]", {0, 0, 9}, JP_TOO_MANY_BYTES},
        {"$[*]", "[1,2]", {0, 2, 9}, JP_TOO_MANY_BYTES},
        {"$[*]", "[1,2]", {2, 1, 1}, JP_STEPS_USED_UP},
        {"$[1]", "[1,2]", {0, 1, 5}, JP_DONE},
        {"$[1]", "[1,2]", {0, 0, 4}, JP_TOO_MANY_BYTES},
        {"$[5]", "[1,2]", {0, 1, 1}, JP_DONE},
    };
    for (size_t at = 0; at < sizeof outputs / sizeof outputs[0]; at += 1) {
        struct jp_report reports[3];
        report_within(outputs[at].query, outputs[at].document, &outputs[at].limit, reports);
        for (size_t call = 0; call < 3; call += 1) {
            expect(reports[call].status == outputs[at].status && reports[call].kind == 0 && reports[call].place == 0
                       && (reports[call].status == JP_DONE || reports[call].length == 0),
                   "so much and no more", at);
        }
    }
}

/* How many bytes the program holds, those included that its allocator keeps to hand out again. Under
 * AddressSanitizer this is 0: there leaks are told at the end. */
static size_t held(void) {
    const struct mallinfo2 info = mallinfo2();
    return info.uordblks + info.hblkhd;
}

/* Fills handles, asks them, and fills them again or clears them, so many times. */
static void use_handles(long times) {
    struct jp_handle query = JP_EMPTY, document = JP_EMPTY;
    struct jp_report report;
    struct jp_text text;
    for (long time = 0; time < times; time += 1) {
        keep_query("$.a[1]", &query);
        keep_document(time % 2 == 0 ? "{\"a\":[1,[2]]}" : "[2.5]", &document);
        jp_ask_document(&query, &document, JP_VALUES, 0, JP_ALL, &unlimited, &text, &report);
        if (time % 3 == 0) {
            jp_clear(&query);
            jp_clear(&document);
        }
    }
    jp_clear(&query);
    jp_clear(&document);
}

#ifdef __SANITIZE_ADDRESS__
#define MANY 1000
#else
#define MANY 1000000
#endif

/* A million handles leave nothing behind: what they hold is given back. */
static void try_many_handles(void) {
    use_handles(1000);
    size_t before = held();
    use_handles(MANY);
    expect(held() < before + 65536, "as much held after a million handles as before", 16);
}

int main(void) {
    for (size_t at = 0; at < sizeof rows / sizeof rows[0]; at += 1) {
        size_t length = rows[at].expected.length;
        const size_t rooms[] = {0, length == 0 ? 0 : length - 1, length, length + 5};
        for (size_t room = 0; room < 4; room += 1) {
            try_room(&rows[at], rooms[room]);
        }
        try_handles_as(&rows[at]);
    }
    try_no_handles();
    try_limits();
    try_outputs();
    try_many_handles();
    const size_t rooms[] = {0, 26, 27, 32};
    for (size_t room = 0; room < 4; room += 1) {
        try_many(rooms[room]);
    }
    try_many_members();
    try_many_refused();
    try_too_large();
    try_queries();
    try_explanations();
    try_documents_explained();
    try_names();
    expect(jp_version() == JP_VERSION, "the version", 0);
    return failures == 0 ? 0 : 1;
}
