/* Tests the profiles whose numbers are exact decimals, by each call that takes a profile and of documents that are kept,
 * with values by hand: those of RFC 9535's document, numbers that floats do not tell apart, what is too much for a
 * decimal, and the same bytes where numbers are whole. Prints nothing where all is so. */
#include "jp.h"

#include <stdio.h>
#include <string.h>

static const struct jp_limit unlimited = JP_UNLIMITED;

static int failures = 0;

static void expect(int holds, const char *what, const char *of, uint32_t profile) {
    if (!holds) {
        failures += 1;
        fprintf(stderr, "decimals: not so: %s (%s, profile %u)\n", what, of, (unsigned)profile);
    }
}

/* RFC 9535 section 1.5, figure 1. */
#define STORE                                                                                        \
    "{\"store\":{\"book\":["                                                                         \
    "{\"category\":\"reference\",\"author\":\"Nigel Rees\",\"title\":\"Sayings of the Century\","    \
    "\"price\":8.95},"                                                                               \
    "{\"category\":\"fiction\",\"author\":\"Evelyn Waugh\",\"title\":\"Sword of Honour\","           \
    "\"price\":12.99},"                                                                              \
    "{\"category\":\"fiction\",\"author\":\"Herman Melville\",\"title\":\"Moby Dick\","              \
    "\"isbn\":\"0-553-21311-3\",\"price\":8.99},"                                                    \
    "{\"category\":\"fiction\",\"author\":\"J. R. R. Tolkien\",\"title\":\"The Lord of the Rings\"," \
    "\"isbn\":\"0-395-19395-8\",\"price\":22.99}],"                                                  \
    "\"bicycle\":{\"color\":\"red\",\"price\":399}}}"

#define DIGITS_38 "12345678901234567890123456789012345678"
#define DIGITS_39 DIGITS_38 "9"
#define LARGE "{\"a\":[1," DIGITS_39 "]}"
#define BEYOND_FLOATS "[9007199254740993,9007199254740992.5,9007199254740992]"

/* What a call answers for a query and a document: its status, its kind, the byte of the query or of the document at
 * which it is refused, and the text, with paths and values. */
static const struct row {
    const char *query, *document;
    uint32_t profile, status, kind;
    size_t place;
    const char *text;
} rows[] = {
    {"$..book[?@.price<10].title", STORE, JP_DECIMAL, JP_DONE, 0, 0,
     "$['store']['book'][0]['title']\t\"Sayings of the Century\"\n$['store']['book'][2]['title']\t\"Moby Dick\"\n"},
    {"$..book[?@.price==8.990].title", STORE, JP_DECIMAL, JP_DONE, 0, 0,
     "$['store']['book'][2]['title']\t\"Moby Dick\"\n"},
    {"$.store..price", STORE, JP_EXTENDED_DECIMAL, JP_DONE, 0, 0,
     "$['store']['bicycle']['price']\t399\n"
     "$['store']['book'][0]['price']\t8.95\n$['store']['book'][1]['price']\t12.99\n"
     "$['store']['book'][2]['price']\t8.99\n$['store']['book'][3]['price']\t22.99\n"},
    {"$.store.book[3].price", STORE, JP_DECIMAL, JP_DONE, 0, 0, "$['store']['book'][3]['price']\t22.99\n"},
    {"$[?@==0.1]", "[0.1,0.10,1e-1,0.11]", JP_DECIMAL, JP_DONE, 0, 0, "$[0]\t0.1\n$[1]\t0.1\n$[2]\t0.1\n"},
    {"$[?@>9007199254740992]", BEYOND_FLOATS, JP_DECIMAL, JP_DONE, 0, 0,
     "$[0]\t9007199254740993\n$[1]\t9007199254740992.5\n"},
    {"$[?@==9007199254740992.5]", BEYOND_FLOATS, JP_DECIMAL, JP_DONE, 0, 0, "$[1]\t9007199254740992.5\n"},
    {"$[?@==9007199254740992]", "[9007199254740993,9007199254740992.0]", JP_DECIMAL, JP_DONE, 0, 0,
     "$[1]\t9007199254740992\n"},
    {"$", "1e400", JP_DECIMAL, JP_DONE, 0, 0, "$\t1e+400\n"},
    {"$[?@<1e400]", "[9e399,1e400]", JP_EXTENDED_DECIMAL, JP_DONE, 0, 0, "$[0]\t9e+399\n"},
    {"$.a[1]", "{\"a\":[1," DIGITS_38 "]}", JP_DECIMAL, JP_DONE, 0, 0,
     "$['a'][1]\t1.2345678901234567890123456789012345678e+37\n"},
    {"$[?count(distinct(@[0,0]))==1]", "[[0.5],[]]", JP_EXTENDED_DECIMAL, JP_DONE, 0, 0, "$[0]\t[0.5]\n"},
    /* What is too much for a decimal, in a document and in a query. */
    {"$.a", LARGE, JP_DECIMAL, JP_DOCUMENT_REFUSED, JP_NUMBER_BEYOND_DECIMAL, 8, "$['a'][1]"},
    {"$", LARGE, JP_EXTENDED_DECIMAL, JP_DOCUMENT_REFUSED, JP_NUMBER_BEYOND_DECIMAL, 8, "$['a'][1]"},
    {"$.b[*]", LARGE, JP_DECIMAL, JP_DOCUMENT_REFUSED, JP_NUMBER_BEYOND_DECIMAL, 8, "$['a'][1]"},
    {"$[?@<" DIGITS_39 "]", "[]", JP_DECIMAL, JP_QUERY_REFUSED, JP_NUMBER_RANGE, 5, ""},
    {"$[?distinct(@.*)]", "[0.5]", JP_DECIMAL, JP_QUERY_REFUSED, JP_UNKNOWN_FUNCTION, 3, ""},
    {"$", "[0.5,]", JP_DECIMAL, JP_DOCUMENT_REFUSED, JP_NOT_JSON, 5, ""},
    {"$", "[]", 4, JP_USAGE, 0, 0, ""},
    /* The same where numbers are whole. */
    {"$.a", LARGE, JP_STANDARD, JP_DOCUMENT_REFUSED, JP_NUMBER_NOT_WHOLE, 8, "$['a'][1]"},
    {"$", "[0.1,0.10]", JP_STANDARD, JP_DOCUMENT_REFUSED, JP_NUMBER_NOT_WHOLE, 1, "$[0]"},
    {"$[0]", BEYOND_FLOATS, JP_EXTENDED, JP_DOCUMENT_REFUSED, JP_NUMBER_NOT_WHOLE, 18, "$[1]"},
    {"$", "1e400", JP_STANDARD, JP_DOCUMENT_REFUSED, JP_NOT_JSON, 0, ""},
    {"$[?@==0.1]", "[0.1]", JP_STANDARD, JP_QUERY_REFUSED, JP_NOT_WHOLE, 6, ""},
    {"$[?@==1e2]", "[1]", JP_EXTENDED, JP_QUERY_REFUSED, JP_NOT_WHOLE, 6, ""},
};

static void expect_answer(const struct row *row, const struct jp_report *report, const uint8_t *text,
                          const char *call) {
    const size_t length = strlen(row->text);
    expect(report->status == row->status && report->kind == row->kind && report->place == row->place, call, row->query,
           row->profile);
    expect(report->length == length && (length == 0 || memcmp(text, row->text, length) == 0), "the text", row->query,
           row->profile);
}

/* A row by a kept query, over the document as it is kept in each of the two profiles with the same numbers. */
static void try_kept_row(const struct row *row, struct jp_handle *query) {
    const uint32_t profiles[] = {row->profile, row->profile ^ 1};
    for (int at = 0; at < 2; at += 1) {
        struct jp_handle document = JP_EMPTY;
        struct jp_report report;
        struct jp_text text;
        uint8_t out[64];
        const uint32_t status = jp_document_new((const uint8_t *)row->document, strlen(row->document), profiles[at],
                                                &document, out, sizeof out, &report);
        for (int call = 0; call < 2 && status == JP_DONE; call += 1) {
            jp_ask_document(query, &document, JP_BOTH, 0, JP_ALL, &unlimited, &text, &report);
            expect_answer(row, &report, text.start, "jp_ask_document");
        }
        if (status != JP_DONE) {
            expect_answer(row, &report, out, "jp_document_new");
        }
        jp_clear(&document);
    }
}

/* A row by each call that takes a query and the bytes of a document. */
static void try_row(const struct row *row) {
    const uint8_t *query = (const uint8_t *)row->query, *document = (const uint8_t *)row->document;
    const size_t query_length = strlen(row->query), length = strlen(row->document);
    struct jp_question questions[] = {{0, query_length, {9, 9, 9, 9, 9}}, {0, query_length, {9, 9, 9, 9, 9}}};
    struct jp_handle kept = JP_EMPTY;
    struct jp_report report;
    struct jp_text text;
    uint8_t out[1024];
    jp_eval(query, query_length, document, length, JP_BOTH, row->profile, &unlimited, out, sizeof out, &report);
    expect_answer(row, &report, out, "jp_eval");
    jp_eval_many(query, query_length, questions, 2, document, length, JP_BOTH, row->profile, &unlimited, out,
                 sizeof out);
    expect_answer(row, &questions[0].report, out, "jp_eval_many");
    expect_answer(row, &questions[1].report, out + questions[0].report.length, "jp_eval_many");
    jp_query_new(query, query_length, row->profile, &kept, &report);
    for (int call = 0; call < 2 && report.status == JP_DONE; call += 1) {
        struct jp_report told;
        jp_ask(&kept, document, length, JP_BOTH, 0, JP_ALL, &unlimited, &text, &told);
        expect_answer(row, &told, text.start, "jp_ask");
    }
    if (report.status == JP_DONE) {
        try_kept_row(row, &kept);
    }
    expect(report.status == (row->status == JP_DOCUMENT_REFUSED ? JP_DONE : row->status), "jp_query_new", row->query,
           row->profile);
    jp_clear(&kept);
}

/* A query by the calls that read it alone. */
static void try_queries(void) {
    static const struct {
        const char *query;
        uint32_t profile, status;
        const char *canonical;
    } queries[] = {
        {"$[?@.price<8.950]", JP_DECIMAL, JP_DONE, "$[?@['price']<8.95]"},
        {"$[?@.a==1e2]", JP_EXTENDED_DECIMAL, JP_DONE, "$[?@['a']==100.0]"},
        {"$[?@.a==100]", JP_DECIMAL, JP_DONE, "$[?@['a']==100]"},
        {"$[?@.a==1e2]", JP_STANDARD, JP_QUERY_REFUSED, ""},
        {"$[?@.a==1]", 4, JP_USAGE, ""},
    };
    for (size_t at = 0; at < sizeof queries / sizeof queries[0]; at += 1) {
        const uint8_t *query = (const uint8_t *)queries[at].query;
        const size_t length = strlen(queries[at].query), wanted = strlen(queries[at].canonical);
        const uint32_t profile = queries[at].profile;
        struct jp_report report;
        uint8_t out[256];
        expect(jp_check(query, length, profile, &report) == queries[at].status, "jp_check", queries[at].query, profile);
        expect(jp_canon(query, length, profile, out, sizeof out, &report) == queries[at].status
                   && report.length == wanted && memcmp(out, queries[at].canonical, wanted) == 0,
               "jp_canon", queries[at].query, profile);
        const uint32_t status = jp_explain(query, length, profile, JP_SENTENCE, out, sizeof out, &report);
        expect(status == (queries[at].status == JP_USAGE ? JP_USAGE : JP_DONE)
                   && (report.length > 0) == (queries[at].status == JP_QUERY_REFUSED),
               "jp_explain", queries[at].query, profile);
    }
}

static int is_node(const struct jp_node *node, const char *path, const char *value) {
    return node->path.length == strlen(path) && memcmp(node->path.start, path, node->path.length) == 0
           && node->value.length == strlen(value) && memcmp(node->value.start, value, node->value.length) == 0;
}

/* A kept query whose numbers are decimals, by the calls for one node: over bytes, and over a document that is kept. */
static void try_nodes(void) {
    static const char query[] = "$[?@>1.5]", fractions[] = "[1.25,1.75,2]";
    static const struct jp_node none = {{NULL, 9}, {NULL, 9}};
    struct jp_handle kept = JP_EMPTY, document = JP_EMPTY;
    struct jp_cursor cursor = JP_START;
    struct jp_report report;
    struct jp_node node = none;
    struct jp_text lines;
    uint32_t exists = 9;
    uint8_t out[8];
    jp_query_new((const uint8_t *)query, strlen(query), JP_DECIMAL, &kept, &report);
    expect(jp_first(&kept, (const uint8_t *)fractions, strlen(fractions), JP_NO_LIMIT, &node, &report) == JP_DONE
               && is_node(&node, "$[1]", "1.75"),
           "jp_first", query, JP_DECIMAL);
    expect(jp_exists(&kept, (const uint8_t *)fractions, strlen(fractions), JP_NO_LIMIT, &exists, &report) == JP_DONE
               && exists == 1,
           "jp_exists", query, JP_DECIMAL);
    jp_document_new((const uint8_t *)fractions, strlen(fractions), JP_EXTENDED_DECIMAL, &document, out, sizeof out,
                    &report);
    expect(jp_next(&cursor, &kept, &document, JP_NO_LIMIT, &node, &report) == JP_DONE && is_node(&node, "$[1]", "1.75"),
           "jp_next", query, JP_DECIMAL);
    expect(jp_next(&cursor, &kept, &document, JP_NO_LIMIT, &node, &report) == JP_DONE && is_node(&node, "$[2]", "2"),
           "the second by jp_next", query, JP_DECIMAL);
    expect(jp_next(&cursor, &kept, &document, JP_NO_LIMIT, &node, &report) == JP_DONE && node.path.length == 0,
           "no more by jp_next", query, JP_DECIMAL);
    cursor = (struct jp_cursor)JP_START;
    expect(jp_next_page(&cursor, &kept, &document, JP_NO_LIMIT, &lines, &report) == JP_DONE && lines.length == 10
               && memcmp(lines.start, "$[1]\t1.75\n", 10) == 0,
           "jp_next_page", query, JP_DECIMAL);
    jp_clear(&kept);
    jp_clear(&document);
}

/* Queries and documents that are kept with other numbers, in both directions: nothing is given, a cursor stands where
 * it stood, and what is kept is asked of what has the same numbers afterwards. */
static void try_other_numbers(void) {
    static const struct {
        const char *query, *document;
        uint32_t asked, read;
    } pairs[] = {
        {"$.a", "{\"a\":8.95}", JP_STANDARD, JP_DECIMAL},
        {"$.a", "{\"a\":8.95}", JP_EXTENDED, JP_EXTENDED_DECIMAL},
        {"$.a", "{\"a\":8}", JP_STANDARD, JP_EXTENDED_DECIMAL},
        {"$..a", "{\"a\":8}", JP_DECIMAL, JP_STANDARD},
        {"$[?@<8.95]", "{\"a\":8}", JP_EXTENDED_DECIMAL, JP_EXTENDED},
        {"$[?@<8.95]", "{\"a\":8}", JP_DECIMAL, JP_EXTENDED},
    };
    for (size_t at = 0; at < sizeof pairs / sizeof pairs[0]; at += 1) {
        const char *query = pairs[at].query;
        const uint8_t *document = (const uint8_t *)pairs[at].document;
        struct jp_handle kept = JP_EMPTY, other = JP_EMPTY;
        struct jp_cursor cursor = JP_START;
        struct jp_report report;
        struct jp_node node = {{NULL, 9}, {NULL, 9}};
        struct jp_text text = {NULL, 9};
        uint8_t out[8] = "#######";
        jp_query_new((const uint8_t *)query, strlen(query), pairs[at].asked, &kept, &report);
        jp_document_new(document, strlen(pairs[at].document), pairs[at].read, &other, out, sizeof out, &report);
        expect(kept.full && other.full && out[0] == '#', "both are kept", query, pairs[at].read);
        expect(jp_ask_document(&kept, &other, JP_VALUES, 0, JP_ALL, &unlimited, &text, &report) == JP_OTHER_NUMBERS
                   && report.status == JP_OTHER_NUMBERS && report.kind == 0 && report.place == 0 && report.length == 0
                   && report.steps == 0 && text.length == 0,
               "jp_ask_document of other numbers", query, pairs[at].asked);
        expect(jp_next(&cursor, &kept, &other, JP_NO_LIMIT, &node, &report) == JP_OTHER_NUMBERS && cursor.given == 0
                   && node.path.length == 0 && node.value.length == 0,
               "jp_next of other numbers", query, pairs[at].asked);
        text.length = 9;
        expect(jp_next_page(&cursor, &kept, &other, 1, &text, &report) == JP_OTHER_NUMBERS && text.length == 0,
               "jp_next_page of other numbers", query, pairs[at].asked);
        jp_query_new((const uint8_t *)"$", 1, pairs[at].read, &kept, &report);
        expect(jp_ask_document(&kept, &other, JP_VALUES, 0, JP_ALL, &unlimited, &text, &report) == JP_DONE
                   && text.length == strlen(pairs[at].document) + 1
                   && memcmp(text.start, document, text.length - 1) == 0,
               "the document is kept", query, pairs[at].read);
        jp_clear(&kept);
        jp_clear(&other);
    }
}

/* Why bytes are no document in a profile: the reason, and where. */
static void try_explanations(void) {
    static const struct {
        const char *document;
        uint32_t profile, status;
        struct jp_place place;
        const char *reason;
    } told[] = {
        {"{\"a\":1.5}", JP_STANDARD, JP_DONE, {5, 1, 6}, "HasFraction"},
        {"{\"a\":1.5}", JP_EXTENDED, JP_DONE, {5, 1, 6}, "HasFraction"},
        {"{\"a\":1.5}", JP_DECIMAL, JP_DONE, {0, 0, 0}, ""},
        {"{\"a\":1.5}", JP_EXTENDED_DECIMAL, JP_DONE, {0, 0, 0}, ""},
        {LARGE, JP_DECIMAL, JP_DONE, {8, 1, 9}, "BeyondDecimal"},
        {LARGE, JP_STANDARD, JP_DONE, {8, 1, 9}, "OutOfRange"},
        {"[0.5,]", JP_DECIMAL, JP_DONE, {5, 1, 6}, "TrailingComma"},
        {"[0.5,]", 4, JP_USAGE, {0, 0, 0}, ""},
    };
    for (size_t at = 0; at < sizeof told / sizeof told[0]; at += 1) {
        const size_t length = strlen(told[at].reason);
        struct jp_place place = {9, 9, 9};
        struct jp_report report;
        uint8_t out[32];
        const uint32_t status =
            jp_explain_document((const uint8_t *)told[at].document, strlen(told[at].document), told[at].profile,
                                JP_DOCUMENT_REASON, &place, out, sizeof out, &report);
        expect(status == told[at].status && report.length == length && memcmp(out, told[at].reason, length) == 0
                   && memcmp(&place, &told[at].place, sizeof place) == 0,
               "jp_explain_document", told[at].document, told[at].profile);
    }
}

int main(void) {
    for (size_t at = 0; at < sizeof rows / sizeof rows[0]; at += 1) {
        try_row(&rows[at]);
    }
    try_queries();
    try_nodes();
    try_other_numbers();
    try_explanations();
    return failures == 0 ? 0 : 1;
}
