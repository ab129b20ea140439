/* Tests what each proved call gives, with reports, texts and buffers by hand: lines in each form, why there is no text,
 * limits, explanations, names of kinds, many queries at once, and what handles keep and lend. Statuses, kinds, forms,
 * profiles and parts stand here as the numbers that they are, and not by their names in jp.h: other languages call with
 * these. Steps are counted by the table of docs/QUERIES.md (Work). Prints how many rows passed, and which did not. */
#include "jp.h"

#include <stdio.h>
#include <string.h>

#define DOCUMENT "{\"a\":[1,[2,{}]]}"
#define LIST "{\"a\":[7,8]}"
#define PRICES "[8.95,22.99]"
/* A digit more than a decimal has. */
#define DIGITS_39 "123456789012345678901234567890123456789"

/* Limits. */
#define NONE \
    { 0, 0, 0 }
#define STEPS(steps) \
    { steps, 0, 0 }

/* Reports: numbers that no call leaves, a text of some length, a query that is none, and no more than a status. */
#define NINES \
    { 9, 9, 9, 9, 9 }
#define DONE(length, steps) \
    { 0, 0, 0, length, steps }
#define NO_QUERY(place) \
    { 1, 1, place, 0, 0 }
#define TOLD(status, steps) \
    { status, 0, 0, 0, steps }

/* A report of a text, and the text. */
#define GIVES(text, steps) DONE(sizeof text - 1, steps), text

/* Of a report that is expected: its steps, where nothing is said of them. */
#define ANY UINT64_MAX

#define COUNT(table) (sizeof(table) / sizeof *(table))

/* The row that is run: its test, its place in the table, and whether it failed. */
static struct {
    const char *test;
    size_t at;
    int failed;
} current;

static size_t rows_run, rows_failed;

static void begin(const char *test, size_t at) {
    current.test = test;
    current.at = at;
    current.failed = 0;
    rows_run += 1;
}

static void expect(int holds, const char *what) {
    if (!holds) {
        rows_failed += !current.failed;
        current.failed = 1;
        fprintf(stderr, "calls: %s, row %zu: another %s\n", current.test, current.at, what);
    }
}

static void expect_report(uint32_t status, const struct jp_report *report, const struct jp_report *expected) {
    expect(status == report->status, "status in the report than the call gives");
    expect(report->status == expected->status, "status");
    expect(report->kind == expected->kind, "kind");
    expect(report->place == expected->place, "place");
    expect(report->length == expected->length, "length");
    expect(report->steps == expected->steps || expected->steps == ANY, "number of steps");
}

/* Expects a buffer that was full of signs to begin with the text, and to have these signs still behind it. */
static void expect_written(const uint8_t *out, size_t size, const char *text) {
    const size_t length = strlen(text);
    size_t left = length;
    expect(memcmp(out, text, length) == 0, "text");
    while (left < size && out[left] == '#') {
        left += 1;
    }
    expect(left == size, "byte behind the text");
}

/* A query over a document with so much room, the report, and what is written. */
struct evaluation {
    const char *query, *document;
    uint32_t form, profile;
    struct jp_limit limit;
    size_t room;
    struct jp_report report;
    const char *text;
};

static void expect_evaluation(const struct evaluation *row) {
    uint8_t out[64];
    struct jp_report report = NINES;
    memset(out, '#', sizeof out);
    const uint32_t status = jp_eval((const uint8_t *)row->query, strlen(row->query), (const uint8_t *)row->document,
                                    strlen(row->document), row->form, row->profile, &row->limit, out, row->room,
                                    &report);
    expect_report(status, &report, &row->report);
    expect_written(out, sizeof out, row->text);
}

static void writes_each_form(void) {
    static const struct evaluation rows[] = {
        {"$.a[*]", DOCUMENT, 0, 0, NONE, 64, DONE(9, 11), "1\n[2,{}]\n"},
        {"$.a[*]", DOCUMENT, 1, 0, NONE, 64, DONE(20, 11), "$['a'][0]\n$['a'][1]\n"},
        {"$.a[*]", DOCUMENT, 2, 0, NONE, 64, DONE(29, 11), "$['a'][0]\t1\n$['a'][1]\t[2,{}]\n"},
    };
    for (size_t at = 0; at < COUNT(rows); at += 1) {
        begin(__func__, at);
        expect_evaluation(&rows[at]);
    }
}

static void reports_why_there_is_no_text(void) {
    static const struct evaluation rows[] = {
        {"$.a[01]", "[1,]", 0, 0, NONE, 64, {1, 1, 5, 0, 0}, ""},
        {"$.\xff", "[]", 0, 0, NONE, 64, {1, 1, 2, 0, 0}, ""},
        {"$[?distinct(@)]", "[]", 0, 0, NONE, 64, {1, 6, 3, 0, 0}, ""},
        {"$", "[1,]", 0, 0, NONE, 64, {3, 1, 3, 0, 0}, ""},
        {"$[1]", "\"\xff\"", 0, 0, NONE, 64, {3, 1, 1, 0, 0}, ""},
        {"$", "{\"a\":[0,2.5]}", 0, 0, NONE, 64, {3, 2, 8, 9, 0}, "$['a'][1]"},
        {"$", "[]", 3, 0, NONE, 64, {2, 0, 0, 0, 0}, ""},
        {"$", "[]", 0, 4, NONE, 64, {2, 0, 0, 0, 0}, ""},
        {"$", "{\"a\":[0,1e1000001]}", 0, 2, NONE, 64, {3, 5, 8, 9, 0}, "$['a'][1]"},
        {"$[?@<1e1000001]", "[]", 0, 3, NONE, 64, {1, 4, 5, 0, 0}, ""},
        {"$[?@<2.5]", "[]", 0, 1, NONE, 64, {1, 3, 5, 0, 0}, ""},
    };
    for (size_t at = 0; at < COUNT(rows); at += 1) {
        begin(__func__, at);
        expect_evaluation(&rows[at]);
    }
}

static void fills_a_buffer_whole_or_leaves_it(void) {
    static const struct {
        size_t room;
        const char *text;
    } rows[] = {{0, "######"}, {5, "######"}, {6, "$['a']"}};
    static const struct jp_report expected = DONE(6, 0);
    for (size_t at = 0; at < COUNT(rows); at += 1) {
        uint8_t out[] = "######";
        struct jp_report report = NINES;
        begin(__func__, at);
        const uint32_t status = jp_canon((const uint8_t *)"$.a", 3, 0, out, rows[at].room, &report);
        expect_report(status, &report, &expected);
        expect_written(out, 6, rows[at].text);
    }
}

static void checks_in_a_profile(void) {
    static const struct {
        uint32_t profile;
        struct jp_report report;
    } rows[] = {{1, DONE(0, 0)}, {0, {1, 6, 3, 0, 0}}};
    static const char query[] = "$[?distinct(@.*)]";
    for (size_t at = 0; at < COUNT(rows); at += 1) {
        struct jp_report report = NINES;
        begin(__func__, at);
        const uint32_t status = jp_check((const uint8_t *)query, strlen(query), rows[at].profile, &report);
        expect_report(status, &report, &rows[at].report);
    }
    begin(__func__, COUNT(rows));
    expect(jp_version() == 256, "version");
}

/* The engine's sentence for a refused query, with a zero behind it. A test takes that of another query than it
 * explains, which has the same reason in bindings/rows.jsonl; there stands what the sentence says. */
static void put_sentence_of_query(const char *query, char sentence[96]) {
    struct jp_report report = NINES;
    memset(sentence, 0, 96);
    jp_explain((const uint8_t *)query, strlen(query), 0, 1, (uint8_t *)sentence, 95, &report);
}

static void explains_what_is_refused(void) {
    char sentence[96], whole[192];
    put_sentence_of_query("$[?@.\u00e9 = 1]", sentence);
    snprintf(whole, sizeof whole, "  $[?@.a = 1]\n          ^\n%s\nTry: $[?@.a == 1]\n", sentence);
    const struct {
        const char *query;
        uint32_t profile, part, status;
        const char *text;
    } rows[] = {
        {"$[?@.a = 1]", 0, 0, 0, whole},
        {"$[?@.a = 1]", 0, 1, 0, sentence},
        {"$[?@.a = 1]", 0, 2, 0, "$[?@.a == 1]"},
        {"$.a", 0, 0, 0, ""},
        {"$[?distinct(@.*)]", 1, 1, 0, ""},
        {"$[\xff", 0, 0, 0, ""},
        {"$[?@<2.5]", 2, 0, 0, ""},
        {"$[", 4, 0, 2, ""},
        {"$[", 0, 3, 2, ""},
    };
    for (size_t at = 0; at < COUNT(rows); at += 1) {
        uint8_t out[96];
        struct jp_report report = NINES;
        const struct jp_report expected = {rows[at].status, 0, 0, strlen(rows[at].text), 0};
        begin(__func__, at);
        memset(out, '#', sizeof out);
        const uint32_t status = jp_explain((const uint8_t *)rows[at].query, strlen(rows[at].query), rows[at].profile,
                                           rows[at].part, out, sizeof out, &report);
        expect_report(status, &report, &expected);
        expect_written(out, sizeof out, rows[at].text);
    }
}

/* The engine's sentence for bytes that are no document; a test takes it in the same way. */
static void put_sentence_of_document(const char *document, char sentence[96]) {
    struct jp_report report = NINES;
    struct jp_place place;
    memset(sentence, 0, 96);
    jp_explain_document((const uint8_t *)document, strlen(document), 0, 1, &place, (uint8_t *)sentence, 95, &report);
}

/* Bytes, the profile and the part that is asked for, and the status, the place and the text that are told. */
struct misreading {
    const char *document;
    uint32_t profile, part, status;
    struct jp_place place;
    const char *text;
};

static void expect_misreading(const struct misreading *row) {
    uint8_t out[96];
    struct jp_report report = NINES;
    struct jp_place place = {9, 9, 9};
    const struct jp_report expected = {row->status, 0, 0, strlen(row->text), 0};
    memset(out, '#', sizeof out);
    const uint32_t status = jp_explain_document((const uint8_t *)row->document, strlen(row->document), row->profile,
                                                row->part, &place, out, sizeof out, &report);
    expect_report(status, &report, &expected);
    expect_written(out, sizeof out, row->text);
    expect(place.offset == row->place.offset, "byte");
    expect(place.line == row->place.line, "line");
    expect(place.column == row->place.column, "column");
}

static void explains_what_is_no_document(void) {
    char comma[96], fraction[96], of_comma[192], of_fraction[192];
    put_sentence_of_document("[1,]", comma);
    put_sentence_of_document("[0.5]", fraction);
    snprintf(of_comma, sizeof of_comma, "line 2, column 1: %s\n", comma);
    snprintf(of_fraction, sizeof of_fraction, "line 1, column 9, at $['a'][1]: %s\n", fraction);
    const struct misreading rows[] = {
        {"[1,\n]", 0, 0, 0, {4, 2, 1}, of_comma},
        {"[\"\u00e9\",]", 2, 1, 0, {6, 1, 6}, comma},
        {"{\"a\":[0,2.5]}", 1, 0, 0, {8, 1, 9}, of_fraction},
        {"{\"a\":[0,2.5]}", 2, 0, 0, {0, 0, 0}, ""},
        {"[1,\n]", 3, 2, 0, {4, 2, 1}, "TrailingComma"},
        {"[-0]", 0, 2, 0, {1, 1, 2}, "NegativeZero"},
        {"[-0]", 3, 2, 0, {0, 0, 0}, ""},
        {"{\"a\":1.5}", 0, 2, 0, {5, 1, 6}, "HasFraction"},
        {"{\"a\":1.5}", 2, 2, 0, {0, 0, 0}, ""},
        {"{\"a\":" DIGITS_39 "}", 2, 2, 0, {5, 1, 6}, "BeyondDecimal"},
        {"{\"a\":" DIGITS_39 "}", 1, 2, 0, {5, 1, 6}, "OutOfRange"},
        {"[\xff", 0, 2, 0, {1, 1, 2}, "NotUtf8"},
        {"", 0, 2, 0, {0, 1, 1}, "Empty"},
        {"[1]", 0, 0, 0, {0, 0, 0}, ""},
        {"[1,]", 0, 3, 2, {0, 0, 0}, ""},
        {"[1,]", 4, 0, 2, {0, 0, 0}, ""},
    };
    for (size_t at = 0; at < COUNT(rows); at += 1) {
        begin(__func__, at);
        expect_misreading(&rows[at]);
    }
}

static void names_kinds(void) {
    static const struct {
        uint32_t status, kind, told;
        const char *name;
    } rows[] = {
        {1, 1, 0, "Syntax"},
        {1, 9, 0, "IllTyped"},
        {3, 1, 0, "NotJson"},
        {3, 5, 0, "NumberRange"},
        {3, 6, 0, "DocumentTooLarge"},
        {1, 0, 2, ""},
        {1, 12, 2, ""},
        {3, 7, 2, ""},
        {0, 1, 2, ""},
        {4, 1, 2, ""},
    };
    for (size_t at = 0; at < COUNT(rows); at += 1) {
        uint8_t out[16];
        struct jp_report report = NINES;
        const struct jp_report expected = {rows[at].told, 0, 0, strlen(rows[at].name), 0};
        begin(__func__, at);
        memset(out, '#', sizeof out);
        const uint32_t status = jp_kind_name(rows[at].status, rows[at].kind, out, sizeof out, &report);
        expect_report(status, &report, &expected);
        expect_written(out, sizeof out, rows[at].name);
    }
}

static void keeps_to_a_limit(void) {
    static const struct evaluation rows[] = {
        {"$.a[*]", DOCUMENT, 0, 0, STEPS(11), 16, DONE(9, 11), "1\n[2,{}]\n"},
        {"$.a[*]", DOCUMENT, 0, 0, STEPS(10), 16, TOLD(10, 10), ""},
        {"$.a[*]", DOCUMENT, 0, 0, STEPS(1), 16, TOLD(10, 1), ""},
        {"$.a[*]", DOCUMENT, 0, 0, STEPS(UINT64_MAX), 16, DONE(9, 11), "1\n[2,{}]\n"},
        {"$.a[0]", DOCUMENT, 0, 0, STEPS(1), 16, DONE(2, 0), "1\n"},
        {"$.a[01]", DOCUMENT, 0, 0, STEPS(1), 16, NO_QUERY(5), ""},
    };
    for (size_t at = 0; at < COUNT(rows); at += 1) {
        begin(__func__, at);
        expect_evaluation(&rows[at]);
    }
}

/* As many nodes and bytes as there are, and with one less of either nothing. */
static void gives_so_much_and_no_more(void) {
    static const struct evaluation rows[] = {
        {"$.a[*]", DOCUMENT, 0, 0, {0, 2, 9}, 16, DONE(9, ANY), "1\n[2,{}]\n"},
        {"$.a[*]", DOCUMENT, 0, 0, {0, 1, 0}, 16, TOLD(8, ANY), ""},
        {"$.a[*]", DOCUMENT, 0, 0, {0, 0, 8}, 16, TOLD(9, ANY), ""},
        {"$.a", DOCUMENT, 0, 0, {0, 1, 11}, 16, DONE(11, ANY), "[1,[2,{}]]\n"},
        {"$.a", DOCUMENT, 0, 0, {0, 0, 10}, 16, TOLD(9, ANY), ""},
        {"$.b", DOCUMENT, 0, 0, {0, 0, 0}, 16, DONE(0, ANY), ""},
        {"$.a[0,0]", DOCUMENT, 0, 0, {0, 2, 4}, 16, DONE(4, ANY), "1\n1\n"},
        {"$.a[0,0]", DOCUMENT, 0, 0, {0, 1, 0}, 16, TOLD(8, ANY), ""},
        {"$.a[0,0]", DOCUMENT, 0, 0, {0, 0, 3}, 16, TOLD(9, ANY), ""},
    };
    for (size_t at = 0; at < COUNT(rows); at += 1) {
        begin(__func__, at);
        expect_evaluation(&rows[at]);
    }
}

/* What is found first on the way through the nodes is told: the steps of the second node are made before it is too
 * many, and its line before that has too many bytes. */
static void tells_what_is_found_first(void) {
    static const struct evaluation rows[] = {
        {"$.a[*]", DOCUMENT, 0, 0, {4, 1, 1}, 16, TOLD(10, ANY), ""},
        {"$.a[*]", DOCUMENT, 0, 0, {0, 1, 1}, 16, TOLD(9, ANY), ""},
        {"$.a[*]", DOCUMENT, 0, 0, {0, 1, 2}, 16, TOLD(8, ANY), ""},
        {"$.a[*]", DOCUMENT, 0, 0, {0, 2, 8}, 16, TOLD(9, ANY), ""},
        {"$.a[0]", DOCUMENT, 0, 0, {1, 1, 1}, 16, TOLD(9, ANY), ""},
        {"$.a[01]", DOCUMENT, 0, 0, {1, 1, 1}, 16, NO_QUERY(5), ""},
    };
    for (size_t at = 0; at < COUNT(rows); at += 1) {
        begin(__func__, at);
        expect_evaluation(&rows[at]);
    }
}

/* Questions over one document with so much room, the size of all texts, and what is written. */
struct many {
    const char *queries, *document;
    struct jp_limit limit;
    size_t room, size;
    const char *text;
};

#define MOST_QUESTIONS 5

/* The questions have the reports that are expected. */
static void expect_many(const struct many *row, const struct jp_question *expected, size_t count) {
    uint8_t out[16];
    struct jp_question questions[MOST_QUESTIONS];
    memset(out, '#', sizeof out);
    for (size_t at = 0; at < count; at += 1) {
        questions[at] = (struct jp_question){expected[at].start, expected[at].size, NINES};
    }
    const size_t size = jp_eval_many((const uint8_t *)row->queries, strlen(row->queries), questions, count,
                                     (const uint8_t *)row->document, strlen(row->document), 0, 0, &row->limit, out,
                                     row->room);
    expect(size == row->size, "size of all texts");
    expect_written(out, sizeof out, row->text);
    for (size_t at = 0; at < count; at += 1) {
        expect_report(expected[at].report.status, &questions[at].report, &expected[at].report);
    }
}

static void gives_each_question_so_many_nodes(void) {
    static const struct jp_question questions[] = {
        {0, 6, DONE(2, ANY)},
        {6, 4, TOLD(8, ANY)},
        {0, 6, DONE(2, ANY)},
    };
    static const struct many row = {"$.a[0]$..*", DOCUMENT, {0, 1, 0}, 16, 4, "1\n1\n"};
    begin(__func__, 0);
    expect_many(&row, questions, COUNT(questions));
}

static void gives_each_question_the_whole_limit(void) {
    static const struct jp_question questions[] = {
        {0, 6, DONE(2, 10)},
        {6, 4, TOLD(10, 10)},
        {0, 6, DONE(2, 10)},
    };
    static const struct many row = {"$.a[0]$..*", DOCUMENT, STEPS(10), 16, 4, "1\n1\n"};
    begin(__func__, 0);
    expect_many(&row, questions, COUNT(questions));
}

static void answers_many_in_turn(void) {
    static const struct jp_question questions[] = {
        {0, 6, DONE(2, 10)},
        {6, 7, NO_QUERY(5)},
        {13, 3, DONE(0, 5)},
        {16, 99, DONE(11, 6)},
        {99, 1, NO_QUERY(0)},
    };
    static const struct many rows[] = {
        {"$.a[0]$.a[01]$.b$.a", DOCUMENT, NONE, 12, 13, ""},
        {"$.a[0]$.a[01]$.b$.a", DOCUMENT, NONE, 13, 13, "1\n[1,[2,{}]]\n"},
    };
    for (size_t at = 0; at < COUNT(rows); at += 1) {
        begin(__func__, at);
        expect_many(&rows[at], questions, COUNT(questions));
    }
}

static void answers_many_that_ask_for_members_of_their_own(void) {
    static const char document[] = "{\"a\":{\"b\":7,\"d\":8},\"b\":[{\"c\":10},{\"c\":\"\"}],\"c\":0,\"d\":9}";
    static const struct jp_question questions[] = {
        {0, 3, DONE(2, ANY)},
        {3, 5, NO_QUERY(3)},
        {8, 8, DONE(6, ANY)},
        {16, 3, DONE(0, ANY)},
        {19, 8, DONE(2, ANY)},
    };
    static const struct many row = {"$.d$[01]$.b[*].c$.e$['a'].b", document, NONE, 11, 10, "9\n10\n\"\"\n7\n"};
    begin(__func__, 0);
    expect_many(&row, questions, COUNT(questions));
}

static void answers_many_over_no_document(void) {
    static const struct jp_question questions[] = {
        {0, 1, {3, 2, 1, 4, ANY}},
        {0, 0, NO_QUERY(0)},
    };
    static const struct many row = {"$", "[2.5]", STEPS(1), 5, 4, "$[0]"};
    begin(__func__, 0);
    expect_many(&row, questions, COUNT(questions));
}

static void keep_query_in(const char *query, uint32_t profile, struct jp_handle *handle) {
    static const struct jp_report expected = DONE(0, 0);
    struct jp_report report = NINES;
    expect_report(jp_query_new((const uint8_t *)query, strlen(query), profile, handle, &report), &report, &expected);
}

static void keep_query(const char *query, struct jp_handle *handle) {
    keep_query_in(query, 0, handle);
}

/* Keeps a document, with no room for a path. */
static void keep_document_in(const char *document, uint32_t profile, struct jp_handle *handle) {
    static const struct jp_report expected = DONE(0, 0);
    struct jp_report report = NINES;
    uint8_t out = '#';
    expect_report(jp_document_new((const uint8_t *)document, strlen(document), profile, handle, &out, 0, &report),
                  &report, &expected);
    expect(out == '#', "byte where there is no room");
}

/* The document of these tests. */
static void keep_document(struct jp_handle *handle) {
    keep_document_in(DOCUMENT, 0, handle);
}

/* What is asked of a document, the report, and the text that is lent. */
struct asking {
    const char *query, *document;
    uint32_t form;
    uint64_t from, count;
    struct jp_limit limit;
    struct jp_report report;
    const char *text;
};

static void expect_lent(const struct asking *row, const struct jp_text *text) {
    expect(text->length == strlen(row->text), "length of what is lent");
    expect(text->length != strlen(row->text) || text->length == 0 || memcmp(text->start, row->text, text->length) == 0,
           "text that is lent");
}

static void expect_asked(struct jp_handle *query, const struct asking *row) {
    struct jp_report report = NINES;
    struct jp_text text = {NULL, 9};
    const uint32_t status = jp_ask(query, (const uint8_t *)row->document, strlen(row->document), row->form, row->from,
                                   row->count, &row->limit, &text, &report);
    expect_report(status, &report, &row->report);
    expect_lent(row, &text);
}

/* The same of a document that is kept. */
static void expect_asked_of_kept(struct jp_handle *query, struct jp_handle *document, const struct asking *row) {
    struct jp_report report = NINES;
    struct jp_text text = {NULL, 9};
    const uint32_t status =
        jp_ask_document(query, document, row->form, row->from, row->count, &row->limit, &text, &report);
    expect_report(status, &report, &row->report);
    expect_lent(row, &text);
}

/* What is told where nothing is kept: asked of bytes or of a document that is kept. */
static const struct asking of_bytes = {"", "[]", 0, 0, 0, NONE, {2, 0, 0, 0, 0}, ""},
                           of_kept = {"", "", 2, 0, 0, NONE, {2, 0, 0, 0, 0}, ""};

static void keeps_nothing_of_what_is_refused(void) {
    static const struct jp_report no_query = NO_QUERY(5), no_document = {3, 2, 1, 4, ANY};
    struct jp_handle query = JP_EMPTY, document = JP_EMPTY;
    struct jp_report report = NINES;
    uint8_t out[] = "#####";
    begin(__func__, 0);
    keep_query("$", &query);
    keep_document(&document);
    expect_report(jp_query_new((const uint8_t *)"$.a[01]", 7, 0, &query, &report), &report, &no_query);
    expect(query.full == 0, "handle of a query than an empty one");
    expect_asked(&query, &of_bytes);
    begin(__func__, 1);
    expect_report(jp_document_new((const uint8_t *)"[2.5]", 5, 0, &document, out, 5, &report), &report, &no_document);
    expect_written(out, 5, "$[0]");
    expect(document.full == 0, "handle of a document than an empty one");
    keep_query("$", &query);
    expect_asked_of_kept(&query, &document, &of_kept);
    jp_clear(&query);
    jp_clear(&document);
}

/* Three calls with one query, each with the same answer. */
static void asks_again_and_again(void) {
    static const struct asking rows[] = {
        {"$.a[0]", LIST, 0, 0, 0, NONE, DONE(2, 0), "7\n"},
        {"$.a[0]", LIST, 2, 0, 1, NONE, DONE(12, 0), "$['a'][0]\t7\n"},
        {"$.a[0]", "{\"b\":1}", 0, 0, 0, NONE, DONE(0, 0), ""},
        {"$.a", "{\"a\":[{\"b\":\"\\u0061\\n\"}]}", 0, 0, 0, NONE, DONE(14, 0), "[{\"b\":\"a\\n\"}]\n"},
        {"$", " [ ] ", 1, 0, 0, NONE, DONE(2, 0), "$\n"},
        {"$.a[*]", LIST, 0, 0, 0, NONE, DONE(4, 11), "7\n8\n"},
        {"$.a[*]", LIST, 0, 0, 2, NONE, DONE(4, 10), "7\n8\n"},
        {"$.a[*]", LIST, 1, 0, 1, NONE, DONE(10, 9), "$['a'][0]\n"},
        {"$..b", "{\"a\":[{\"b\":1},{\"b\":2}]}", 0, 0, 0, NONE, DONE(4, 21), "1\n2\n"},
    };
    for (size_t at = 0; at < COUNT(rows); at += 1) {
        struct jp_handle query = JP_EMPTY;
        begin(__func__, at);
        keep_query(rows[at].query, &query);
        expect_asked(&query, &rows[at]);
        expect_asked(&query, &rows[at]);
        expect_asked(&query, &rows[at]);
        jp_clear(&query);
    }
}

static void asks_behind_the_first_ones(void) {
    static const char document[] = "{\"a\":[7,{\"b\":8},9]}";
    static const struct asking rows[] = {
        {"$.a[*]", document, 0, 0, 2, NONE, GIVES("7\n{\"b\":8}\n", ANY)},
        {"$.a[*]", document, 0, 1, 1, NONE, GIVES("{\"b\":8}\n", ANY)},
        {"$.a[*]", document, 2, 2, 0, NONE, GIVES("$['a'][2]\t9\n", ANY)},
        {"$.a[*]", document, 1, 3, 0, NONE, GIVES("", ANY)},
        {"$..*", document, 1, 3, 1, NONE, GIVES("$['a'][2]\n", ANY)},
        {"$..*", document, 1, 4, 7, NONE, GIVES("$['a'][1]['b']\n", ANY)},
        {"$.a[0,0]", document, 1, 1, 1, NONE, GIVES("$['a'][0]\n", ANY)},
        {"$.a[0]", document, 1, 0, 1, NONE, GIVES("$['a'][0]\n", ANY)},
        {"$.a[0]", document, 1, 1, 0, NONE, GIVES("", ANY)},
    };
    for (size_t at = 0; at < COUNT(rows); at += 1) {
        struct jp_handle query = JP_EMPTY;
        begin(__func__, at);
        keep_query(rows[at].query, &query);
        expect_asked(&query, &rows[at]);
        jp_clear(&query);
    }
}

/* Two queries in turn, over four documents, and over these once more. */
static void asks_one_document_after_another(void) {
    static const char named[] = "$.a[1]", walks[] = "$..[?match(@.b,'x.*')].c";
    static const char one[] = "{\"a\":[1,[2,3]]}", two[] = "{\"a\":{\"b\":\"xy\",\"c\":\"\\u00e9\"}}",
                      three[] = "[{\"b\":\"x\",\"c\":1},{\"b\":\"y\",\"c\":2},{\"b\":\"xx\",\"c\":{\"d\":null}}]",
                      four[] = "{\"a\":[1],\"b\":5}";
    static const struct asking rows[] = {
        {named, one, 0, 0, 0, NONE, GIVES("[2,3]\n", ANY)},
        {walks, one, 0, 0, 0, NONE, GIVES("", ANY)},
        {named, two, 0, 0, 0, NONE, GIVES("", ANY)},
        {walks, two, 0, 0, 0, NONE, GIVES("\"\u00e9\"\n", ANY)},
        {named, three, 0, 0, 0, NONE, GIVES("", ANY)},
        {walks, three, 0, 0, 0, NONE, GIVES("1\n{\"d\":null}\n", ANY)},
        {named, four, 0, 0, 0, NONE, GIVES("", ANY)},
        {walks, four, 0, 0, 0, NONE, GIVES("", ANY)},
    };
    struct jp_handle queries[] = {JP_EMPTY, JP_EMPTY};
    for (size_t at = 0; at < 2 * COUNT(rows); at += 1) {
        begin(__func__, at % COUNT(rows));
        if (at < 2) {
            keep_query(rows[at].query, &queries[at]);
        }
        expect_asked(&queries[at % 2], &rows[at % COUNT(rows)]);
    }
    jp_clear(&queries[0]);
    jp_clear(&queries[1]);
}

/* Three queries, of which the first two are asked five times each; a refusal leaves nothing behind. */
static void tells_why_there_is_no_answer(void) {
    static const struct asking rows[] = {
        {"$.a[0]", "{\"a\":[7]}", 0, 0, 0, NONE, GIVES("7\n", ANY)},
        {"$.a[0]", "{\"a\":[0,2.5]}", 0, 0, 0, NONE, {3, 2, 8, 9, 0}, "$['a'][1]"},
        {"$.a[0]", "[1,]", 0, 0, 0, NONE, {3, 1, 3, 0, 0}, ""},
        {"$.a[0]", "[1]", 3, 0, 0, NONE, {2, 0, 0, 0, 0}, ""},
        {"$.a[0]", "{\"a\":[7]}", 1, 0, 1, NONE, GIVES("$['a'][0]\n", ANY)},
        {"$..*", "{\"a\":[7]}", 0, 0, 0, NONE, GIVES("[7]\n7\n", ANY)},
        {"$..*", "{\"a\":[0,2.5]}", 0, 0, 0, NONE, {3, 2, 8, 9, 0}, "$['a'][1]"},
        {"$..*", "[1,]", 0, 0, 0, NONE, {3, 1, 3, 0, 0}, ""},
        {"$..*", "[1]", 3, 0, 0, NONE, {2, 0, 0, 0, 0}, ""},
        {"$..*", "{\"a\":[7]}", 1, 0, 1, NONE, GIVES("$['a']\n", ANY)},
        {"$.a[*]", LIST, 0, 0, 0, STEPS(10), TOLD(10, 10), ""},
        {"$.a[*]", LIST, 0, 0, 0, STEPS(11), DONE(4, 11), "7\n8\n"},
    };
    struct jp_handle query = JP_EMPTY;
    for (size_t at = 0; at < COUNT(rows); at += 1) {
        begin(__func__, at);
        if (at % 5 == 0) {
            jp_clear(&query);
            keep_query(rows[at].query, &query);
        }
        expect_asked(&query, &rows[at]);
    }
    jp_clear(&query);
}

/* As many nodes and bytes as there are, and with one less of either nothing; five limits for one query after another,
 * where of one node one less is no limit. */
static void lends_so_much_and_no_more(void) {
    static const struct asking rows[] = {
        {"$.a[0]", LIST, 2, 0, 0, {0, 1, 12}, DONE(12, ANY), "$['a'][0]\t7\n"},
        {"$.a[0]", LIST, 2, 0, 0, {0, 1, 11}, TOLD(9, ANY), ""},
        {"$.a[0]", LIST, 2, 0, 0, {0, 0, 0}, DONE(12, ANY), "$['a'][0]\t7\n"},
        {"$.a[0]", LIST, 2, 0, 0, {0, 0, 1}, TOLD(9, ANY), ""},
        {"$.a[0]", LIST, 2, 0, 0, {0, 0, 0}, DONE(12, ANY), "$['a'][0]\t7\n"},
        {"$.a[*]", LIST, 2, 0, 0, {0, 2, 24}, DONE(24, ANY), "$['a'][0]\t7\n$['a'][1]\t8\n"},
        {"$.a[*]", LIST, 2, 0, 0, {0, 2, 23}, TOLD(9, ANY), ""},
        {"$.a[*]", LIST, 2, 0, 0, {0, 1, 0}, TOLD(8, ANY), ""},
        {"$.a[*]", LIST, 2, 0, 0, {0, 0, 1}, TOLD(9, ANY), ""},
        {"$.a[*]", LIST, 2, 0, 0, {0, 0, 0}, DONE(24, ANY), "$['a'][0]\t7\n$['a'][1]\t8\n"},
        {"$.a[*]", LIST, 2, 0, 1, {0, 1, 12}, DONE(12, ANY), "$['a'][0]\t7\n"},
        {"$.a[*]", LIST, 2, 0, 1, {0, 1, 11}, TOLD(9, ANY), ""},
        {"$.a[*]", LIST, 2, 0, 1, {0, 0, 0}, DONE(12, ANY), "$['a'][0]\t7\n"},
        {"$.a[*]", LIST, 2, 0, 1, {0, 0, 1}, TOLD(9, ANY), ""},
        {"$.a[*]", LIST, 2, 0, 1, {0, 0, 0}, DONE(12, ANY), "$['a'][0]\t7\n"},
        {"$.a[*]", LIST, 2, 1, 0, {0, 1, 12}, DONE(12, ANY), "$['a'][1]\t8\n"},
        {"$.a[*]", LIST, 2, 1, 0, {0, 1, 11}, TOLD(9, ANY), ""},
        {"$.a[*]", LIST, 2, 1, 0, {0, 0, 0}, DONE(12, ANY), "$['a'][1]\t8\n"},
        {"$.a[*]", LIST, 2, 1, 0, {0, 0, 1}, TOLD(9, ANY), ""},
        {"$.a[*]", LIST, 2, 1, 0, {0, 0, 0}, DONE(12, ANY), "$['a'][1]\t8\n"},
    };
    struct jp_handle query = JP_EMPTY;
    for (size_t at = 0; at < COUNT(rows); at += 1) {
        begin(__func__, at);
        if (at % 5 == 0) {
            jp_clear(&query);
            keep_query(rows[at].query, &query);
        }
        expect_asked(&query, &rows[at]);
    }
    jp_clear(&query);
}

static void asks_what_is_kept(void) {
    static const struct asking rows[] = {
        {"$.a[*]", DOCUMENT, 2, 0, 0, NONE, GIVES("$['a'][0]\t1\n$['a'][1]\t[2,{}]\n", ANY)},
        {"$.a[*]", DOCUMENT, 2, 0, 1, NONE, GIVES("$['a'][0]\t1\n", ANY)},
        {"$.a[*]", DOCUMENT, 2, 0, 5, NONE, GIVES("$['a'][0]\t1\n$['a'][1]\t[2,{}]\n", ANY)},
        {"$.a[*]", DOCUMENT, 2, 1, 0, NONE, GIVES("$['a'][1]\t[2,{}]\n", ANY)},
        {"$.a[*]", DOCUMENT, 2, 1, 1, NONE, GIVES("$['a'][1]\t[2,{}]\n", ANY)},
        {"$.a[*]", DOCUMENT, 2, 2, 1, NONE, GIVES("", ANY)},
        {"$.a[*]", DOCUMENT, 2, UINT64_MAX, UINT64_MAX, NONE, GIVES("", ANY)},
    };
    struct jp_handle query = JP_EMPTY, document = JP_EMPTY;
    for (size_t at = 0; at < COUNT(rows); at += 1) {
        begin(__func__, at);
        if (at == 0) {
            keep_query("$.a[*]", &query);
            keep_document(&document);
        }
        expect_asked_of_kept(&query, &document, &rows[at]);
    }
    jp_clear(&query);
    jp_clear(&document);
}

/* Queries that a handle keeps one after another, each asked twice of a document that is kept. */
static void asks_what_is_kept_again_and_again(void) {
    static const struct asking rows[] = {
        {"$.a[0]", DOCUMENT, 2, 0, 0, NONE, GIVES("$['a'][0]\t1\n", ANY)},
        {"$.b", DOCUMENT, 2, 0, 0, NONE, GIVES("", ANY)},
        {"$..*", DOCUMENT, 2, 0, 0, STEPS(10), TOLD(10, ANY), ""},
        {"$.a[*]", DOCUMENT, 2, 0, 0, {0, 2, 29}, GIVES("$['a'][0]\t1\n$['a'][1]\t[2,{}]\n", ANY)},
        {"$.a[*]", DOCUMENT, 2, 0, 0, {0, 1, 0}, TOLD(8, ANY), ""},
        {"$.a[*]", DOCUMENT, 2, 0, 0, {0, 0, 28}, TOLD(9, ANY), ""},
    };
    struct jp_handle query = JP_EMPTY, document = JP_EMPTY;
    for (size_t at = 0; at < COUNT(rows); at += 1) {
        begin(__func__, at);
        if (at == 0) {
            keep_query("$", &query);
            keep_document(&document);
        }
        keep_query(rows[at].query, &query);
        expect_asked_of_kept(&query, &document, &rows[at]);
        expect_asked_of_kept(&query, &document, &rows[at]);
    }
    jp_clear(&query);
    jp_clear(&document);
}

/* Handles changed over, an empty one, and one that was cleared twice. */
static void asks_nothing_of_what_is_not_kept(void) {
    struct jp_handle query = JP_EMPTY, document = JP_EMPTY, empty = JP_EMPTY;
    begin(__func__, 0);
    keep_query("$", &query);
    keep_document(&document);
    expect_asked_of_kept(&document, &query, &of_kept);
    begin(__func__, 1);
    expect_asked_of_kept(&query, &empty, &of_kept);
    jp_clear(&query);
    jp_clear(&query);
    begin(__func__, 2);
    expect_asked_of_kept(&query, &document, &of_kept);
    begin(__func__, 3);
    expect_asked(&document, &of_bytes);
    begin(__func__, 4);
    expect_asked(&query, &of_bytes);
    jp_clear(&document);
}

/* A document that is refused or not read in a profile, which leaves nothing of what the handle kept. */
static void keeps_no_document_of_what_is_refused(void) {
    static const struct {
        const char *document;
        uint32_t profile;
        struct jp_report report;
        const char *text;
    } rows[] = {
        {"[1,8.95]", 1, {3, 2, 3, 4, ANY}, "$[1]"},
        {"[8.95,1e1000001]", 2, {3, 5, 6, 4, ANY}, "$[1]"},
        {"{\"a\":[8.95," DIGITS_39 "]}", 3, {3, 5, 11, 9, ANY}, "$['a'][1]"},
        {"[8.95,]", 2, {3, 1, 6, 0, ANY}, ""},
        {"[8.95]", 4, {2, 0, 0, 0, 0}, ""},
    };
    for (size_t at = 0; at < COUNT(rows); at += 1) {
        struct jp_handle query = JP_EMPTY, document = JP_EMPTY;
        struct jp_report report = NINES;
        uint8_t out[] = "#########";
        begin(__func__, at);
        keep_query_in("$", 2, &query);
        keep_document_in(PRICES, 2, &document);
        const uint32_t status = jp_document_new((const uint8_t *)rows[at].document, strlen(rows[at].document),
                                                rows[at].profile, &document, out, 9, &report);
        expect_report(status, &report, &rows[at].report);
        expect_written(out, 9, rows[at].text);
        expect(document.full == 0, "handle of a document than an empty one");
        expect_asked_of_kept(&query, &document, &of_kept);
        jp_clear(&query);
        jp_clear(&document);
    }
}

/* A query of each profile, asked of a document that was read in each: where their numbers are others nothing is lent,
 * and both are kept. */
static void asks_what_is_kept_with_its_numbers(void) {
    static const struct asking whole = {"$[1]", "[1,2]", 2, 0, 0, NONE, GIVES("$[1]\t2\n", ANY)},
                               others = {"$[1]", "[1,2]", 2, 0, 0, NONE, TOLD(11, 0), ""},
                               limited = {"$[1]", "[1,2]", 2, 5, 1, {1, 1, 1}, TOLD(11, 0), ""},
                               no_form = {"$[1]", "[1,2]", 3, 0, 0, NONE, TOLD(2, 0), ""};
    for (uint32_t asked = 0; asked < 4; asked += 1) {
        for (uint32_t read = 0; read < 4; read += 1) {
            struct jp_handle query = JP_EMPTY, document = JP_EMPTY;
            const int is_same = (asked < 2) == (read < 2);
            begin(__func__, 4 * asked + read);
            keep_query_in(whole.query, asked, &query);
            keep_document_in(whole.document, read, &document);
            expect_asked_of_kept(&query, &document, is_same ? &whole : &others);
            if (!is_same) {
                expect_asked_of_kept(&query, &document, &limited);
            }
            expect_asked_of_kept(&query, &document, &no_form);
            /* Both are kept: the query is asked of bytes, and the document by another query. */
            expect_asked(&query, &whole);
            keep_query_in(whole.query, read, &query);
            expect_asked_of_kept(&query, &document, &whole);
            jp_clear(&query);
            jp_clear(&document);
        }
    }
}

int main(void) {
    writes_each_form();
    reports_why_there_is_no_text();
    fills_a_buffer_whole_or_leaves_it();
    checks_in_a_profile();
    explains_what_is_refused();
    explains_what_is_no_document();
    names_kinds();
    keeps_to_a_limit();
    gives_so_much_and_no_more();
    tells_what_is_found_first();
    gives_each_question_so_many_nodes();
    gives_each_question_the_whole_limit();
    answers_many_in_turn();
    answers_many_that_ask_for_members_of_their_own();
    answers_many_over_no_document();
    keeps_nothing_of_what_is_refused();
    asks_again_and_again();
    asks_behind_the_first_ones();
    asks_one_document_after_another();
    tells_why_there_is_no_answer();
    lends_so_much_and_no_more();
    asks_what_is_kept();
    asks_what_is_kept_again_and_again();
    asks_nothing_of_what_is_not_kept();
    keeps_no_document_of_what_is_refused();
    asks_what_is_kept_with_its_numbers();
    printf("calls: %zu rows passed, %zu failed\n", rows_run - rows_failed, rows_failed);
    return rows_failed == 0 ? 0 : 1;
}
