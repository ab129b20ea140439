/* Tests of the calls that lend their answers, with expected values by hand, and of how often memory is asked for.
 * It is linked with --wrap=malloc and --wrap=realloc, so that both come here first. `asks CALLS` makes so many
 * calls with one query in place of a million. */
#include "jp.h"

#include <stdio.h>
#include <stdlib.h>
#include <string.h>

static const struct jp_limit unlimited = JP_UNLIMITED;

void *__real_malloc(size_t size);
void *__real_realloc(void *block, size_t size);

static size_t requests;

void *__wrap_malloc(size_t size) {
    requests += 1;
    return __real_malloc(size);
}

void *__wrap_realloc(void *block, size_t size) {
    requests += 1;
    return __real_realloc(block, size);
}

static int failures;

static void expect(int holds, const char *what, const char *of) {
    if (!holds) {
        failures += 1;
        fprintf(stderr, "asks: not so: %s (%s)\n", what, of);
    }
}

static void keep_query(const char *query, struct jp_handle *handle) {
    struct jp_report report;
    uint32_t status = jp_query_new((const uint8_t *)query, strlen(query), JP_STANDARD, handle, &report);
    expect(status == JP_DONE, "a query kept", query);
}

static int is_text(const struct jp_text *text, const char *expected) {
    return text->length == strlen(expected)
           && (text->length == 0 || memcmp(text->start, expected, text->length) == 0);
}

#define DOCUMENT "{\"a\":[7,{\"b\":\"x\\u0079\",\"c\":[]},8],\"d\":{\"b\":-1}}"

static const struct {
    const char *query;
    uint32_t form;
    uint64_t from;
    uint64_t count;
    const char *text;
} rows[] = {
    {"$.a[0]", JP_VALUES, 0, JP_ALL, "7\n"},
    {"$.a[0]", JP_BOTH, 0, 1, "$['a'][0]\t7\n"},
    {"$.a[3]", JP_BOTH, 0, JP_ALL, ""},
    {"$.a[1]", JP_VALUES, 0, 5, "{\"b\":\"xy\",\"c\":[]}\n"},
    {"$.d", JP_PATHS, 0, JP_ALL, "$['d']\n"},
    {"$", JP_PATHS, 0, 1, "$\n"},
    {"$.a[*]", JP_VALUES, 0, JP_ALL, "7\n{\"b\":\"xy\",\"c\":[]}\n8\n"},
    {"$.a[*]", JP_PATHS, 0, 2, "$['a'][0]\n$['a'][1]\n"},
    {"$..b", JP_BOTH, 0, JP_ALL, "$['a'][1]['b']\t\"xy\"\n$['d']['b']\t-1\n"},
    {"$..b", JP_VALUES, 0, 1, "\"xy\"\n"},
    {"$..x", JP_PATHS, 0, 1, ""},
    {"$.a[?@.b=='xy'].c", JP_PATHS, 0, JP_ALL, "$['a'][1]['c']\n"},
    {"$.a[-1]", JP_VALUES, 0, JP_ALL, "8\n"},
    {"$.a[*]", JP_VALUES, 1, 1, "{\"b\":\"xy\",\"c\":[]}\n"},
    {"$.a[*]", JP_PATHS, 2, JP_ALL, "$['a'][2]\n"},
    {"$.a[*]", JP_PATHS, 3, 1, ""},
    {"$..b", JP_BOTH, 1, 9, "$['d']['b']\t-1\n"},
    {"$.a[0]", JP_VALUES, 1, JP_ALL, ""},
    {"$.a[0]", JP_VALUES, UINT64_MAX, UINT64_MAX, ""},
};

/* Each row, again and again: the same answer, and after the second call no request for memory. */
static void try_row(size_t at) {
    struct jp_handle query = JP_EMPTY, document = JP_EMPTY;
    struct jp_report report;
    struct jp_text text;
    keep_query(rows[at].query, &query);
    size_t before = 0;
    for (int call = 0; call < 4; call += 1) {
        before = call == 2 ? requests : before;
        uint32_t status = jp_ask(&query, (const uint8_t *)DOCUMENT, strlen(DOCUMENT), rows[at].form, rows[at].from,
                                 rows[at].count, &unlimited, &text, &report);
        expect(status == JP_DONE && report.status == status && report.length == text.length, "the report",
               rows[at].query);
        expect(is_text(&text, rows[at].text), "the text", rows[at].query);
    }
    expect(requests == before, "no request for memory", rows[at].query);
    uint8_t room[1];
    jp_document_new((const uint8_t *)DOCUMENT, strlen(DOCUMENT), JP_STANDARD, &document, room, 0, &report);
    for (int call = 0; call < 4; call += 1) {
        before = call == 2 ? requests : before;
        uint32_t status = jp_ask_document(&query, &document, rows[at].form, rows[at].from, rows[at].count,
                                          &unlimited, &text, &report);
        expect(status == JP_DONE && report.length == text.length, "the report of a document", rows[at].query);
        expect(is_text(&text, rows[at].text), "the text of a document", rows[at].query);
    }
    expect(requests == before, "no request for memory of a document", rows[at].query);
    jp_clear(&query);
    jp_clear(&document);
}

static uint32_t ask(struct jp_handle *query, const char *document, uint64_t limit, struct jp_text *text,
                    struct jp_report *report) {
    const struct jp_limit most = {limit, 0, 0};
    return jp_ask(query, (const uint8_t *)document, strlen(document), JP_VALUES, 0, JP_ALL, &most, text, report);
}

/* One document after another: nothing of the one before is left. */
static void try_changing(void) {
    static const char *const documents[][2] = {
        {DOCUMENT, "7\n"},
        {"{\"a\":[]}", ""},
        {"{\"a\":[[1,[2]]]}", "[1,[2]]\n"},
        {"{}", ""},
        {"{\"a\":[\"\\u0041\"]}", "\"A\"\n"},
        {"{\"a\":[0]}", "0\n"},
    };
    struct jp_handle named = JP_EMPTY, walks = JP_EMPTY;
    struct jp_report report;
    struct jp_text text;
    keep_query("$.a[0]", &named);
    keep_query("$.a[0:1]", &walks);
    for (size_t at = 0; at < 12; at += 1) {
        const char *document = documents[at % 6][0], *expected = documents[at % 6][1];
        expect(ask(&named, document, JP_NO_LIMIT, &text, &report) == JP_DONE && is_text(&text, expected),
               "a document after another", document);
        expect(ask(&walks, document, JP_NO_LIMIT, &text, &report) == JP_DONE && is_text(&text, expected),
               "the same by a walk", document);
    }
    jp_clear(&named);
    jp_clear(&walks);
}

/* Why there is no answer, and an answer again after it. */
static void try_refused(void) {
    struct jp_handle query = JP_EMPTY, none = JP_EMPTY;
    struct jp_report report;
    struct jp_text text;
    expect(ask(&query, "[]", JP_NO_LIMIT, &text, &report) == JP_USAGE && text.length == 0, "no query", "");
    keep_query("$.a[*]", &query);
    expect(ask(&query, "{\"a\":[7,8]}", 11, &text, &report) == JP_DONE && report.steps == 11, "a limit", "11");
    expect(ask(&query, "{\"a\":[7,8]}", 10, &text, &report) == JP_STEPS_USED_UP && text.length == 0
               && report.steps == 10,
           "a limit that is one less", "10");
    expect(ask(&query, "{\"a\":[7,2.5]}", JP_NO_LIMIT, &text, &report) == JP_DOCUMENT_REFUSED
               && report.kind == JP_NUMBER_NOT_WHOLE && report.length == 9 && is_text(&text, "$['a'][1]"),
           "a number that is not whole", "2.5");
    expect(ask(&query, "[1,]", JP_NO_LIMIT, &text, &report) == JP_DOCUMENT_REFUSED && text.length == 0
               && report.kind == JP_NOT_JSON,
           "no JSON", "[1,]");
    expect(jp_ask(&query, (const uint8_t *)"[]", 2, 3, 0, JP_ALL, &unlimited, &text, &report) == JP_USAGE
               && text.length == 0,
           "no form", "3");
    expect(ask(&query, "{\"a\":[7,8]}", JP_NO_LIMIT, &text, &report) == JP_DONE && is_text(&text, "7\n8\n"),
           "an answer again", "");
    expect(jp_ask_document(&query, &none, JP_VALUES, 0, JP_ALL, &unlimited, &text, &report) == JP_USAGE
               && text.length == 0,
           "no document", "");
    jp_clear(&query);
    expect(ask(&query, "[]", JP_NO_LIMIT, &text, &report) == JP_USAGE && text.length == 0, "cleared", "");
}

static void keep_document(const char *document, struct jp_handle *handle) {
    struct jp_report report;
    uint8_t room[1];
    uint32_t status =
        jp_document_new((const uint8_t *)document, strlen(document), JP_STANDARD, handle, room, 0, &report);
    expect(status == JP_DONE, "a document kept", "");
}

/* A query, what is asked for, and of the lines of paths how many there are and how many bytes they have: so many are
 * given, and with a limit of one less nothing is; then all are given again. */
static const struct {
    const char *query;
    uint64_t from, count, nodes, bytes;
} outputs[] = {
    {"$.a[0]", 0, JP_ALL, 1, 10},
    {"$.a[0,0]", 0, JP_ALL, 2, 20},
    {"$.a[*]", 0, JP_ALL, 3, 30},
    {"$.a[*]", 0, 2, 2, 20},
    {"$.a[*]", 1, JP_ALL, 2, 20},
    {"$.a[3]", 0, JP_ALL, 0, 0},
};

static void try_output(size_t row) {
    const uint64_t nodes = outputs[row].nodes, bytes = outputs[row].bytes;
    const struct {
        struct jp_limit limit;
        uint32_t status;
    } limits[] = {
        {{0, nodes, bytes}, JP_DONE},
        {{0, nodes - 1, bytes}, nodes < 2 ? JP_DONE : JP_TOO_MANY_NODES},
        {{0, nodes, bytes - 1}, bytes == 0 ? JP_DONE : JP_TOO_MANY_BYTES},
        {{0, nodes - 1, bytes - 1}, bytes == 0 ? JP_DONE : nodes < 2 ? JP_TOO_MANY_BYTES
                                                                     : JP_TOO_MANY_NODES},
        {{0, nodes, 1}, bytes == 0 ? JP_DONE : JP_TOO_MANY_BYTES},
        {{0, 0, 0}, JP_DONE},
    };
    struct jp_handle query = JP_EMPTY, document = JP_EMPTY;
    struct jp_report report;
    struct jp_text text;
    keep_query(outputs[row].query, &query);
    keep_document(DOCUMENT, &document);
    for (size_t at = 0; at < sizeof limits / sizeof limits[0]; at += 1) {
        const size_t length = limits[at].status == JP_DONE ? bytes : 0;
        jp_ask(&query, (const uint8_t *)DOCUMENT, strlen(DOCUMENT), JP_PATHS, outputs[row].from, outputs[row].count,
               &limits[at].limit, &text, &report);
        expect(report.status == limits[at].status && report.length == length && text.length == length,
               "so much and no more", outputs[row].query);
        jp_ask_document(&query, &document, JP_PATHS, outputs[row].from, outputs[row].count, &limits[at].limit, &text,
                        &report);
        expect(report.status == limits[at].status && report.length == length && text.length == length,
               "so much of a document that is kept", outputs[row].query);
    }
    jp_clear(&query);
    jp_clear(&document);
}

/* The first node, and whether there is one. */
static void try_first(void) {
    static const struct {
        const char *query, *path, *value;
    } firsts[] = {
        {"$.a[0]", "$['a'][0]", "7"},
        {"$..b", "$['a'][1]['b']", "\"xy\""},
        {"$", "$", "{\"a\":[7,{\"b\":\"xy\",\"c\":[]},8],\"d\":{\"b\":-1}}"},
        {"$.a[5]", "", ""},
        {"$..x", "", ""},
    };
    const uint8_t *document = (const uint8_t *)DOCUMENT;
    struct jp_handle query = JP_EMPTY;
    struct jp_report report;
    struct jp_node node;
    uint32_t exists;
    for (size_t at = 0; at < sizeof firsts / sizeof firsts[0]; at += 1) {
        keep_query(firsts[at].query, &query);
        const size_t length = strlen(firsts[at].path) + strlen(firsts[at].value);
        expect(jp_first(&query, document, strlen(DOCUMENT), JP_NO_LIMIT, &node, &report) == JP_DONE
                   && report.length == length && is_text(&node.path, firsts[at].path)
                   && is_text(&node.value, firsts[at].value),
               "the first node", firsts[at].query);
        expect(jp_exists(&query, document, strlen(DOCUMENT), JP_NO_LIMIT, &exists, &report) == JP_DONE
                   && exists == (length > 0) && report.length == 0,
               "whether there is a node", firsts[at].query);
    }
    expect(jp_first(&query, (const uint8_t *)"[2.5]", 5, JP_NO_LIMIT, &node, &report) == JP_DOCUMENT_REFUSED
               && is_text(&node.path, "$[0]") && report.length == 4 && node.value.length == 0,
           "no first node of what is refused", "");
    expect(jp_exists(&query, document, strlen(DOCUMENT), 1, &exists, &report) == JP_STEPS_USED_UP && exists == 0,
           "a limit of one step", "");
    jp_clear(&query);
    expect(jp_exists(&query, document, 1, JP_NO_LIMIT, &exists, &report) == JP_USAGE && exists == 0, "no query", "");
}

/* One node after another, as they stand in the nodelist; none after the last, however often it is asked. */
static void try_cursor(void) {
    static const char *const nodes[][2] = {
        {"$['a']", "[7,{\"b\":\"xy\",\"c\":[]},8]"},
        {"$['d']", "{\"b\":-1}"},
        {"$['a'][0]", "7"},
        {"$['a'][1]", "{\"b\":\"xy\",\"c\":[]}"},
        {"$['a'][2]", "8"},
        {"$['a'][1]['b']", "\"xy\""},
        {"$['a'][1]['c']", "[]"},
        {"$['d']['b']", "-1"},
        {"", ""},
        {"", ""},
    };
    struct jp_handle query = JP_EMPTY, document = JP_EMPTY;
    struct jp_cursor cursor = JP_START;
    struct jp_report report;
    struct jp_node node;
    keep_query("$..*", &query);
    keep_document(DOCUMENT, &document);
    for (size_t at = 0; at < sizeof nodes / sizeof nodes[0]; at += 1) {
        expect(jp_next(&cursor, &query, &document, JP_NO_LIMIT, &node, &report) == JP_DONE
                   && is_text(&node.path, nodes[at][0]) && is_text(&node.value, nodes[at][1])
                   && report.length == node.path.length + node.value.length,
               "the next node", nodes[at][0]);
    }
    expect(cursor.given == 8, "eight nodes", "$..*");
    jp_clear(&query);
    expect(jp_next(&cursor, &query, &document, JP_NO_LIMIT, &node, &report) == JP_DONE && node.path.length == 0,
           "nothing is asked behind the last", "");
    cursor = (struct jp_cursor)JP_START;
    expect(jp_next(&cursor, &query, &document, JP_NO_LIMIT, &node, &report) == JP_USAGE && node.path.length == 0,
           "no query", "");
    jp_clear(&document);
}

/* The steps of a path, with names that are spelled by escapes. */
static void try_steps(void) {
    static const char document[] = "{\"a'b\\\\c\\u0007\\n]['\":[0,{\"\":{\"\u00e9\":7}}]}";
    static const char *const names[] = {"a'b\\c\a\n]['", NULL, "", "\u00e9"};
    struct jp_handle query = JP_EMPTY;
    struct jp_report report;
    struct jp_node node;
    struct jp_step step;
    uint8_t name[64];
    size_t at = 0;
    keep_query("$..[?@==7]", &query);
    jp_first(&query, (const uint8_t *)document, strlen(document), JP_NO_LIMIT, &node, &report);
    expect(is_text(&node.path, "$['a\\'b\\\\c\\u0007\\n][\\''][1]['']['\u00e9']"), "a path with escapes", "");
    for (size_t step_at = 0; step_at < 4; step_at += 1) {
        expect(jp_next_step(&node.path, &at, &step) == 1, "a step", "");
        if (names[step_at] == NULL) {
            expect(step.name.start == NULL && step.index == 1, "an index", "");
            continue;
        }
        const struct jp_text written = {name, jp_name(&step.name, name)};
        expect(step.name.start != NULL && is_text(&written, names[step_at]), "a name", names[step_at]);
    }
    expect(jp_next_step(&node.path, &at, &step) == 0 && jp_next_step(&node.path, &at, &step) == 0, "no step more", "");
    const struct jp_text root = {(const uint8_t *)"$", 1}, last = {(const uint8_t *)"$[9007199254740990]", 19};
    at = 0;
    expect(jp_next_step(&root, &at, &step) == 0, "no step of the root", "");
    expect(jp_next_step(&last, &at, &step) == 1 && step.index == 9007199254740990, "the largest index", "");
    jp_clear(&query);
}

/* Those of RFC 6901, section 5, and others by its section 3, each behind the normalized path. */
static const char *const pointers[][2] = {
    {"$", ""},
    {"$['foo']", "/foo"},
    {"$['foo'][0]", "/foo/0"},
    {"$['']", "/"},
    {"$['a/b']", "/a~1b"},
    {"$['c%d']", "/c%d"},
    {"$['e^f']", "/e^f"},
    {"$['g|h']", "/g|h"},
    {"$['i\\\\j']", "/i\\j"},
    {"$['k\"l']", "/k\"l"},
    {"$[' ']", "/ "},
    {"$['m~n']", "/m~0n"},
    {"$['~1']['/0']", "/~01/~10"},
    {"$['\\'']['\\n\\u001f']", "/'/\n\x1f"},
    {"$['\u00e9\U0001f600']['0'][10]", "/\u00e9\U0001f600/0/10"},
    {"$[9007199254740990]", "/9007199254740990"},
};

/* Each pointer, in a buffer with room for it, and in one of a byte less, which stays as it was. */
static void try_pointers(void) {
    for (size_t at = 0; at < sizeof pointers / sizeof *pointers; at += 1) {
        const char *const path = pointers[at][0], *const pointer = pointers[at][1];
        const struct jp_text given = {(const uint8_t *)path, strlen(path)};
        const size_t length = strlen(pointer);
        uint8_t room[64] = {'?'};
        expect(length == 0 || jp_pointer(&given, room, length - 1) == length, "a pointer's length", path);
        expect(room[0] == '?' && room[1] == 0, "a buffer that is too small stays", path);
        const struct jp_text written = {room, jp_pointer(&given, room, length)};
        expect(is_text(&written, pointer), "a pointer", path);
        expect(room[length] == (length == 0 ? '?' : 0), "nothing behind it", path);
        expect(length < 2 * given.length, "less than twice the path", path);
    }
}

/* Goes through all nodes of a list of so many numbers. Gives how many steps the first took, and all. */
static void go_through(struct jp_handle *query, struct jp_handle *document, uint64_t count, uint64_t steps[2]) {
    struct jp_cursor cursor = JP_START;
    struct jp_report report;
    struct jp_node node;
    char expected[24];
    steps[1] = 0;
    for (uint64_t at = 0; at <= count; at += 1) {
        expect(jp_next(&cursor, query, document, JP_NO_LIMIT, &node, &report) == JP_DONE, "a node of many", "");
        snprintf(expected, sizeof expected, "%llu", (unsigned long long)at);
        expect(is_text(&node.value, at < count ? expected : ""), "the nodes in order", expected);
        steps[0] = at == 0 ? report.steps : steps[0];
        steps[1] += report.steps;
    }
}

/* The first of many nodes takes next to nothing of what all take, and all take three walks at most. The third
 * time that it is done no memory is asked for. */
static void try_many(void) {
    static const uint64_t counts[] = {1, 2, 3, 1023, 1024, 20000};
    struct jp_handle query = JP_EMPTY, document = JP_EMPTY;
    struct jp_report report;
    struct jp_text text;
    char *list = malloc(1 << 18);
    keep_query("$[*]", &query);
    for (size_t row = 0; row < sizeof counts / sizeof counts[0]; row += 1) {
        char *end = list;
        for (uint64_t at = 0; at < counts[row]; at += 1) {
            end += sprintf(end, "%c%llu", at == 0 ? '[' : ',', (unsigned long long)at);
        }
        strcpy(end, "]");
        keep_document(list, &document);
        jp_ask_document(&query, &document, JP_BOTH, 0, JP_ALL, &unlimited, &text, &report);
        const uint64_t once = report.steps;
        uint64_t steps[2];
        size_t before = 0;
        for (int time = 0; time < 3; time += 1) {
            before = requests;
            go_through(&query, &document, counts[row], steps);
        }
        expect(requests == before, "no request for memory of a cursor", "");
        expect(steps[0] < 12 && steps[1] <= 3 * once, "few steps for one node, and three walks for all", "");
        /* Each page has the whole limit, and one that needs more is asked for again. */
        struct jp_cursor cursor = JP_START;
        struct jp_node node;
        expect(jp_next(&cursor, &query, &document, 1, &node, &report) == JP_STEPS_USED_UP && node.path.length == 0
                   && jp_next(&cursor, &query, &document, steps[0], &node, &report) == JP_DONE
                   && is_text(&node.path, "$[0]"),
               "a limit of a page", "");
    }
    free(list);
    jp_clear(&query);
    jp_clear(&document);
}

/* Where the nodes stand in a list of 2,000 numbers, from one on and up to one, each so many. */
static const struct {
    const char *where;
    int from, to, each;
} spreads[] = {
    {"all", 0, 2000, 1},
    {"early", 0, 20, 1},
    {"late", 1800, 2000, 1},
    {"the last ones", 1980, 2000, 1},
    {"rare", 99, 2000, 100},
    {"none", 2000, 2000, 1},
    {"half", 1000, 2000, 1},
    {"the first and the last", 0, 2000, 1999},
    {"second", 1, 2, 1},
    {"a third", 667, 2000, 1},
    {"seldom", 3, 2000, 400},
    {"the last", 1999, 2000, 1},
};

static void keep_spread(size_t row, struct jp_handle *document) {
    static char list[4002];
    for (int at = 0; at < 2000; at += 1) {
        const int from = spreads[row].from, each = spreads[row].each;
        const int is_node = at >= from && at < spreads[row].to && (at - from) % each == 0;
        list[2 * at] = at == 0 ? '[' : ',';
        list[2 * at + 1] = is_node ? '1' : '0';
    }
    strcpy(list + 4000, "]");
    keep_document(list, document);
}

/* Goes on to the end, or until steps are used up. Gives how many nodes there were, and adds the steps. */
static uint64_t go_on(struct jp_cursor *cursor, struct jp_handle *query, struct jp_handle *document, uint64_t limit,
                      uint64_t *steps) {
    struct jp_report report;
    struct jp_node node = {{NULL, 1}, {NULL, 0}};
    while (node.path.length > 0) {
        jp_next(cursor, query, document, limit, &node, &report);
        *steps += report.steps;
    }
    return cursor->given;
}

/* Wherever the nodes stand: the first takes what it takes alone, and all of them at most three times what they take
 * at once, also of those that are left where a limit stopped before; and with a limit three times that. */
static void try_spread(size_t row) {
    struct jp_handle query = JP_EMPTY, document = JP_EMPTY;
    struct jp_report report, first;
    struct jp_text text;
    struct jp_node node;
    keep_query("$[?@==1]", &query);
    keep_spread(row, &document);
    jp_ask_document(&query, &document, JP_BOTH, 0, 1, &unlimited, &text, &first);
    struct jp_cursor cursor = JP_START;
    jp_next(&cursor, &query, &document, JP_NO_LIMIT, &node, &report);
    expect(report.steps == first.steps, "the first node as dear as alone", spreads[row].where);
    jp_ask_document(&query, &document, JP_PATHS, 0, JP_ALL, &unlimited, &text, &report);
    uint64_t nodes = 0;
    for (size_t at = 0; at < text.length; at += 1) {
        nodes += text.start[at] == '\n';
    }
    const uint64_t limits[] = {JP_NO_LIMIT, 1, first.steps, report.steps / 2, report.steps - 1, report.steps};
    for (size_t at = 0; at < sizeof limits / sizeof limits[0]; at += 1) {
        uint64_t steps = 0;
        cursor = (struct jp_cursor)JP_START;
        const uint64_t some = go_on(&cursor, &query, &document, limits[at], &steps);
        const int is_whole = limits[at] == JP_NO_LIMIT || limits[at] >= report.steps;
        expect(is_whole ? some == nodes && steps <= 3 * report.steps : some <= nodes && steps <= 3 * limits[at],
               "three times the steps of one call, or the limit", spreads[row].where);
        steps = 0;
        expect(go_on(&cursor, &query, &document, JP_NO_LIMIT, &steps) == nodes && steps <= 3 * report.steps,
               "what is left in three times the steps of one call", spreads[row].where);
    }
    jp_clear(&query);
    jp_clear(&document);
}

/* Pages whole: together they are the lines of all nodes. */
static void try_pages(void) {
    struct jp_handle query = JP_EMPTY, document = JP_EMPTY, other = JP_EMPTY;
    struct jp_cursor cursor = JP_START;
    struct jp_report report;
    struct jp_text lines = {NULL, 1}, all;
    size_t length = 0;
    keep_query("$[?@==1]", &query);
    keep_query("$[?@==1]", &other);
    keep_spread(0, &document);
    jp_ask_document(&other, &document, JP_BOTH, 0, JP_ALL, &unlimited, &all, &report);
    while (lines.length > 0) {
        expect(jp_next_page(&cursor, &query, &document, JP_NO_LIMIT, &lines, &report) == JP_DONE
                   && report.length == lines.length && length + lines.length <= all.length
                   && (lines.length == 0 || memcmp(lines.start, all.start + length, lines.length) == 0),
               "the next page", "");
        length += lines.length;
    }
    expect(length == all.length && cursor.given == 2000, "all pages", "");
    jp_clear(&query);
    jp_clear(&other);
    jp_clear(&document);
}

/* So many calls with one query and one document that is kept ask for memory in the first of them only. */
static void try_long(long calls) {
    static const char *const documents[] = {DOCUMENT, "{\"a\":[]}", "{\"a\":[[1,[2]],3]}"};
    struct jp_handle walks = JP_EMPTY, named = JP_EMPTY, document = JP_EMPTY;
    struct jp_cursor cursor = JP_START;
    struct jp_report report;
    struct jp_text text;
    struct jp_node node;
    size_t before = 0;
    keep_query("$.a[*]", &walks);
    keep_query("$.a[0]", &named);
    keep_document(DOCUMENT, &document);
    for (long call = 0; call < calls; call += 4) {
        before = call == 64 ? requests : before;
        const char *bytes = documents[call / 4 % 3];
        ask(&walks, bytes, JP_NO_LIMIT, &text, &report);
        ask(&named, bytes, JP_NO_LIMIT, &text, &report);
        jp_ask_document(&named, &document, JP_BOTH, 0, 1, &unlimited, &text, &report);
        if (jp_next(&cursor, &walks, &document, JP_NO_LIMIT, &node, &report) == JP_DONE) {
            cursor = (struct jp_cursor)JP_START;
        }
    }
    expect(requests == before, "no request for memory in many calls", "");
    jp_clear(&walks);
    jp_clear(&named);
    jp_clear(&document);
}

int main(int count, char **words) {
    for (size_t at = 0; at < sizeof rows / sizeof rows[0]; at += 1) {
        try_row(at);
    }
    try_changing();
    try_refused();
    for (size_t row = 0; row < sizeof outputs / sizeof outputs[0]; row += 1) {
        try_output(row);
    }
    try_first();
    try_cursor();
    try_steps();
    try_pointers();
    try_many();
    for (size_t row = 0; row < sizeof spreads / sizeof spreads[0]; row += 1) {
        try_spread(row);
    }
    try_pages();
    try_long(count > 1 ? atol(words[1]) : 1000000);
    return failures == 0 ? 0 : 1;
}
