/* Refuses the library each request for memory in turn, while it reads documents that it refuses, or goes through
 * nodes: a call tells what it tells with ample memory, or JP_NO_MEMORY without a kind, a place or a text, and then
 * what it tells with ample memory when it is made again. It is linked with --wrap=malloc,--wrap=realloc, and prints
 * how many requests it refused. */
#include "jp.h"

#include <stdio.h>
#include <string.h>

static const struct jp_limit unlimited = JP_UNLIMITED;

void *__real_malloc(size_t size);
void *__real_realloc(void *old, size_t size);
void *__wrap_malloc(size_t size);
void *__wrap_realloc(void *old, size_t size);

/* The request, from 1, that is refused next, and how many came. */
static size_t refused = 0;
static size_t requests = 0;

static int is_refused(void) {
    requests += 1;
    return requests == refused;
}

void *__wrap_malloc(size_t size) {
    return is_refused() ? NULL : __real_malloc(size);
}

void *__wrap_realloc(void *old, size_t size) {
    return is_refused() ? NULL : __real_realloc(old, size);
}

/* What the calls told of a document. */
struct told {
    struct jp_report reports[3];
    struct jp_place place;
};

/* The first nodes of a document that is kept, by a query that is: each call that is refused memory is made again.
 * Where the document is refused the first report tells why. */
static void go_through(const uint8_t *bytes, size_t length, struct jp_report *reports) {
    struct jp_handle query = JP_EMPTY, document = JP_EMPTY;
    struct jp_cursor cursor = JP_START;
    struct jp_node node;
    uint8_t out[128];
    while (jp_query_new((const uint8_t *)"$..*", 4, JP_STANDARD, &query, &reports[0]) == JP_NO_MEMORY) {
    }
    while (jp_document_new(bytes, length, JP_STANDARD, &document, out, sizeof out, &reports[0]) == JP_NO_MEMORY) {
    }
    for (int at = 0; document.full && at < 3; at += 1) {
        while (jp_next(&cursor, &query, &document, JP_NO_LIMIT, &node, &reports[at]) == JP_NO_MEMORY) {
        }
    }
    jp_clear(&query);
    jp_clear(&document);
}

/* The first node and whether there is one, by a query that is kept. */
static void ask_first(const uint8_t *bytes, size_t length, struct jp_report *reports) {
    struct jp_handle query = JP_EMPTY;
    struct jp_node node;
    uint32_t exists;
    if (jp_query_new((const uint8_t *)"$..*", 4, JP_STANDARD, &query, &reports[2]) == JP_DONE) {
        jp_first(&query, bytes, length, JP_NO_LIMIT, &node, &reports[0]);
        jp_exists(&query, bytes, length, JP_NO_LIMIT, &exists, &reports[1]);
        jp_clear(&query);
    } else {
        reports[0] = reports[1] = reports[2];
    }
}

/* Makes the call of this number over a document. */
static void make_call(int call, const char *document, struct told *told) {
    const uint8_t *bytes = (const uint8_t *)document, *queries = (const uint8_t *)"$.a$..b";
    const size_t length = strlen(document);
    struct jp_question questions[3] = {{0, 3, {9, 9, 9, 9, 9}}, {3, 4, {9, 9, 9, 9, 9}}, {9, 9, {9, 9, 9, 9, 9}}};
    struct jp_handle handle = JP_EMPTY;
    struct jp_report *report = told->reports;
    uint8_t out[128];
    switch (call) {
    case 0:
        jp_eval(queries, 3, bytes, length, JP_VALUES, JP_STANDARD, &unlimited, out, sizeof out, report);
        break;
    case 1:
        jp_eval_many(queries, 7, questions, 3, bytes, length, JP_VALUES, JP_STANDARD, &unlimited, out, sizeof out);
        for (int at = 0; at < 3; at += 1) {
            report[at] = questions[at].report;
        }
        break;
    case 2:
        jp_document_new(bytes, length, JP_STANDARD, &handle, out, sizeof out, report);
        jp_clear(&handle);
        break;
    case 3:
        ask_first(bytes, length, report);
        break;
    case 4:
        go_through(bytes, length, report);
        break;
    default:
        jp_explain_document(bytes, length, JP_STANDARD, JP_DOCUMENT_LINE, &told->place, out, sizeof out, report);
        break;
    }
}

/* Whether a report is the one of ample memory, or tells that memory was refused. */
static int is_right(const struct jp_report *report, const struct jp_report *ample) {
    return memcmp(report, ample, sizeof *report) == 0
           || (report->status == JP_NO_MEMORY && report->kind == 0 && report->place == 0
               && report->length == 0);
}

/* Whether the place is the one of ample memory, or none where memory was refused. */
static int is_in_place(const struct told *told, const struct told *ample) {
    static const struct jp_place none = {0, 0, 0};
    const struct jp_place *wanted = told->reports[0].status == JP_NO_MEMORY ? &none : &ample->place;
    return memcmp(&told->place, wanted, sizeof none) == 0;
}

/* Refuses each request of a call, one a call. How many there are. */
static size_t refuse_each(int call, const char *document, int *failures) {
    struct told ample = {0};
    refused = 0;
    make_call(call, document, &ample);
    for (refused = 1;; refused += 1) {
        struct told told = {0};
        requests = 0;
        make_call(call, document, &told);
        int right = is_in_place(&told, &ample);
        for (int at = 0; at < 3; at += 1) {
            right = right && is_right(&told.reports[at], &ample.reports[at]);
        }
        if (!right) {
            *failures += 1;
            fprintf(stderr, "call %d over %s with request %zu refused\n", call, document, refused);
        }
        if (requests < refused) {
            return refused - 1;
        }
    }
}

int main(void) {
    static const char *const documents[] = {
        "[1,]",
        "[1",
        "[[[\"\\ud800\"]]]",
        "{\"a\":[0,2.5]}",
        "[\xff]",
        "{\"a\":[1e400]}",
        "{\"a\":1}",
        "{\"a\":[1,{\"b\":[]},\"x\"]}",
    };
    int failures = 0;
    size_t count = 0;
    for (size_t at = 0; at < sizeof documents / sizeof documents[0]; at += 1) {
        for (int call = 0; call < 6; call += 1) {
            count += refuse_each(call, documents[at], &failures);
        }
    }
    printf("%zu requests for memory refused\n", count);
    return failures == 0 && count > 0 ? 0 : 1;
}
