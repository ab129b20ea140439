/* Measures the CPU time of a call over a document of about 1 KB, against libjq where it is:
 * `library [libjq.so.1]`, as bench/library runs it. A row: the query, microseconds a call of jp_eval (the query not read before), and
 * of libjq, its program compiled before, with parsing the document and printing what comes. Then ten queries
 * over the one document: by ten calls of jp_eval, by one of jp_eval_many, and by ten of jp_ask_document. Then
 * queries that are short and long over documents of about 100 and 900 bytes: by jp_eval, and by jp_ask, with the
 * query kept. */
#define _POSIX_C_SOURCE 200809L
#include "jp.h"

#include <dlfcn.h>
#include <stdio.h>
#include <string.h>
#include <time.h>

static const struct jp_limit unlimited = JP_UNLIMITED;

/* Of jq.h and jv.h, as of libjq 1.5 to 1.7: a value of 16 bytes, passed by value. */
typedef struct {
    unsigned char kind, pad;
    unsigned short offset;
    int size;
    union {
        void *at;
        double number;
    } u;
} jv;

static const char *const queries[][2] = {
    {"$.store.book[0].title", ".store.book[0].title"},
    {"$..price", ".. | objects | select(has(\"price\")) | .price"},
    {"$.store.book[?@.price<10].title", ".store.book[] | select(.price < 10) | .title"},
};

static double seconds(void) {
    struct timespec now;
    clock_gettime(CLOCK_PROCESS_CPUTIME_ID, &now);
    return (double)now.tv_sec + 1e-9 * (double)now.tv_nsec;
}

static char document[4096];

static void make_document(void) {
    size_t at = (size_t)sprintf(document, "{\"store\":{\"book\":[");
    for (int book = 0; book < 9; book += 1) {
        at += (size_t)sprintf(document + at,
                              "%s{\"category\":\"fiction\",\"author\":\"Author %d\",\"title\":\"Title %d\",\"price\":%d,"
                              "\"isbn\":\"0-553-2131%d\"}",
                              book == 0 ? "" : ",", book, book, 4 * book, book);
    }
    sprintf(document + at, "],\"bicycle\":{\"color\":\"red\",\"price\":399}}}");
}

static double measure_jp(const char *query, const char *bytes) {
    uint8_t out[4096];
    struct jp_report report;
    double best = 1e9;
    for (int round = 0; round < 5; round += 1) {
        double start = seconds();
        for (int call = 0; call < 2000; call += 1) {
            jp_eval((const uint8_t *)query, strlen(query), (const uint8_t *)bytes, strlen(bytes), JP_VALUES, JP_STANDARD,
                    &unlimited, out, sizeof out, &report);
        }
        double took = (seconds() - start) / 2000;
        best = took < best ? took : best;
    }
    return report.status == JP_DONE && report.length > 0 ? best : -1;
}

/* Ten queries of as many bytes each, which stand one after another. */
enum {
    TEN = 10,
    SIZE = 21,
};
static char ten[TEN * SIZE + 1];
static uint8_t answer[4096];

static void make_ten(void) {
    for (int at = 0; at < TEN - 1; at += 1) {
        sprintf(ten + at * SIZE, "$.store.book[%d].title", at);
    }
    sprintf(ten + (TEN - 1) * SIZE, "$.store.bicycle.color");
}

static int by_ten_calls(void) {
    struct jp_report report;
    int is_done = 1;
    for (int at = 0; at < TEN; at += 1) {
        uint32_t status = jp_eval((const uint8_t *)ten + at * SIZE, SIZE, (const uint8_t *)document, strlen(document),
                                  JP_VALUES, JP_STANDARD, &unlimited, answer, sizeof answer, &report);
        is_done = is_done && status == JP_DONE && report.length > 0;
    }
    return is_done;
}

static int by_one_call(void) {
    struct jp_question questions[TEN];
    for (size_t at = 0; at < TEN; at += 1) {
        questions[at].start = at * SIZE;
        questions[at].size = SIZE;
    }
    jp_eval_many((const uint8_t *)ten, TEN * SIZE, questions, TEN, (const uint8_t *)document, strlen(document),
                 JP_VALUES, JP_STANDARD, &unlimited, answer, sizeof answer);
    int is_done = 1;
    for (size_t at = 0; at < TEN; at += 1) {
        is_done = is_done && questions[at].report.status == JP_DONE && questions[at].report.length > 0;
    }
    return is_done;
}

static struct jp_handle kept_document = JP_EMPTY, kept_queries[TEN];

static int by_handles(void) {
    struct jp_report report;
    struct jp_text text;
    int is_done = 1;
    for (int at = 0; at < TEN; at += 1) {
        uint32_t status = jp_ask_document(&kept_queries[at], &kept_document, JP_VALUES, 0, JP_ALL, &unlimited, &text,
                                          &report);
        is_done = is_done && status == JP_DONE && report.length > 0;
    }
    return is_done;
}

static double measure(int (*work)(void)) {
    double best = 1e9;
    for (int round = 0; round < 5; round += 1) {
        double start = seconds();
        for (int call = 0; call < 500; call += 1) {
            if (!work()) {
                return -1;
            }
        }
        double took = (seconds() - start) / 500;
        best = took < best ? took : best;
    }
    return best;
}

static void measure_ten(void) {
    struct jp_report report;
    make_ten();
    jp_document_new((const uint8_t *)document, strlen(document), JP_STANDARD, &kept_document, answer, sizeof answer,
                    &report);
    for (int at = 0; at < TEN; at += 1) {
        jp_query_new((const uint8_t *)ten + at * SIZE, SIZE, JP_STANDARD, &kept_queries[at], &report);
    }
    printf("ten queries: by jp_eval %.1f, by jp_eval_many %.1f, by jp_ask_document %.1f\n", 1e6 * measure(by_ten_calls),
           1e6 * measure(by_one_call), 1e6 * measure(by_handles));
    jp_clear(&kept_document);
    for (int at = 0; at < TEN; at += 1) {
        jp_clear(&kept_queries[at]);
    }
}

static const char small[] = "{\"id\":17,\"user\":{\"name\":\"Ada\",\"age\":36},\"tags\":[\"x\",\"y\"],\"price\":8,"
                            "\"deep\":{\"a\":{\"b\":[1,{\"c\":2}]}}}";

/* A query, and whether it is asked of the small document or of the other. */
static const struct {
    const char *query;
    int is_small;
} asked[] = {
    {"$.user.name", 1},
    {"$..c", 1},
    {"$.deep..[?@.c==2 || @.c==3 && !@.d || length(@.e)>3].c", 1},
    {"$.store.book[0].title", 0},
    {"$..price", 0},
    {"$.store.book[?@.price<10 && @.category=='fiction' || @.author=='Author 8' && !@.sold].title", 0},
};

static double measure_ask(const char *query, const char *bytes) {
    struct jp_handle kept = JP_EMPTY;
    struct jp_report report;
    struct jp_text text;
    double best = 1e9;
    jp_query_new((const uint8_t *)query, strlen(query), JP_STANDARD, &kept, &report);
    for (int round = 0; round < 5; round += 1) {
        double start = seconds();
        for (int call = 0; call < 2000; call += 1) {
            jp_ask(&kept, (const uint8_t *)bytes, strlen(bytes), JP_VALUES, 0, JP_ALL, &unlimited, &text, &report);
        }
        double took = (seconds() - start) / 2000;
        best = took < best ? took : best;
    }
    jp_clear(&kept);
    return report.status == JP_DONE && report.length > 0 ? best : -1;
}

static void measure_asked(void) {
    for (size_t row = 0; row < sizeof asked / sizeof asked[0]; row += 1) {
        const char *bytes = asked[row].is_small ? small : document;
        double eval = measure_jp(asked[row].query, bytes), ask = measure_ask(asked[row].query, bytes);
        printf("%zu bytes\t%s\tjp_eval %.2f\tjp_ask %.2f\tratio %.2f\n", strlen(bytes), asked[row].query, 1e6 * eval,
               1e6 * ask, ask / eval);
    }
}

struct jq_calls {
    void *(*init)(void);
    int (*compile)(void *, const char *);
    void (*start)(void *, jv, int);
    jv (*next)(void *);
    jv (*parse)(const char *);
    jv (*dump)(jv, int);
    void (*release)(jv);
};

static double measure_jq(const struct jq_calls *calls, const char *program) {
    void *jq = calls->init();
    double best = 1e9;
    if (jq == NULL || !calls->compile(jq, program)) {
        return -1;
    }
    for (int round = 0; round < 5; round += 1) {
        double start = seconds();
        for (int call = 0; call < 2000; call += 1) {
            calls->start(jq, calls->parse(document), 0);
            for (;;) {
                jv value = calls->next(jq);
                if ((value.kind & 15) == 0) {
                    calls->release(value);
                    break;
                }
                calls->release(calls->dump(value, 0));
            }
        }
        double took = (seconds() - start) / 2000;
        best = took < best ? took : best;
    }
    return best;
}

int main(int count, char **words) {
    struct jq_calls calls = {0};
    void *library = count > 1 ? dlopen(words[1], RTLD_NOW) : NULL;
    if (library != NULL) {
        *(void **)&calls.init = dlsym(library, "jq_init");
        *(void **)&calls.compile = dlsym(library, "jq_compile");
        *(void **)&calls.start = dlsym(library, "jq_start");
        *(void **)&calls.next = dlsym(library, "jq_next");
        *(void **)&calls.parse = dlsym(library, "jv_parse");
        *(void **)&calls.dump = dlsym(library, "jv_dump_string");
        *(void **)&calls.release = dlsym(library, "jv_free");
    }
    make_document();
    printf("%zu bytes\n", strlen(document));
    for (size_t row = 0; row < sizeof queries / sizeof queries[0]; row += 1) {
        printf("%s\t%.1f", queries[row][0], 1e6 * measure_jp(queries[row][0], document));
        if (library != NULL) {
            printf("\t%.1f", 1e6 * measure_jq(&calls, queries[row][1]));
        }
        printf("\n");
    }
    measure_ten();
    measure_asked();
    return 0;
}
