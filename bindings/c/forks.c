/* Tests the calls from many threads at once, and from forked children of a process whose threads are in the middle of
 * calls: each child asks with a handle that its parent kept, and with new ones, and has its answers within a minute.
 * A query and a document that are kept are asked by one thread at a time. Prints nothing where all is so. */
#define _GNU_SOURCE
#include "jp.h"

#include <pthread.h>
#include <stdatomic.h>
#include <stdio.h>
#include <stdlib.h>
#include <string.h>
#include <sys/wait.h>
#include <unistd.h>

static const struct jp_limit unlimited = JP_UNLIMITED;

#define THREADS 4
#define FORKS 50
#define QUERY "$..b"
#define DOCUMENT "{\"a\":[7,{\"b\":\"x\\u0079\"}],\"d\":{\"b\":-1}}"
#define ANSWER "\"xy\"\n-1\n"

static atomic_int failures, is_over;

static void expect(int holds, const char *what) {
    if (!holds) {
        failures += 1;
        fprintf(stderr, "forks: not so: %s\n", what);
    }
}

static int is_answer(const uint8_t *start, size_t length) {
    return length == strlen(ANSWER) && memcmp(start, ANSWER, length) == 0;
}

static void keep(struct jp_handle *query) {
    struct jp_report report;
    jp_query_new((const uint8_t *)QUERY, strlen(QUERY), JP_STANDARD, query, &report);
}

static void ask(struct jp_handle *query) {
    struct jp_report report;
    struct jp_text text;
    jp_ask(query, (const uint8_t *)DOCUMENT, strlen(DOCUMENT), JP_VALUES, 0, JP_ALL, &unlimited, &text, &report);
    expect(is_answer(text.start, text.length), "what a kept query answers");
}

/* With new handles, one node after another. */
static void ask_anew(void) {
    struct jp_handle query = JP_EMPTY, document = JP_EMPTY;
    struct jp_cursor cursor = JP_START;
    struct jp_report report;
    struct jp_node node;
    uint8_t out[16];
    keep(&query);
    jp_document_new((const uint8_t *)DOCUMENT, strlen(DOCUMENT), JP_STANDARD, &document, out, sizeof out, &report);
    do {
        jp_next(&cursor, &query, &document, JP_NO_LIMIT, &node, &report);
    } while (node.path.length > 0);
    expect(cursor.given == 2, "two nodes");
    jp_clear(&query);
    jp_clear(&document);
    jp_eval((const uint8_t *)QUERY, strlen(QUERY), (const uint8_t *)DOCUMENT, strlen(DOCUMENT), JP_VALUES,
            JP_STANDARD, &unlimited, out, sizeof out, &report);
    expect(is_answer(out, report.length), "what is not kept answers");
}

static void *work(void *unused) {
    struct jp_handle query = JP_EMPTY;
    keep(&query);
    for (long call = 0; call < 1000 || !is_over; call += 1) {
        ask(&query);
        ask_anew();
    }
    jp_clear(&query);
    return unused;
}

static void fork_once(struct jp_handle *query) {
    int status;
    const pid_t child = fork();
    if (child == 0) {
        alarm(60);
        ask(query);
        ask_anew();
        jp_clear(query);
        _exit(failures == 0 ? 0 : 1);
    }
    expect(child > 0 && waitpid(child, &status, 0) == child && status == 0, "a child that has its answers");
}

int main(void) {
    pthread_t threads[THREADS];
    struct jp_handle query = JP_EMPTY;
    keep(&query);
    for (int at = 0; at < THREADS; at += 1) {
        pthread_create(&threads[at], NULL, work, NULL);
    }
    for (int time = 0; time < FORKS; time += 1) {
        ask(&query);
        fork_once(&query);
    }
    is_over = 1;
    for (int at = 0; at < THREADS; at += 1) {
        pthread_join(threads[at], NULL);
    }
    jp_clear(&query);
    return failures == 0 ? 0 : 1;
}
