/* A query over a document, as the program jp does it:
 *
 *     example FORM [--extended] [--decimals] QUERY < document
 *
 * FORM is eval, paths, both, canon or check. What is written, on both outputs, and the status are the
 * ones of `jp FORM [--extended] [--decimals] QUERY`, but for its limits of lengths, its help, and the path of a
 * number that is refused.
 */
#include "jp.h"

#include <stdio.h>
#include <stdlib.h>
#include <string.h>

static const struct jp_limit unlimited = JP_UNLIMITED;

struct text {
    uint8_t *at;
    size_t length;
};

/* All of a stream. No memory or a failing read ends the program. */
static struct text read_all(FILE *stream) {
    size_t room = 1 << 16;
    struct text text = {malloc(room), 0};
    while (text.at != NULL) {
        text.length += fread(text.at + text.length, 1, room - text.length, stream);
        if (text.length < room) {
            break;
        }
        room *= 2;
        text.at = realloc(text.at, room);
    }
    if (text.at == NULL || ferror(stream)) {
        fputs(text.at == NULL ? "want of memory\n" : "read fault\n", stderr);
        exit(text.at == NULL ? 4 : 5);
    }
    return text;
}

/* Says why there is no text, in the words of the program. */
static void say(const struct jp_report *report) {
    uint8_t name[32];
    struct jp_report named;
    jp_kind_name(report->status, report->kind, name, sizeof name, &named);
    switch (report->status) {
    case JP_QUERY_REFUSED:
        fprintf(stderr, "query refused: %.*s at %zu\n", (int)named.length, (const char *)name, report->place);
        break;
    case JP_DOCUMENT_REFUSED:
        fprintf(stderr, "document refused: %.*s\n", (int)named.length, (const char *)name);
        break;
    case JP_NO_MEMORY:
        fputs("want of memory\n", stderr);
        break;
    case JP_NO_STACK:
        fputs("want of stack\n", stderr);
        break;
    default:
        break;
    }
}

struct call {
    const char *form;
    const char *query;
    uint32_t profile;
    struct text document;
};

static uint32_t make(const struct call *call, uint8_t *out, size_t room, struct jp_report *report) {
    const uint8_t *query = (const uint8_t *)call->query;
    size_t length = strlen(call->query);
    if (strcmp(call->form, "canon") == 0) {
        return jp_canon(query, length, call->profile, out, room, report);
    }
    if (strcmp(call->form, "check") == 0) {
        return jp_check(query, length, call->profile, report);
    }
    uint32_t form = strcmp(call->form, "eval") == 0    ? JP_VALUES
                    : strcmp(call->form, "paths") == 0 ? JP_PATHS
                                                       : JP_BOTH;
    return jp_eval(query, length, call->document.at, call->document.length, form, call->profile,
                   &unlimited, out, room, report);
}

/* The words of the command line: a form, a query, and flags beside it. Gives whether they are that. */
static int read_words(int count, char **words, struct call *call) {
    int extended = 0, decimals = 0, others = 0;
    for (int at = 2; at < count; at += 1) {
        if (strcmp(words[at], "--extended") == 0) {
            extended = 1;
        } else if (strcmp(words[at], "--decimals") == 0) {
            decimals = 1;
        } else {
            call->query = words[at];
            others += 1;
        }
    }
    call->form = count < 2 ? "" : words[1];
    call->profile = decimals ? (extended ? JP_EXTENDED_DECIMAL : JP_DECIMAL) : (extended ? JP_EXTENDED : JP_STANDARD);
    return others == 1;
}

int main(int count, char **words) {
    struct call call = {"", "", JP_STANDARD, {NULL, 0}};
    if (!read_words(count, words, &call)) {
        fputs("usage: example FORM [--extended] [--decimals] QUERY < document\n", stderr);
        return 2;
    }
    uint8_t small[256];
    struct jp_report report;
    call.document.at = small;
    /* The query first, as the program does: where it is refused nothing is read. */
    uint32_t status = jp_check((const uint8_t *)call.query, strlen(call.query), call.profile, &report);
    int reads = strcmp(call.form, "canon") != 0 && strcmp(call.form, "check") != 0;
    if (status == JP_DONE && reads) {
        call.document = read_all(stdin);
    }
    uint8_t *out = small;
    status = make(&call, small, sizeof small, &report);
    if (report.length > sizeof small) {
        out = malloc(report.length);
        if (out == NULL) {
            fputs("want of memory\n", stderr);
            return 4;
        }
        status = make(&call, out, report.length, &report);
    }
    say(&report);
    if (status == JP_DONE) {
        fwrite(out, 1, report.length, stdout);
        if (strcmp(call.form, "canon") == 0) {
            fputs("\n", stdout);
        } else if (strcmp(call.form, "check") == 0) {
            fputs("accepted\n", stdout);
        }
    }
    if (out != small) {
        free(out);
    }
    if (call.document.at != small) {
        free(call.document.at);
    }
    return (int)status;
}
