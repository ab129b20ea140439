/* The calls of jp.h. Each first looks at the room that the thread's stack has left, and answers
 * JP_NO_STACK where a call like it may need more; else it is the proved call, which bindings/build
 * names `proved_jp_..` in libjp.a.
 *
 * What a call needs is a base and so many bytes for each level of what it reads: of brackets and
 * parentheses in the query, of lists and objects in the document, of groups in a pattern. Levels are
 * counted only where less is left than any call needs. bindings/c/narrow.c measures what calls use, of the
 * proved library and of the one that is built without proofs, whose calls have the same names.
 *
 * Where the stack is not the thread's own, as that of a coroutine, its room is not known, and the
 * caller owes JP_STACK bytes.
 */
#define _GNU_SOURCE
#include "jp.h"

#include <pthread.h>

enum {
    MOST_LEVELS = 128, /* in a query, and one more than in a document */
    MOST_GROUPS = 64,  /* in a pattern */
    MOST_MENDS = 8,    /* of an explanation, each of which may add a level */
    /* Bytes. SPARE is for the C library, and for a handler of a signal. */
    SPARE = 12 << 10,
    QUERY = SPARE + (8 << 10),     /* a call that reads no document, without its levels */
    DOCUMENT = SPARE + (24 << 10), /* a call that reads one */
    LEVEL = 4352,                  /* to read a level */
    VALUE = 448,                   /* to write or compare a level of a document */
    GROUP = 1152,                  /* to read a group of a pattern */
    MOST = DOCUMENT + LEVEL * MOST_LEVELS + VALUE * MOST_LEVELS + GROUP * MOST_GROUPS
};

_Static_assert((int)MOST <= JP_STACK, "the header tells of the largest need");
/* The proved calls know the first two fields alone; the third lies where these leave room. */
_Static_assert(sizeof(struct jp_handle) == 2 * sizeof(void *), "a handle is as large as theirs");

/* How deep what a call reads is: levels to read, levels of a document, groups of patterns. */
struct depth {
    unsigned levels, values, groups;
};

static size_t needed(size_t base, struct depth depth) {
    return base + LEVEL * (size_t)depth.levels + VALUE * (size_t)depth.values + GROUP * (size_t)depth.groups;
}

/* Where the thread's stack is, from its lowest byte on, once that was asked. In a shared object for the
 * GNU C library it is where no access asks for memory. */
struct bounds {
    uintptr_t lowest, end;
};
#ifdef __GLIBC__
__attribute__((tls_model("initial-exec")))
#endif
static _Thread_local struct bounds stack;

static void find_stack(void) {
    pthread_attr_t attributes;
    void *lowest;
    size_t size, guard = 0;
    if (pthread_getattr_np(pthread_self(), &attributes) != 0) {
        return;
    }
#if defined(__GLIBC__) && !__GLIBC_PREREQ(2, 27)
    /* There the guard is part of the stack that is told. */
    pthread_attr_getguardsize(&attributes, &guard);
#endif
    if (pthread_attr_getstack(&attributes, &lowest, &size) == 0 && guard < size) {
        stack.lowest = (uintptr_t)lowest + guard;
        stack.end = (uintptr_t)lowest + size;
    }
    pthread_attr_destroy(&attributes);
}

/* How many bytes of stack are left, or the largest number where that is not known. */
static size_t left(void) {
    const uintptr_t here = (uintptr_t)__builtin_frame_address(0);
    if (stack.end == 0) {
        find_stack();
    }
    return here < stack.lowest || here >= stack.end ? SIZE_MAX : here - stack.lowest;
}

static unsigned at_most(unsigned a, unsigned b) {
    return a < b ? a : b;
}

static unsigned larger(unsigned a, unsigned b) {
    return a > b ? a : b;
}

static struct depth deeper(struct depth a, struct depth b) {
    return (struct depth){larger(a.levels, b.levels), larger(a.values, b.values), larger(a.groups, b.groups)};
}

/* How many bytes an escaped parenthesis has at the start of a text, \u0028, or else any other escape. */
static size_t escape_length(const uint8_t *text, size_t length) {
    static const uint8_t parenthesis[] = "\\u0028";
    size_t same = 0;
    while (same < 6 && same < length && text[same] == parenthesis[same]) {
        same += 1;
    }
    return same == 6 ? 6 : 2;
}

/* The position after a string whose quotation mark stands at `at`, and in `groups` how many parentheses
 * open in it, if that is more. */
static size_t after_string(const uint8_t *text, size_t length, size_t at, unsigned *groups) {
    const uint8_t mark = text[at];
    unsigned opened = 0;
    at += 1;
    while (at < length && text[at] != mark) {
        size_t step = text[at] == '\\' ? escape_length(text + at, length - at) : 1;
        opened += (step == 6 || text[at] == '(') && opened < MOST_GROUPS;
        at += step;
    }
    *groups = larger(*groups, opened);
    return at + 1;
}

/* How deep a query or a document is: exactly, as far as it is one, and behind that no one reads. */
static struct depth depth_of(const uint8_t *text, size_t length) {
    struct depth depth = {0, 0, 0};
    unsigned open = 0;
    size_t at = 0;
    while (at < length) {
        const uint8_t byte = text[at];
        if (byte == '"' || byte == '\'') {
            at = after_string(text, length, at, &depth.groups);
            continue;
        }
        if (byte == '[' || byte == '{' || byte == '(') {
            open += 1;
            depth.levels = larger(depth.levels, at_most(open, MOST_LEVELS));
        } else if (open > 0 && (byte == ']' || byte == '}' || byte == ')')) {
            open -= 1;
        }
        at += 1;
    }
    return depth;
}

static struct depth depth_of_document(const uint8_t *document, size_t length) {
    struct depth depth = depth_of(document, length);
    depth.values = depth.levels;
    return depth;
}

/* What an explanation reads are also texts in which marks were mended, so that no string is sure. */
static struct depth depth_of_mended(const uint8_t *query, size_t length) {
    unsigned opened = MOST_MENDS;
    for (size_t at = 0; at < length && opened < MOST_LEVELS; at += 1) {
        opened += query[at] == '[' || query[at] == '(';
    }
    return (struct depth){opened, 0, 0};
}

/* The deepest of many queries, of each what there is of it in their text. */
static struct depth depth_of_all(const uint8_t *queries, size_t length, const struct jp_question *questions,
                                 size_t count) {
    struct depth depth = {0, 0, 0};
    for (size_t at = 0; at < count; at += 1) {
        size_t start = questions[at].start < length ? questions[at].start : length;
        size_t rest = length - start;
        size_t size = questions[at].size < rest ? questions[at].size : rest;
        depth = deeper(depth, depth_of(queries + start, size));
    }
    return depth;
}

/* How deep that is which a handle keeps, if anything. */
static struct depth depth_in(const struct jp_handle *handle) {
    if (!handle->full) {
        return (struct depth){0, 0, 0};
    }
    return (struct depth){handle->depth[0], handle->depth[1], handle->depth[2]};
}

/* How deep that is which is freed when a handle is filled or cleared: of a document no level. */
static struct depth depth_freed(const struct jp_handle *handle) {
    return (struct depth){depth_in(handle).levels, 0, 0};
}

static void note_depth(struct jp_handle *handle, struct depth depth) {
    handle->depth[0] = (uint8_t)depth.levels;
    handle->depth[1] = (uint8_t)depth.values;
    handle->depth[2] = (uint8_t)depth.groups;
}

static uint32_t no_stack(struct jp_report *report) {
    *report = (struct jp_report){JP_NO_STACK, 0, 0, 0, 0};
    return JP_NO_STACK;
}

/* A proved call has the type of its call in jp.h. */
#define PROVED(call) extern __typeof__(jp_##call) proved_jp_##call

/* Whether there is too little room. The depth is worked out only where it matters. */
#define IS_SHORT(base, depth) (left() < MOST && left() < needed(base, depth))

PROVED(version);
uint32_t jp_version(void) {
    return proved_jp_version();
}

PROVED(eval);
uint32_t jp_eval(const uint8_t *query, size_t query_length,
                 const uint8_t *document, size_t document_length,
                 uint32_t form, uint32_t profile, const struct jp_limit *limit,
                 uint8_t *out, size_t out_length, struct jp_report *report) {
    if (IS_SHORT(DOCUMENT, deeper(depth_of(query, query_length), depth_of_document(document, document_length)))) {
        return no_stack(report);
    }
    return proved_jp_eval(query, query_length, document, document_length, form, profile, limit, out, out_length,
                          report);
}

PROVED(eval_many);
size_t jp_eval_many(const uint8_t *queries, size_t queries_length,
                    struct jp_question *questions, size_t questions_length,
                    const uint8_t *document, size_t document_length,
                    uint32_t form, uint32_t profile, const struct jp_limit *limit,
                    uint8_t *out, size_t out_length) {
    if (IS_SHORT(DOCUMENT, deeper(depth_of_all(queries, queries_length, questions, questions_length),
                                  depth_of_document(document, document_length)))) {
        for (size_t at = 0; at < questions_length; at += 1) {
            no_stack(&questions[at].report);
        }
        return 0;
    }
    return proved_jp_eval_many(queries, queries_length, questions, questions_length, document, document_length,
                               form, profile, limit, out, out_length);
}

PROVED(canon);
uint32_t jp_canon(const uint8_t *query, size_t query_length, uint32_t profile,
                  uint8_t *out, size_t out_length, struct jp_report *report) {
    if (IS_SHORT(QUERY, depth_of(query, query_length))) {
        return no_stack(report);
    }
    return proved_jp_canon(query, query_length, profile, out, out_length, report);
}

PROVED(check);
uint32_t jp_check(const uint8_t *query, size_t query_length, uint32_t profile, struct jp_report *report) {
    if (IS_SHORT(QUERY, depth_of(query, query_length))) {
        return no_stack(report);
    }
    return proved_jp_check(query, query_length, profile, report);
}

PROVED(explain);
uint32_t jp_explain(const uint8_t *query, size_t query_length, uint32_t profile, uint32_t part,
                    uint8_t *out, size_t out_length, struct jp_report *report) {
    if (IS_SHORT(QUERY, depth_of_mended(query, query_length))) {
        return no_stack(report);
    }
    return proved_jp_explain(query, query_length, profile, part, out, out_length, report);
}

PROVED(explain_document);
uint32_t jp_explain_document(const uint8_t *document, size_t document_length, uint32_t profile, uint32_t part,
                             struct jp_place *place,
                             uint8_t *out, size_t out_length, struct jp_report *report) {
    if (IS_SHORT(DOCUMENT, depth_of_document(document, document_length))) {
        *place = (struct jp_place){0, 0, 0};
        return no_stack(report);
    }
    return proved_jp_explain_document(document, document_length, profile, part, place, out, out_length, report);
}

PROVED(kind_name);
uint32_t jp_kind_name(uint32_t status, uint32_t kind,
                      uint8_t *out, size_t out_length, struct jp_report *report) {
    if (IS_SHORT(QUERY, ((struct depth){0, 0, 0}))) {
        return no_stack(report);
    }
    return proved_jp_kind_name(status, kind, out, out_length, report);
}

PROVED(query_new);
uint32_t jp_query_new(const uint8_t *query, size_t query_length, uint32_t profile,
                      struct jp_handle *handle, struct jp_report *report) {
    /* The handle tells the depth to calls of threads that have less room. */
    const struct depth depth = depth_of(query, query_length);
    if (IS_SHORT(QUERY, deeper(depth, depth_freed(handle)))) {
        return no_stack(report);
    }
    const uint32_t status = proved_jp_query_new(query, query_length, profile, handle, report);
    note_depth(handle, depth);
    return status;
}

PROVED(document_new);
uint32_t jp_document_new(const uint8_t *document, size_t document_length, uint32_t profile,
                         struct jp_handle *handle,
                         uint8_t *out, size_t out_length, struct jp_report *report) {
    /* Where there is room enough a document is not looked through, and taken to be as deep as any. */
    struct depth depth = {MOST_LEVELS, MOST_LEVELS, MOST_GROUPS};
    if (left() < MOST) {
        depth = depth_of_document(document, document_length);
    }
    if (IS_SHORT(DOCUMENT, deeper(depth, depth_freed(handle)))) {
        return no_stack(report);
    }
    const uint32_t status =
        proved_jp_document_new(document, document_length, profile, handle, out, out_length, report);
    /* It is read, and what is asked of it reads none of it. */
    depth.levels = 0;
    note_depth(handle, depth);
    return status;
}

PROVED(ask);
uint32_t jp_ask(struct jp_handle *query, const uint8_t *document, size_t document_length,
                uint32_t form, uint64_t from, uint64_t count, const struct jp_limit *limit,
                struct jp_text *text, struct jp_report *report) {
    const struct depth of_query = depth_in(query);
    if (IS_SHORT(DOCUMENT, deeper(of_query, depth_of_document(document, document_length)))) {
        text->length = 0;
        return no_stack(report);
    }
    const uint32_t status = proved_jp_ask(query, document, document_length, form, from, count, limit, text, report);
    note_depth(query, of_query);
    return status;
}

PROVED(ask_document);
uint32_t jp_ask_document(struct jp_handle *query, struct jp_handle *document,
                         uint32_t form, uint64_t from, uint64_t count, const struct jp_limit *limit,
                         struct jp_text *text, struct jp_report *report) {
    const struct depth of_query = depth_in(query), of_document = depth_in(document);
    if (IS_SHORT(QUERY, deeper(of_query, of_document))) {
        text->length = 0;
        return no_stack(report);
    }
    const uint32_t status = proved_jp_ask_document(query, document, form, from, count, limit, text, report);
    note_depth(query, of_query);
    note_depth(document, of_document);
    return status;
}

PROVED(clear);
void jp_clear(struct jp_handle *handle) {
    if (!IS_SHORT(QUERY, depth_freed(handle))) {
        proved_jp_clear(handle);
    }
}
