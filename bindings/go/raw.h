/* The calls of jp.h as Go makes them. Go keeps no memory for what they tell, which is given back by value; and a call
 * for which its thread has too little stack is made once more on a thread that has room for each.
 */
#ifndef JP_GO_ENGINE_H
#define JP_GO_ENGINE_H

#if !__has_include(<jp.h>)
#error "libjp is not here: `go generate` in bindings/go makes it in two minutes, without proofs; bindings/build proves it"
#else
#include <jp.h>

/* The calls. */
enum {
    JP_GO_QUERY_NEW,
    JP_GO_DOCUMENT_NEW,
    JP_GO_ASK,
    JP_GO_ASK_DOCUMENT,
    JP_GO_NEXT_PAGE,
    JP_GO_EVAL_MANY,
    JP_GO_CANON,
    JP_GO_EXPLAIN,
    JP_GO_EXPLAIN_DOCUMENT,
    JP_GO_KIND_NAME,
    JP_GO_CLEAR
};

/* A call with what it is given, of which each takes a part. */
struct jp_go_call {
    uint32_t call;
    const uint8_t *query; /* of many queries their texts together */
    size_t query_length;
    const uint8_t *document;
    size_t document_length;
    struct jp_handle *handle; /* that keeps the query; the document of JP_GO_DOCUMENT_NEW; what JP_GO_CLEAR frees */
    struct jp_handle *kept;   /* that keeps the document */
    struct jp_cursor *cursor;
    struct jp_question *questions;
    size_t questions_length;
    uint32_t form;
    uint32_t profile;
    uint32_t part;
    uint32_t status;
    uint32_t kind;
    uint64_t from;
    uint64_t count;
    struct jp_limit limit;
    uint8_t *out;
    size_t out_length;
};

/* What a call tells, and what a handle lends with it. */
struct jp_go_told {
    struct jp_report report;
    struct jp_text text;
    struct jp_place place;
};

struct jp_go_told jp_go_make(struct jp_go_call call);

/* A step of a normalized path, whose name is written to a buffer with room for the path. */
struct jp_go_step {
    uint32_t is_there;
    uint32_t is_name;
    size_t next; /* where the next one stands */
    size_t name_length;
    uint64_t index;
};

struct jp_go_step jp_go_step_at(const uint8_t *path, size_t length, size_t at, uint8_t *name);

#endif
#endif
