/* The calls of jp.h as Go makes them, on a thread of their own where that of the caller has too little stack. */
#include "raw.h"

#include <pthread.h>
#include <signal.h>

/* As many bytes of stack as any call may need, and as many for the thread's own. */
enum { ROOM = 2 * JP_STACK };

static void query_new(const struct jp_go_call *it, struct jp_go_told *told) {
    jp_query_new(it->query, it->query_length, it->profile, it->handle, &told->report);
}

static void document_new(const struct jp_go_call *it, struct jp_go_told *told) {
    jp_document_new(it->document, it->document_length, it->profile, it->handle, it->out, it->out_length,
                    &told->report);
}

static void ask(const struct jp_go_call *it, struct jp_go_told *told) {
    jp_ask(it->handle, it->document, it->document_length, it->form, it->from, it->count, &it->limit, &told->text,
           &told->report);
}

static void ask_document(const struct jp_go_call *it, struct jp_go_told *told) {
    jp_ask_document(it->handle, it->kept, it->form, it->from, it->count, &it->limit, &told->text, &told->report);
}

/* The page is taken whole, so the cursor holds no part of it. */
static void next_page(const struct jp_go_call *it, struct jp_go_told *told) {
    jp_next_page(it->cursor, it->handle, it->kept, it->limit.steps, &told->text, &told->report);
    it->cursor->lines.start = NULL;
}

/* Where there is too little stack, that is so for all. */
static void eval_many(const struct jp_go_call *it, struct jp_go_told *told) {
    told->report.length = jp_eval_many(it->query, it->query_length, it->questions, it->questions_length, it->document,
                                       it->document_length, it->form, it->profile, &it->limit, it->out,
                                       it->out_length);
    told->report.status = it->questions_length > 0 && it->questions[0].report.status == JP_NO_STACK ? JP_NO_STACK
                                                                                                    : JP_DONE;
}

static void canon(const struct jp_go_call *it, struct jp_go_told *told) {
    jp_canon(it->query, it->query_length, it->profile, it->out, it->out_length, &told->report);
}

static void explain(const struct jp_go_call *it, struct jp_go_told *told) {
    jp_explain(it->query, it->query_length, it->profile, it->part, it->out, it->out_length, &told->report);
}

static void explain_document(const struct jp_go_call *it, struct jp_go_told *told) {
    jp_explain_document(it->document, it->document_length, it->profile, it->part, &told->place, it->out, it->out_length,
                        &told->report);
}

static void kind_name(const struct jp_go_call *it, struct jp_go_told *told) {
    jp_kind_name(it->status, it->kind, it->out, it->out_length, &told->report);
}

static void clear(const struct jp_go_call *it, struct jp_go_told *told) {
    jp_clear(it->handle);
    told->report.status = it->handle->full ? JP_NO_STACK : JP_DONE;
    if (!it->handle->full) {
        it->handle->at = NULL;
    }
}

typedef void made(const struct jp_go_call *it, struct jp_go_told *told);

static made *const calls[] = {
    [JP_GO_QUERY_NEW] = query_new,
    [JP_GO_DOCUMENT_NEW] = document_new,
    [JP_GO_ASK] = ask,
    [JP_GO_ASK_DOCUMENT] = ask_document,
    [JP_GO_NEXT_PAGE] = next_page,
    [JP_GO_EVAL_MANY] = eval_many,
    [JP_GO_CANON] = canon,
    [JP_GO_EXPLAIN] = explain,
    [JP_GO_EXPLAIN_DOCUMENT] = explain_document,
    [JP_GO_KIND_NAME] = kind_name,
    [JP_GO_CLEAR] = clear,
};

struct both {
    const struct jp_go_call *call;
    struct jp_go_told *told;
};

static void *made_there(void *it) {
    const struct both *both = it;
    calls[both->call->call](both->call, both->told);
    return NULL;
}

/* Makes a call on a thread that has room for each. Where none can be had nothing is done. Go's signals are handled by
 * its own threads, so this one gets none. */
static void make_on_a_thread(struct both both) {
    pthread_attr_t attributes;
    pthread_t thread;
    sigset_t all, before;
    if (pthread_attr_init(&attributes) != 0) {
        return;
    }
    sigfillset(&all);
    pthread_sigmask(SIG_SETMASK, &all, &before);
    const int is_begun = pthread_attr_setstacksize(&attributes, ROOM) == 0
                         && pthread_create(&thread, &attributes, made_there, &both) == 0;
    pthread_sigmask(SIG_SETMASK, &before, NULL);
    if (is_begun) {
        pthread_join(thread, NULL);
    }
    pthread_attr_destroy(&attributes);
}

struct jp_go_told jp_go_make(struct jp_go_call call) {
    struct jp_go_told told = {{JP_DONE, 0, 0, 0, 0}, {NULL, 0}, {0, 0, 0}};
    calls[call.call](&call, &told);
    if (told.report.status == JP_NO_STACK) {
        make_on_a_thread((struct both){&call, &told});
    }
    return told;
}

struct jp_go_step jp_go_step_at(const uint8_t *path, size_t length, size_t at, uint8_t *name) {
    const struct jp_text text = {path, length};
    struct jp_step step = {{NULL, 0}, 0};
    struct jp_go_step found = {0, 0, 0, 0, 0};
    found.is_there = jp_next_step(&text, &at, &step);
    found.is_name = step.name.start != NULL;
    found.next = at;
    found.index = step.index;
    if (found.is_name) {
        found.name_length = jp_name(&step.name, name);
    }
    return found;
}
