/* Tests what jp.h promises of threads with little stack, from 16 KiB to 1 MiB, with the deepest queries,
 * documents and patterns: each call ends with what it gives on a large stack, or with JP_NO_STACK, which has
 * done nothing. Where it does not refuse, some of the stack is left over: it was filled with a pattern before.
 * So a change by which calls need more than bindings/c/stack.c says fails here. With 1 MiB no call is refused,
 * 128 KiB do for as many levels as the pages say, and texts that are long and not deep need no more than short ones.
 * Prints nothing where all is so.
 */
#define _GNU_SOURCE
#include "jp.h"

#include <pthread.h>
#include <stdio.h>
#include <stdlib.h>
#include <string.h>
#include <sys/mman.h>
#include <ucontext.h>

static const struct jp_limit unlimited = JP_UNLIMITED;

#define KIB ((size_t)1 << 10)
/* The stack of the main thread, which has room. */
#define HERE 0
#define ROOM (64 * KIB)
#define PAINT 0xa5
/* What a call leaves over at least. Not under AddressSanitizer, whose allocator takes more stack. */
#ifdef __SANITIZE_ADDRESS__
#define SPARED 0
#define STEP (64 * KIB)
#define SMALLEST (64 * KIB)
#else
#define SPARED (8 * KIB)
#define STEP (4 * KIB)
#define SMALLEST (16 * KIB)
#endif

static int failures = 0;

static void expect(int holds, const char *what, const char *row, const char *call, size_t size) {
    if (!holds) {
        failures += 1;
        fprintf(stderr, "%s does not hold of %s by %s on %zu bytes\n", what, row, call, size);
    }
}

struct text {
    uint8_t *at;
    size_t length;
};

/* A call, with what it is asked and what it answers. */
struct asked {
    struct text query, document, out;
    uint32_t profile, status;
    struct jp_report report;
    struct jp_handle kept_query, kept_document;
    void (*call)(struct asked *);
};

static void eval(struct asked *it) {
    it->status = jp_eval(it->query.at, it->query.length, it->document.at, it->document.length, JP_BOTH, it->profile,
                         &unlimited, it->out.at, it->out.length, &it->report);
}

static void eval_many(struct asked *it) {
    struct jp_question questions[] = {{0, 1, {9, 9, 9, 9, 9}}, {0, it->query.length, {9, 9, 9, 9, 9}}};
    jp_eval_many(it->query.at, it->query.length, questions, 2, it->document.at, it->document.length, JP_BOTH,
                 it->profile, &unlimited, it->out.at, it->out.length);
    it->report = questions[1].report;
    it->status = it->report.status;
}

static void canon(struct asked *it) {
    it->status = jp_canon(it->query.at, it->query.length, it->profile, it->out.at, it->out.length, &it->report);
}

static void check(struct asked *it) {
    it->status = jp_check(it->query.at, it->query.length, it->profile, &it->report);
}

static void explain(struct asked *it) {
    it->status = jp_explain(it->query.at, it->query.length, it->profile, JP_EXPLANATION, it->out.at,
                            it->out.length, &it->report);
}

static void explain_document(struct asked *it) {
    struct jp_place place;
    it->status = jp_explain_document(it->document.at, it->document.length, it->profile, JP_DOCUMENT_LINE, &place,
                                     it->out.at, it->out.length, &it->report);
}

static void query_new(struct asked *it) {
    it->status = jp_query_new(it->query.at, it->query.length, it->profile, &it->kept_query, &it->report);
}

static void document_new(struct asked *it) {
    it->status = jp_document_new(it->document.at, it->document.length, it->profile, &it->kept_document, it->out.at,
                                 it->out.length, &it->report);
}

/* Copies a text that is lent to where other calls write theirs. */
static void take(struct asked *it, const struct jp_text *text) {
    if (text->length > 0 && text->length <= it->out.length) {
        memcpy(it->out.at, text->start, text->length);
    }
}

static void ask_kept(struct asked *it) {
    struct jp_text text;
    it->status = jp_ask(&it->kept_query, it->document.at, it->document.length, JP_BOTH, 0, JP_ALL, &unlimited, &text,
                        &it->report);
    take(it, &text);
}

static void ask_document(struct asked *it) {
    struct jp_text text;
    it->status = jp_ask_document(&it->kept_query, &it->kept_document, JP_BOTH, 0, JP_ALL, &unlimited, &text,
                                 &it->report);
    take(it, &text);
}

/* The first nodes, until there is none or a call is refused. */
static void next_nodes(struct asked *it) {
    struct jp_cursor cursor = JP_START;
    struct jp_node node;
    do {
        it->status = jp_next(&cursor, &it->kept_query, &it->kept_document, JP_NO_LIMIT, &node, &it->report);
        take(it, &node.path);
    } while (node.path.length > 0 && cursor.given < 5);
}

static void first(struct asked *it) {
    struct jp_node node;
    it->status = jp_first(&it->kept_query, it->document.at, it->document.length, JP_NO_LIMIT, &node, &it->report);
    take(it, &node.path);
}

static void exists(struct asked *it) {
    uint32_t exists;
    it->status = jp_exists(&it->kept_query, it->document.at, it->document.length, JP_NO_LIMIT, &exists, &it->report);
}

/* The three after one another, so that one thread has both handles. */
static void keep_and_ask(struct asked *it) {
    query_new(it);
    if (it->status == JP_DONE) {
        document_new(it);
    }
    if (it->status == JP_DONE) {
        ask_document(it);
    }
}

static void clear(struct asked *it) {
    jp_clear(&it->kept_query);
    it->report = (struct jp_report){it->kept_query.full ? JP_NO_STACK : JP_DONE, 0, 0, 0, 0};
    it->status = it->report.status;
}

static void kind_name(struct asked *it) {
    it->status = jp_kind_name(JP_QUERY_REFUSED, JP_SYNTAX, it->out.at, it->out.length, &it->report);
}

/* The calls, and the stack of the thread that fills their handles. One with room does not count how deep a
 * document is. Last, how many levels a call does for on a thread with 128 KiB: of lists, and of filters in a query. An
 * explanation counts brackets that may be mended. 0 where the levels do not decide, or a document was not counted. */
static const struct {
    const char *name;
    void (*call)(struct asked *);
    size_t filled_on, levels;
} calls[] = {
    {"jp_eval", eval, HERE, 18},
    {"jp_eval_many", eval_many, HERE, 18},
    {"jp_canon", canon, HERE, 24},
    {"jp_check", check, HERE, 24},
    {"jp_explain", explain, HERE, 16},
    {"jp_explain_document", explain_document, HERE, 18},
    {"jp_query_new", query_new, HERE, 24},
    {"jp_document_new", document_new, HERE, 18},
    {"jp_ask", ask_kept, HERE, 18},
    {"jp_ask_document", ask_document, HERE, 0},
    {"jp_ask_document of what was counted", ask_document, 672 * KIB, 0},
    {"jp_first", first, HERE, 18},
    {"jp_exists", exists, HERE, 18},
    {"jp_next", next_nodes, HERE, 0},
    {"the calls with handles", keep_and_ask, HERE, 18},
    {"jp_clear", clear, HERE, 24},
    {"jp_kind_name", kind_name, HERE, 0},
};

#define CALLS (sizeof calls / sizeof calls[0])

static void *start(void *given) {
    struct asked *asked = given;
    asked->call(asked);
    return NULL;
}

/* Makes the call on a thread with so much stack, and gives how many bytes of it were never written. */
static size_t call_within(size_t size, struct asked *asked) {
    pthread_attr_t attributes;
    pthread_t thread;
    size_t untouched = 0;
    if (size == HERE) {
        asked->call(asked);
        return 0;
    }
    /* A page before the stack, so that to leave it ends the test. */
    uint8_t *memory = mmap(NULL, size + 4 * KIB, PROT_READ | PROT_WRITE, MAP_PRIVATE | MAP_ANONYMOUS, -1, 0);
    uint8_t *stack = memory + 4 * KIB;
    if (memory == MAP_FAILED || mprotect(memory, 4 * KIB, PROT_NONE) != 0) {
        abort();
    }
    memset(stack, PAINT, size);
    pthread_attr_init(&attributes);
    if (pthread_attr_setstack(&attributes, stack, size) != 0
        || pthread_create(&thread, &attributes, start, asked) != 0) {
        abort();
    }
    pthread_join(thread, NULL);
    pthread_attr_destroy(&attributes);
    while (untouched < size && stack[untouched] == PAINT) {
        untouched += 1;
    }
    munmap(memory, size + 4 * KIB);
    return untouched;
}

/* A text: what stands before, and so many times each the second and the fourth part. */
struct made {
    const char *parts[5];
    size_t times;
};

struct row {
    const char *name;
    struct made query, document;
    uint32_t profile;
};

static struct text text_of(const struct made *made) {
    size_t length = 0, end = 0;
    for (size_t at = 0; at < 5; at += 1) {
        length += strlen(made->parts[at]) * (at % 2 == 0 ? 1 : made->times);
    }
    uint8_t *text = malloc(length + 1);
    for (size_t at = 0; at < 5; at += 1) {
        size_t once = strlen(made->parts[at]);
        for (size_t time = 0; time < (at % 2 == 0 ? 1 : made->times); time += 1) {
            memcpy(text + end, made->parts[at], once);
            end += once;
        }
    }
    return (struct text){text, length};
}

static struct asked ask(const struct row *row) {
    struct asked asked = {text_of(&row->query),
                          text_of(&row->document),
                          {malloc(ROOM), ROOM},
                          row->profile,
                          9,
                          {9, 9, 9, 9, 9},
                          JP_EMPTY,
                          JP_EMPTY,
                          NULL};
    return asked;
}

static void forget(struct asked *asked) {
    free(asked->query.at);
    free(asked->document.at);
    free(asked->out.at);
}

static void keep(struct asked *it) {
    query_new(it);
    document_new(it);
}

/* Makes the call of a row on a thread with so much stack, with handles that another has filled. Gives how
 * many bytes of the stack were never written. */
static size_t call_for(const struct row *row, size_t call, size_t size, struct asked *asked) {
    *asked = ask(row);
    asked->call = keep;
    call_within(calls[call].filled_on, asked);
    asked->report = (struct jp_report){9, 9, 9, 9, 9};
    const struct jp_handle query = asked->kept_query, document = asked->kept_document;
    memset(asked->out.at, '#', asked->out.length);
    asked->call = calls[call].call;
    const size_t untouched = call_within(size, asked);
    if (asked->status == JP_NO_STACK && asked->call != keep_and_ask) {
        expect(query.at == asked->kept_query.at && document.at == asked->kept_document.at,
               "handles as they were", row->name, calls[call].name, size);
    }
    jp_clear(&asked->kept_query);
    jp_clear(&asked->kept_document);
    expect(!asked->kept_query.full && !asked->kept_document.full, "empty handles", row->name, "jp_clear", size);
    return untouched;
}

/* Whether the call answers on so much stack, which then is what it answers with room. */
static int is_answered(const struct row *row, size_t call, size_t size, const struct asked *expected) {
    static const struct jp_report refused = {JP_NO_STACK, 0, 0, 0, 0};
    struct asked asked;
    const size_t untouched = call_for(row, call, size, &asked);
    const int is_answered = asked.status != JP_NO_STACK;
    const struct jp_report *report = is_answered ? &expected->report : &refused;
    expect(memcmp(&asked.report, report, sizeof refused) == 0, "the report", row->name, calls[call].name, size);
    if (is_answered) {
        expect(memcmp(asked.out.at, expected->out.at, ROOM) == 0, "the text", row->name, calls[call].name, size);
        expect(untouched + 1 > SPARED, "stack left over", row->name, calls[call].name, size);
    } else if (calls[call].call != keep_and_ask) {
        expect(asked.out.at[0] == '#', "a buffer left alone", row->name, calls[call].name, size);
    }
    forget(&asked);
    return is_answered;
}

/* The least stack on which the call answers. */
static size_t least(const struct row *row, size_t call) {
    size_t low = SMALLEST, high = 1024 * KIB;
    struct asked expected;
    call_for(row, call, HERE, &expected);
    expect(is_answered(row, call, high, &expected), "an answer with 1 MiB", row->name, calls[call].name, high);
    if (is_answered(row, call, low, &expected)) {
        high = low;
    }
    while (high - low > STEP) {
        size_t middle = (low + high) / 2 / STEP * STEP;
        if (is_answered(row, call, middle, &expected)) {
            high = middle;
        } else {
            low = middle;
        }
    }
    forget(&expected);
    return high;
}

#define ONE(text)                 \
    {                             \
        {text, "", "", "", ""}, 0 \
    }
#define NESTED(before, open, inside, close, after, times) \
    {                                                     \
        {before, open, inside, close, after}, times       \
    }
#define LISTS NESTED("", "[", "", "]", "", 127)

/* The deepest of their kinds, and what is refused in the depth. */
static const struct row deep[] = {
    {"filters", NESTED("$", "[?@", "", "]", "", 128), LISTS, 0},
    {"filters with parts", NESTED("$", "[?@.a||@&&!@", "", "]", "", 128), NESTED("", "[", "", "]", "", 126), 0},
    {"filters from the root", NESTED("$", "[?@.a||@&&!$", "", "]", "", 128), LISTS, 0},
    {"filters in parentheses", NESTED("$", "[?@.a||@&&!(@.b||@&&!@", "", ")]", "", 64), LISTS, 0},
    {"parentheses", NESTED("$[?", "(@.b||@&&!", "@", ")", "]", 127), ONE("[1]"), 0},
    {"calls in calls", NESTED("$[?", "length(", "@", ")", "==@.a]", 127), ONE("[[]]"), 0},
    {"counts", NESTED("$[?", "count(@[?", "1==1", "])==1", "]", 63), LISTS, 0},
    {"values", NESTED("$[?", "value(@[?1==1,?", "1==1", "])==1", "]", 8), LISTS, 0},
    {"counts of all ways", NESTED("$[?", "count(@..[?", "1==1", "])==1", "]", 2), LISTS, 0},
    {"distinct nodes", NESTED("$[?", "count(distinct(@[?", "1==1", "]))==1", "]", 42), LISTS, 1},
    {"calls of distinct", NESTED("$[?", "distinct(", "@", ")", "]", 127), ONE("[1]"), 1},
    {"open filters", NESTED("$", "[?@", "", "", "", 20000), ONE("[]"), 0},
    {"open calls", NESTED("$[?", "f(", "", "", "", 20000), ONE("[]"), 0},
    {"open parentheses", NESTED("$[?", "(", "", "", "", 20000), ONE("[]"), 0},
    {"comparisons as arguments", NESTED("$[?", "f(@&&1==", "1", ")", "]", 127), ONE("[]"), 0},
    {"all parts as arguments", NESTED("$[?", "f(@||@&&1==", "@", ")", "]", 127), ONE("[]"), 0},
    {"all parts of calls", NESTED("$[?", "@||@&&1==f(", "1==1", ")", "]", 127), ONE("[]"), 0},
    {"slips", NESTED("$[?@.a=1&&", "(@.b=1&&", "@.c='", ")", "']", 127), ONE("[]"), 0},
    {"lists", ONE("$..*"), LISTS, 0},
    {"objects", ONE("$..*"), NESTED("", "{\"b\":1,\"a\":", "1", "}", "", 127), 0},
    {"a number that is not whole", ONE("$"), NESTED("", "{\"a\":", "1.5", "}", "", 127), 0},
    {"numbers that give way", ONE("$"), NESTED("", "{\"a\":1.5,\"a\":", "1", "}", "", 127), 0},
    {"numbers that give way in lists", ONE("$.a"), NESTED("", "[{\"a\":1.5,\"a\":", "1", "}]", "", 63), 0},
    {"a value at a location", NESTED("$", ".a", "", "", "", 126), NESTED("", "{\"a\":", "1", "}", "", 127), 0},
    {"decimals", ONE("$..[?@>0.5]"), NESTED("", "{\"b\":1.5,\"a\":", "1e400", "}", "", 127), 2},
    {"decimals in lists", ONE("$..[?@==$.a]"), NESTED("", "[{\"a\":1.5,\"a\":", "0.1", "}]", "", 63), 3},
    {"a number beyond decimals", ONE("$"), NESTED("", "{\"a\":", "1e1000001", "}", "", 127), 2},
    {"a decimal at a location", NESTED("$", ".a", "", "", "", 126), NESTED("", "{\"a\":", "0.1", "}", "", 127), 2},
    {"open lists of decimals", ONE("$"), NESTED("", "[0.5,", "", "", "", 50000), 2},
    {"open lists", ONE("$"), NESTED("", "[", "", "", "", 50000), 0},
    {"open objects", ONE("$"), NESTED("", "{\"a\":", "", "", "", 50000), 0},
    {"compared objects", ONE("$[?@==$.a]"), NESTED("", "{\"a\":", "1", "}", "", 127), 0},
    {"a pattern", ONE("$[?match('a',@)]"), ONE("[\"a\",\"[^b]\"]"), 0},
    {"groups", ONE("$[?match('a',@)]"), NESTED("[\"", "(b|", "a", ")*", "\"]", 64), 0},
    {"too many groups", ONE("$[?match('a',@)]"), NESTED("[\"", "(", "a", ")", "\"]", 20000), 0},
    {"escaped groups", ONE("$[?search('a',@)]"), NESTED("[\"", "\\u0028", "a", ")", "\"]", 64), 0},
    {"groups of a query", NESTED("$[?match(@,'", "([\\\\p{Lu}]|", "a", ")*", "')]", 64), ONE("[\"a\"]"), 0},
    {"all of it", NESTED("$", "[?match('a',@)||@==$||!@", "", "]", "", 128),
     NESTED("[\"((((((((((((((((((((((((((((((((a))))))))))))))))))))))))))))))))\",", "[", "", "]", "]", 126), 0},
};

/* What is long and not deep. An explanation counts all brackets, since it reads mended texts. */
static const struct row wide[] = {
    {"a short query", ONE("$.a"), ONE("{\"a\":1}"), 0},
    {"many segments", NESTED("$", "['a'][?@.b]", "", "", "", 5000), ONE("{\"a\":1}"), 0},
    {"a string of brackets", NESTED("$['", "[", "", "", "']", 5000), ONE("{\"a\":1}"), 0},
    {"many lists", ONE("$.a"), NESTED("{\"a\":[", "[],", "1", "", "]}", 5000), 0},
    {"many strings of brackets", ONE("$.a"), NESTED("[", "\"\\\"[[(\",", "1", "", "]", 5000), 0},
};

/* What docs/EMBED.md says of a thread with 128 KiB, as one of musl has: so many levels, and not two more. */
static void try_small_threads(void) {
    for (size_t call = 0; call < CALLS; call += 1) {
        for (size_t more = 0; calls[call].levels > 0 && more <= 2; more += 2) {
            const size_t levels = calls[call].levels + more;
            const struct row row = {"a small thread", NESTED("$", "[?@", "", "]", "", levels),
                                    NESTED("", "[", "", "]", "", levels), 0};
            struct asked expected;
            call_for(&row, call, HERE, &expected);
            expect(is_answered(&row, call, 128 * KIB, &expected) == (more == 0), "as many levels as are told", row.name,
                   calls[call].name, levels);
            forget(&expected);
        }
    }
}

/* On a stack that is not the thread's own no call is refused. AddressSanitizer doubts such stacks. */
#ifndef __SANITIZE_ADDRESS__
static ucontext_t returning;
static struct asked elsewhere;

static void call_elsewhere(void) {
    eval(&elsewhere);
}

static void try_elsewhere(void) {
    ucontext_t context;
    void *stack = malloc(JP_STACK);
    elsewhere = ask(&deep[1]);
    getcontext(&context);
    context.uc_stack.ss_sp = stack;
    context.uc_stack.ss_size = JP_STACK;
    context.uc_link = &returning;
    makecontext(&context, call_elsewhere, 0);
    swapcontext(&returning, &context);
    expect(elsewhere.status == JP_DONE, "an answer", deep[1].name, "a coroutine", JP_STACK);
    free(stack);
    forget(&elsewhere);
}

#endif

static void try_row(const struct row *row, size_t sizes[CALLS]) {
    for (size_t call = 0; call < CALLS; call += 1) {
        sizes[call] = least(row, call);
        if (getenv("JP_SHOW") != NULL) {
            printf("%s: %s needs %zu KiB\n", row->name, calls[call].name, sizes[call] / KIB);
        }
    }
}

int main(void) {
    size_t of_short[CALLS], sizes[CALLS];
    for (size_t at = 0; at < sizeof deep / sizeof deep[0]; at += 1) {
        try_row(&deep[at], sizes);
    }
    try_row(&wide[0], of_short);
    for (size_t at = 1; at < sizeof wide / sizeof wide[0]; at += 1) {
        try_row(&wide[at], sizes);
        for (size_t call = 0; call < CALLS; call += 1) {
            expect(sizes[call] <= of_short[call] + 16 * KIB || calls[call].call == explain, "as little stack", wide[at].name, calls[call].name, sizes[call]);
        }
    }
    try_small_threads();
#ifndef __SANITIZE_ADDRESS__
    try_elsewhere();
#endif
    return failures == 0 ? 0 : 1;
}
