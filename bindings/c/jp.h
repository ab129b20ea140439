/* jp: JSONPath queries (RFC 9535) over JSON documents, for C and C++.
 *
 * Each call takes bytes and numbers and gives a status. It writes the text that is asked for to the
 * start of the buffer `out` if there is room for the whole of it, and else leaves the buffer as it
 * was; `report->length` is the text's length in either case. So a caller that got too little calls
 * again with a buffer of that length. No text ends with a zero byte.
 *
 * What the caller owes, which nothing checks:
 * - No pointer is null, not even where the length beside it is 0: give the address of some byte.
 * - Each pointer is to as many bytes as the length beside it says, below 2^63. The query and the
 *   document may be read, and the buffer and the reports written, by no one else meanwhile. The
 *   buffer and the reports overlap nothing, and each is aligned as its type is.
 * - `malloc`, `realloc` and `free` of the program are of one allocator and align to 16 bytes.
 * - No call from a signal handler. In the forked child of a process that has threads, calls are made only where
 *   `malloc` may be called there, as it may with the GNU C library, and with no handle that a thread's call had
 *   in use at the fork.
 * - JP_STACK bytes of stack on a stack that is not the thread's own, as that of a coroutine. The limit of
 *   the main thread's stack is not lowered after its first call.
 *
 * A call looks first at how much the thread's own stack has left. Where that may be too little its
 * status is JP_NO_STACK, and it has done nothing: buffers and handles are as they were. What it needs
 * goes by how deep the query and the document are, and is never more than JP_STACK.
 *
 * Calls share nothing: they may be made at once from any threads. What was allocated for a call is
 * freed when it returns, but for what a handle keeps.
 *
 * A query has to be UTF-8, as has a document. Of numbers none is rounded. In the profiles JP_STANDARD and JP_EXTENDED
 * those of a query and of its documents are whole, of 64 bits; in JP_DECIMAL and JP_EXTENDED_DECIMAL they are exact
 * decimals of at most 38 digits, as 8.95 or 1e400. A handle keeps a document with the numbers of the profile that it was
 * read in, and a query of a profile with other numbers is not asked of it.
 *
 * A query and a document may have any length for which there is memory: the limits of the program
 * jp, 1 MiB and 16 MiB, are not those of a call. A document of 2^32 bytes or more is refused as
 * JP_DOCUMENT_TOO_LARGE and not read. Documents nest 127 levels deep, queries 128.
 */
#ifndef JP_H
#define JP_H

#include <stddef.h>
#include <stdint.h>

#ifdef __cplusplus
extern "C" {
#endif

/* 65536 times the major number, 256 times the minor one, and the patch. */
#define JP_VERSION 0x000100

/* As many bytes of stack as any call may need. */
#define JP_STACK 737280

/* Some queries take years over a document of a few bytes. So a call that evaluates takes a limit of
 * steps, which count its work; docs/QUERIES.md says what a step is. Others give many times the bytes of the
 * document. So a call that gives all nodes takes a limit of nodes and bytes too. */
#define JP_NO_LIMIT 0

/* Made from bindings/numbers.json by `.ci/numbers --write`. */

/* Statuses, as the program jp ends with them, but for those from 7 on, which it has not. */
enum {
    JP_DONE = 0,             /* there is an answer */
    JP_QUERY_REFUSED = 1,    /* the report has its kind and its place */
    JP_USAGE = 2,            /* a number stands for nothing, or a handle keeps no such thing */
    JP_DOCUMENT_REFUSED = 3, /* the report has its kind */
    JP_NO_MEMORY = 4,        /* memory ran out */
    JP_NO_STACK = 7,         /* the thread's stack has too little left, and nothing was done */
    JP_TOO_MANY_NODES = 8,   /* there are more nodes than the limit */
    JP_TOO_MANY_BYTES = 9,   /* the lines of the nodes have more bytes than the limit */
    JP_STEPS_USED_UP = 10,   /* the evaluation needs more steps than the limit */
    JP_OTHER_NUMBERS = 11    /* the kept document was not read with the numbers of the query's profile */
};

/* What is written of each node, with a newline after it. */
enum {
    JP_VALUES = 0, /* the compact text of the value, which has no newline */
    JP_PATHS = 1,  /* the normalized path (RFC 9535, section 2.7), which has no newline and no tab */
    JP_BOTH = 2    /* the normalized path, a tab, and the compact text of the value */
};

/* Which functions a query may call, and which numbers it and its documents have. */
enum {
    JP_STANDARD = 0,        /* the functions of RFC 9535, and whole numbers of 64 bits */
    JP_EXTENDED = 1,        /* also `distinct`, and whole numbers */
    JP_DECIMAL = 2,         /* the functions of RFC 9535, and exact decimals of at most 38 digits */
    JP_EXTENDED_DECIMAL = 3 /* also `distinct`, and exact decimals */
};

/* The parts of why a query is refused. */
enum {
    JP_EXPLANATION = 0, /* all of it, each line with a newline at its end */
    JP_SENTENCE = 1,    /* why the query is refused */
    JP_SUGGESTION = 2   /* a query that is accepted */
};

/* The parts of why a document is refused. */
enum {
    JP_DOCUMENT_LINE = 0,     /* all of it: the place, the sentence, and a newline */
    JP_DOCUMENT_SENTENCE = 1, /* why the bytes are no document */
    JP_DOCUMENT_REASON = 2    /* the reason's name, as "TrailingComma", in ASCII */
};

/* Kinds of a query's refusal, in `report->kind` where the status is JP_QUERY_REFUSED. */
enum {
    JP_SYNTAX = 1,           /* no query begins with the text up to the place and the character there */
    JP_TOO_DEEP = 2,         /* more than 128 levels inside one another */
    JP_NOT_WHOLE = 3,        /* a literal with a fraction or an exponent */
    JP_NUMBER_RANGE = 4,     /* a literal outside -(2^63) to (2^64)-1, or of decimals one that is too much for one */
    JP_INDEX_RANGE = 5,      /* an index or a part of a slice outside -(2^53)+1 to (2^53)-1 */
    JP_UNKNOWN_FUNCTION = 6, /* no function of the profile has that name */
    JP_ARGUMENT_COUNT = 7,   /* a call with too many arguments or too few */
    JP_NOT_SINGULAR = 8,     /* a query that stands for one value and is not singular */
    JP_ILL_TYPED = 9         /* a call or an argument that does not fit what is wanted */
};

/* What is wrong with a document, in `report->kind` where the status is JP_DOCUMENT_REFUSED. */
enum {
    JP_NOT_JSON = 1,              /* no JSON, no UTF-8, or deeper than 127 levels */
    JP_NUMBER_NOT_WHOLE = 2,      /* the text is the normalized path of the first number that is not */
    JP_LIST_TOO_LONG = 3,         /* more than (2^53)-1 items */
    JP_NUMBER_BEYOND_DECIMAL = 5, /* the text is the normalized path of the first number that is too much for a decimal */
    JP_DOCUMENT_TOO_LARGE = 6     /* 2^32 bytes or more */
};

/* Up to here. */

struct jp_report {
    uint32_t status; /* also what the call gives */
    uint32_t kind;   /* of the refusal, else 0 */
    size_t place;    /* the byte at which the query or the document is refused, from 0, else 0 */
    size_t length;   /* how many bytes the text has, else 0 */
    uint64_t steps;  /* how many steps the evaluation made, at most the limit; 0 where there was none */
};

/* Where bytes that are no document go wrong. Where they are one, or nothing is told, all three are 0. */
struct jp_place {
    size_t offset; /* the byte, from 0: as many as there are where they end too early */
    size_t line;   /* the number of its line, from 1 */
    size_t column; /* its column in that line, in characters from 1 */
};

/* The most that a call may do and give; of each 0 is no limit. Whichever is reached first on the way through the
 * nodes, one after another, is told, and nothing is given in part: JP_STEPS_USED_UP before a node is found,
 * JP_TOO_MANY_NODES when it is found, before its line is made, and JP_TOO_MANY_BYTES behind its line. So no
 * more than one line stands in memory behind those that the limit is for. */
struct jp_limit {
    uint64_t steps; /* of the evaluation */
    uint64_t nodes; /* that are asked for, if there are so many */
    uint64_t bytes; /* of the lines of these nodes together, with a newline each */
};

/* clang-format off */
#define JP_UNLIMITED {0, 0, 0}
/* clang-format on */

/* The version of the library. */
uint32_t jp_version(void);

/* A line for each node that the query selects in the document, in the nodelist's order; no text
 * where it selects none. The query is read first, and then the document, with the numbers of the profile. Where the
 * query names one location, as $.a[0] does, it is answered while the document is read, makes no steps, and keeps to
 * the limit of bytes. A document that is refused is read once more, for its place; where there is no memory for that
 * the status is JP_NO_MEMORY. */
uint32_t jp_eval(const uint8_t *query, size_t query_length,
                 const uint8_t *document, size_t document_length,
                 uint32_t form, uint32_t profile, const struct jp_limit *limit,
                 uint8_t *out, size_t out_length, struct jp_report *report);

/* One of many queries: the bytes of the queries' text from its start on, as many as its size says. */
struct jp_question {
    size_t start;
    size_t size;
    struct jp_report report; /* which the call fills as jp_eval does, whatever it was */
};

/* Many queries over one document, which is read once for all of them, and where it is refused once more, for
 * its place. Only where memory ran out is it read again for a query.
 * Each question is answered in turn by its own report, also where others are refused. What the reports
 * tell of are texts that stand one after another: a question's begins where the lengths of those before
 * it end. `out` gets all of them if there is room for all, and else is left as it was. Gives how many
 * bytes they have together. A query that the text of the queries ends before is what is there of it.
 * Each question has the whole limit. Where one of them asks for more stack than is left, each report is
 * JP_NO_STACK. */
size_t jp_eval_many(const uint8_t *queries, size_t queries_length,
                    struct jp_question *questions, size_t questions_length,
                    const uint8_t *document, size_t document_length,
                    uint32_t form, uint32_t profile, const struct jp_limit *limit,
                    uint8_t *out, size_t out_length);

/* The canonical text of a query, in which each query has one spelling; no newline after it. */
uint32_t jp_canon(const uint8_t *query, size_t query_length, uint32_t profile,
                  uint8_t *out, size_t out_length, struct jp_report *report);

/* JP_DONE where the query is accepted. There is no text. */
uint32_t jp_check(const uint8_t *query, size_t query_length, uint32_t profile,
                  struct jp_report *report);

/* Why a query is refused, told to whoever typed it: the line of the query that holds the place, as a
 * terminal shows it, a caret below the character at the place, a sentence, and, where it is plain what was
 * meant, `Try: ` and a query that is accepted; or the sentence or that query alone, with no newline after
 * it. The status is JP_DONE, also where there is no text: of a query that is accepted or is no UTF-8, and of
 * a suggestion that there is not. What sentences say, and what is suggested, may change. */
uint32_t jp_explain(const uint8_t *query, size_t query_length, uint32_t profile, uint32_t part,
                    uint8_t *out, size_t out_length, struct jp_report *report);

/* Why bytes are no document with the numbers of the profile, and where: the place of the first wrong byte, and as text
 * the part that is asked for. The status is JP_DONE, also where there is no text and no place, since they are a
 * document. It is JP_DOCUMENT_REFUSED of 2^32 bytes or more, which are not read. The names of
 * reasons stay, and new ones may come; what sentences say may change. Of JSON Lines, where each line is a document,
 * the reason is AfterValue: ask a query of each line, by jp_ask. */
uint32_t jp_explain_document(const uint8_t *document, size_t document_length, uint32_t profile, uint32_t part,
                             struct jp_place *place,
                             uint8_t *out, size_t out_length, struct jp_report *report);

/* The name of a kind that a report has beside its status, as "Syntax" or "NotJson", in ASCII. JP_USAGE where
 * there is no such kind. */
uint32_t jp_kind_name(uint32_t status, uint32_t kind,
                      uint8_t *out, size_t out_length, struct jp_report *report);

/* What is kept from one call to the next: a query or a document, or nothing, as of JP_EMPTY. A handle
 * that keeps nothing, or the other of the two, is JP_USAGE where it is asked of, and no harm.
 *
 * What the caller owes of a handle, beside what it owes of each pointer:
 * - It is JP_EMPTY, or all bytes 0, before its first call, and no one but these calls changes it.
 * - It may be moved, but of two copies only one is used from then on.
 * - No two calls use it at once, and the two handles of one call are not the same.
 * - jp_clear frees what it keeps; nothing else does when it is forgotten. */
struct jp_handle {
    void *at;
    unsigned char full;
    unsigned char depth[3]; /* how deep that is, by which calls know how much stack they need */
};

/* clang-format off */
#define JP_EMPTY {0, 0, {0, 0, 0}}
/* clang-format on */

/* Keeps the query, with its profile, in place of what the handle kept. The report and the status are those of
 * jp_check; where they are not JP_DONE the handle keeps nothing, but after JP_NO_STACK what it kept. */
uint32_t jp_query_new(const uint8_t *query, size_t query_length, uint32_t profile,
                      struct jp_handle *handle, struct jp_report *report);

/* Keeps the document, read with the numbers of the profile, in place of what the handle kept. It is asked by queries of
 * each profile with these numbers. Nothing points to its bytes afterwards. Where the status is not JP_DONE the handle
 * keeps nothing, but after JP_NO_STACK what it kept; the buffer is for the path of a number that is not whole, or too
 * much for a decimal. */
uint32_t jp_document_new(const uint8_t *document, size_t document_length, uint32_t profile,
                         struct jp_handle *handle,
                         uint8_t *out, size_t out_length, struct jp_report *report);

/* A text that a handle lends. It may be read, and not written, until the next call with that handle. Where
 * the length is 0 there is nothing at `start`. */
struct jp_text {
    const uint8_t *start;
    size_t length;
};

/* All nodes, where a call is told how many are asked for. */
#define JP_ALL 0

/* Asks the query that the handle keeps of a document. The text, which the handle lends, is what jp_eval writes in
 * the query's profile: of the nodes behind the first `from` ones all, or as many as `count` says, with which the
 * evaluation stops. So 0 and 1 ask for the first node, and whether there is one: without one there is no text. Where
 * a document is refused for a number, its path is lent. The handle keeps the memory that a call takes, so that the
 * next takes none where it needs no more. */
uint32_t jp_ask(struct jp_handle *query, const uint8_t *document, size_t document_length,
                uint32_t form, uint64_t from, uint64_t count, const struct jp_limit *limit,
                struct jp_text *text, struct jp_report *report);

/* The same of the document that another handle keeps. Both keep what they keep; the text is lent by the
 * query's. JP_OTHER_NUMBERS where the document was not read with the numbers of the query's profile: keep one of them
 * in a profile of the other's numbers. */
uint32_t jp_ask_document(struct jp_handle *query, struct jp_handle *document,
                         uint32_t form, uint64_t from, uint64_t count, const struct jp_limit *limit,
                         struct jp_text *text, struct jp_report *report);

/* A node, in texts that a query's handle lends: its normalized path and the compact text of its value. Where
 * there is none both lengths are 0, which they are of no node. */
struct jp_node {
    struct jp_text path;
    struct jp_text value;
};

/* This call and those below take a limit of steps alone, or JP_NO_LIMIT.
 *
 * Asks the query that the handle keeps for its first node in a document, with which the evaluation stops.
 * `report->length` is that of both texts together. Where a document is refused for a number, its path is
 * lent. */
uint32_t jp_first(struct jp_handle *query, const uint8_t *document, size_t document_length, uint64_t limit,
                  struct jp_node *node, struct jp_report *report);

/* The same, where no more is asked than whether there is a node: `exists` is 1, or else 0. */
uint32_t jp_exists(struct jp_handle *query, const uint8_t *document, size_t document_length, uint64_t limit,
                   uint32_t *exists, struct jp_report *report);

/* Where someone stands among the nodes that a query selects in a document. It is JP_START before its first
 * call, and is forgotten at any time: it has no memory of its own. */
struct jp_cursor {
    uint64_t given;       /* how many nodes were given */
    uint64_t asked;       /* how many were asked for, up to the end of the page */
    struct jp_text lines; /* what is left of the page */
    uint64_t steps;       /* how many steps its evaluations made */
    uint64_t known;       /* how many the dearest of them made */
    uint64_t page;        /* how many the page took, or the next one needs more than */
};

/* clang-format off */
#define JP_START {0, 0, {0, 0}, 0, 0, 0}
/* clang-format on */

/* The next of the nodes that the query of one handle selects in the document of the other, in the nodelist's
 * order; none after the last. While a cursor is in use no other call uses its query's handle, and the
 * document's keeps what it keeps.
 *
 * A cursor asks jp_ask_document for pages of nodes, as docs/EMBED.md says (One node after another), which also
 * bounds the steps of all its calls together. No evaluation makes more steps than the limit. A call reports the
 * steps of its own evaluations, and most make none. JP_STEPS_USED_UP says that all nodes need more steps than the
 * limit; the next ones may need fewer. Where the status is not JP_DONE the cursor stands where it stood, and may be
 * asked again, with a higher limit. */
uint32_t jp_next(struct jp_cursor *cursor, struct jp_handle *query, struct jp_handle *document, uint64_t limit,
                 struct jp_node *node, struct jp_report *report);

/* The same for all nodes that are left of a page, or else those of the next one: their lines, as jp_ask_document lends
 * them for JP_BOTH. There are none after the last. Whoever copies them may use the handles for other calls, and ask
 * with another handle that keeps the query. */
uint32_t jp_next_page(struct jp_cursor *cursor, struct jp_handle *query, struct jp_handle *document, uint64_t limit,
                      struct jp_text *lines, struct jp_report *report);

/* A step of a normalized path: a name, or, where `name.start` is null, an index. */
struct jp_step {
    struct jp_text name; /* as the path spells it, between its quotation marks */
    uint64_t index;
};

/* The next step of a normalized path, as calls give it. `at` is 0 before the first, and then where the next
 * one stands. Gives 1, or 0 where there is no more. */
uint32_t jp_next_step(const struct jp_text *path, size_t *at, struct jp_step *step);

/* Writes the name that a path spells so, and gives its length, which is no more than the spelling's. The buffer
 * has room for that. */
size_t jp_name(const struct jp_text *name, uint8_t *out);

/* Writes the JSON Pointer (RFC 6901) to the node of a normalized path, as calls give it, if there is room for the whole
 * of it, and else leaves the buffer as it was. Gives the pointer's length in either case: 0 for the root, and less than
 * twice the path's. */
size_t jp_pointer(const struct jp_text *path, uint8_t *out, size_t out_length);

/* Frees what the handle keeps, if anything. It then keeps nothing, and may be filled or cleared again.
 * Where the thread's stack has too little left for it, nothing is done, and `full` is not 0 still. */
void jp_clear(struct jp_handle *handle);

#ifdef __cplusplus
}
#endif

#endif
