/* Calls of jp.h over the proved ones: the first node, whether there is one, and one node after another. What is
 * asked for is lines of nodes, each of a path, a tab, a value and a newline, and these calls cut them.
 *
 * No walk through a document outlives a call, so a cursor asks for pages, each in an evaluation that passes over the
 * nodes before it. `steps` are those of all its evaluations, and `known` those of the dearest. One evaluation of all
 * nodes needs at least as many as that: what finds the first nodes does a part of what finds all, and where steps are
 * used up all nodes need more. The rule keeps `steps` within twice `known`:
 *
 * - The first evaluation is for one node, which so costs what it costs alone.
 * - One for all nodes that are left may make four times `steps`. Where these are used up, `steps` is five times what
 *   it was and `known` four times.
 * - One for the next page, which has one node more than were given, may make what is missing to twice `known`.
 *
 * The last evaluation needs no more than one of all nodes. So all of them make at most three times as many steps as
 * that one, wherever the nodes stand; and where the caller has a limit, three times that.
 */
#include "jp.h"

#include <string.h>

static const struct jp_node no_node = {{0, 0}, {0, 0}};

/* Takes the first line off the lines. */
static struct jp_node take_line(struct jp_text *lines) {
    const uint8_t *start = lines->start;
    const uint8_t *tab = memchr(start, '\t', lines->length);
    const size_t path = (size_t)(tab - start), rest = lines->length - path - 1;
    const uint8_t *end = memchr(tab + 1, '\n', rest);
    const size_t value = (size_t)(end - tab - 1);
    *lines = (struct jp_text){end + 1, rest - value - 1};
    return (struct jp_node){{start, path}, {tab + 1, value}};
}

/* The first node of the lines, if there is any, whose length the report has. */
static struct jp_node first_of(struct jp_text *lines, struct jp_report *report) {
    const struct jp_node node = lines->length == 0 ? no_node : take_line(lines);
    report->length = node.path.length + node.value.length;
    return node;
}

/* A limit of steps alone. */
static struct jp_limit steps_alone(uint64_t steps) {
    return (struct jp_limit){steps, 0, 0};
}

uint32_t jp_first(struct jp_handle *query, const uint8_t *document, size_t document_length, uint64_t limit,
                  struct jp_node *node, struct jp_report *report) {
    struct jp_text lines = {NULL, 0};
    const struct jp_limit most = steps_alone(limit);
    const uint32_t status = jp_ask(query, document, document_length, JP_BOTH, 0, 1, &most, &lines, report);
    *node = status == JP_DONE ? first_of(&lines, report) : (struct jp_node){lines, {0, 0}};
    return status;
}

uint32_t jp_exists(struct jp_handle *query, const uint8_t *document, size_t document_length, uint64_t limit,
                   uint32_t *exists, struct jp_report *report) {
    struct jp_text path = {NULL, 0};
    const struct jp_limit most = steps_alone(limit);
    const uint32_t status = jp_ask(query, document, document_length, JP_PATHS, 0, 1, &most, &path, report);
    *exists = status == JP_DONE && path.length > 0;
    report->length = status == JP_DONE ? 0 : report->length;
    return status;
}

/* How many nodes an evaluation is asked for, and how many steps it may make; 0 where it is not to be made. */
struct run {
    uint64_t count;
    uint64_t limit;
};

static uint64_t smaller(uint64_t one, uint64_t other) {
    return one < other ? one : other;
}

/* The next evaluation of a cursor's, of which none may make more than so many steps. */
static struct run next_run(const struct jp_cursor *cursor, uint64_t most) {
    const uint64_t left = smaller(2 * cursor->known - cursor->steps, most);
    if (cursor->steps == 0) {
        return (struct run){cursor->given + 1, most};
    }
    if (left > cursor->page) {
        return (struct run){cursor->given + 1, left};
    }
    return (struct run){JP_ALL, cursor->known < most ? smaller(4 * cursor->steps, most) : 0};
}

/* Notes what an evaluation told, which gave a page or used up its steps. */
static void note_run(struct jp_cursor *cursor, struct run run, const struct jp_report *report) {
    cursor->known = report->steps > cursor->known ? report->steps : cursor->known;
    /* More than that are made where the caller's limit is below four times the steps, and not counted. */
    cursor->steps = smaller(cursor->steps + report->steps, 2 * cursor->known);
    if (report->status == JP_DONE || run.count != JP_ALL) {
        cursor->page = report->steps;
    }
    if (report->status == JP_DONE) {
        cursor->asked = run.count == JP_ALL ? UINT64_MAX : cursor->given + run.count;
    }
}

/* Asks for the next page. */
static uint32_t turn_page(struct jp_cursor *cursor, struct jp_handle *query, struct jp_handle *document,
                          uint64_t limit, struct jp_report *report) {
    const uint64_t most = limit == JP_NO_LIMIT ? UINT64_MAX : limit;
    struct jp_cursor next = *cursor;
    uint64_t steps = 0;
    *report = (struct jp_report){JP_STEPS_USED_UP, 0, 0, 0, 0};
    for (struct run run = next_run(&next, most); run.limit > 0; run = next_run(&next, most)) {
        const struct jp_limit allowed = steps_alone(run.limit);
        jp_ask_document(query, document, JP_BOTH, next.given, run.count, &allowed, &next.lines, report);
        if (report->status != JP_DONE && report->status != JP_STEPS_USED_UP) {
            return report->status;
        }
        note_run(&next, run, report);
        steps += report->steps;
        if (report->status == JP_DONE) {
            break;
        }
    }
    report->steps = steps;
    /* The first page has the whole limit whenever it is asked for. */
    if (next.asked > 0) {
        *cursor = next;
    }
    return report->status;
}

/* Sees to it that the cursor has a page, unless the last was given. */
static uint32_t hold_page(struct jp_cursor *cursor, struct jp_handle *query, struct jp_handle *document,
                          uint64_t limit, struct jp_report *report) {
    *report = (struct jp_report){JP_DONE, 0, 0, 0, 0};
    /* A page with fewer nodes than were asked for was the last. */
    if (cursor->lines.length > 0 || cursor->given != cursor->asked) {
        return JP_DONE;
    }
    return turn_page(cursor, query, document, limit, report);
}

uint32_t jp_next(struct jp_cursor *cursor, struct jp_handle *query, struct jp_handle *document, uint64_t limit,
                 struct jp_node *node, struct jp_report *report) {
    *node = no_node;
    if (hold_page(cursor, query, document, limit, report) == JP_DONE) {
        *node = first_of(&cursor->lines, report);
        cursor->given += node->path.length > 0;
    }
    return report->status;
}

uint32_t jp_next_page(struct jp_cursor *cursor, struct jp_handle *query, struct jp_handle *document, uint64_t limit,
                      struct jp_text *lines, struct jp_report *report) {
    *lines = (struct jp_text){NULL, 0};
    if (hold_page(cursor, query, document, limit, report) == JP_DONE) {
        *lines = cursor->lines;
        report->length = lines->length;
        while (cursor->lines.length > 0) {
            take_line(&cursor->lines);
            cursor->given += 1;
        }
    }
    return report->status;
}

/* How many bytes a name has, up to the quotation mark that ends it, or all that there are. */
static size_t name_length(const uint8_t *start, size_t length) {
    size_t at = 0;
    while (at < length && start[at] != '\'') {
        at += start[at] == '\\' ? 2 : 1;
    }
    return at < length ? at : length;
}

/* The number that these digits spell. */
static uint64_t number_of(const uint8_t *start, size_t length) {
    uint64_t number = 0;
    for (size_t at = 0; at < length; at += 1) {
        number = 10 * number + (uint64_t)(start[at] - '0');
    }
    return number;
}

uint32_t jp_next_step(const struct jp_text *path, size_t *at, struct jp_step *step) {
    /* Behind the bracket, of which the first stands behind the `$`. */
    const size_t from = *at + (*at == 0 ? 2 : 1);
    if (from >= path->length) {
        return 0;
    }
    const uint8_t *start = path->start + from;
    const size_t rest = path->length - from;
    if (*start == '\'') {
        const size_t length = name_length(start + 1, rest - 1);
        *step = (struct jp_step){{start + 1, length}, 0};
        *at = from + length + 3;
        return 1;
    }
    const uint8_t *end = memchr(start, ']', rest);
    const size_t length = end == NULL ? rest : (size_t)(end - start);
    *step = (struct jp_step){{NULL, 0}, number_of(start, length)};
    *at = from + length + 1;
    return 1;
}

static uint8_t hex_digit(uint8_t digit) {
    return (uint8_t)(digit <= '9' ? digit - '0' : digit - 'a' + 10);
}

/* The character that an escape stands for, whose letter is not u. */
static uint8_t escaped(uint8_t letter) {
    static const char letters[] = "btnfr", characters[] = "\b\t\n\f\r";
    const char *at = memchr(letters, letter, sizeof letters - 1);
    return at == NULL ? letter : (uint8_t)characters[at - letters];
}

size_t jp_name(const struct jp_text *name, uint8_t *out) {
    size_t written = 0, at = 0;
    while (at < name->length) {
        const uint8_t *here = name->start + at;
        const size_t rest = name->length - at;
        if (*here != '\\' || rest < 2) {
            out[written] = *here;
            at += 1;
        } else if (here[1] != 'u' || rest < 6) {
            out[written] = escaped(here[1]);
            at += 2;
        } else {
            /* Only characters below U+0020 are escaped so, by \u0000 to \u001f. */
            out[written] = (uint8_t)(16 * hex_digit(here[4]) + hex_digit(here[5]));
            at += 6;
        }
        written += 1;
    }
    return written;
}
