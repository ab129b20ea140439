/* The calls of jp.h for the class jsonpath.jp.Engine, whose methods say what each takes and gives. Texts cross as
 * byte[] in UTF-8 and are copied, both ways, so that no call keeps the garbage collector waiting. A handle is the
 * address of a struct that newHandle made; Handle.java sees to it that one call at a time uses it, and none after
 * free. */
#define _GNU_SOURCE
#include "jsonpath_jp_Engine.h"

#include "jp.h"

#include <limits.h>
#include <pthread.h>
#include <stdlib.h>

/* jp_clear and all else have room with so much: what any call may need, what the virtual machine guards at the end of
 * a thread's stack, and the frames of Java between hasRoom and a call. */
enum { ROOM = JP_STACK + (96 << 10) };
/* As many bytes as a text is first given. */
enum { FIRST_ROOM = 4096 };
/* Where a call tells what. Many queries have as many for each, with the length of its text in place of the steps. */
enum { STATUS,
       KIND,
       PLACE,
       STEPS,
       TOLD };
/* The fields of a cursor that are kept from page to page, of which each is taken whole. */
enum { GIVEN,
       ASKED,
       MADE,
       KNOWN,
       PAGE,
       FIELDS };

struct bytes {
    uint8_t *start;
    size_t length;
};

static struct jp_handle *handle_at(jlong address) {
    return (struct jp_handle *)(intptr_t)address;
}

static struct jp_limit limit_of(jlong steps, jlong nodes, jlong bytes) {
    return (struct jp_limit){(uint64_t)steps, (uint64_t)nodes, (uint64_t)bytes};
}

/* A copy of the bytes, which the caller frees; its start is null where memory ran out. */
static struct bytes copied(JNIEnv *env, jbyteArray array) {
    const jsize length = (*env)->GetArrayLength(env, array);
    struct bytes bytes = {malloc((size_t)length + 1), (size_t)length};
    if (bytes.start != NULL) {
        (*env)->GetByteArrayRegion(env, array, 0, length, (jbyte *)bytes.start);
    }
    return bytes;
}

static void tell(JNIEnv *env, jlongArray told, const struct jp_report *report) {
    const jlong fields[TOLD] = {report->status, report->kind, (jlong)report->place, (jlong)report->steps};
    (*env)->SetLongArrayRegion(env, told, 0, TOLD, fields);
}

/* The text for Java, and what the call told; null, and the status that memory ran out, where no array holds it. */
static jbyteArray given(JNIEnv *env, struct jp_text text, struct jp_report report, jlongArray told) {
    jbyteArray array = NULL;
    if (text.length > INT_MAX) {
        report.status = JP_NO_MEMORY;
        text.length = 0;
    }
    tell(env, told, &report);
    if (text.length > 0) {
        array = (*env)->NewByteArray(env, (jsize)text.length);
    }
    if (array != NULL) {
        (*env)->SetByteArrayRegion(env, array, 0, (jsize)text.length, (const jbyte *)text.start);
    }
    return array;
}

static jbyteArray no_memory(JNIEnv *env, jlongArray told) {
    const struct jp_report report = {JP_NO_MEMORY, 0, 0, 0, 0};
    tell(env, told, &report);
    return NULL;
}

/* What a call that writes to a buffer is asked. */
struct asked {
    struct bytes bytes;
    uint32_t number; /* a profile */
    uint32_t part;
    struct jp_handle *handle;
    struct jp_place place; /* which is told besides */
};

typedef void writer(struct asked *asked, uint8_t *out, size_t room, struct jp_report *report);

/* Makes the call, once more where its text needs a larger buffer, and frees what it was asked of. */
static jbyteArray written(JNIEnv *env, writer *write, struct asked *asked, jlongArray told) {
    uint8_t small[FIRST_ROOM];
    uint8_t *out = small;
    struct jp_report report;
    if (asked->bytes.start == NULL) {
        return no_memory(env, told);
    }
    write(asked, small, sizeof small, &report);
    if (report.length > sizeof small) {
        out = malloc(report.length);
    }
    if (out != small && out != NULL) {
        write(asked, out, report.length, &report);
    }
    free(asked->bytes.start);
    if (out == NULL) {
        return no_memory(env, told);
    }
    const jbyteArray text = given(env, (struct jp_text){out, report.length}, report, told);
    if (out != small) {
        free(out);
    }
    return text;
}

static void write_canonical(struct asked *asked, uint8_t *out, size_t room, struct jp_report *report) {
    jp_canon(asked->bytes.start, asked->bytes.length, asked->number, out, room, report);
}

static void write_explanation(struct asked *asked, uint8_t *out, size_t room, struct jp_report *report) {
    jp_explain(asked->bytes.start, asked->bytes.length, asked->number, asked->part, out, room, report);
}

static void write_misreading(struct asked *asked, uint8_t *out, size_t room, struct jp_report *report) {
    jp_explain_document(asked->bytes.start, asked->bytes.length, asked->number, asked->part, &asked->place, out, room,
                        report);
}

/* What is written is the path of a number that the profile has not. */
static void write_path(struct asked *asked, uint8_t *out, size_t room, struct jp_report *report) {
    jp_document_new(asked->bytes.start, asked->bytes.length, asked->number, asked->handle, out, room, report);
}

/* Where the thread's stack begins, from its lowest byte on, and ends, once that was asked. */
struct bounds {
    uintptr_t lowest, end;
};
static _Thread_local struct bounds stack;

static void find_stack(void) {
    pthread_attr_t attributes;
    void *lowest;
    size_t size;
    if (pthread_getattr_np(pthread_self(), &attributes) != 0) {
        return;
    }
    if (pthread_attr_getstack(&attributes, &lowest, &size) == 0) {
        stack = (struct bounds){(uintptr_t)lowest, (uintptr_t)lowest + size};
    }
    pthread_attr_destroy(&attributes);
}

static int has_room(void) {
    const uintptr_t here = (uintptr_t)__builtin_frame_address(0);
    if (stack.end == 0) {
        find_stack();
    }
    return here >= stack.lowest && here < stack.end && here - stack.lowest >= ROOM;
}

JNIEXPORT jint JNICALL Java_jsonpath_jp_Engine_version(JNIEnv *env, jclass type) {
    (void)env, (void)type;
    return (jint)jp_version();
}

JNIEXPORT jboolean JNICALL Java_jsonpath_jp_Engine_hasRoom(JNIEnv *env, jclass type) {
    (void)env, (void)type;
    return has_room() ? JNI_TRUE : JNI_FALSE;
}

JNIEXPORT jlong JNICALL Java_jsonpath_jp_Engine_newHandle(JNIEnv *env, jclass type) {
    (void)env, (void)type;
    return (jlong)(intptr_t)calloc(1, sizeof(struct jp_handle));
}

JNIEXPORT jboolean JNICALL Java_jsonpath_jp_Engine_free(JNIEnv *env, jclass type, jlong handle) {
    (void)env, (void)type;
    if (!has_room()) {
        return JNI_FALSE;
    }
    jp_clear(handle_at(handle));
    free(handle_at(handle));
    return JNI_TRUE;
}

JNIEXPORT void JNICALL Java_jsonpath_jp_Engine_keepQuery(JNIEnv *env, jclass type, jlong handle, jbyteArray query,
                                                         jint profile, jlongArray told) {
    (void)type;
    const struct bytes bytes = copied(env, query);
    struct jp_report report;
    if (bytes.start == NULL) {
        no_memory(env, told);
        return;
    }
    jp_query_new(bytes.start, bytes.length, (uint32_t)profile, handle_at(handle), &report);
    free(bytes.start);
    tell(env, told, &report);
}

JNIEXPORT jbyteArray JNICALL Java_jsonpath_jp_Engine_keepDocument(JNIEnv *env, jclass type, jlong handle,
                                                                  jbyteArray document, jint profile, jlongArray told) {
    (void)type;
    struct asked asked = {copied(env, document), (uint32_t)profile, 0, handle_at(handle), {0, 0, 0}};
    return written(env, write_path, &asked, told);
}

JNIEXPORT jbyteArray JNICALL Java_jsonpath_jp_Engine_canonical(JNIEnv *env, jclass type, jbyteArray query,
                                                               jint profile, jlongArray told) {
    (void)type;
    struct asked asked = {copied(env, query), (uint32_t)profile, 0, NULL, {0, 0, 0}};
    return written(env, write_canonical, &asked, told);
}

JNIEXPORT jbyteArray JNICALL Java_jsonpath_jp_Engine_explain(JNIEnv *env, jclass type, jbyteArray query, jint profile,
                                                             jint part, jlongArray told) {
    (void)type;
    struct asked asked = {copied(env, query), (uint32_t)profile, (uint32_t)part, NULL, {0, 0, 0}};
    return written(env, write_explanation, &asked, told);
}

JNIEXPORT jbyteArray JNICALL Java_jsonpath_jp_Engine_explainDocument(JNIEnv *env, jclass type, jbyteArray document,
                                                                     jint profile, jint part, jlongArray place,
                                                                     jlongArray told) {
    (void)type;
    struct asked asked = {copied(env, document), (uint32_t)profile, (uint32_t)part, NULL, {0, 0, 0}};
    const jbyteArray text = written(env, write_misreading, &asked, told);
    if ((*env)->ExceptionCheck(env) == JNI_FALSE) {
        const jlong fields[] = {(jlong)asked.place.offset, (jlong)asked.place.line, (jlong)asked.place.column};
        (*env)->SetLongArrayRegion(env, place, 0, 3, fields);
    }
    return text;
}

JNIEXPORT jbyteArray JNICALL Java_jsonpath_jp_Engine_ask(JNIEnv *env, jclass type, jlong query, jbyteArray document,
                                                         jint form, jlong count, jlong steps, jlong nodes, jlong bytes,
                                                         jlongArray told) {
    (void)type;
    const struct bytes text = copied(env, document);
    const struct jp_limit limit = limit_of(steps, nodes, bytes);
    struct jp_text lines = {NULL, 0};
    struct jp_report report;
    if (text.start == NULL) {
        return no_memory(env, told);
    }
    jp_ask(handle_at(query), text.start, text.length, (uint32_t)form, 0, (uint64_t)count, &limit, &lines, &report);
    free(text.start);
    return given(env, lines, report, told);
}

JNIEXPORT jbyteArray JNICALL Java_jsonpath_jp_Engine_askDocument(JNIEnv *env, jclass type, jlong query, jlong document,
                                                                 jint form, jlong count, jlong steps, jlong nodes,
                                                                 jlong bytes, jlongArray told) {
    (void)type;
    const struct jp_limit limit = limit_of(steps, nodes, bytes);
    struct jp_text lines = {NULL, 0};
    struct jp_report report;
    jp_ask_document(handle_at(query), handle_at(document), (uint32_t)form, 0, (uint64_t)count, &limit, &lines,
                    &report);
    return given(env, lines, report, told);
}

JNIEXPORT jbyteArray JNICALL Java_jsonpath_jp_Engine_nextPage(JNIEnv *env, jclass type, jlongArray fields, jlong query,
                                                              jlong document, jlong steps, jlongArray told) {
    (void)type;
    jlong at[FIELDS];
    struct jp_text lines;
    struct jp_report report;
    (*env)->GetLongArrayRegion(env, fields, 0, FIELDS, at);
    struct jp_cursor cursor = JP_START;
    cursor.given = (uint64_t)at[GIVEN];
    cursor.asked = (uint64_t)at[ASKED];
    cursor.steps = (uint64_t)at[MADE];
    cursor.known = (uint64_t)at[KNOWN];
    cursor.page = (uint64_t)at[PAGE];
    jp_next_page(&cursor, handle_at(query), handle_at(document), (uint64_t)steps, &lines, &report);
    const jlong now[FIELDS] = {(jlong)cursor.given, (jlong)cursor.asked, (jlong)cursor.steps, (jlong)cursor.known,
                               (jlong)cursor.page};
    (*env)->SetLongArrayRegion(env, fields, 0, FIELDS, now);
    return given(env, lines, report, told);
}

/* The questions of queries that end at these bytes of their text; null where memory ran out. */
static struct jp_question *questions_of(JNIEnv *env, jlongArray ends, size_t count) {
    struct jp_question *questions = calloc(count + 1, sizeof *questions);
    jlong *at = questions == NULL ? NULL : (*env)->GetLongArrayElements(env, ends, NULL);
    if (at == NULL) {
        free(questions);
        return NULL;
    }
    for (size_t it = 0; it < count; it += 1) {
        questions[it].start = it == 0 ? 0 : (size_t)at[it - 1];
        questions[it].size = (size_t)at[it] - questions[it].start;
    }
    (*env)->ReleaseLongArrayElements(env, ends, at, JNI_ABORT);
    return questions;
}

/* Tells Java each report, one behind another. */
static void tell_all(JNIEnv *env, jlongArray told, const struct jp_question *questions, size_t count) {
    for (size_t it = 0; it < count; it += 1) {
        const struct jp_report *report = &questions[it].report;
        const jlong fields[TOLD] = {report->status, report->kind, (jlong)report->place, (jlong)report->length};
        (*env)->SetLongArrayRegion(env, told, (jsize)(TOLD * it), TOLD, fields);
    }
}

/* What many queries are asked of, and the most of each. */
struct many {
    struct bytes queries, document;
    struct jp_question *questions;
    size_t count;
    uint32_t profile;
    struct jp_limit limit;
};

static size_t write_answers(struct many *many, uint8_t *out, size_t room) {
    return jp_eval_many(many->queries.start, many->queries.length, many->questions, many->count, many->document.start,
                        many->document.length, JP_BOTH, many->profile, &many->limit, out, room);
}

/* All answers, which `out` gets where it has room, or else another buffer; its start is null where memory ran out. */
static struct bytes answers_of(struct many *many, uint8_t *out, size_t room) {
    struct bytes answers = {out, write_answers(many, out, room)};
    if (answers.length > room) {
        answers.start = answers.length > INT_MAX ? NULL : malloc(answers.length);
    }
    if (answers.start != out && answers.start != NULL) {
        answers.length = write_answers(many, answers.start, answers.length);
    }
    return answers;
}

JNIEXPORT jbyteArray JNICALL Java_jsonpath_jp_Engine_askMany(JNIEnv *env, jclass type, jbyteArray queries,
                                                             jlongArray ends, jbyteArray document, jint profile,
                                                             jlong steps, jlong nodes, jlong bytes, jlongArray told) {
    (void)type;
    uint8_t small[FIRST_ROOM];
    jbyteArray array = NULL;
    const size_t count = (size_t)(*env)->GetArrayLength(env, ends);
    struct many many = {copied(env, queries), copied(env, document), questions_of(env, ends, count), count,
                        (uint32_t)profile, limit_of(steps, nodes, bytes)};
    if (many.queries.start != NULL && many.document.start != NULL && many.questions != NULL) {
        const struct bytes answers = answers_of(&many, small, sizeof small);
        if (answers.start != NULL) {
            tell_all(env, told, many.questions, count);
            array = (*env)->NewByteArray(env, (jsize)answers.length);
        }
        if (array != NULL) {
            (*env)->SetByteArrayRegion(env, array, 0, (jsize)answers.length, (const jbyte *)answers.start);
        }
        if (answers.start != small) {
            free(answers.start);
        }
    }
    free(many.queries.start);
    free(many.document.start);
    free(many.questions);
    return array;
}
