/* The JSON Pointer (RFC 6901) of a normalized path, made of the path's steps. */
#include "jp.h"

/* Where a text is written, as much of it as there is room for, and how long it is. */
struct writing {
    uint8_t *out;
    size_t room;
    size_t length;
};

static void put(struct writing *to, uint8_t byte) {
    if (to->length < to->room) {
        to->out[to->length] = byte;
    }
    to->length += 1;
}

/* A byte of a name, of which `~` and `/` are written `~0` and `~1`. */
static void put_byte(struct writing *to, uint8_t byte) {
    if (byte != '~' && byte != '/') {
        put(to, byte);
        return;
    }
    put(to, '~');
    put(to, byte == '~' ? '0' : '1');
}

/* How many bytes an escape has, with which the name goes on, or 1 where it does with none. */
static size_t escape_length(const uint8_t *start, size_t length) {
    if (*start != '\\' || length < 2) {
        return 1;
    }
    return start[1] == 'u' && length >= 6 ? 6 : 2;
}

static void put_name(struct writing *to, const struct jp_text *name) {
    for (size_t at = 0; at < name->length;) {
        const uint8_t *start = name->start + at;
        const struct jp_text one = {start, escape_length(start, name->length - at)};
        uint8_t byte;
        jp_name(&one, &byte);
        put_byte(to, byte);
        at += one.length;
    }
}

static void put_index(struct writing *to, uint64_t index) {
    if (index > 9) {
        put_index(to, index / 10);
    }
    put(to, (uint8_t)('0' + index % 10));
}

static size_t write_pointer(const struct jp_text *path, uint8_t *out, size_t room) {
    struct writing to = {out, room, 0};
    struct jp_step step;
    size_t at = 0;
    while (jp_next_step(path, &at, &step) == 1) {
        put(&to, '/');
        if (step.name.start == NULL) {
            put_index(&to, step.index);
        } else {
            put_name(&to, &step.name);
        }
    }
    return to.length;
}

size_t jp_pointer(const struct jp_text *path, uint8_t *out, size_t out_length) {
    const size_t length = write_pointer(path, out, 0);
    return length > out_length ? length : write_pointer(path, out, length);
}
