/* What a Rattle library asks of a heap, over the memory of a WebAssembly module, which only grows.
 *
 * A block has a power of two of bytes, its header among them. One that is freed is kept for the next
 * of its size; none is split or joined. A module has one thread, so nothing here runs at once with
 * anything else. The kit's clang has no headers of C, so the types are spelled here.
 */
typedef __SIZE_TYPE__ size;

struct header {
    struct header *next; /* of a free block: the next free one of its size */
    size order;          /* the block has 2 to this power bytes */
};

static_assert(sizeof(struct header) == 16, "what follows a header is aligned to 16 bytes");

/* What a try to get memory answers; C returns it as the library expects, by a hidden pointer. */
struct tried {
    bool ok;
    void *at;
};

enum {
    LEAST_ORDER = 5,
    LARGEST_ORDER = 40,
    PAGE = 65536,
};

extern char __heap_base;
static struct header *free_blocks[LARGEST_ORDER + 1];
static size unused_from;

static size order_for(size length) {
    size order = LEAST_ORDER;
    while (order <= LARGEST_ORDER && ((size)1 << order) - sizeof(struct header) < length)
        order++;
    return order;
}

static struct header *new_block(size order) {
    if (unused_from == 0)
        unused_from = ((size)&__heap_base + 15) & ~(size)15;
    size end = unused_from + ((size)1 << order);
    size memory = __builtin_wasm_memory_size(0) * PAGE;
    if (end > memory && __builtin_wasm_memory_grow(0, (end - memory + PAGE - 1) / PAGE) == (size)-1)
        return nullptr;
    struct header *block = (struct header *)unused_from;
    block->order = order;
    unused_from = end;
    return block;
}

/* Memory of this length, aligned to 16 bytes, or null. */
void *jp_alloc(size length) {
    size order = order_for(length);
    if (order > LARGEST_ORDER)
        return nullptr;
    struct header *block = free_blocks[order];
    if (block == nullptr)
        block = new_block(order);
    else
        free_blocks[order] = block->next;
    return block == nullptr ? nullptr : block + 1;
}

/* Frees what `jp_alloc` gave. */
void jp_free(void *at) {
    struct header *block = (struct header *)at - 1;
    block->next = free_blocks[block->order];
    free_blocks[block->order] = block;
}

/* The alignment divides 16. */
struct tried rattle_alloc(size length, size alignment) {
    (void)alignment;
    void *at = jp_alloc(length);
    return (struct tried){at != nullptr, at};
}

/* Makes the block at a place one of this length, whose first `kept` bytes are as they were; where it
 * fails, the block is as it was. */
struct tried rattle_realloc(void *at, size kept, size length, size alignment) {
    if (order_for(length) == ((struct header *)at - 1)->order)
        return (struct tried){true, at};
    struct tried moved = rattle_alloc(length, alignment);
    if (moved.ok) {
        __builtin_memcpy(moved.at, at, kept < length ? kept : length);
        jp_free(at);
    }
    return moved;
}

void rattle_dealloc(void *at) {
    jp_free(at);
}
