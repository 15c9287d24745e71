/* Pairs packed in one block, in the order of their keys. */
#include "block.h"
#include <string.h>

/* An entry, as it stands in a block that is known to be right. */
typedef struct entry {
    size_t shared, rest, size;
    const uint8_t *bytes, *value;
} entry;

/* Where a key stands in a block, or would stand. */
typedef struct place {
    size_t at;     /* of its entry, or of the one that would follow it */
    size_t shared; /* how many bytes the key has in common with the key before it */
    size_t beyond; /* how many with the one at that place */
    int is_there;
} place;

static entry entry_at(const uint8_t *at) {
    entry it = {at[0], at[1], 0, at + ENTRY_HEAD, at + ENTRY_HEAD + at[1]};
    it.size = ENTRY_HEAD + it.rest + packed_size(it.value, SIZE_MAX);
    return it;
}

size_t common_bytes(const uint8_t *one, size_t one_length, const uint8_t *other, size_t other_length) {
    size_t count = 0, most = one_length < other_length ? one_length : other_length;
    while (count < most && one[count] == other[count])
        count++;
    return count;
}

const uint8_t *block_next(block_reader *from) {
    entry it;
    if (from->at == from->end)
        return NULL;
    it = entry_at(from->at);
    memcpy(from->key + it.shared, it.bytes, it.rest);
    from->length = it.shared + it.rest;
    from->at += it.size;
    return it.value;
}

int block_check_next(block_reader *from, int is_first) {
    size_t left = (size_t)(from->end - from->at), shared, rest, value;
    if (left < ENTRY_HEAD)
        return 0;
    shared = from->at[0];
    rest = from->at[1];
    if (shared > from->length || shared + rest > HOT_MAX_KEY || left - ENTRY_HEAD < rest)
        return 0;
    value = packed_size(from->at + ENTRY_HEAD + rest, left - ENTRY_HEAD - rest);
    /* It is above the one before if it goes on where that ends, or has a greater byte where they part. */
    if (value == 0 || (!is_first && (rest == 0 || (shared < from->length && from->at[ENTRY_HEAD] <= from->key[shared]))))
        return 0;
    memcpy(from->key + shared, from->at + ENTRY_HEAD, rest);
    from->length = shared + rest;
    from->at += ENTRY_HEAD + rest + value;
    return 1;
}

static size_t write_entry(uint8_t *to, size_t shared, const uint8_t *key, size_t length, text value) {
    to[0] = (uint8_t)shared;
    to[1] = (uint8_t)(length - shared);
    memcpy(to + ENTRY_HEAD, key + shared, length - shared);
    return ENTRY_HEAD + length - shared + pack_value(value, to + ENTRY_HEAD + length - shared);
}

size_t block_write(uint8_t *to, const uint8_t *key, size_t length, const uint8_t *before, size_t before_length, text value) {
    return write_entry(to, common_bytes(key, length, before, before_length), key, length, value);
}

/* Whether an entry's key is below this one, given that it has the place's shared bytes in common with the key before. Else the
 * place says how many it has in common with this entry, and whether it is this key. */
static int is_below(const entry *it, place *to, const uint8_t *key, size_t length) {
    size_t common;
    if (it->shared > to->shared)
        return 1;
    to->beyond = it->shared;
    if (it->shared < to->shared)
        return 0;
    common = common_bytes(it->bytes, it->rest, key + to->shared, length - to->shared);
    to->beyond += common;
    if (to->beyond == length) {
        to->is_there = common == it->rest;
        return 0;
    }
    if (common < it->rest && it->bytes[common] > key[to->beyond])
        return 0;
    to->shared = to->beyond;
    return 1;
}

static place find(const uint8_t *bytes, size_t used, const uint8_t *key, size_t length) {
    place to = {0, 0, 0, 0};
    while (to.at < used) {
        entry it = entry_at(bytes + to.at);
        if (!is_below(&it, &to, key, length))
            break;
        to.at += it.size;
    }
    return to;
}

const uint8_t *block_get(const uint8_t *bytes, size_t used, const uint8_t *key, size_t length) {
    place at = find(bytes, used, key, length);
    return at.is_there ? entry_at(bytes + at.at).value : NULL;
}

/* Moves what stands from a place on, and changes how many bytes are used by as much. */
static void move_to(block_edit *of, size_t to, size_t from) {
    memmove(of->bytes + to, of->bytes + from, of->used - from);
    of->used = of->used - from + to;
}

static void replace(block_edit *of, size_t at, text value) {
    entry it = entry_at(of->bytes + at);
    size_t to = at + ENTRY_HEAD + it.rest;
    move_to(of, to + packing_size(value), at + it.size);
    pack_value(value, of->bytes + to);
}

void block_put(block_edit *of, const uint8_t *key, size_t length, text value) {
    place to = find(of->bytes, of->used, key, length);
    size_t size = ENTRY_HEAD + length - to.shared + packing_size(value), cut, rest;
    if (to.is_there) {
        replace(of, to.at, value);
        return;
    }
    if (to.at == of->used) {
        of->used += size;
    } else {
        /* The next key has more in common with this one than with the one before: its entry says so, and is shorter by as much. */
        cut = to.beyond - of->bytes[to.at];
        rest = of->bytes[to.at + 1] - cut;
        move_to(of, to.at + size + ENTRY_HEAD, to.at + ENTRY_HEAD + cut);
        of->bytes[to.at + size] = (uint8_t)to.beyond;
        of->bytes[to.at + size + 1] = (uint8_t)rest;
    }
    write_entry(of->bytes + to.at, to.shared, key, length, value);
    of->count++;
}

int block_take(block_edit *of, const uint8_t *key, size_t length) {
    place from = find(of->bytes, of->used, key, length);
    uint8_t *at = of->bytes + from.at;
    size_t next, more;
    if (!from.is_there)
        return 0;
    next = from.at + entry_at(at).size;
    of->count--;
    if (next == of->used || of->bytes[next] <= at[0]) {
        move_to(of, from.at, next);
        return 1;
    }
    /* The next key has more in common with this one than with the one before: its entry gets these bytes, which stand here already.
     */
    more = of->bytes[next] - at[0];
    at[1] = (uint8_t)(of->bytes[next + 1] + more);
    move_to(of, from.at + ENTRY_HEAD + more, next + ENTRY_HEAD);
    return 1;
}
