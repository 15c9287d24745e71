/* Values as texts, as words of an index, and packed. */
#include "values.h"
#include "server.h"
#include <string.h>

/* Numbers of a word have 62 bits, and short texts up to 7 bytes. */
enum { SHORTEST_LONG = 8, NUMBER_BITS = 62, MOST_DIGITS = 19 };

/* What the first byte of a packed value says: so many bytes of a number; or a text of so many bytes more than the second name; or
 * one of any length, which stands in four bytes. */
enum { OF_NUMBER = 8, OF_TEXT = 9, OF_LONG = 255 };

/* A text in memory of its own. */
typedef struct long_text {
    uint32_t length;
    char bytes[];
} long_text;

static long_text *long_text_of(word of) {
    return (long_text *)(uintptr_t)of;
}

static int is_short_number(int64_t number) {
    return number >= -((int64_t)1 << (NUMBER_BITS - 1)) && number < (int64_t)1 << (NUMBER_BITS - 1);
}

static word number_word(int64_t number) {
    return (uint64_t)number << 2 | NUMBER;
}

static word short_word(const char *at, size_t length) {
    word made = 0;
    memcpy((char *)&made + 1, at, length);
    return made | length << 2 | SHORT_TEXT;
}

/* ---- Numbers ---- */

/* Reads eight digits at once: 0 if these bytes are none. Pairs of digits become numbers, then pairs of those. */
static int read_eight(const char *at, uint64_t *number) {
    const uint64_t high = 0xf0f0f0f0f0f0f0f0u, above_nine = 0x0606060606060606u;
    uint64_t bytes;
    memcpy(&bytes, at, sizeof bytes);
    if (((bytes & high) | ((bytes + above_nine) & high) >> 4) != 0x3333333333333333u)
        return 0;
    bytes = (bytes & 0x0f0f0f0f0f0f0f0fu) * (1 + (10 << 8)) >> 8;
    bytes = (bytes & 0x00ff00ff00ff00ffu) * (1 + (100 << 16)) >> 16;
    *number = (bytes & 0x0000ffff0000ffffu) * (1 + (10000ull << 32)) >> 32;
    return 1;
}

int read_number(text of, int64_t *to) {
    const char *at = of.at, *end = of.at + of.length;
    int is_negative = of.length > 0 && *at == '-';
    uint64_t sum = 0, most = INT64_MAX + (uint64_t)is_negative, eight;
    at += is_negative;
    if (at == end || end - at > MOST_DIGITS || (*at == '0' && of.length > 1))
        return 0;
    for (; end - at >= 8 && read_eight(at, &eight); at += 8)
        sum = sum * 100000000 + eight;
    for (; at < end; at++) {
        if (*at < '0' || *at > '9')
            return 0;
        sum = sum * 10 + (uint64_t)(*at - '0');
    }
    if (sum > most)
        return 0;
    *to = (int64_t)(is_negative ? 0 - sum : sum);
    return 1;
}

size_t write_number(int64_t of, char *room) {
    static const char pairs[] =
        "00010203040506070809101112131415161718192021222324252627282930313233343536373839404142434445464748495051525354555657585960"
        "61626364656667686970717273747576777879808182838485868788899091929394959697989900";
    char digits[MOST_DIGITS + 1], *at = digits + sizeof digits;
    uint64_t left = of < 0 ? 0 - (uint64_t)of : (uint64_t)of;
    size_t length;
    for (; left >= 100; left /= 100)
        memcpy(at -= 2, pairs + left % 100 * 2, 2);
    if (left >= 10)
        memcpy(at -= 2, pairs + left * 2, 2);
    else
        *--at = (char)('0' + left);
    length = (size_t)(digits + sizeof digits - at);
    room[0] = '-';
    memcpy(room + (of < 0), at, length);
    return length + (of < 0);
}

/* ---- Packed values ---- */

static int64_t packed_number(const uint8_t *at) {
    unsigned unused = 64 - 8u * at[0];
    uint64_t number = 0;
    if (at[0] == 0)
        return 0;
    memcpy(&number, at + 1, at[0]);
    return (int64_t)(number << unused) >> unused;
}

static text packed_text(const uint8_t *at) {
    text of = {(const char *)at + 1, at[0] - OF_TEXT};
    if (at[0] == OF_LONG) {
        uint32_t length;
        memcpy(&length, at + 1, sizeof length);
        of.at += sizeof length;
        of.length = length;
    }
    return of;
}

/* The least number of bytes that a number needs. */
static uint8_t number_bytes(int64_t number) {
    uint8_t bytes = 0;
    while (bytes < 8 && number != (bytes ? (int64_t)((uint64_t)number << (64 - 8 * bytes)) >> (64 - 8 * bytes) : 0))
        bytes++;
    return bytes;
}

size_t packing_size(text of) {
    int64_t number;
    if (read_number(of, &number))
        return 1 + (size_t)number_bytes(number);
    return 1 + (of.length < OF_LONG - OF_TEXT ? 0 : sizeof(uint32_t)) + of.length;
}

size_t pack_value(text of, uint8_t *to) {
    int64_t number;
    if (read_number(of, &number)) {
        to[0] = number_bytes(number);
        memcpy(to + 1, &number, to[0]);
        return 1 + (size_t)to[0];
    }
    if (of.length < OF_LONG - OF_TEXT) {
        to[0] = (uint8_t)(OF_TEXT + of.length);
        memcpy(to + 1, of.at, of.length);
        return 1 + of.length;
    }
    uint32_t length = (uint32_t)of.length;
    to[0] = OF_LONG;
    memcpy(to + 1, &length, sizeof length);
    memcpy(to + 1 + sizeof length, of.at, of.length);
    return 1 + sizeof length + of.length;
}

size_t packed_size(const uint8_t *at, size_t left) {
    size_t size;
    uint32_t length;
    if (left == 0)
        return 0;
    if (at[0] == OF_LONG) {
        if (left < 1 + sizeof length)
            return 0;
        memcpy(&length, at + 1, sizeof length);
        size = 1 + sizeof length + (size_t)length;
    } else {
        size = 1 + (size_t)(at[0] <= OF_NUMBER ? at[0] : at[0] - OF_TEXT);
    }
    return size <= left ? size : 0;
}

word packed_word(const uint8_t *at) {
    if (at[0] <= OF_NUMBER) {
        int64_t number = packed_number(at);
        if (is_short_number(number))
            return number_word(number);
    } else if (at[0] < OF_TEXT + SHORTEST_LONG) {
        return short_word((const char *)at + 1, at[0] - OF_TEXT);
    }
    return (word)(uintptr_t)at << 2 | PACKED;
}

/* ---- Words ---- */

text word_text(word of, char *room) {
    text made = {room, 0};
    const uint8_t *packed;
    switch (word_kind(of)) {
    case NUMBER: made.length = write_number((int64_t)of >> 2, room); return made;
    case SHORT_TEXT:
        made.length = of >> 2 & 7;
        memcpy(room, (const char *)&of + 1, 7);
        return made;
    case PACKED:
        packed = (const uint8_t *)(uintptr_t)(of >> 2);
        if (packed[0] > OF_NUMBER)
            return packed_text(packed);
        made.length = write_number(packed_number(packed), room);
        return made;
    default:
        made.at = long_text_of(of)->bytes;
        made.length = long_text_of(of)->length;
        return made;
    }
}

int word_make(text of, word *to) {
    int64_t number;
    long_text *made;
    if (read_number(of, &number) && is_short_number(number)) {
        *to = number_word(number);
        return 1;
    }
    if (of.length < SHORTEST_LONG) {
        *to = short_word(of.at, of.length);
        return 1;
    }
    made = RedisModule_TryAlloc(sizeof *made + of.length);
    if (made == NULL)
        return 0;
    made->length = (uint32_t)of.length;
    memcpy(made->bytes, of.at, of.length);
    *to = (word)(uintptr_t)made;
    return 1;
}

void word_free(word of) {
    if (word_kind(of) == LONG_TEXT)
        RedisModule_Free(long_text_of(of));
}

size_t word_length(word of) {
    return word_kind(of) == LONG_TEXT ? long_text_of(of)->length : sizeof of;
}

size_t word_bytes(word of) {
    return word_kind(of) == LONG_TEXT ? RedisModule_MallocSize(long_text_of(of)) : 0;
}
