/* Values: as the texts that clients see, as the words that an index holds, and packed, as they stand in a block. */
#ifndef VALUES_H
#define VALUES_H

#include <stddef.h>
#include <stdint.h>

typedef struct text {
    const char *at;
    size_t length;
} text;

/* A value in 64 bits. Its lowest two bits say what the others are. */
typedef uint64_t word;
enum {
    LONG_TEXT,  /* the address of a text in memory of its own */
    NUMBER,     /* a whole number of 62 bits */
    SHORT_TEXT, /* a text of up to 7 bytes, with its length */
    PACKED      /* four times the address of a packed value */
};

static inline int word_kind(word of) {
    return (int)(of & 3);
}

/* The text of a word. It stands in the room, or where the word leads to. */
enum { TEXT_ROOM = 24 };
text word_text(word of, char *room);

/* Makes a word of a text: a number if the text is that of one. Returns 0 if there is no memory. */
int word_make(text of, word *to);

/* Gives back the memory of its own that a word leads to, if any; and how many bytes that has. */
void word_free(word of);
size_t word_bytes(word of);

/* How many bytes its text has, if that has memory of its own; else 8, which is about as many. */
size_t word_length(word of);

/* Reads a whole number of 64 bits: 1 if the text is as such a number is written. */
int read_number(text of, int64_t *to);
size_t write_number(int64_t of, char *room);

/* A packed value: a byte that says what it is, and the value. It has at most PACKED_MORE bytes more than its text. The first call
 * returns how many bytes it will have, and the second writes them. */
enum { PACKED_MORE = 5 };
size_t packing_size(text of);
size_t pack_value(text of, uint8_t *to);

/* How many bytes the packed value has that begins here; 0 if none does that ends within `left` bytes. */
size_t packed_size(const uint8_t *at, size_t left);

/* Its word, which leads to it if it is long. */
word packed_word(const uint8_t *at);

#endif
