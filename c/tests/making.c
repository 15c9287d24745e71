/* Tests of heap.c alone: a table that is made as the proved calls make one may be used, and one that is made in another way may not. Of a large one
 * nothing but its ends is written. Its ranges stand one behind the other, and what is written there is counted. */
#define _GNU_SOURCE
#include "heap.c"

#include "check.h"

enum { BYTES = 64 << 20, WORDS = BYTES / 8, FIRST = 5 };
#define PAGE page_size()
#define BEHIND PAGE
#define MOST_WRITTEN (3 * PAGE)

/* What is done in another way. */
typedef enum way { AS_MADE, FROM_ONE_BLOCK, NOT_SET, NOT_COPIED, PART_COPIED, ZEROS_KEPT, TABLE_MOVED, TABLE_FREED, THREE_BLOCKS, WAYS } way;

static const heap_table table = {BYTES, 0, 1, {0, 0, 0, 0, 0, 0, BYTES}, {0, 0, 0, 0, 0, 0}, {0, 0, 0, 0, 0, 0}};

static uint64_t *table_words(void) {
    tried made = rattle_alloc(BYTES, 8);
    CHECK(made.ok);
    return made.at;
}

/* How many bytes of the pages take memory. */
static size_t written(const heap_pages *pages) {
    char *end = (char *)pages + pages->size;
    return held_of((char *)pages, end, end);
}

/* The words of which a table is made: 0 but for one. */
static uint64_t *zeros(way how) {
    uint64_t *words = table_words();
    if (how != NOT_SET)
        CHECK(heap_set(words, 0, BYTES - sizeof *words) == words);
    words[WORDS - 1] = 0;
    words[FIRST] = 7;
    return words;
}

/* Makes the table of these words, as is told. Returns it, or NULL if it was freed. */
static uint64_t *copy(uint64_t *words, way how) {
    uint64_t *made = table_words(), *third = how == THREE_BLOCKS ? table_words() : NULL;
    CHECK(made == words && third != words);
    if (how != NOT_COPIED)
        heap_copy(made, words, how == PART_COPIED ? WORDS / 2 : WORDS);
    if (how == TABLE_MOVED)
        made = rattle_realloc(made, BYTES, BYTES, 8).at;
    if (how == TABLE_FREED)
        rattle_dealloc(made);
    if (third != NULL)
        rattle_dealloc(third);
    if (how != ZEROS_KEPT)
        rattle_dealloc(words);
    return how == TABLE_FREED ? NULL : made;
}

static int may_be_used(way how) {
    return how == AS_MADE || how == NOT_SET || how == THREE_BLOCKS;
}

/* Whether a table that is made so may be used. It holds what it must then. */
static int is_made(way how) {
    uint64_t *words, *made;
    int may;
    heap_begin(&table, NULL);
    words = zeros(how);
    made = how == FROM_ONE_BLOCK ? words : copy(words, how);
    may = heap_end();
    if (may) {
        CHECK(written(heap_take_pages()) <= MOST_WRITTEN);
        made[WORDS - 1] = 9;
        CHECK(made[FIRST] == 7 && made[BEHIND] == 0 && made[WORDS - 1] == 9);
    }
    if (made != NULL)
        rattle_dealloc(made);
    if (how == ZEROS_KEPT)
        rattle_dealloc(words);
    CHECK(heap_take_pages() == NULL);
    return may;
}

/* Whether a load that is made so may be used, which fills the words after a pause. */
static int is_loaded(way how) {
    uint64_t *words, *made;
    heap_pages *paused;
    size_t word;
    int may;
    heap_begin(&table, NULL);
    words = zeros(how);
    may = heap_pause(&paused);
    CHECK(written(paused) <= MOST_WRITTEN && heap_take_pages() == NULL);
    for (word = BEHIND; word < WORDS; word++)
        words[word] = word;
    heap_go_on(&table, paused, NULL);
    made = copy(words, how);
    may &= heap_end();
    for (word = BEHIND; may && word < WORDS; word++)
        CHECK(made[word] == word);
    if (made != NULL)
        rattle_dealloc(made);
    if (how == ZEROS_KEPT)
        rattle_dealloc(words);
    return may;
}

/* What is filled, or copied, is so where it is no table that is new. */
static void test_others(void) {
    enum { BLOCK = 2 << 20 };
    static uint64_t words[BLOCK / 8], others[BLOCK / 8];
    uint64_t *made;
    words[1] = others[2] = 3;
    CHECK(heap_set(words, 0, BLOCK) == words && words[1] == 0);
    heap_copy(words, others, BLOCK / 8);
    CHECK(words[2] == 3);
    heap_begin(&table, NULL);
    CHECK(!heap_end());
    heap_begin(&table, NULL);
    made = table_words();
    made[FIRST] = 7;
    CHECK(heap_set(made + 1, 0, BYTES - sizeof *made) == made + 1 && made[FIRST] == 0); /* not from its beginning on */
    CHECK(heap_set(made, 1, BYTES) == made && made[0] == 0x0101010101010101u);
    CHECK(heap_set(others, 0, BLOCK) == others && others[2] == 0);
    rattle_dealloc(made);
    made = zeros(AS_MADE);
    CHECK(heap_set(made, 0, BYTES) == made && made[FIRST] == 0); /* the second time */
    rattle_dealloc(made);
    CHECK(!heap_end() && heap_take_pages() == NULL);
}

/* A table with two kinds of records for three handles, of which each has 130 KiB of a kind first, 15 MiB or 100,000 bytes behind them, and which leave
 * a few bytes. */
enum { OWNERS = 3, SMALL = 130 << 10, OWN = 15 << 20, LITTLE = 100000, LEFT = 100, HEAD = 600 };

static heap_table shared(void) {
    heap_table of = {0, 0, OWNERS, {0, 0, 0, 0, 0, 0, 0}, {OWNERS * SMALL, 0, 0, 0, 0, OWNERS * SMALL}, {OWN, 0, 0, 0, 0, LITTLE}};
    int kind;
    of.from[0] = HEAD;
    for (kind = 1; kind < HEAP_KINDS; kind++)
        of.from[kind] = HEAD + OWNERS * (SMALL + OWN) + LEFT;
    of.bytes = of.from[HEAP_KINDS] = of.from[HEAP_KINDS - 1] + OWNERS * (SMALL + LITTLE) + LEFT;
    return of;
}

/* Looks at all ranges. */
static void look_at_all(heap_pages *pages) {
    size_t turn;
    for (turn = 0; turn < ranges(pages); turn++)
        heap_fill(pages);
}

static size_t all_asked(const heap_pages *pages) {
    size_t range, asked = 0;
    for (range = 0; range < ranges(pages); range++)
        asked += pages->asked[range];
    return asked;
}

/* The ranges of a table stand one behind the other, from where its records begin on, and so do their pieces. What is written there is counted, and
 * pieces that have filled get huge pages: two of a range, and no piece of another. */
static void test_ranges(void) {
    enum { SECOND = 2, PIECES = 3 };
    heap_table of = shared();
    heap_pages *pages = map_table(&of);
    size_t range, piece, held = PAGE;
    char *page;
    CHECK(pages != NULL && ranges(pages) == HEAP_KINDS * (OWNERS + 1) && begin_of(&pages->of, 0) == HEAD);
    for (range = 0; range < ranges(pages); range++) {
        CHECK(begin_of(&pages->of, range) <= begin_of(&pages->of, range + 1) && first_piece(pages, range) <= first_piece(pages, range + 1));
        CHECK((uintptr_t)first_piece(pages, range) % HUGE_PAGE == 0 && first_piece(pages, range) <= (char *)pages + pages->size);
    }
    CHECK(page_at(pages, begin_of(&pages->of, range)) == (char *)pages + pages->size && heap_held(pages, NULL) == held);
    /* The second small part and the third, and the last byte of all. */
    block_in(pages)[HEAD + SMALL] = block_in(pages)[HEAD + 2 * SMALL] = block_in(pages)[of.bytes - 1] = 1;
    held += 3 * PAGE;
    CHECK(heap_held(pages, NULL) == held);
    /* The part of the second handle. A page that was only read is no use. */
    page = page_at(pages, begin_of(&pages->of, SECOND));
    for (piece = 0; piece < PIECES; piece++) {
        char *end = first_piece(pages, SECOND) + (piece + 1) * HUGE_PAGE;
        look_at_all(pages);
        CHECK(all_asked(pages) == (piece < MOST_ASKED ? piece : MOST_ASKED) && pages->asked[SECOND] == all_asked(pages));
        for (; page < end - PAGE; page += PAGE, held += PAGE)
            *page = 1;
        held += *page == 0 ? PAGE : 0;
        look_at_all(pages);
        CHECK(all_asked(pages) == (piece < MOST_ASKED ? piece : MOST_ASKED));
        *page = 1;
        page = end;
    }
    look_at_all(pages);
    CHECK(all_asked(pages) == MOST_ASKED && heap_held(pages, NULL) >= held);
    /* Where the next part begins, and this one has not filled. */
    *page_at(pages, begin_of(&pages->of, SECOND + 1)) = 1;
    CHECK(heap_held(pages, NULL) == written(pages));
    munmap(pages, pages->size);
}

int main(void) {
    int how;
    for (how = AS_MADE; how < WAYS; how++) {
        CHECK(is_made((way)how) == may_be_used((way)how));
        if (how != FROM_ONE_BLOCK)
            CHECK(is_loaded((way)how) == may_be_used((way)how));
    }
    CHECK(is_made(AS_MADE) && is_loaded(AS_MADE));
    test_others();
    test_ranges();
    puts(failures ? "c/tests/making.c failed" : "passed: c/tests/making.c");
    return failures;
}
