/* The memory of the proved calls, in the place of the kit's heap. It comes from malloc, but for a table that is large: that has pages of its own,
 * which the system only gives once something is written there.
 *
 * The kit makes a table of two blocks of its size. It fills the first with 0, and sets a word or two of it, or a load fills it. Then it copies all
 * words to the second, and frees the first. Here both blocks are the same pages. They are 0 from the beginning, and what is to be copied stands
 * there already: so neither is done, a table is made at once, however large it is, and a load fills the table itself. c/object and tools/weaken
 * let the proved calls fill by heap_set, and copy by heap_copy.
 *
 * This relies on how a table is made. Nothing is written to the first block before it is filled. The second becomes what the first is by one copy
 * of all words. The first is freed before the second is used in another way. heap_end looks whether there were two blocks, one such copy, and
 * one block that was freed. If not, the table may not be used, as if memory were refused.
 *
 * The short lists of a handle come from malloc, where nothing is written before they are used. Its long ones are rarely used at all, and stand
 * in addresses that a table has for those of all its handles: no block there has a word of malloc's before it, so that an unused one takes no
 * memory. They are freed with the table.
 *
 * A table has small pages at first, since a few keys would take whole huge ones. Each handle claims records of a kind first in a small part, which
 * stands beside those of the others, and then in a range of its own, from its beginning on. Pieces of these get huge pages once they have filled,
 * which heap_fill looks for, and after two of a range the rest of it: so it takes one at most that it doesn't fill.
 *
 * While hot.c lends a room, blocks come from there, as far as they fit: so a call asks for no memory. */
#define _GNU_SOURCE
#include "heap.h"
#include "processor.h"
#include <stdint.h>
#include <stdlib.h>
#include <string.h>
#include <sys/mman.h>

/* A table of so many bytes has pages of its own. A small page has so many at least. */
enum { LEAST_PAGE = 4096, HUGE_PAGE = 2 << 20, LEAST_TABLE = 1 << 20 };

/* A long list has at least so many bytes. */
enum { LEAST_LIST = 16 << 10 };

/* A record has so many bytes at most. A call of heap_fill goes past so many ranges, and looks at so many pieces. Of one that counts as filled so many
 * pages were looked at, and so many bytes may be missing. After so many pieces all of a range asks for huge pages. */
enum { LONGEST_RECORD = 464, MOST_SEEN = 1024, MOST_LOOKS = 16, LOOKS_AT_A_PIECE = 8, MOST_MISSING = HUGE_PAGE / 8, MOST_ASKED = 2 };

/* Advice of Linux 6.1 and later: a huge page takes the place of small ones at once. Else the system does that when it comes by. */
#ifndef MADV_COLLAPSE
#define MADV_COLLAPSE 25
#endif

/* Where a block begins in its pages: 8 bytes behind a multiple of 16. A long list begins 4 bytes behind one. All that malloc gives begins at
 * one, if it is asked for so many bytes. */
enum { IN_PAGES = 6456, IN_LISTS = 4, LEAST_OF_MALLOC = 16 };

/* What stands where the pages of a table begin. */
struct heap_pages {
    heap_table of;
    size_t size;                                         /* of the pages, in bytes */
    int given, left;                                     /* how often they were given out as a block, and how many of these were not freed */
    int is_set, is_copied;                               /* whether a block was filled with 0, and copied, as a whole */
    size_t next;                                         /* the range that heap_fill looks at next */
    uint8_t asked[HEAP_KINDS * (HEAP_MOST_HANDLES + 1)]; /* for how many pieces each range has asked for huge pages */
};

typedef char fits_before_a_block[sizeof(heap_pages) <= IN_PAGES ? 1 : -1];

/* What this thread makes. */
static __thread struct {
    int is_on;
    size_t asked; /* bytes, without those of the table and of long lists in their addresses */
    heap_lists *lists;
    heap_table of;     /* the table */
    heap_pages *table; /* its pages, once there are some */
} making;

static char *block_in(heap_pages *of) {
    return (char *)of + IN_PAGES;
}

/* The pages of a block, or NULL if it has none of its own. */
static heap_pages *pages_of(void *block) {
    return (uintptr_t)block % 16 == IN_PAGES % 16 ? (heap_pages *)((char *)block - IN_PAGES) : NULL;
}

/* Maps pages for the table, which are 0, and none of which becomes a huge one unasked. Or NULL: the system refuses what is larger than all memory,
 * if that isn't allowed. */
static heap_pages *map_table(const heap_table *of) {
    int flags = MAP_PRIVATE | MAP_ANONYMOUS | (of->may_exceed_memory ? MAP_NORESERVE : 0);
    size_t size = (IN_PAGES + of->bytes + page_size() - 1) / page_size() * page_size();
    heap_pages *made = mmap(NULL, size, PROT_READ | PROT_WRITE, flags, -1, 0);
    if (made == MAP_FAILED)
        return NULL;
    madvise(made, size, MADV_NOHUGEPAGE);
    made->of = *of;
    made->of.from[HEAP_KINDS] = size - IN_PAGES;
    made->size = size;
    return made;
}

int heap_may_map(size_t bytes) {
    void *at = mmap(NULL, IN_PAGES + bytes, PROT_READ | PROT_WRITE, MAP_PRIVATE | MAP_ANONYMOUS | MAP_NORESERVE, -1, 0);
    return at != MAP_FAILED && munmap(at, IN_PAGES + bytes) == 0;
}

int heap_is_used(const heap_pages *table, size_t place) {
    return table != NULL && place < table->of.bytes && *(const uint64_t *)((const char *)table + IN_PAGES + place) != 0;
}

/* One of the two blocks of which the table is made, or NULL. */
static void *table_block(void) {
    if (making.table == NULL)
        making.table = map_table(&making.of);
    if (making.table == NULL)
        return NULL;
    making.table->given++;
    making.table->left++;
    return block_in(making.table);
}

/* What the proved calls do by memset. The first block of a table is 0 already. */
void *heap_set(void *to, int what, size_t size) {
    heap_pages *table = size < LEAST_TABLE / 2 || what != 0 ? NULL : making.table;
    if (table == NULL || to != block_in(table) || size > table->of.bytes || table->given > 1 || table->is_set)
        return memset(to, what, size);
    table->is_set = 1;
    return to;
}

/* The copy of all words of which a table is made. */
void heap_copy(uint64_t *to, const uint64_t *from, size_t count) {
    heap_pages *table = making.table;
    if (to != from)
        memcpy(to, from, count * sizeof *to);
    else if (table != NULL && (char *)to == block_in(table) && count * sizeof *to == table->of.bytes)
        table->is_copied = 1;
}

/* A long list with its addresses, or NULL. */
static void *listed_block(size_t bytes) {
    heap_lists *lists = making.lists;
    size_t from = lists == NULL ? 0 : (lists->used + LEAST_OF_MALLOC - 1) / LEAST_OF_MALLOC * LEAST_OF_MALLOC + IN_LISTS;
    if (lists == NULL || lists->size < from || lists->size - from < bytes)
        return NULL;
    making.asked -= bytes;
    lists->used = from + bytes;
    return lists->begin + from;
}

static int is_listed(const void *block) {
    return (uintptr_t)block % LEAST_OF_MALLOC == IN_LISTS;
}

/* No page there becomes a huge one: a few words would take all of it. */
void heap_map_lists(heap_lists *lists, size_t handles) {
    void *begin = MAP_FAILED;
    lists->size = lists->used = 0;
    if (handles <= SIZE_MAX / LISTS_OF_A_HANDLE)
        begin = mmap(NULL, handles * LISTS_OF_A_HANDLE, PROT_READ | PROT_WRITE, MAP_PRIVATE | MAP_ANONYMOUS | MAP_NORESERVE, -1, 0);
    if (begin == MAP_FAILED)
        return;
    lists->begin = begin;
    lists->size = handles * LISTS_OF_A_HANDLE;
    madvise(begin, lists->size, MADV_NOHUGEPAGE);
}

void heap_unmap_lists(heap_lists *lists) {
    if (lists->size > 0)
        munmap(lists->begin, lists->size);
    lists->size = lists->used = 0;
}

/* The room from which blocks of this thread come, and what is left of it. */
static __thread struct {
    char *begin, *next, *end;
} lent;

/* A block in that room, or NULL. */
static void *lent_block(size_t bytes) {
    char *block = lent.next;
    if ((size_t)(lent.end - block) < bytes)
        return NULL;
    lent.next += (bytes + LEAST_OF_MALLOC - 1) / LEAST_OF_MALLOC * LEAST_OF_MALLOC;
    return block;
}

static int is_lent(const void *block) {
    return (uintptr_t)block - (uintptr_t)lent.begin < (uintptr_t)lent.end - (uintptr_t)lent.begin;
}

void heap_lend(void *room, size_t size) {
    lent.begin = lent.next = room;
    lent.end = size > 0 ? lent.begin + size : room;
}

void heap_take_back(void) {
    lent.begin = lent.next = lent.end = NULL;
}

/* What the kit calls: the kit says, at libc::heap, what they must do. */
typedef struct tried {
    uint64_t ok;
    void *at;
} tried;

static tried told(void *at) {
    static char nothing;
    tried said;
    said.ok = at != NULL;
    said.at = at != NULL ? at : &nothing;
    return said;
}

static size_t for_malloc(size_t size) {
    return size < LEAST_OF_MALLOC ? LEAST_OF_MALLOC : size;
}

tried rattle_alloc(size_t size, size_t align) {
    void *at;
    if (making.is_on && size >= LEAST_TABLE && size == making.of.bytes && (making.table == NULL || making.table->given < 2))
        return told(table_block());
    making.asked += size == making.of.bytes ? 0 : size;
    at = making.is_on && size >= LEAST_LIST && align <= IN_LISTS ? listed_block(size) : lent_block(size);
    return told(at != NULL ? at : malloc(for_malloc(size)));
}

void rattle_dealloc(void *at) {
    heap_pages *old = pages_of(at);
    if (is_lent(at) || is_listed(at))
        return;
    if (old == NULL) {
        free(at);
    } else if (--old->left == 0) {
        making.table = old == making.table ? NULL : making.table;
        munmap(old, old->size);
    }
}

tried rattle_realloc(void *at, size_t kept, size_t size, size_t align) {
    void *to;
    (void)align;
    if (pages_of(at) == NULL && !is_lent(at) && !is_listed(at))
        return told(realloc(at, for_malloc(size)));
    to = malloc(for_malloc(size));
    if (to != NULL) {
        memcpy(to, at, kept);
        rattle_dealloc(at);
    }
    return told(to);
}

void heap_begin(const heap_table *table, heap_lists *lists) {
    static const heap_table none;
    making.is_on = 1;
    making.of = table == NULL ? none : *table;
    making.asked = 0;
    making.table = NULL;
    making.lists = lists;
}

/* The table's pages stay in `making` until heap_take_pages takes them. */
int heap_end(void) {
    const heap_pages *table = making.table;
    making.is_on = 0;
    making.lists = NULL;
    return making.of.bytes < LEAST_TABLE || (table != NULL && table->given == 2 && table->left == 1 && table->is_copied);
}

heap_pages *heap_take_pages(void) {
    heap_pages *table = making.table;
    making.table = NULL;
    return table;
}

size_t heap_asked(void) {
    return making.asked;
}

/* The beginning of the page in which a place of the table stands. */
static char *page_at(const heap_pages *table, size_t place) {
    return (char *)table + (IN_PAGES + place) / page_size() * page_size();
}

/* A table has a range for each kind and handle, of the records that the handle has of its own, and one before them for each kind, of those that all
 * claim first. Those that are left belong to the last handle's. So the ranges of a table stand one behind the other. */
static size_t ranges(const heap_pages *table) {
    return HEAP_KINDS * (table->of.handles + 1);
}

/* Where the range of this number begins, or the last one ends. */
static size_t begin_of(const heap_table *of, size_t range) {
    size_t kind = range / (of->handles + 1), handle = range % (of->handles + 1);
    return of->from[kind] + (handle == 0 ? 0 : of->first[kind] + (handle - 1) * of->own[kind]);
}

/* A piece is of the size of a huge page, and begins where one may stand. This is the first that begins in a range, or behind it. */
static char *first_piece(const heap_pages *table, size_t range) {
    uintptr_t begin = (uintptr_t)page_at(table, begin_of(&table->of, range)), end = (uintptr_t)table + table->size;
    begin = (begin + HUGE_PAGE - 1) / HUGE_PAGE * HUGE_PAGE;
    end = end / HUGE_PAGE * HUGE_PAGE;
    return (char *)(begin < end ? begin : end);
}

/* How many bytes take memory of those between two pages; all, if the system doesn't tell. From a third place on the pages fill one after the
 * other: so behind 2 MiB without any there is none. */
static size_t held_of(char *page, const char *end, const char *filling) {
    unsigned char there[HUGE_PAGE / LEAST_PAGE];
    size_t held = 0, part, its, at;
    for (; page < end; page += part) {
        part = (size_t)(end - page) < HUGE_PAGE ? (size_t)(end - page) : HUGE_PAGE;
        if (mincore(page, part, there) != 0)
            return held + (size_t)(end - page);
        for (its = at = 0; at < (part + page_size() - 1) / page_size(); at++)
            its += there[at] & 1;
        if (its == 0 && page >= filling)
            break;
        held += its * page_size();
    }
    return held;
}

/* Whether something was written where a page begins, as it was once its records have been in use. A page that was only read is there, too, and 0.
 * Other threads may write there. */
static int is_used(char *page) {
    const uint64_t *word = (const uint64_t *)page, *end = word + LONGEST_RECORD / sizeof *word;
    if (held_of(page, page + page_size(), page) == 0)
        return 0;
    while (word < end && __atomic_load_n(word, __ATOMIC_RELAXED) == 0)
        word++;
    return word < end;
}

/* Whether nearly all pages of a piece are there, and some that were looked at have been used. The last one mostly comes last. */
static int is_filled(char *piece) {
    char *end = piece + HUGE_PAGE, *page = end - page_size();
    while (page > piece && is_used(page))
        page -= HUGE_PAGE / LOOKS_AT_A_PIECE;
    return page < piece && held_of(piece, end, end) >= HUGE_PAGE - MOST_MISSING;
}

/* Puts a huge page in the place of the next piece of a range, if that has filled. Returns whether it had, or -1 if there is none. With the second one
 * the rest of the range asks for huge pages, but for the last piece, with which the next range may begin. */
static int look(heap_pages *table, size_t range) {
    uint8_t *asked = &table->asked[range];
    char *first = first_piece(table, range), *end = first_piece(table, range + 1), *last = end - HUGE_PAGE;
    char *piece = *asked < MOST_ASKED ? first + *asked * (size_t)HUGE_PAGE : last;
    if (*asked > MOST_ASKED || first >= end || piece >= end)
        return -1;
    if (!is_filled(piece))
        return 0;
    ++*asked;
    madvise(piece, *asked == MOST_ASKED && piece < last ? (size_t)(last - piece) : HUGE_PAGE, MADV_HUGEPAGE);
    madvise(piece, HUGE_PAGE, MADV_COLLAPSE);
    return 1;
}

void heap_fill(heap_pages *table) {
    size_t seen, looks = 0;
    int found = 0;
    for (seen = 0; table != NULL && seen < ranges(table) && seen < MOST_SEEN && looks < MOST_LOOKS && found <= 0; seen++) {
        found = look(table, table->next);
        looks += found == 0;
        table->next = table->next + 1 < ranges(table) ? table->next + 1 : 0;
    }
}

/* A load fills the records of each kind from their beginning on. */
int heap_pause(heap_pages **words) {
    heap_pages *filled = *words = heap_take_pages();
    size_t kind, of_kind;
    char *from, *end;
    heap_end();
    if (filled == NULL)
        return making.of.bytes < LEAST_TABLE;
    of_kind = filled->of.handles + 1;
    for (kind = 0; kind < HEAP_KINDS; kind++) {
        from = first_piece(filled, kind * of_kind) + MOST_ASKED * HUGE_PAGE;
        end = first_piece(filled, (kind + 1) * of_kind) - HUGE_PAGE;
        if (from < end)
            madvise(from, (size_t)(end - from), MADV_HUGEPAGE);
    }
    return filled->given == 1 && filled->left == 1;
}

void heap_go_on(const heap_table *table, heap_pages *words, heap_lists *lists) {
    heap_begin(table, lists);
    making.table = words;
}

void heap_end_load(heap_pages *table) {
    size_t range;
    if (table == NULL)
        return;
    madvise(table, table->size, MADV_NOHUGEPAGE);
    for (range = 0; range < ranges(table); range++)
        while (look(table, range) > 0)
            ;
}

size_t heap_held(const heap_pages *table, const size_t *committed) {
    const heap_table *of = &table->of;
    char *begin, *last, *end = page_at(table, of->from[0]);
    size_t range, kind, held = held_of((char *)table, end, end);
    for (range = 0; range < ranges(table); range++) {
        kind = range / (of->handles + 1);
        begin = end;
        end = page_at(table, begin_of(of, range + 1));
        last = end - (uintptr_t)end % HUGE_PAGE; /* where a huge page of the next range may begin */
        last = last < begin ? begin : last;
        held += held_of(begin, last, page_at(table, of->from[kind] + (committed != NULL ? committed : of->first)[kind]));
        held += held_of(last, end, end);
    }
    return held;
}

size_t heap_held_lists(const heap_lists *lists) {
    return held_of(lists->begin, lists->begin + lists->size, lists->begin + lists->size);
}
