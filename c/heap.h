/* What hot.c tells heap.c of what this thread makes, and of rooms that it lends. */
#ifndef HEAP_H
#define HEAP_H

#include <stddef.h>
#include <stdint.h>

/* A table that is made: how many bytes it has, or 0 if none is made; whether they may be more than all memory; for how many handles it is; where in
 * it the records of each kind begin, in this order, and the last ones end; how many bytes those have of a kind that all handles claim first, which
 * stand side by side; and how many those behind them that each handle has of its own. */
enum { HEAP_KINDS = 6, HEAP_MOST_HANDLES = 1024 };
typedef struct heap_table {
    size_t bytes;
    int may_exceed_memory;
    size_t handles, from[HEAP_KINDS + 1], first[HEAP_KINDS], own[HEAP_KINDS];
} heap_table;

/* Addresses for the long lists of a table's handles, of which few are ever used: there a page takes memory once something is written. So many
 * bytes are for a handle's: of nodes on a way, of records that a change makes and unlinks, of those that wait, and of spare ones. The first `used`
 * bytes are lists. */
enum { LISTS_OF_A_HANDLE = 304 << 10 };
typedef struct heap_lists {
    char *begin;
    size_t size, used;
} heap_lists;

/* Gives so many handles addresses for these lists; none where the system refuses them, and then the lists come from malloc. */
void heap_map_lists(heap_lists *lists, size_t handles);

/* Frees them, once no handle has such a list any more. */
void heap_unmap_lists(heap_lists *lists);

/* How many of their bytes take memory. */
size_t heap_held_lists(const heap_lists *lists);

/* Between these two calls the proved calls make handles, and a table, if its size is not 0: what is 0 in them is to take no memory. The long
 * lists of the handles stand in `lists`, unless that is NULL or has no room. */
void heap_begin(const heap_table *table, heap_lists *lists);

/* Returns whether the table may be used. If not, memory was refused. */
int heap_end(void);

/* How many bytes were asked for between them, without those of the table and of the lists there. */
size_t heap_asked(void);

/* The pages of the table that this thread has made last, or NULL if it has none of its own. They go with the table. */
typedef struct heap_pages heap_pages;
heap_pages *heap_take_pages(void);

/* Whether the system lets a table have so many bytes of addresses, which may exceed all memory. */
int heap_may_map(size_t bytes);

/* Whether there is a word at this place of a table, and it isn't 0. */
int heap_is_used(const heap_pages *table, size_t place);

/* How many bytes of its pages take memory. The system may count those that were only read. If a table has no ranges of its handles, they are among so
 * many bytes of each kind, and few behind these. */
size_t heap_held(const heap_pages *table, const size_t *committed);

/* Puts a huge page in the place of a piece of the table that has filled, if the next few that it looks at have one, and the system has one. */
void heap_fill(heap_pages *table);

/* The same for all pieces, once a load has filled some. */
void heap_end_load(heap_pages *table);

/* A load fills the words of a table before the table is made of them. Between heap_begin and heap_pause it gets words that are 0 but for a few at
 * their beginning, and between heap_go_on and heap_end the table is made of the filled ones. heap_pause writes what heap_go_on takes, and returns
 * whether the words may be filled: if not, memory was refused. In between this thread may make other things. */
int heap_pause(heap_pages **words);
void heap_go_on(const heap_table *table, heap_pages *words, heap_lists *lists);

/* Between these two calls blocks of this thread come from a room, as far as they fit, and each of them is freed. The room begins at a
 * multiple of 16, and its size is one. */
void heap_lend(void *room, size_t size);
void heap_take_back(void);

/* What the proved calls call in the place of memset, and of the loop that copies a table's words. */
void *heap_set(void *to, int what, size_t size);
void heap_copy(uint64_t *to, const uint64_t *from, size_t count);

#endif
