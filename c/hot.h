/* An ordered in-memory index from byte keys to 64-bit values, which threads use at the same time.
 *
 * hot_open_index makes an index, and hot_open opens a handle on it. A handle is the right to use the index. Calls with different handles
 * may run at the same time; calls with the same handle may not. So give each thread its own handle, or hand a handle over by a lock, by a
 * thread's start or join, or by a sequentially consistent atomic. A call takes effect for all others at once, or not at all. But these make
 * several calls, one after the other: hot_copy, hot_clear, hot_clear_range, hot_pop_first, hot_pop_last, hot_each and its like
 * and, for more than 64 keys, hot_get_many and hot_get_packed.
 *
 * A key is 0 to HOT_MAX_KEY bytes of any value. Keys are ordered as by memcmp, and a key comes after its own prefixes. The index
 * copies keys: the memory of a key is yours again when the call returns.
 *
 * Any thread may close a handle once the handle's last call has returned, while calls with other handles go on. A thread that ends
 * leaves its handle open; another thread may go on using it, or close it. hot_close_index frees an index whose handles are closed.
 * hot_create makes an index and opens all its handles at once, and closing the last one frees it.
 *
 * When the index is full. A key that is there gets a new value where it stands, which takes no record. Any other change writes new records
 * before it retires those that it replaces. Retired records can be used again once the calls that ran at that time, or began soon after,
 * have returned. Then the next collection gives them back. A change that finds no record free makes a collection itself and tries again,
 * where that may help. Then it counts all records. If fewer are free than it needs, and none is retired or claimed by a change that is
 * under way, it returns HOT_FULL_NODES or HOT_FULL_LEAVES, until keys are removed. So it does where the index has one handle. Else other
 * calls hold records back, and it is to be tried again: hot_insert and the like do so, and hot_try_insert and the like return
 * HOT_HELD_BACK. The count loads one record after another: with a handful of records to spare, changes that are under way may have a few
 * of them in use for a moment. A thread that is stopped in the middle of a call, even of a look-up or a scan, may hold back everything that
 * is retired meanwhile.
 *
 * Removals are never full, so that a full index can be emptied. Insertions leave one node record free for them, and an index has one more
 * than asked, up to 4294967295. If an index has one handle, a removal finds that record, within 2^60 steps of the index: that is proved. All else here is tested alone. With several handles another call may have the record, or hold back what was retired instead. Then
 * removals are held back, and no count is made: hot_try_remove returns HOT_HELD_BACK, and hot_remove waits, without a bound.
 *
 * Keys in calls. A key, a prefix or an end of a range that has more than HOT_MAX_KEY bytes is refused as HOT_KEY_TOO_LONG by each call. The
 * value that a key had is written to `had` if the call says so, and else `had` stays as it is. It may be NULL, if it is not wanted.
 *
 * What the library relies on, and doesn't check. No pointer is NULL but `had`, `context` and where a call says so, not even a key's if its
 * length is 0. Each points to what its type says, and what a call writes overlaps no other argument. A handle is zeroed before it is
 * opened, and the program never copies, moves or writes its bytes. malloc, realloc and free belong to one allocator, and 16 bytes or more
 * begin at a multiple of 16. No call is made from a signal handler, or by a thread that may be cancelled asynchronously. A call is no cancellation
 * point. A call has 48 KiB of stack.
 *
 * Forks. The child of a fork has an index of its own, as it was then. If other threads were in calls, the child only looks up, scans and
 * counts, through a handle of which no call was under way. All else may find a change in its way whose thread the child hasn't: hot_try_insert
 * and the like then return HOT_BUSY or HOT_HELD_BACK, and calls that wait never return. Scans may ask malloc for memory. So it has to work
 * in such a child, as glibc's does; AddressSanitizer's may hang there.
 *
 * A call fails only by its status. None waits for another, except hot_insert, hot_upsert, hot_exchange, hot_remove, hot_remove_if,
 * hot_add, hot_add_or_insert and hot_update; hot_copy, hot_clear, hot_clear_range, hot_pop_first and hot_pop_last, which make such calls; hot_open, hot_stamp and hot_trim, for
 * each other; hot_stamp and hot_follow, too; and hot_bytes, with an index that grows, for hot_trim and an insertion that asks for huge pages.
 * Each other call ends after a bounded number of steps, whatever other threads do: a step is one atomic access to a word of the index.
 * Each call below that makes steps gives its bound, for the worst tree that there can be. Beside its steps it may touch words, which it loads
 * and ignores: hot_get four at most for each node on the way, hot_get_many, scans and changes eleven for each entry of a node that they load.
 *
 * Memory. An index has its records from the beginning, and a handle up to 310 KB of lists from when it is first opened, so that no change asks
 * for memory. But a page of 4 KiB takes memory only once something is written there: so an index takes what its keys need, and a handle
 * some 28 KB. A page that was written stays when keys go. Once 2 MiB of a table have been written, they get a huge page, where the system lets
 * them, by an insertion that then takes some milliseconds. After two of these, of the records of a size that a handle claims for itself, the next
 * ones get huge pages when they are first written: so it takes at most one of each size that it doesn't fill. If memory runs out when a page is
 * first written, the system ends the program. So take a stock whose hot_stock_bytes the machine has to spare; or call mlockall once the index is
 * made, which takes all of it at once.
 *
 * Making an index takes some microseconds, however large its table is, and the table's size of address space. A table that is larger than all
 * memory with its swap is refused at once, unless hot_open_index_within allows it or the system is set to promise any amount. Where the system
 * promises no more than it has (vm.overcommit_memory is 2), it counts each table as a whole. A table below 1 MiB comes from malloc, and takes all
 * of its memory at once.
 *
 * Each handle has memory for the pairs of its scans, too, which the next scan uses again. After a scan it goes if the keys have more than
 * 32 KiB of it, or the rest has. So a handle keeps 64 KiB of it at most between its calls.
 *
 * The library starts no threads and keeps no data outside its indexes but how many there are that grow. It needs Linux, and an ARM64
 * (aarch64) processor with the lowest byte first, or an x86-64 processor of the level for which it was compiled: x86-64-v3, which has AVX2,
 * unless the machine that compiled it had not, or x86-64-v2 was asked for. On an older one
 * hot_create, hot_create_with, hot_open_index, hot_open_index_within, hot_open_growing, hot_load, hot_load_packed, hot_load_growing and
 * hot_stock_bytes return HOT_OLD_PROCESSOR
 * and write nothing, and stocks have no records; any other call may end the program there.
 * `pkg-config --cflags --libs hot` tells how to link it. */
#ifndef HOT_H
#define HOT_H

#include <stddef.h>
#include <stdint.h>

#ifdef __cplusplus
extern "C" {
#endif

/* The version of this header. A program that is right with an earlier version of the same major number is right with this one. */
#define HOT_VERSION_MAJOR 3
#define HOT_VERSION_MINOR 1
#define HOT_VERSION_PATCH 0

/* The version of the library that is linked: 65536 times the major number, 256 times the minor one, and the patch. */
uint32_t hot_version(void);

/* The greatest length of a key, in bytes. */
#define HOT_MAX_KEY 240

/* The greatest key, HOT_MAX_KEY bytes of 255; and both arguments of an upper bound that lets a range go on to the end, as in
 * hot_scan(handle, key, length, HOT_TO_END, ..). A lower bound of no bytes lets it begin with the first key. */
extern const uint8_t hot_last_key[HOT_MAX_KEY];
#define HOT_TO_END hot_last_key, HOT_MAX_KEY

/* How a call came out. Each call says which of these it returns. From HOT_BUSY to HOT_NO_MEMORY, and from HOT_HELD_BACK on, the call
 * was refused and changed nothing; with any other status it was made. hot_copy, hot_clear, hot_clear_range, hot_each and its like, and hot_get_packed
 * return the status of the first of their calls that was refused: what those before it did stays. A load keeps the pairs before one that
 * was refused; where memory is refused, it makes no index. */
typedef uint32_t hot_status;
enum {
    HOT_DONE = 0,          /* it was made; there is nothing else to tell */
    HOT_FOUND = 1,         /* the key has this value */
    HOT_ABSENT = 2,        /* the key is not there */
    HOT_INSERTED = 3,      /* the key was absent, and has the new value */
    HOT_EXISTS = 4,        /* the key has this value, and keeps it */
    HOT_NEW = 5,           /* the key was absent, and has the new value */
    HOT_WAS = 6,           /* the key had this value, and has the new one */
    HOT_REMOVED = 7,       /* the key had this value, and is gone */
    HOT_BUSY = 8,          /* another call is in the way: try again */
    HOT_FULL_NODES = 9,    /* too few node records were free, and by a count none comes back: never of a removal */
    HOT_FULL_LEAVES = 10,  /* no leaf record with room for the key was free, and by a count none comes back */
    HOT_KEY_TOO_LONG = 11, /* a key has more than HOT_MAX_KEY bytes, or is to be put in and no leaf record has room for it */
    HOT_CLOSED = 12,       /* the handle is closed */
    HOT_OPEN = 13,         /* a handle that was to be opened is open */
    HOT_OUT_OF_RANGE = 14, /* the number of handles, nodes or leaves is out of range */
    HOT_NO_MEMORY = 15,
    HOT_EXCHANGED = 16,    /* the key had the expected value, and has the new one */
    HOT_DIFFERS = 17,      /* the key has this value, which is not the expected one, and keeps it */
    HOT_HELD_BACK = 18,    /* too few records were free, but some may come back: try again */
    HOT_NO_HANDLE = 19,    /* all handles of the index are open */
    HOT_OTHER_INDEX = 20,  /* the handle, or the moment, is of another index */
    HOT_OLD_PROCESSOR = 21, /* the library was compiled for newer processors */
    HOT_INSIDE = 22,       /* the handle's section is open */
    HOT_OUTSIDE = 23,      /* the handle's section is not open */
    HOT_NOT_PAST = 24,     /* a section that was open at the moment may still be open: ask again */
    HOT_NOT_RISING = 25,   /* the key of a pair that is loaded is not above the one before */
    HOT_FIXED = 26         /* the index does not grow */
};

/* A few words of English for a status. The text is static; a number that is no status has a text too. */
const char *hot_status_text(hot_status status);

/* An index whose handles are opened one by one. */
typedef struct hot_index hot_index;

/* A handle. Its fields are the library's. */
typedef struct hot_handle {
    uint32_t tag;
    struct {
        void *at;
    } slot;
    struct hot_place *place;
} hot_handle;

/* A closed handle: hot_handle handles[2] = { HOT_HANDLE, HOT_HANDLE }; */
#define HOT_HANDLE { 0, { NULL }, NULL }

/* A key with its value. The first `length` bytes of `key` are the key; a call that writes a pair leaves the others as they were. */
typedef struct hot_pair {
    uint8_t key[HOT_MAX_KEY];
    uint32_t length;
    uint64_t value;
} hot_pair;

/* Makes an empty index and opens `count` handles on it, 1 to 64; all must be closed before. For handles that may stay unused take
 * hot_open_index. The index has `nodes` node records, 1 to 65535, and `leaves` leaf records, 1 to 262143. Each key takes one leaf record; a
 * node record holds 2 to 32 keys or nodes. Have some of both to spare, since a change builds the new before it gives the old back.
 * HOT_DONE; or HOT_OUT_OF_RANGE, for which it looks before it looks at the handles, HOT_OPEN, HOT_NO_MEMORY or HOT_OLD_PROCESSOR, and
 * then no handle was opened. */
hot_status hot_create(uint32_t nodes, uint32_t leaves, hot_handle *handles, size_t count);

/* How many records of each size an index has. A key takes a leaf record of the smallest size with room for it, or a larger one where
 * none of that size was free lately. */
typedef struct hot_stock {
    uint32_t nodes;         /* 464 bytes each */
    uint32_t short_leaves;  /* for keys of up to 8 bytes; 32 bytes each */
    uint32_t medium_leaves; /* up to 24 bytes; 48 */
    uint32_t large_leaves;  /* up to 56 bytes; 80 */
    uint32_t wide_leaves;   /* up to 88 bytes; 112 */
    uint32_t long_leaves;   /* up to HOT_MAX_KEY bytes; 264 */
} hot_stock;

/* Makes an empty index with this stock and opens `count` handles on it, 1 to 1024; all must be closed before. The index has 1 to
 * 4294967295 nodes, and 1 to 4294967295 leaves of all sizes together. (The leaves that hot_create makes are all long.)
 * HOT_DONE; or HOT_OUT_OF_RANGE, HOT_OPEN, HOT_NO_MEMORY or HOT_OLD_PROCESSOR, as hot_create. */
hot_status hot_create_with(const hot_stock *stock, hot_handle *handles, size_t count);

/* Writes a stock for `keys` keys of at most `longest` bytes each. It has 4 leaves for 3 keys, of the smallest size with room for such a
 * key, one node for 3 keys, and to spare of both one up to 32 keys, and for more 10 and one for 16 keys, 512 at most. Take the most keys that
 * there will ever be: what isn't used takes no memory. That was enough for random keys, URLs, numbers, also
 * with few bits set, and text with a rising number, also where keys came and went for long; and up to 32 keys, which stand in one node, for
 * all that were tried. If several threads change the index, take 256 keys for each at least, for eight at most. Keys that somebody chose to do
 * harm may take up to one node each: hot_stock_for_any_keys has room for them. */
void hot_stock_for_keys(uint32_t keys, size_t longest, hot_stock *stock);

/* Writes a stock that is always enough for `keys` keys of at most `longest` bytes each, whatever they are, in an index of so many handles: a
 * tree has fewer nodes than keys. It has a node and a leaf for each key, and for each handle those that one change claims at most: a leaf, 18
 * nodes for each byte of `longest`, and one. So they are never all in use while there are no more keys; that is counted, and not proved. A
 * change may have to wait for retired ones. More than 240 bytes count as 240, more than 1024 handles as 1024, and no number exceeds
 * 4294967295. */
void hot_stock_for_any_keys(uint32_t keys, size_t longest, size_t handles, hot_stock *stock);

/* Writes a stock for keys of different lengths: `keys` has five numbers, of keys of up to 8, 24, 56, 88 and HOT_MAX_KEY bytes. For each
 * that is not 0 it has as many leaves as hot_stock_for_keys would give, and nodes for all keys together. */
void hot_stock_for_lengths(const uint32_t *keys, hot_stock *stock);

/* Writes how many bytes the records and pins of an index with this stock and this number of handles have. The lists of handles, up to 310 KB
 * each, are not counted.
 * HOT_DONE; or HOT_OUT_OF_RANGE or HOT_OLD_PROCESSOR, where hot_create_with would return that. */
hot_status hot_stock_bytes(const hot_stock *stock, size_t handles, size_t *bytes);

/* Makes an empty index with this stock and room for so many handles, 1 to 1024, and writes it to `index`. Room for a handle takes some 360
 * bytes; the handle's lists and its section are made when hot_open first opens it, and the lists of the last one at once.
 * HOT_DONE; or HOT_OUT_OF_RANGE, HOT_NO_MEMORY or HOT_OLD_PROCESSOR, and then nothing is written. */
hot_status hot_open_index(const hot_stock *stock, size_t handles, hot_index **index);

/* hot_open_index, if the records and pins of the index have `most` bytes or fewer: else it is HOT_NO_MEMORY at once, as for a stock out of a
 * damaged file. `most`, and so the table, may be larger than all memory: what keys need of the table is to fit. Its records are committed as
 * changes need them: calls that visit all records, and bounds that count them, are about those that are committed. */
hot_status hot_open_index_within(const hot_stock *stock, size_t handles, size_t most, hot_index **index);

/* What a load takes its pairs from: a call writes the next one, whose key is there until the function is called again or the load returns.
 * It returns 0 if there is none. It does return: neither longjmp, an exception nor the end of its thread leads out of it. */
typedef int hot_source(void *context, const uint8_t **key, size_t *length, uint64_t *value);

/* Makes an index as hot_open_index does, of the pairs that `next` gives it, with the `context`, until it returns 0; and writes how many there
 * are to `count`. Each key is above the one before it. The index is as if a handle had put them in one after another by hot_insert, before
 * any other call. Where a pair is refused, the load ends: the index has those before it, and `count` is the number of the refused one, from 0
 * on. A load takes no more memory than the index that it makes; below 1 MiB it takes two tables for a moment. It leaves node records for what
 * it has to end: so it may be HOT_FULL_NODES where insertions go on, but never while the stock has a node for each pair, nor for the first 32
 * pairs: both are proved. `next` may make calls with other indexes.
 * hot_load_packed takes pairs that lie in memory.
 * HOT_DONE; or HOT_NOT_RISING, HOT_KEY_TOO_LONG, HOT_FULL_NODES, HOT_FULL_LEAVES, if a pair was refused; or HOT_OUT_OF_RANGE, HOT_NO_MEMORY,
 * HOT_OLD_PROCESSOR, and then nothing is written. */
hot_status hot_load(const hot_stock *stock, size_t handles, hot_source *next, void *context, hot_index **index, size_t *count);

/* Opens a handle of the index, at any time and from any thread. It looks at no more than one word for each handle of the index. If it
 * finds none that was given back, it opens one for the first time, which needs memory and waits for other calls that do so.
 * HOT_DONE; or HOT_OPEN if the handle is open already, HOT_NO_HANDLE if it found none that was free, or HOT_NO_MEMORY. */
hot_status hot_open(hot_index *index, hot_handle *handle);

/* Gives a handle of hot_open back to its index, from any thread: hot_open may then give it out again, with the memory that it keeps.
 * It closes a handle of hot_create as hot_destroy does.
 * HOT_DONE; or HOT_CLOSED if it is closed already, or HOT_INSIDE if its section is open. */
hot_status hot_close(hot_handle *handle);

/* Frees an index of hot_open_index. No other call with it or a moment of it may be under way, or follow.
 * HOT_DONE; or HOT_OPEN if a handle is open, and then it stays as it is. */
hot_status hot_close_index(hot_index *index);

/* An index that grows, for when the number of keys isn't known in advance. It reserves as many records of each size as memory has room for, or the
 * system gives addresses for, and commits them as keys need them: only committed records are used, and visited by hot_collect, hot_census and counts.
 * A page takes memory once something was written there. The bindings for Python and SQLite make such an index unless they are told not to, and those
 * for Redis and RocksDB always do.
 *
 * Calls are as with any other index, but for this. A handle commits records ahead of need, every 64 insertions, and where a change finds none free. That
 * is a few accesses of memory, for which no call waits. A try that finds none free commits some and begins again, so its bound on steps holds for each
 * attempt. Bounds that count records count committed ones. Where the index may commit no more, a change is full as in any other index; where it has
 * committed all that it reserved, it is HOT_NO_MEMORY. A removal that finds no node free commits one in any case. So it is never held back. mlockall
 * would take all that is reserved. */

/* Makes an empty index that grows, with room for so many handles, 1 to 1023. It has this stock committed at first, or a small one if it is NULL, and one
 * record of each other size. What is committed has no more than `most` bytes, as hot_stock_bytes counts them, but for nodes that removals commit;
 * SIZE_MAX is no bound.
 * HOT_DONE; or HOT_OUT_OF_RANGE, also where `most` is too few for what is committed at first, HOT_NO_MEMORY or HOT_OLD_PROCESSOR, and then nothing is
 * written. */
hot_status hot_open_growing(const hot_stock *stock, size_t most, size_t handles, hot_index **index);

/* Makes such an index of pairs, of which nobody need know how many there are, as hot_load does: they go to its table at once. A pair for which that may
 * have more than `most` bytes is refused as HOT_FULL_LEAVES.
 * It returns what hot_load does. */
hot_status hot_load_growing(size_t most, size_t handles, hot_source *next, void *context, hot_index **index, size_t *count);

/* These have nothing to do, since an index commits records as it needs them. They are for programs that had it grow ahead of need: hot_grow_step writes 0
 * to `more`.
 * HOT_DONE; or HOT_FIXED if the index doesn't grow. */
hot_status hot_grow(hot_index *index);
hot_status hot_grow_begin(hot_index *index);
hot_status hot_grow_step(hot_index *index, uint32_t *more);

/* It is never time for that: 0. */
int hot_is_filling(hot_index *index);

/* Gives memory back when keys have gone: makes the table of an index that grows anew, with the pairs that it has. For a moment both tables are there. No
 * handle may be open. What handles have seen, moments and numbers of handles stay.
 * HOT_DONE; or HOT_FIXED if the index doesn't grow, HOT_OPEN if a handle is open, HOT_NO_MEMORY or HOT_FULL_LEAVES, and then it is as it was. */
hot_status hot_trim(hot_index *index);

/* Order in time. A handle has seen its own calls, and all that was published when a call of it loaded the root. Whatever a handle has
 * seen comes before its later calls. These calls let a handle see what another has seen. */

/* Lets two handles of an index see all that either has seen. So later calls of each come after the earlier calls of both. It makes 6
 * loads, which count as no steps.
 * HOT_DONE; or HOT_CLOSED, HOT_OTHER_INDEX. */
hot_status hot_meet(hot_handle *one, hot_handle *other);

/* A moment of an index: bytes that may be copied, kept, and sent to any thread, by a lock, by a thread's start or join, or by a
 * sequentially consistent atomic. They hold nothing that must be given back. The index must be there when a moment of it is followed. */
typedef struct hot_moment {
    hot_index *index;
} hot_moment;

/* Writes a moment, which tells of all that the handle has seen. The first such call opens one of the index's handles for good, as hot_open
 * does: so make the index with room for one more. Beside that it makes at most 3 loads, once no other thread makes such a call or hot_follow.
 * HOT_DONE; or HOT_CLOSED, HOT_NO_HANDLE if none is free, as with handles of hot_create, or HOT_NO_MEMORY. */
hot_status hot_stamp(hot_handle *handle, hot_moment *moment);

/* Lets the handle see all that the moment tells of. So its later calls come after all calls that had returned to the handle of hot_stamp,
 * or that it had seen. It may also see what later moments of the index tell of. It makes 3 loads, once no other thread makes such a call.
 * HOT_DONE; or HOT_CLOSED, HOT_OTHER_INDEX. */
hot_status hot_follow(hot_handle *handle, const hot_moment *moment);

/* Writes a handle's number: its place in the array that was opened, or among the handles of its index.
 * HOT_DONE; or HOT_CLOSED. */
hot_status hot_number(hot_handle *handle, uint16_t *number);

/* Looks up a key, and writes its value if it has one. It is never busy. It makes at most 36 steps, and 26 for each node on the
 * way to the key; there are at most 2160 such nodes, so 56196 steps in all.
 * HOT_FOUND, HOT_ABSENT; or HOT_KEY_TOO_LONG, HOT_CLOSED. */
hot_status hot_get(hot_handle *handle, const uint8_t *key, size_t length, uint64_t *value);

/* What values point to. A reader may still follow a value that another thread has just taken out of the index. So readers look up, and use
 * what they found, inside a section of their handle. They see what was written to it before the call that stored the value: calls read and
 * store it as C11's memory_order_seq_cst, which no theorem says. No ThreadSanitizer sees the library's steps: hot.hpp tells it of calls and
 * sections, and in C hot_tsan.h. Who takes a value out, or replaces it, notes a moment behind that, and frees what the value points to once
 * the moment is past. Sections hold no records of the index back, and calls inside one are as any other. A handle that never enters a section
 * costs nothing then. These calls wait for none. Their loads and stores count as no steps: each call says how many it makes, which is not
 * proved. */

/* Enters the handle's section. It makes one load and one store, and one exchange more at the first time.
 * HOT_DONE; or HOT_INSIDE if it is open already, or HOT_CLOSED. */
hot_status hot_enter(hot_handle *handle);

/* Leaves the handle's section. It makes one store. A handle can't be closed inside its section: hot_close and hot_destroy return HOT_INSIDE.
 * HOT_DONE; or HOT_OUTSIDE if it is not open, or HOT_CLOSED. */
hot_status hot_leave(hot_handle *handle);

/* A moment by which something was out of the index: bytes that may be copied, kept, and sent to any thread. They hold nothing that must be
 * given back. */
typedef struct hot_retirement {
    hot_index *index;
    uint64_t number;
} hot_retirement;

/* Writes the moment of the call, which a program makes behind the change that took a value out. It may stand for any number of values. It
 * makes one load and one exchange.
 * HOT_DONE; or HOT_CLOSED. */
hot_status hot_retired(hot_handle *handle, hot_retirement *moment);

/* Whether each section that was open at the moment has been left since: that is proved. Then no reader has what was out of the index by then,
 * if each looks up and uses it inside a section. A section that is entered later doesn't count; one of the same handle does, so leave it
 * before. A section that was open holds later moments back, too. It makes 2 loads, and one for each handle up to the last that ever entered a
 * section.
 * HOT_DONE, HOT_NOT_PAST; or HOT_CLOSED, HOT_OTHER_INDEX. */
hot_status hot_is_past(hot_handle *handle, const hot_retirement *moment);

/* A key to look up, and what was found. */
typedef struct hot_lookup {
    const uint8_t *key;
    size_t length;
    uint64_t value;    /* the key's value, if it was found */
    hot_status status; /* HOT_FOUND or HOT_ABSENT */
} hot_lookup;

/* Looks up each of `count` keys once, and writes to its place what was found: a status, and the value if there is one. Each was so at
 * a moment of its own within the call, in no stated order among the keys. It makes at most 4 steps for each 64 keys, 32 for each key,
 * and 26 for each node on the way to a key; there are at most 2160 such nodes for each. It asks for no memory. Records that
 * other calls retire meanwhile can't be used again until 64 keys have been looked up.
 * HOT_DONE; or HOT_KEY_TOO_LONG if any key is, HOT_CLOSED, and then nothing was written. */
hot_status hot_get_many(hot_handle *handle, hot_lookup *lookups, size_t count);

/* hot_get_many of keys that lie one after another in `bytes`, each of so many bytes as `lengths` says: writes a value, if there is one,
 * and a status for each.
 * HOT_DONE; or HOT_KEY_TOO_LONG if any key is, HOT_CLOSED, and then nothing was written. */
hot_status hot_get_packed(hot_handle *handle, const uint8_t *bytes, const size_t *lengths, size_t count, uint64_t *values,
                          hot_status *statuses);

/* Gives a key a value if it is absent. If it is there, it keeps its value, which is written to `had`. This and each other call
 * hot_try_.. makes at most 1396470 steps, 2 for each handle of the index, 7 for each node record and 11 for each leaf record.
 * HOT_INSERTED, HOT_EXISTS; or HOT_BUSY, HOT_HELD_BACK, HOT_FULL_NODES, HOT_FULL_LEAVES, HOT_KEY_TOO_LONG, HOT_CLOSED. */
hot_status hot_try_insert(hot_handle *handle, const uint8_t *key, size_t length, uint64_t value, uint64_t *had);

/* Gives a key a value. If it had one before, that is written to `had`. It lacks records only if it found the key absent.
 * HOT_NEW, HOT_WAS; or HOT_BUSY, HOT_HELD_BACK, HOT_FULL_NODES, HOT_FULL_LEAVES, HOT_KEY_TOO_LONG, HOT_CLOSED. */
hot_status hot_try_upsert(hot_handle *handle, const uint8_t *key, size_t length, uint64_t value, uint64_t *had);

/* Compare and exchange: gives a key a new value if it has the expected one. If it has another, it keeps that, which is written to
 * `had`. This and hot_try_add make at most 56488 steps, and one for each handle of the index.
 * HOT_EXCHANGED, HOT_DIFFERS, HOT_ABSENT; or HOT_BUSY, HOT_KEY_TOO_LONG, HOT_CLOSED. */
hot_status hot_try_exchange(hot_handle *handle, const uint8_t *key, size_t length, uint64_t expected, uint64_t value, uint64_t *had);

/* Adds to the value of a key that is there, modulo 2 to the power of 64, by one search. The value that it had is written to `had`.
 * HOT_WAS, HOT_ABSENT; or HOT_BUSY, HOT_KEY_TOO_LONG, HOT_CLOSED. */
hot_status hot_try_add(hot_handle *handle, const uint8_t *key, size_t length, uint64_t delta, uint64_t *had);

/* Removes a key. If it had a value, that is written to `had`.
 * HOT_REMOVED, HOT_ABSENT; or HOT_BUSY, HOT_HELD_BACK, HOT_KEY_TOO_LONG, HOT_CLOSED. */
hot_status hot_try_remove(hot_handle *handle, const uint8_t *key, size_t length, uint64_t *had);

/* Removes a key if it has the expected value. The value that it had, or has and keeps, is written to `had`.
 * HOT_REMOVED, HOT_DIFFERS, HOT_ABSENT; or HOT_BUSY, HOT_HELD_BACK, HOT_KEY_TOO_LONG, HOT_CLOSED. */
hot_status hot_try_remove_if(hot_handle *handle, const uint8_t *key, size_t length, uint64_t expected, uint64_t *had);

/* hot_try_insert, hot_try_upsert and hot_try_remove, repeated as long as another call is in the way or holds records back. Between two
 * tries they wait as hot_wait does. There is no bound on how long they wait: a thread that is stopped in the middle of a change keeps others
 * waiting that want to change the same nodes. They write and return what those do, except HOT_BUSY and HOT_HELD_BACK. */
hot_status hot_insert(hot_handle *handle, const uint8_t *key, size_t length, uint64_t value, uint64_t *had);
hot_status hot_upsert(hot_handle *handle, const uint8_t *key, size_t length, uint64_t value, uint64_t *had);
hot_status hot_remove(hot_handle *handle, const uint8_t *key, size_t length, uint64_t *had);

/* The same for hot_try_exchange, hot_try_add and hot_try_remove_if. hot_exchange and hot_add sleep after one sched_yield: where another call is
 * in their way, mostly many want the same key. */
hot_status hot_exchange(hot_handle *handle, const uint8_t *key, size_t length, uint64_t expected, uint64_t value, uint64_t *had);
hot_status hot_add(hot_handle *handle, const uint8_t *key, size_t length, uint64_t delta, uint64_t *had);
hot_status hot_remove_if(hot_handle *handle, const uint8_t *key, size_t length, uint64_t expected, uint64_t *had);

/* Adds to the value of a key, modulo 2 to the power of 64, or gives the key the value `delta` if it is absent. The value that it had is written to
 * `had`. It makes calls of hot_add and hot_insert until one of them changes the key, so it waits as they do; of these one takes effect.
 * HOT_WAS, HOT_NEW; or HOT_FULL_NODES, HOT_FULL_LEAVES, HOT_NO_MEMORY, HOT_KEY_TOO_LONG, HOT_CLOSED. */
hot_status hot_add_or_insert(hot_handle *handle, const uint8_t *key, size_t length, uint64_t delta, uint64_t *had);

/* What makes a new value: `value` is that which a key has, and the function writes the new one there. It returns 0 if the key is to keep its own. */
typedef int hot_changer(void *context, uint64_t *value);

/* Gives a key that is there the value that `change` makes of its own, with the `context`, as one change: where another call has changed the key
 * meanwhile, `change` is called again, with the value that it has then. The value that it had, or keeps, is written to `had`. While `change` runs no
 * call is under way: it may use the handle. It looks the key up and makes calls of hot_exchange, so it waits as that does.
 * HOT_WAS, HOT_ABSENT, or HOT_EXISTS if `change` returned 0; or HOT_KEY_TOO_LONG, HOT_CLOSED. */
hot_status hot_update(hot_handle *handle, const uint8_t *key, size_t length, hot_changer *change, void *context, uint64_t *had);

/* How often a loop of tries has waited. Each loop begins with none: hot_waits so_far = HOT_NO_WAITS; */
typedef struct hot_waits {
    uint32_t tries, sleeps;
} hot_waits;

#define HOT_NO_WAITS { 0, 0 }

/* For a loop of tries: while (hot_wait(status = hot_try_insert(..), &so_far)); Waits and returns 1 after HOT_BUSY and HOT_HELD_BACK, and
 * returns 0 at once after any other status. For HOT_BUSY it lets the processor pause 2, 4 and so on to 128 times, then makes two sched_yield,
 * and then sleeps, for 20 microseconds. For HOT_HELD_BACK it sleeps for 50. It sleeps twice as long each time, up to 32 times as long. */
int hot_wait(hot_status status, hot_waits *so_far);

/* Removes all keys, page by page, as hot_remove does. A key that another call puts in meanwhile may stay.
 * HOT_DONE; or HOT_CLOSED or HOT_NO_MEMORY, and then some keys are left. */
hot_status hot_clear(hot_handle *handle);

/* hot_clear of the keys from `from` to `upto`, both included.
 * HOT_DONE; or HOT_KEY_TOO_LONG, HOT_CLOSED; or HOT_NO_MEMORY, and then some keys are left. */
hot_status hot_clear_range(hot_handle *handle, const uint8_t *from, size_t from_length, const uint8_t *upto, size_t upto_length);

/* Gives each key of one index its value in another, in key order and page by page, as hot_scan and hot_upsert do. What other calls
 * change in the first one meanwhile is copied or not.
 * HOT_DONE; or HOT_CLOSED, HOT_NO_MEMORY, HOT_FULL_NODES, HOT_FULL_LEAVES or HOT_KEY_TOO_LONG, and then the rest was not copied. */
hot_status hot_copy(hot_handle *from, hot_handle *to);

/* Lists the pairs whose keys are from `from` to `upto`, both included, in key order: the first `limit` of them, for which the array `pairs`
 * has room. Writes their number to `count`, and 1 to `more` if the range has more, else 0. Other calls may change the index meanwhile. Each
 * pair was there at some moment of the call, and no key is missing that was there all along. If there are more, no key up to the last one
 * listed is. A range whose `from` is above its `upto` has no pairs. To go on, begin at the key that hot_after gives for the last pair's.
 * Records that other calls retire meanwhile can't be used again until the call ends: so list some thousand pairs at a time.
 * It makes at most 168607 steps, and 60 for each pair of the limit.
 * HOT_DONE; or HOT_KEY_TOO_LONG, HOT_CLOSED, HOT_NO_MEMORY (only if it had a pair to list), and then nothing was written. */
hot_status hot_scan(hot_handle *handle, const uint8_t *from, size_t from_length, const uint8_t *upto, size_t upto_length,
                    hot_pair *pairs, size_t limit, size_t *count, uint32_t *more);

/* Writes the least possible key above this one, at which a scan can go on, to `next`, which has room for HOT_MAX_KEY bytes, and its
 * length. The keys need not be in the index.
 * HOT_DONE; or HOT_ABSENT if no key comes after this one, or HOT_KEY_TOO_LONG, and then nothing was written. */
hot_status hot_after(const uint8_t *key, size_t length, uint8_t *next, size_t *next_length);

/* hot_scan from the end downwards: lists the pairs whose keys are from `from` to `upto`, both included, in falling key order:
 * the last `limit` of them. Writes 1 to `more` if the range has more below, else 0. No key is missing that was there all along
 * (if there are more, no key down to the last one listed). To go on, end at the key that hot_before gives for the last pair's. It
 * returns what hot_scan does, and makes no more steps than hot_scan may. */
hot_status hot_scan_reverse(hot_handle *handle, const uint8_t *from, size_t from_length, const uint8_t *upto, size_t upto_length,
                            hot_pair *pairs, size_t limit, size_t *count, uint32_t *more);

/* hot_scan_reverse with its pairs in rising key order: lists the last `limit` pairs whose keys are from `from` to `upto`, both
 * included. Writes 1 to `more` if the range has more below, else 0. To go on, end at the key that hot_before gives for the first
 * pair's. It returns what hot_scan does, and makes no more steps than hot_scan may. */
hot_status hot_scan_last(hot_handle *handle, const uint8_t *from, size_t from_length, const uint8_t *upto, size_t upto_length,
                         hot_pair *pairs, size_t limit, size_t *count, uint32_t *more);

/* Writes the greatest possible key below this one, at which a scan downwards can go on, to `previous`, which has room for HOT_MAX_KEY
 * bytes, and its length. The keys need not be in the index.
 * HOT_DONE; or HOT_ABSENT if this key is the empty one, which has no key below it, or HOT_KEY_TOO_LONG, and then nothing was written. */
hot_status hot_before(const uint8_t *key, size_t length, uint8_t *previous, size_t *previous_length);

/* hot_scan of the keys that begin with the prefix, or of all keys if it is empty. It begins with the first one if `after` is NULL, else
 * with the one after that key, such as the last one of an earlier call. It writes and returns what hot_scan does, by as many steps at most. */
hot_status hot_scan_prefix(hot_handle *handle, const uint8_t *prefix, size_t length, const uint8_t *after, size_t after_length,
                           hot_pair *pairs, size_t limit, size_t *count, uint32_t *more);

/* hot_scan_prefix downwards: from the last one if `before` is NULL, else from the one before that key, such as the last one that an
 * earlier call listed. It writes and returns what hot_scan_reverse does, by as many steps at most. */
hot_status hot_scan_prefix_reverse(hot_handle *handle, const uint8_t *prefix, size_t length, const uint8_t *before, size_t before_length,
                                   hot_pair *pairs, size_t limit, size_t *count, uint32_t *more);

/* The head of a packed pair: how many bytes its key has, and its value. */
typedef struct hot_head {
    uint8_t length;
    uint64_t value;
} hot_head;

/* hot_scan with its pairs packed: writes the keys one after another to `bytes`, each as long as it is, and their heads to `heads`. So the
 * first `length` bytes are the first key, and so on. It lists the first `limit` pairs, for which `heads` has room, and of these only the
 * first whose keys have `room` bytes together at most. A room of HOT_MAX_KEY bytes for each pair is always enough, and with one for a
 * single key a call gets on. Writes 1 to `more` if the range has more than it wrote, else 0. What it wrote is a scan for as many pairs: no
 * key is missing, up to the last one written, that was there all along. To go on, begin at the key that hot_after gives for the last one.
 * It returns what hot_scan does, and makes no more steps than hot_scan may. */
hot_status hot_scan_packed(hot_handle *handle, const uint8_t *from, size_t from_length, const uint8_t *upto, size_t upto_length,
                           uint8_t *bytes, size_t room, hot_head *heads, size_t limit, size_t *count, uint32_t *more);

/* hot_scan_packed from the end downwards: lists the last pairs, in falling key order, packed in the same way. Writes 1 to `more` if the
 * range has more below than it wrote, else 0. To go on, end at the key that hot_before gives for the last one. It returns what hot_scan
 * does, and makes no more steps than hot_scan may. */
hot_status hot_scan_packed_reverse(hot_handle *handle, const uint8_t *from, size_t from_length, const uint8_t *upto, size_t upto_length,
                                   uint8_t *bytes, size_t room, hot_head *heads, size_t limit, size_t *count, uint32_t *more);

/* hot_load of `count` pairs that lie packed, as hot_scan_packed writes them: the keys one after another in `bytes`, and their heads. Writes
 * how many went in to `loaded`. Where there are none, `bytes` and `heads` may be NULL. It returns what hot_load does. */
hot_status hot_load_packed(const hot_stock *stock, size_t handles, const uint8_t *bytes, const hot_head *heads, size_t count, hot_index **index,
                           size_t *loaded);

/* What a call hands pairs to: `pair` is there until the function returns. It returns 0 to end the call. */
typedef int hot_visitor(void *context, const hot_pair *pair);

/* Hands each pair whose key is from `from` to `upto`, both included, to `visit`, in key order, with the `context`, until it returns 0. It
 * lists 32 pairs at a time, as hot_scan does, and each time begins at the key that hot_after gives for the last one. So no key is missing
 * that was there all along, up to where it ended. While `visit` runs no call is under way: it may use the handle, and nothing that is
 * retired is held back. Each list makes at most as many steps as hot_scan with a limit of 32.
 * HOT_DONE; or HOT_KEY_TOO_LONG, HOT_CLOSED, HOT_NO_MEMORY: HOT_NO_MEMORY may come after pairs have been handed over, and so may
 * HOT_CLOSED if `visit` closes the handle. */
hot_status hot_each(hot_handle *handle, const uint8_t *from, size_t from_length, const uint8_t *upto, size_t upto_length,
                    hot_visitor *visit, void *context);

/* hot_each downwards, of keys that begin with a prefix, and of these downwards: in falling key order each time begins at the key that hot_before gives
 * for the last pair listed. They return what hot_each does. */
hot_status hot_each_reverse(hot_handle *handle, const uint8_t *from, size_t from_length, const uint8_t *upto, size_t upto_length,
                            hot_visitor *visit, void *context);
hot_status hot_each_prefix(hot_handle *handle, const uint8_t *prefix, size_t length, hot_visitor *visit, void *context);
hot_status hot_each_prefix_reverse(hot_handle *handle, const uint8_t *prefix, size_t length, hot_visitor *visit, void *context);

/* A place among an index's keys, from which a program goes up and down, with a page of pairs. Its fields are the library's. It may be copied, and left
 * at any time: between calls it holds nothing back. A call with it is a call with its handle, which stays where it is meanwhile. */
typedef struct hot_cursor {
    hot_handle *handle;
    uint32_t at, count, place, limit, is_there, falls;
    hot_head heads[64];
    uint8_t bytes[8 * HOT_MAX_KEY];
} hot_cursor;

/* Puts a cursor at a key, which need not be in the index, before anything else is done with it, or again. It makes no steps.
 * HOT_DONE; or HOT_KEY_TOO_LONG, HOT_CLOSED, and then the cursor stays as it was. */
hot_status hot_seek(hot_cursor *cursor, hot_handle *handle, const uint8_t *key, size_t length);

/* Goes to the next pair: the first one whose key is that of hot_seek or above, and then each time the first above the one where the cursor is. Writes
 * where its key lies, the key's length, and the value; the key is there until the next call with the cursor. It fetches 8 to 64 pairs at a time, as
 * hot_scan_packed does with room for 1920 bytes of keys, and else goes on in its page. So each pair was there at some moment of the fetch, and no key is
 * missing that was there all along. Keys rise, and none comes twice. Any key may be removed or put in meanwhile, also by this handle: the cursor goes on
 * behind a key that is gone, and sees no change in its page until it fetches those keys anew. Where it finds no more it stays, so a later call finds
 * what has come since. What a value points to may be gone, unless the handle's section has been open since hot_seek. It makes at most as many steps as
 * hot_scan with a limit of 64.
 * HOT_FOUND, HOT_ABSENT; or HOT_CLOSED, HOT_NO_MEMORY (only if there was a pair), and then nothing was written and the cursor stays. */
hot_status hot_next(hot_cursor *cursor, const uint8_t **key, size_t *length, uint64_t *value);

/* hot_next downwards: goes to the last pair whose key is that of hot_seek or below, and then each time to the last below the one where the cursor is,
 * by hot_scan_packed_reverse. Behind hot_seek to HOT_TO_END that is the last pair of all. A cursor may turn at any pair: in its page it goes back
 * through the same pairs. It returns what hot_next does. */
hot_status hot_previous(hot_cursor *cursor, const uint8_t **key, size_t *length, uint64_t *value);

/* Writes the first pair whose key is `from` or above, by a scan for one pair; from an empty key on, that is the first pair of
 * all. Nothing is written unless it is found. It makes at most 168667 steps.
 * HOT_FOUND, HOT_ABSENT; or HOT_KEY_TOO_LONG, HOT_CLOSED, HOT_NO_MEMORY (only if there was a pair). */
hot_status hot_first(hot_handle *handle, const uint8_t *from, size_t length, hot_pair *pair);

/* Writes the last pair whose key is `upto` or below, by a scan downwards for one pair; up to HOT_TO_END that is the last pair of all.
 * Nothing is written unless it is found. It makes at most 168667 steps.
 * HOT_FOUND, HOT_ABSENT; or HOT_KEY_TOO_LONG, HOT_CLOSED, HOT_NO_MEMORY (only if there was a pair). */
hot_status hot_last(hot_handle *handle, const uint8_t *upto, size_t length, hot_pair *pair);

/* Counts the keys from `from` to `upto`, both included, and writes their number to `count`. That is the number of the pairs that hot_scan
 * could list in its place, if it had room for all. Of keys that stand together in a node it reads the last one, and more only where the range
 * ends among them: so it reads few, which is tested. It makes at most 169567 steps, and 60 for each key that it counts.
 * HOT_DONE; or HOT_KEY_TOO_LONG, HOT_CLOSED, and then nothing was written. */
hot_status hot_count(hot_handle *handle, const uint8_t *from, size_t from_length, const uint8_t *upto, size_t upto_length, size_t *count);

/* hot_count of the keys that begin with the prefix, or of all keys if it is empty. It writes and returns what hot_count does. */
hot_status hot_count_prefix(hot_handle *handle, const uint8_t *prefix, size_t length, size_t *count);

/* hot_scan of values alone: writes those of the first `limit` pairs to `values`, for which it has room. It returns what hot_scan does, and
 * makes no more steps than hot_scan may. It names no key to go on from: hot_count tells how much room takes them all. */
hot_status hot_scan_values(hot_handle *handle, const uint8_t *from, size_t from_length, const uint8_t *upto, size_t upto_length,
                           uint64_t *values, size_t limit, size_t *count, uint32_t *more);

/* Removes the first pair whose key is from `from` to `upto`, both included, or the last one, and writes it. It makes a scan for one pair
 * and then hot_remove of its key, and both again where another call has removed that key meanwhile. So one call alone gets a pair, with the
 * value that its key had when it was removed. No key of the range before it, or behind it for hot_pop_last, was there all along from the
 * beginning of that scan to the removal. One that another call puts in meanwhile may be.
 * HOT_REMOVED; or HOT_ABSENT if a scan found no pair, or HOT_KEY_TOO_LONG, HOT_CLOSED, HOT_NO_MEMORY, and then nothing was written. */
hot_status hot_pop_first(hot_handle *handle, const uint8_t *from, size_t from_length, const uint8_t *upto, size_t upto_length, hot_pair *pair);
hot_status hot_pop_last(hot_handle *handle, const uint8_t *from, size_t from_length, const uint8_t *upto, size_t upto_length, hot_pair *pair);

/* Gives back records that changes have unlinked and that no call can reach any more, and writes how many. Programs need not call
 * it: a change that finds no record free does this itself before it gives up. It makes at most 3 steps, one for each handle of
 * the index, and 2 for each record.
 * HOT_DONE; or HOT_CLOSED. */
hot_status hot_collect(hot_handle *handle, uint32_t *nodes, uint32_t *leaves);

/* How many records of one size are in each state. */
typedef struct hot_states {
    uint32_t free;
    uint32_t held;     /* claimed by a change, and not ready yet */
    uint32_t live;     /* in use */
    uint32_t obsolete; /* retired, and not given back yet */
} hot_states;

/* What an index holds: how many of its nodes, and of its leaves of each size, are in each state, and how many bytes its records and
 * pins take. */
typedef struct hot_counts {
    hot_states nodes;
    hot_states short_leaves;
    hot_states medium_leaves;
    hot_states large_leaves;
    hot_states wide_leaves;
    hot_states long_leaves;
    size_t bytes;
} hot_counts;

/* Counts the records of the handle's index: so a program can see why it is full, and what the next one needs. It loads one word
 * of each record, which is one step for each, and changes nothing. The counts are of no single moment: each record is counted as
 * it was when its turn came.
 * HOT_DONE; or HOT_CLOSED. */
hot_status hot_census(hot_handle *handle, hot_counts *counts);

/* Writes how many keys the handle's index has. Each handle keeps a count of those that its calls put in and took out, and this adds up
 * the counts of all handles; it makes no steps. The number is exact if no change runs meanwhile. Else each change that does is counted
 * or not.
 * HOT_DONE; or HOT_CLOSED. */
hot_status hot_len(hot_handle *handle, size_t *count);

/* How often tries to change an index were refused. A call hot_try_.. makes one try. A call that waits makes tries until one isn't refused
 * as busy or held back, and each counts. */
typedef struct hot_refusals {
    uint64_t busy;      /* HOT_BUSY: another call was in the way */
    uint64_t held_back; /* HOT_HELD_BACK: too few records were free, but some may come back */
    uint64_t full;      /* HOT_FULL_NODES or HOT_FULL_LEAVES: too few records were free, and by a count none comes back */
} hot_refusals;

/* Writes how often tries were refused since the index was made, through any of its handles, open or closed. Each that was held back or full has
 * counted all records, but for removals. One that found a record free after it had collected, or after more were committed, counts nowhere. Each handle keeps numbers of its own, and this adds them up; it makes no steps. The sums are exact if no change
 * runs meanwhile. Else they are of no single moment. Any thread may make this call until the index is closed. */
void hot_stats(const hot_index *index, hot_refusals *stats);

/* What an index takes of memory, in bytes: its table, and what its handles keep, open or closed. */
typedef struct hot_memory {
    size_t most; /* once all records and handles have been used */
    size_t now;
} hot_memory;

/* Writes what the index takes of memory; of an index that grows, `most` is for what is committed. The numbers leave out two things: the system's page
 * tables, a 500th of the table at most, and what hot_trim takes beside the table. Else they are never too low: a page of 4 KiB counts once something was written there, and
 * may count once it was read, as hot_census reads all. But what the system has swapped out may not count. What a handle may keep after a scan counts
 * for each that was opened. The call makes no steps. It asks the system which pages are there, in calls for 2 MiB each, of what a handle claims for
 * itself up to the first 2 MiB without any. So it takes time for what has filled: for 1 GB two milliseconds, and half a one in huge pages. With an
 * index that grows it waits for other such calls, for hot_trim, and for an insertion that asks for huge pages. Any thread may make it until the index is closed. */
void hot_bytes(const hot_index *index, hot_memory *bytes);

/* Closes a handle of hot_create or hot_create_with, from any thread and in any order. Closing the last one frees the index. A closed
 * handle may be given to hot_create again. It gives a handle of hot_open back, as hot_close does.
 * HOT_DONE; or HOT_CLOSED if it is closed already, or HOT_INSIDE if its section is open. */
hot_status hot_destroy(hot_handle *handle);

#ifdef __cplusplus
}
#endif

#endif
