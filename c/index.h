/* What hot.c has of others: the proved calls, and what an index has for each handle. */
#ifndef INDEX_H
#define INDEX_H

#include "heap.h"
#include "hot.h"
#include "processor.h"

/* The proved calls of which c/object changes the names: there `had` is never NULL, and a handle is closed for good. Two of them are used
 * here alone: one opens a handle of a new index, which keeps the passes of the others, and one opens the next of these. */
hot_status proved_create(uint32_t nodes, uint32_t leaves, hot_handle *handles, size_t count);
hot_status proved_create_with(const hot_stock *stock, hot_handle *handles, size_t count);
hot_status proved_create_keeping(const hot_stock *stock, const hot_stock *committed, size_t passes, hot_handle *keeper);
hot_status proved_open_kept(hot_handle *keeper, hot_handle *handle);
hot_status proved_try_insert(hot_handle *handle, const uint8_t *key, size_t length, uint64_t value, uint64_t *had);
hot_status proved_try_upsert(hot_handle *handle, const uint8_t *key, size_t length, uint64_t value, uint64_t *had);
hot_status proved_try_exchange(hot_handle *handle, const uint8_t *key, size_t length, uint64_t expected, uint64_t value, uint64_t *had);
hot_status proved_try_add(hot_handle *handle, const uint8_t *key, size_t length, uint64_t delta, uint64_t *had);
hot_status proved_try_remove(hot_handle *handle, const uint8_t *key, size_t length, uint64_t *had);
hot_status proved_try_remove_if(hot_handle *handle, const uint8_t *key, size_t length, uint64_t expected, uint64_t *had);
hot_status proved_destroy(hot_handle *handle);
hot_status proved_get_many(hot_handle *handle, hot_lookup *lookups, size_t count);

/* Those that list the pairs of a prefix: of all keys that begin with it, or of those above a key, or below it. */
hot_status proved_scan_whole_prefix(hot_handle *handle, const uint8_t *prefix, size_t length, hot_pair *pairs, size_t limit, size_t *count,
                                    uint32_t *more);
hot_status proved_scan_whole_prefix_reverse(hot_handle *handle, const uint8_t *prefix, size_t length, hot_pair *pairs, size_t limit,
                                            size_t *count, uint32_t *more);
hot_status proved_scan_prefix_after(hot_handle *handle, const uint8_t *prefix, size_t length, const uint8_t *after, size_t after_length,
                                    hot_pair *pairs, size_t limit, size_t *count, uint32_t *more);
hot_status proved_scan_prefix_before(hot_handle *handle, const uint8_t *prefix, size_t length, const uint8_t *before, size_t before_length,
                                     hot_pair *pairs, size_t limit, size_t *count, uint32_t *more);

/* And those that a program may call before it has a handle: there the processor is known to be one for which they were compiled. */
void proved_stock_for_keys(uint32_t keys, size_t longest, hot_stock *stock);
void proved_stock_for_any_keys(uint32_t keys, size_t longest, size_t handles, hot_stock *stock);
hot_status proved_stock_bytes(const hot_stock *stock, size_t handles, size_t *bytes);

/* It counts the committed records, and writes the bytes of all that are reserved. */
hot_status proved_census(hot_handle *handle, hot_counts *counts);

/* Those of reserved records. A kind is 0 for nodes, and 1 to 5 for leaves by their size. The first writes how many of a kind are not committed. The
 * second commits the next `count`, which the handle then claims, unless another handle commits some at the same time, and writes how many are left.
 * The third is whether the handle may soon claim others than it has committed. */
hot_status proved_uncommitted(hot_handle *handle, uint32_t kind, uint64_t *left);
hot_status proved_commit(hot_handle *handle, uint32_t kind, uint64_t count, uint64_t *left);
uint32_t proved_is_short_of(hot_handle *handle, uint32_t kind, uint32_t count);

/* Lets a handle see all that another has seen; both are of one index. */
hot_status proved_see(hot_handle *handle, hot_handle *leader);

/* A handle of a section. Zeroed bytes are a closed one. */
typedef struct section_handle {
    uint32_t tag;
    struct {
        void *at;
    } slot;
} section_handle;

/* The proved calls of sections. The first makes a table and opens a handle that keeps its sections, and the second opens the next of these. */
hot_status proved_make_sections(size_t count, section_handle *keeper);
hot_status proved_open_section(section_handle *keeper, section_handle *section);
hot_status proved_close_section(section_handle *section);
hot_status proved_is_inside(section_handle *section);
hot_status proved_enter_section(section_handle *section);
hot_status proved_leave_section(section_handle *section);
hot_status proved_take_moment(section_handle *section, uint64_t *moment);
hot_status proved_is_moment_past(section_handle *section, uint64_t moment);

/* A load of the proved calls. Zeroed bytes are a closed one. */
typedef struct loading {
    uint32_t tag;
    struct {
        void *at;
    } slot;
} loading;

/* The proved calls of loads. The first begins one, the second takes a pair, the third makes an index of what was taken, and opens its keeper as
 * proved_create_keeping does. It closes the load, which is given up where memory is refused, as by the last one. */
hot_status proved_begin_load(const hot_stock *stock, size_t passes, loading *load);
hot_status proved_load_pair(loading *load, const uint8_t *key, size_t length, uint64_t value);
hot_status proved_end_load(loading *load, const hot_stock *committed, hot_handle *keeper);
hot_status proved_give_up_load(loading *load);

/* What a table holds of memory. */
typedef struct holding {
    heap_pages *pages;
    heap_lists long_lists;
    size_t table;   /* its bytes */
    size_t lists;   /* those that a handle has from when it is first opened, without its long lists */
    size_t scanned; /* those that a handle keeps of its scans at most */
} holding;

/* What an index keeps of each handle, by its number. Two `keys` are more than 64 bytes apart, so that they are never in one line of a
 * processor's cache. */
typedef struct hot_place {
    hot_index *index;
    hot_handle closed;        /* the handle, while it is given back */
    section_handle section;   /* from when the handle is first opened */
    uint64_t keys;            /* how many keys its calls have put in, less those that they have taken out */
    hot_refusals refusals;    /* of its calls */
    uint32_t to_a_look;       /* so many keys are put in until it looks whether to commit more, or whether a piece has filled */
    uint32_t looks;           /* how often it has looked */
    uint32_t state;
} hot_place;

/* A load, the table that is made of it, and the words that it fills. */
typedef struct begun_load {
    loading load;
    heap_table table;
    heap_pages *words;
} begun_load;

/* A place's state: no program has its handle, which is there; one has it, or another call looks after it; or it is still to be opened. */
enum { GIVEN_BACK, TAKEN, UNOPENED };

/* An index. Either it opens its handles one by one, and those that were not opened yet are kept by `keeper`; or they were opened with it,
 * and the last one that is closed frees it. */
struct hot_index {
    size_t count;
    hot_place *places;
    section_handle sections; /* keeps the sections, until each handle has its own */
    section_handle next;     /* that of the handle that is opened next, once there is one */
    size_t left;             /* how many handles are open that were opened with it, or 0 */
    hot_handle keeper;       /* it is the last one to be opened itself */
    uint32_t opening;        /* locked while a call opens a handle that the keeper keeps, or closes the index */
    hot_handle teller;       /* once there is a moment of the index: it has seen all that any moment tells of */
    uint32_t telling;        /* locked while a call uses the teller */
    uint32_t filling;        /* locked while a call looks at the pieces */
    holding holds;           /* its table holds that */
    size_t opened;           /* how many handles have been opened */
    /* Of an index whose records are committed as they are needed: */
    int is_reserved, grows;        /* whether it is one, and whether it has as many as memory lets it */
    uint32_t reserved[HEAP_KINDS];  /* how many of each kind there are, committed or not, but for the node that is kept */
    size_t most;                   /* the records that are committed have no more bytes, with pins and what stands before them */
    size_t taken;                  /* so many bytes they have, with those of commits that are under way */
    uint32_t committed[HEAP_KINDS]; /* how many of each kind, as far as a call has seen */
};

#endif
