/* Indexes by their names, and what a connection's transaction does in them. */
#include "index.h"
#include <pthread.h>
#include <string.h>
SQLITE_EXTENSION_INIT3

struct shared_index {
    struct shared_index *next;
    char *name; /* or NULL */
    int uses;
    struct index_settings made_as;
    hot_index *index;
};

static struct shared_index *all; /* under this mutex: */
static pthread_mutex_t all_mutex = PTHREAD_MUTEX_INITIALIZER;

/* ---- Indexes ---- */

static void free_shared(struct shared_index *shared) {
    if (shared->index)
        hot_close_index(shared->index);
    sqlite3_free(shared->name);
    sqlite3_free(shared);
}

/* The records of a new index. Where several connections may change it, these are enough for the keys that hot.h asks for then. */
static hot_stock stock_for(const struct index_settings *settings) {
    const long long handles = settings->handles < 8 ? settings->handles : 8, least = handles > 1 ? 256 * handles : 0;
    hot_stock stock;
    hot_stock_for_keys((uint32_t)(settings->keys > least ? settings->keys : least), (size_t)settings->longest, &stock);
    return stock;
}

/* Opens the index itself. One that grows has 1,023 handles at most. */
static hot_status open_index(const struct index_settings *settings, hot_index **index) {
    enum { MOST_TO_GROW = 1023 };
    const size_t handles = (size_t)settings->handles;
    const hot_stock stock = stock_for(settings);
    if (!settings->grows)
        return hot_open_index(&stock, handles, index);
    return hot_open_growing(&stock, SIZE_MAX, handles < MOST_TO_GROW ? handles : MOST_TO_GROW, index);
}

static struct shared_index *made(const char *name, const struct index_settings *settings, int *code, char **error) {
    struct shared_index *shared = sqlite3_malloc64(sizeof *shared);
    hot_status status = HOT_NO_MEMORY;
    *code = SQLITE_NOMEM;
    if (!shared)
        return NULL;
    memset(shared, 0, sizeof *shared);
    shared->made_as = *settings;
    if (!name || (shared->name = sqlite3_mprintf("%s", name)) != NULL)
        status = open_index(settings, &shared->index);
    if (status != HOT_DONE) {
        *code = status == HOT_NO_MEMORY ? SQLITE_NOMEM : SQLITE_ERROR;
        *error = sqlite3_mprintf("hot: %s", hot_status_text(status));
        shared->index = NULL;
        free_shared(shared);
        return NULL;
    }
    return shared;
}

int shared_has_name(const struct shared_index *shared, const char *name) {
    return name && shared->name ? strcmp(shared->name, name) == 0 : !name && !shared->name;
}

/* The index of this name, with one more use: NULL if there is none. Under the mutex. */
static struct shared_index *named(const char *name) {
    struct shared_index *shared = name ? all : NULL;
    while (shared && !shared_has_name(shared, name))
        shared = shared->next;
    if (shared)
        shared->uses++;
    return shared;
}

struct shared_index *shared_use(const char *name, const struct index_settings *settings, int *code, char **error) {
    struct shared_index *shared, *new = NULL;
    pthread_mutex_lock(&all_mutex);
    if (!(shared = named(name))) {
        /* Making an index may take long, and others go on. One of them may make the same. */
        pthread_mutex_unlock(&all_mutex);
        if (!(new = made(name, settings, code, error)))
            return NULL;
        pthread_mutex_lock(&all_mutex);
        if (!(shared = named(name))) {
            new->uses = 1;
            new->next = all;
            all = shared = new;
            new = NULL;
        }
    }
    pthread_mutex_unlock(&all_mutex);
    if (new)
        free_shared(new);
    return shared;
}

void shared_end_use(struct shared_index *shared) {
    struct shared_index **place = &all;
    int is_last;
    pthread_mutex_lock(&all_mutex);
    if ((is_last = --shared->uses == 0)) {
        while (*place != shared)
            place = &(*place)->next;
        *place = shared->next;
    }
    pthread_mutex_unlock(&all_mutex);
    if (is_last)
        free_shared(shared);
}

const struct index_settings *shared_made_as(const struct shared_index *shared) {
    return &shared->made_as;
}

hot_status part_take(struct shared_index *shared, struct change_log *log, struct part *part) {
    memset(part, 0, sizeof *part);
    part->shared = shared;
    part->log = log;
    return hot_open(shared->index, &part->handle);
}

void part_leave(struct part *part) {
    hot_close(&part->handle);
}

/* ---- The log ---- */

struct change {
    struct change *before;     /* the change before it */
    struct change *next;       /* of a removal, in its list */
    struct change *takes_back; /* the removal that this change takes back, or NULL */
    struct part *part;
    enum { REMOVED, INSERTED, REPLACED } kind;
    int is_taken_back;   /* of a removal */
    int point;           /* the innermost savepoint that the change is in */
    uint64_t had, value; /* what the key had, and what it was given */
    uint32_t length;
    uint8_t key[];
};

/* A change that is not made yet: NULL if there is no memory. */
static struct change *change_new(struct part *part, const uint8_t *key, size_t length) {
    struct change *change = sqlite3_malloc64(sizeof *change + length);
    if (!change)
        return NULL;
    memset(change, 0, sizeof *change);
    change->part = part;
    change->length = (uint32_t)length;
    if (length)
        memcpy(change->key, key, length);
    return change;
}

static void keep(struct change_log *log, struct change *change) {
    change->before = log->last;
    change->point = log->point;
    log->last = change;
}

/* The list of removals for a key. The log has lists. */
static struct change **list_of(const struct part *part, const uint8_t *key, size_t length) {
    uint64_t hash = (uint64_t)(uintptr_t)part;
    size_t at;
    for (at = 0; at < length; at++)
        hash = (hash ^ key[at]) * 0x100000001b3u;
    return &part->log->removals[(hash ^ hash >> 32) & (part->log->buckets - 1)];
}

static void link_removal(struct change *removal) {
    struct change **list = list_of(removal->part, removal->key, removal->length);
    removal->next = *list;
    *list = removal;
}

static void unlink_removal(struct change *removal) {
    struct change **place = list_of(removal->part, removal->key, removal->length);
    while (*place != removal)
        place = &(*place)->next;
    *place = removal->next;
    removal->part->log->count--;
}

/* Makes more lists where there are fewer than removals: 0 if there are none and no memory for them. */
static int make_lists(struct change_log *log) {
    const size_t buckets = log->buckets ? log->buckets * 2 : 16;
    struct change **lists, *change;
    if (log->count < log->buckets)
        return 1;
    if (!(lists = sqlite3_malloc64(buckets * sizeof *lists)))
        return log->buckets > 0;
    memset(lists, 0, buckets * sizeof *lists);
    sqlite3_free(log->removals);
    log->removals = lists;
    log->buckets = buckets;
    for (change = log->last; change; change = change->before)
        if (change->kind == REMOVED)
            link_removal(change);
    return 1;
}

/* The removal of a key: NULL if the key is not removed. */
static struct change *removal_of(const struct part *part, const uint8_t *key, size_t length) {
    struct change *removal = part->removed ? *list_of(part, key, length) : NULL;
    while (removal && (removal->is_taken_back || removal->part != part || removal->length != length || memcmp(removal->key, key, length) != 0))
        removal = removal->next;
    return removal;
}

static void set_taken_back(struct change *removal, int is_taken_back) {
    removal->is_taken_back = is_taken_back;
    if (is_taken_back)
        removal->part->removed--;
    else
        removal->part->removed++;
}

/* ---- Looking ---- */

hot_status part_get(struct part *part, const uint8_t *key, size_t length, uint64_t *value) {
    hot_status status = removal_of(part, key, length) ? HOT_ABSENT : hot_get(&part->handle, key, length, value);
    return status == HOT_KEY_TOO_LONG ? HOT_ABSENT : status;
}

int key_beyond(const uint8_t *key, size_t length, int falls, struct key_bound *to) {
    return (falls ? hot_before : hot_after)(key, length, to->key, &to->length) == HOT_DONE;
}

static hot_status list(struct part *part, const struct key_bound *from, const struct key_bound *upto, int falls, struct key_page *page) {
    return (falls ? hot_scan_packed_reverse : hot_scan_packed)(&part->handle, from->key, from->length, upto->key, upto->length, page->bytes,
                                                               page->limit * HOT_MAX_KEY, page->heads, page->limit, &page->count,
                                                               &page->more);
}

/* Takes removed keys out of a page. Returns where the page's keys ended before. */
static const uint8_t *leave_out_removed(const struct part *part, struct key_page *page) {
    const uint8_t *from = page->bytes;
    uint8_t *to = page->bytes;
    const size_t count = page->count;
    size_t at;
    page->count = 0;
    for (at = 0; at < count; at++) {
        const hot_head head = page->heads[at];
        if (!removal_of(part, from, head.length)) {
            memmove(to, from, head.length);
            to += head.length;
            page->heads[page->count++] = head;
        }
        from += head.length;
    }
    return from;
}

hot_status part_list(struct part *part, const struct key_bound *from, const struct key_bound *upto, int falls, struct key_page *page) {
    struct key_bound rest_from, rest_upto;
    hot_status status = list(part, from, upto, falls, page);
    if (!part->removed)
        return status;
    rest_from = *from;
    rest_upto = *upto;
    while (status == HOT_DONE && page->count) {
        const size_t length = page->heads[page->count - 1].length;
        const uint8_t *end = leave_out_removed(part, page);
        if (page->count || !page->more || !key_beyond(end - length, length, falls, falls ? &rest_upto : &rest_from))
            break;
        status = list(part, &rest_from, &rest_upto, falls, page);
    }
    return status;
}

size_t part_len(struct part *part) {
    size_t keys = 0;
    hot_len(&part->handle, &keys);
    return keys;
}

int part_count(struct part *part, const struct key_bound *from, const struct key_bound *upto, size_t listed, size_t *count) {
    enum { MOST_TIMES = 32 }; /* as many keys as pairs were listed */
    size_t keys;
    return !part->removed && hot_len(&part->handle, &keys) == HOT_DONE && keys / MOST_TIMES <= listed &&
           hot_count(&part->handle, from->key, from->length, upto->key, upto->length, count) == HOT_DONE;
}

/* ---- Changes ---- */

hot_status part_put(struct part *part, const uint8_t *key, size_t length, uint64_t value, int replaces) {
    struct change *change = change_new(part, key, length), *removal = removal_of(part, key, length);
    hot_status status;
    if (!change)
        return HOT_NO_MEMORY;
    status = (replaces || removal ? hot_upsert : hot_insert)(&part->handle, key, length, value, &change->had);
    if (status != HOT_NEW && status != HOT_INSERTED && status != HOT_WAS) {
        sqlite3_free(change);
        return status;
    }
    change->kind = status == HOT_WAS ? REPLACED : INSERTED;
    change->value = value;
    if ((change->takes_back = removal) != NULL)
        set_taken_back(removal, 1);
    keep(part->log, change);
    return status;
}

hot_status part_remove(struct part *part, const uint8_t *key, size_t length) {
    struct change *change;
    if (removal_of(part, key, length))
        return HOT_ABSENT;
    if (!make_lists(part->log) || !(change = change_new(part, key, length)))
        return HOT_NO_MEMORY;
    link_removal(change);
    part->log->count++;
    part->removed++;
    keep(part->log, change);
    return HOT_REMOVED;
}

/* Forgets the last change. */
static void forget(struct change_log *log) {
    struct change *last = log->last;
    log->last = last->before;
    sqlite3_free(last);
}

static void forget_lists(struct change_log *log) {
    sqlite3_free(log->removals);
    log->removals = NULL;
    log->buckets = log->count = 0;
}

/* Takes the key of a change out of the index. It waits while other calls hold records back, so nothing refuses it. */
static void take_out(struct change *change) {
    hot_waits so_far = HOT_NO_WAITS;
    while (hot_wait(hot_try_remove(&change->part->handle, change->key, change->length, NULL), &so_far)) {
    }
}

void log_commit(struct change_log *log) {
    for (; log->last; forget(log)) {
        struct change *last = log->last;
        if (last->kind == REMOVED && !last->is_taken_back) {
            take_out(last);
            last->part->removed--;
        }
    }
    forget_lists(log);
    log->point = NO_POINT;
}

void log_release(struct change_log *log, int point) {
    struct change *change = log->last;
    for (; change && change->point >= point; change = change->before)
        change->point = point - 1;
    if (log->point >= point)
        log->point = point - 1;
}

void log_roll_back(struct change_log *log, int point) {
    for (; log->last && log->last->point >= point; forget(log)) {
        struct change *last = log->last;
        switch (last->kind) {
        case REMOVED:
            last->part->removed--;
            unlink_removal(last);
            break;
        case INSERTED: take_out(last); break;
        case REPLACED: hot_exchange(&last->part->handle, last->key, last->length, last->value, last->had, NULL); break;
        }
        if (last->takes_back)
            set_taken_back(last->takes_back, 0);
    }
    if (!log->last)
        forget_lists(log);
    log->point = point;
}
