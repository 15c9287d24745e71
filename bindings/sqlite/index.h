/* Indexes that connections share, a connection's part of one, and the log by which a transaction is ended. */
#ifndef INDEX_H
#define INDEX_H

#include <hot.h>
#include <sqlite3ext.h>

struct shared_index;

/* What an index is made with. */
struct index_settings {
    sqlite3_int64 keys, longest, grows, handles;
    int is_text;
};

/* Uses the index of a name, and makes it if there is none. Makes a new index without a name if that is NULL. The index stays until each use has
 * ended. NULL, and `code` and `error`, if there is no memory or a setting is out of range. */
struct shared_index *shared_use(const char *name, const struct index_settings *settings, int *code, char **error);
void shared_end_use(struct shared_index *shared);

/* Whether this is the index's name; for NULL, whether it has none. */
int shared_has_name(const struct shared_index *shared, const char *name);

const struct index_settings *shared_made_as(const struct shared_index *shared);

struct change;

/* What a connection has changed since its transaction began, in all indexes. */
struct change_log {
    struct change *last;
    int point;                /* the innermost savepoint that is open */
    struct change **removals; /* by their keys' hashes */
    size_t buckets, count;    /* the numbers of lists, and of removals */
};

/* A connection's part of an index. Keys that the open transaction removes stay in the index until it commits, so a rollback needs no room. The
 * calls below pass these keys over. */
struct part {
    struct shared_index *shared;
    struct change_log *log;
    hot_handle handle;
    size_t removed; /* the number of such keys */
};

/* Opens a handle for a connection with this log: HOT_NO_HANDLE if all are taken. The part stays where it is. */
hot_status part_take(struct shared_index *shared, struct change_log *log, struct part *part);
void part_leave(struct part *part);

/* Looks a key up: HOT_FOUND or HOT_ABSENT, also for one that is too long; or what hot_get returns. */
hot_status part_get(struct part *part, const uint8_t *key, size_t length, uint64_t *value);

/* Lists pairs from `from` up to `upto`, or down from `upto`, as hot_scan_packed and hot_scan_packed_reverse do. */
struct key_bound {
    size_t length;
    uint8_t key[HOT_MAX_KEY];
};
struct key_page {
    hot_head *heads; /* room for `limit` pairs */
    uint8_t *bytes;  /* their keys, one after another: room for `limit` keys of HOT_MAX_KEY bytes */
    size_t limit, count;
    uint32_t more;
};
hot_status part_list(struct part *part, const struct key_bound *from, const struct key_bound *upto, int falls, struct key_page *page);

/* The number of keys in the index, with removed ones. */
size_t part_len(struct part *part);

/* Counts the pairs from `from` up to `upto`, as hot_count does, and returns 1. It returns 0 where keys are removed, or where counting may take
 * much longer than listing `listed` pairs. */
int part_count(struct part *part, const struct key_bound *from, const struct key_bound *upto, size_t listed, size_t *count);

/* Writes the least key above this one, or if `falls` the greatest one below it: 0 if there is none. */
int key_beyond(const uint8_t *key, size_t length, int falls, struct key_bound *to);

/* Change a key, and log that. part_put returns what hot_insert does, or hot_upsert if it replaces. part_remove returns HOT_REMOVED, or HOT_ABSENT
 * if the key is removed already. Both return HOT_NO_MEMORY if there is none for the log. */
hot_status part_put(struct part *part, const uint8_t *key, size_t length, uint64_t value, int replaces);
hot_status part_remove(struct part *part, const uint8_t *key, size_t length);

/* Savepoints are numbered from 0 on, from the outermost one inwards. NO_POINT is the transaction itself. */
enum { NO_POINT = -1 };

/* Commits: removed keys leave the indexes. */
void log_commit(struct change_log *log);

/* Releases a savepoint and those within it: their changes become changes of the savepoint around them. */
void log_release(struct change_log *log, int point);

/* Rolls back the changes of a savepoint and of those within it, except where another connection has changed the key since. It never fails. */
void log_roll_back(struct change_log *log, int point);

#endif
