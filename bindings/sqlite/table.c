/* hot_table.so: a table in memory for SQLite, over libhot. The connections of a process use it at the same time.
 *
 *     .load ./hot_table
 *     CREATE VIRTUAL TABLE t USING hot(keys=1000000, longest=24);
 *
 * The columns are key TEXT PRIMARY KEY and value INTEGER. The table begins with room for 10,000 keys of at most 24 bytes, or for `keys` keys of
 * at most `longest` bytes. More arguments:
 *
 *     grow=0            the room stays as it is; by default the table grows
 *     type=blob         keys are blobs
 *     name=words        tables of this name share one index, in any database of the process
 *     connections=16    the most connections that use the index at a time; by default 16
 *
 * A value may stand in quotes, single or double: name='words' is name=words. Within them the same quote is written twice.
 *
 * The name alone says which index a table has. Such a table is refused if it says another number of keys=, longest= or grow= than the index was
 * made with. Without a name the index is the connection's own. An index goes once each connection that had a table of it has dropped the table or
 * was closed. */
#include "connection.h"
#include <pthread.h>
#include <stdlib.h>
#include <string.h>
SQLITE_EXTENSION_INIT1

/* A plan, as a number that best_index passes to filter_rows. ABOVE comes with FROM, and BELOW with UPTO. LIMITED says that SQLite may begin or
 * stop to read at a row of its choice. */
enum { EQUAL = 1, FROM = 2, UPTO = 4, CASELESS = 8, FALLING = 16, ABOVE = 32, BELOW = 64, LIMITED = 128 };
enum { FIRST_PAGE = 4, PAGE = 256 };

/* The columns. */
enum { KEY, VALUE };

/* Estimates, as of SQLite's own trees: a range with one end has one row in OF_HALF, one with both ends one in OF_RANGE. With a larger estimate
 * SQLite begins a join at this table and reads all of it, since that saves a sort. */
enum { OF_HALF = 4, OF_RANGE = 64 };

/* A table, as one connection has it. */
struct hot_table {
    struct member member;
    sqlite3 *db;
    struct definition *definition;
    int is_text;
    double keys;
};

/* A scan of a table: a page of its rows, and the range after that page. Where SQLite reads no column of many rows, as for count(*), the scan
 * counts the rest instead of listing it. */
struct scan {
    sqlite3_vtab_cursor base;
    struct key_bound from, upto;
    int falls;
    struct key_bound folded; /* CASELESS: what keys begin with, in capitals */
    struct key_page page;
    const hot_head *row;  /* the current row, in the page; or the page's end */
    const hot_head *last; /* before this row the next one of the page is the scan's next one, too */
    const uint8_t *key;   /* the row's key; at the page's end that of its keys */
    int is_over;          /* whether there is no current row */
    int counts;           /* whether the scan may count rows */
    int is_read;          /* whether a column of the page was read */
    size_t unread;        /* rows of earlier pages that were passed since a column was read */
    size_t left;          /* counted rows from the current one on; 0 where rows are listed */
    size_t passed;        /* counted rows before the current one */
};

static int fails(sqlite3_vtab *vtab, int code, const char *text) {
    sqlite3_free(vtab->zErrMsg);
    vtab->zErrMsg = sqlite3_mprintf("hot: %s", text);
    return code;
}

/* SQLite's code for a refused call, and its message. */
static int refused(sqlite3_vtab *vtab, hot_status status) {
    switch (status) {
    case HOT_NO_MEMORY: return SQLITE_NOMEM;
    case HOT_FULL_NODES:
    case HOT_FULL_LEAVES:
        if (((struct hot_table *)vtab)->definition->has->part.removed)
            return fails(vtab, SQLITE_FULL, "the index is full, and removed rows keep their room until COMMIT");
        return fails(vtab, SQLITE_FULL, "the index is full: make it with more keys=, or without grow=0");
    case HOT_KEY_TOO_LONG: return fails(vtab, SQLITE_TOOBIG, "the key is too long");
    default: return fails(vtab, SQLITE_ERROR, hot_status_text(status));
    }
}

/* ---- Tables ---- */

/* Removes the quotes around a text, if one pair surrounds it. */
static void unquote(char *text) {
    const char quote = *text, *from = text + 1;
    char *to = text;
    if (quote != '\'' && quote != '"')
        return;
    while (*from && (*from != quote || from[1] == quote))
        from += *from == quote ? 2 : 1;
    if (!*from || from[1])
        return;
    for (from = text + 1; from[1]; from++) {
        *to++ = *from;
        from += *from == quote;
    }
    *to = '\0';
}

/* The unquoted value of an argument `name=value`: NULL if the text has another form. */
static const char *value_of(char *text, const char *name) {
    size_t length = strlen(name);
    while (*text == ' ')
        text++;
    if (sqlite3_strnicmp(text, name, (int)length) != 0)
        return NULL;
    for (text += length; *text == ' '; text++) {
    }
    if (*text != '=')
        return NULL;
    for (text++; *text == ' '; text++) {
    }
    unquote(text);
    return text;
}

/* Reads a number: 1 if it is one, from `least` to `most`. */
static int read_number(const char *text, sqlite3_int64 least, sqlite3_int64 most, sqlite3_int64 *number) {
    char *end;
    if (*text < '0' || *text > '9')
        return 0;
    *number = strtoll(text, &end, 10);
    while (*end == ' ')
        end++;
    return *end == '\0' && *number >= least && *number <= most;
}

/* Reads an argument: 0 if it is unknown or out of range. The name of an index is not copied. */
static int read_argument(char *text, struct table_words *to) {
    const char *value;
    if ((value = value_of(text, "keys")) != NULL)
        return to->has_keys = read_number(value, 0, UINT32_MAX, &to->settings.keys);
    if ((value = value_of(text, "longest")) != NULL)
        return to->has_longest = read_number(value, 0, HOT_MAX_KEY, &to->settings.longest);
    if ((value = value_of(text, "grow")) != NULL)
        return to->has_grow = read_number(value, 0, 1, &to->settings.grows);
    if ((value = value_of(text, "connections")) != NULL)
        return read_number(value, 1, 1024, &to->settings.handles);
    if ((value = value_of(text, "type")) != NULL) {
        to->settings.is_text = sqlite3_stricmp(value, "text") == 0;
        return to->settings.is_text || sqlite3_stricmp(value, "blob") == 0;
    }
    if ((value = value_of(text, "name")) != NULL && *value) {
        to->name = value;
        return 1;
    }
    return 0;
}

static int note_encoding(void *is_utf8, int count, char **values, char **names) {
    (void)count;
    (void)names;
    *(int *)is_utf8 = strcmp(values[0], "UTF-8") == 0;
    return 0;
}

/* Declares the columns. Text is refused in a UTF-16 database, where its order differs from that of the index. */
static int declare(sqlite3 *db, int is_text, char **error) {
    int is_utf8 = !is_text, code = SQLITE_OK;
    if (is_text)
        code = sqlite3_exec(db, "PRAGMA encoding", note_encoding, &is_utf8, NULL);
    if (code == SQLITE_OK && !is_utf8) {
        *error = sqlite3_mprintf("hot: text is a key in UTF-8 databases alone: make the table with type=blob");
        code = SQLITE_ERROR;
    }
    if (code == SQLITE_OK)
        code = sqlite3_declare_vtab(
            db, is_text ? "CREATE TABLE x(key TEXT PRIMARY KEY NOT NULL, value INTEGER NOT NULL) WITHOUT ROWID"
                        : "CREATE TABLE x(key BLOB PRIMARY KEY NOT NULL, value INTEGER NOT NULL) WITHOUT ROWID");
    return code == SQLITE_OK ? sqlite3_vtab_config(db, SQLITE_VTAB_CONSTRAINT_SUPPORT, 1) : code;
}

static int make_table(sqlite3 *db, struct connection *connection, const struct table_words *words, int is_new, struct hot_table **made,
                      char **error) {
    int code = declare(db, words->settings.is_text, error);
    struct hot_table *table = code == SQLITE_OK ? sqlite3_malloc(sizeof *table) : NULL;
    if (!table)
        return code == SQLITE_OK ? SQLITE_NOMEM : code;
    memset(table, 0, sizeof *table);
    if (!(table->definition = (is_new ? connection_create : connection_join)(connection, words, &code, error))) {
        sqlite3_free(table);
        return code;
    }
    table->db = db;
    table->member.connection = connection_use(db);
    table->is_text = words->settings.is_text;
    table->keys = (double)shared_made_as(table->definition->has->part.shared)->keys;
    *made = table;
    return SQLITE_OK;
}

/* A copy of the arguments, one after another: NULL if there is no memory. */
static char *copy_of(int count, const char *const *words) {
    size_t size = 1;
    char *all, *to;
    int at;
    for (at = 0; at < count; at++)
        size += strlen(words[at]) + 1;
    all = to = sqlite3_malloc64(size);
    for (at = 0; all && at < count; at++)
        to += strlen(strcpy(to, words[at])) + 1;
    return all;
}

/* Reads the arguments of a table, and makes it. */
static int read_table(sqlite3 *db, struct connection *connection, int count, const char *const *words, int is_new, sqlite3_vtab **made,
                      char **error) {
    struct table_words with = {words[1], words[2], NULL, {10000, 24, 1, 16, 1}, 0, 0, 0};
    struct hot_table *table = NULL;
    char *all = copy_of(count - 3, words + 3), *text = all;
    int at, code = all ? SQLITE_OK : SQLITE_NOMEM;
    for (at = 3; at < count && code == SQLITE_OK; at++) {
        if (!read_argument(text, &with)) {
            *error = sqlite3_mprintf("hot: '%s' is no argument, or out of range", words[at]);
            code = SQLITE_ERROR;
        }
        text += strlen(words[at]) + 1;
    }
    if (code == SQLITE_OK)
        code = make_table(db, connection, &with, is_new, &table, error);
    sqlite3_free(all);
    *made = table ? &table->member.base : NULL;
    return code;
}

static int create_table(sqlite3 *db, void *connection, int count, const char *const *words, sqlite3_vtab **made, char **error) {
    return read_table(db, connection, count, words, 1, made, error);
}

static int connect_table(sqlite3 *db, void *connection, int count, const char *const *words, sqlite3_vtab **made, char **error) {
    return read_table(db, connection, count, words, 0, made, error);
}

static int disconnect_table(sqlite3_vtab *vtab) {
    struct hot_table *table = (struct hot_table *)vtab;
    connection_leave(table->member.connection, table->definition);
    connection_end_use(table->member.connection);
    sqlite3_free(table);
    return SQLITE_OK;
}

static int drop_table(sqlite3_vtab *vtab) {
    struct hot_table *table = (struct hot_table *)vtab;
    int code = connection_drop(table->member.connection, table->definition);
    return code == SQLITE_OK ? disconnect_table(vtab) : code;
}

static int rename_table(sqlite3_vtab *vtab, const char *name) {
    struct hot_table *table = (struct hot_table *)vtab;
    return connection_rename(table->member.connection, table->definition, name);
}

/* ---- Plans ---- */

/* The part of a plan that serves a constraint: EQUAL, FROM or UPTO; or 0 if none does. */
static int way_of(sqlite3_index_info *plan, int at) {
    const struct sqlite3_index_constraint *constraint = &plan->aConstraint[at];
    if (constraint->iColumn != 0 || !constraint->usable)
        return 0;
    switch (constraint->op) {
    case SQLITE_INDEX_CONSTRAINT_EQ: return EQUAL;
    case SQLITE_INDEX_CONSTRAINT_GT:
    case SQLITE_INDEX_CONSTRAINT_GE: return FROM;
    case SQLITE_INDEX_CONSTRAINT_LT:
    case SQLITE_INDEX_CONSTRAINT_LE: return UPTO;
    default: return 0;
    }
}

/* Whether a bound of the key is exclusive. */
static int is_strict(const sqlite3_index_info *plan, int at) {
    return plan->aConstraint[at].op == SQLITE_INDEX_CONSTRAINT_GT || plan->aConstraint[at].op == SQLITE_INDEX_CONSTRAINT_LT;
}

/* Whether SQLite knows already that the value has the type of keys. Then the scan lists exactly the rows that satisfy the constraint. */
static int is_exact(const struct hot_table *table, sqlite3_index_info *plan, int at) {
#if SQLITE_VERSION_NUMBER >= 3038000
    sqlite3_value *value;
    return sqlite3_libversion_number() >= 3038000 && sqlite3_vtab_rhs_value(plan, at, &value) == SQLITE_OK &&
           sqlite3_value_type(value) == (table->is_text ? SQLITE_TEXT : SQLITE_BLOB);
#else
    (void)table, (void)plan, (void)at;
    return 0;
#endif
}

/* The first constraint of this kind and collation: -1 if there is none. */
static int find_constraint(sqlite3_index_info *plan, int way, const char *collation) {
    int at;
    for (at = 0; at < plan->nConstraint; at++)
        if (way_of(plan, at) == way && sqlite3_stricmp(sqlite3_vtab_collation(plan, at), collation) == 0)
            return at;
    return -1;
}

/* The text of a plan in EXPLAIN QUERY PLAN. */
static char *text_of(int way) {
    static const char *const texts[] = {"all keys", "key=?", "key>?", "", "key<?", "", "key>? AND key<?", "", "key LIKE ?"};
    static const char *const falling[] = {"all keys, falling", "key=?", "key>?, falling",          "",
                                          "key<?, falling",    "",      "key>? AND key<?, falling"};
    int kind = way & (EQUAL | FROM | UPTO | CASELESS);
    return (char *)((way & FALLING) ? falling[kind] : texts[kind]);
}

/* Passes a bound to the scan as its argument of this number. Returns what the bound adds to the plan. */
static int use_bound(const struct hot_table *table, sqlite3_index_info *plan, int at, int number) {
    int is_from = way_of(plan, at) == FROM;
    plan->aConstraintUsage[at].argvIndex = number;
    plan->aConstraintUsage[at].omit = (unsigned char)is_exact(table, plan, at);
    return is_from ? FROM | (is_strict(plan, at) ? ABOVE : 0) : UPTO | (is_strict(plan, at) ? BELOW : 0);
}

/* Chooses the plan of a scan. SQLite turns its own LIKE and GLOB into ranges: LIKE into one by NOCASE whose upper bound is exclusive. SQLite
 * checks each row again, unless a bound is exact. So one constraint of each kind is enough, and a scan may list more than the query's rows. */
static int choose(const struct hot_table *table, sqlite3_index_info *plan, double *rows) {
    int equal = find_constraint(plan, EQUAL, "BINARY");
    int from = find_constraint(plan, FROM, "BINARY"), upto = find_constraint(plan, UPTO, "BINARY");
    int way = 0;
    if (equal >= 0) {
        plan->aConstraintUsage[equal].argvIndex = 1;
        *rows = 1;
        return EQUAL;
    }
    if (from < 0 && upto < 0) {
        from = find_constraint(plan, FROM, "NOCASE");
        upto = find_constraint(plan, UPTO, "NOCASE");
        if (from < 0 || upto < 0 || !is_strict(plan, upto) || !table->is_text)
            return 0;
        plan->aConstraintUsage[from].argvIndex = 1;
        plan->aConstraintUsage[upto].argvIndex = 2;
        *rows /= OF_RANGE;
        return CASELESS;
    }
    *rows /= from >= 0 && upto >= 0 ? OF_RANGE : OF_HALF;
    if (from >= 0)
        way |= use_bound(table, plan, from, 1);
    if (upto >= 0)
        way |= use_bound(table, plan, upto, from >= 0 ? 2 : 1);
    return way;
}

/* LIMITED if SQLite says that the query has LIMIT or OFFSET. */
static int limit_of(const sqlite3_index_info *plan) {
    int at;
    for (at = 0; at < plan->nConstraint; at++) {
#ifdef SQLITE_INDEX_CONSTRAINT_LIMIT
        if (plan->aConstraint[at].op == SQLITE_INDEX_CONSTRAINT_LIMIT || plan->aConstraint[at].op == SQLITE_INDEX_CONSTRAINT_OFFSET)
            return LIMITED;
#endif
    }
    return 0;
}

static int best_index(sqlite3_vtab *vtab, sqlite3_index_info *plan) {
    const struct hot_table *table = (struct hot_table *)vtab;
    const double there = (double)part_len(&table->definition->has->part);
    double rows = there > table->keys ? there : table->keys; /* a table may have grown */
    int way = choose(table, plan, &rows) | limit_of(plan);
    /* CASELESS lists in rising order alone. Keys are distinct, so terms of ORDER BY after the key change nothing. */
    if (plan->nOrderBy > 0 && plan->aOrderBy[0].iColumn == 0 && !(way & CASELESS && plan->aOrderBy[0].desc)) {
        way |= plan->aOrderBy[0].desc ? FALLING : 0;
        plan->orderByConsumed = 1;
    }
    plan->idxNum = way;
    plan->idxStr = text_of(way);
    plan->estimatedRows = rows < 1 ? 1 : (sqlite3_int64)rows;
    plan->estimatedCost = way & EQUAL ? 5 : 10 + rows;
    return SQLITE_OK;
}

/* ---- Cursors ---- */

static int open_cursor(sqlite3_vtab *vtab, sqlite3_vtab_cursor **made) {
    struct scan *scan = sqlite3_malloc(sizeof *scan);
    (void)vtab;
    if (!scan)
        return SQLITE_NOMEM;
    memset(scan, 0, sizeof *scan);
    if (!(scan->page.heads = sqlite3_malloc64(PAGE * (sizeof *scan->page.heads + HOT_MAX_KEY)))) {
        sqlite3_free(scan);
        return SQLITE_NOMEM;
    }
    scan->page.bytes = (uint8_t *)(scan->page.heads + PAGE);
    *made = &scan->base;
    return SQLITE_OK;
}

static int close_cursor(sqlite3_vtab_cursor *cursor) {
    struct scan *scan = (struct scan *)cursor;
    sqlite3_free(scan->page.heads);
    sqlite3_free(scan);
    return SQLITE_OK;
}

static struct part *part_of(struct scan *scan) {
    return &((struct hot_table *)scan->base.pVtab)->definition->has->part;
}

/* Sets the page's number of rows, and goes to its first row. */
static void begin_page(struct scan *scan, size_t count) {
    scan->page.count = count;
    scan->row = scan->page.heads;
    scan->last = scan->row + (count && !scan->folded.length ? count - 1 : 0);
    scan->key = scan->page.bytes;
}

static int load(struct scan *scan) {
    hot_status status = part_list(part_of(scan), &scan->from, &scan->upto, scan->falls, &scan->page);
    begin_page(scan, status == HOT_DONE ? scan->page.count : 0);
    return status == HOT_DONE ? SQLITE_OK : refused(scan->base.pVtab, status);
}

static int is_at_page_end(const struct scan *scan) {
    return scan->row == scan->page.heads + scan->page.count;
}

static void pass_row(struct scan *scan) {
    scan->key += scan->row->length;
    scan->row++;
}

/* Moves the range to what comes after the page, at whose end the scan is: 0 if no key may come there. */
static int go_beyond(struct scan *scan) {
    size_t length = scan->row[-1].length;
    return key_beyond(scan->key - length, length, scan->falls, scan->falls ? &scan->upto : &scan->from);
}

/* Counts the rows after the page, if no column was read for long: 0 if they are to be listed. */
static int count_rest(struct scan *scan) {
    scan->unread = scan->is_read ? 0 : scan->unread + scan->page.count;
    scan->is_read = 0;
    if (!scan->counts || !scan->unread || !part_count(part_of(scan), &scan->from, &scan->upto, scan->unread, &scan->left))
        return 0;
    begin_page(scan, 0);
    scan->passed = 0;
    return 1;
}

/* Loads the next page, or counts what is left. */
static int load_next(struct scan *scan) {
    scan->page.limit = scan->page.limit * 4 < PAGE ? scan->page.limit * 4 : PAGE;
    if (!go_beyond(scan)) {
        begin_page(scan, 0);
        return SQLITE_OK;
    }
    return count_rest(scan) ? SQLITE_OK : load(scan);
}

/* Lists the current row, which was only counted, and the rows after it: a column is read after all. */
static int list_counted(struct scan *scan) {
    int code;
    scan->left = 0;
    scan->page.limit = PAGE;
    while ((code = load(scan)) == SQLITE_OK) {
        for (; scan->passed && !is_at_page_end(scan); scan->passed--)
            pass_row(scan);
        if (!is_at_page_end(scan))
            return SQLITE_OK;
        if (!scan->page.count || !scan->page.more || !go_beyond(scan))
            return fails(scan->base.pVtab, SQLITE_BUSY, "the row was removed meanwhile: try again");
    }
    return code;
}

static int is_capital(uint8_t byte) {
    return byte >= 'A' && byte <= 'Z';
}
static uint8_t capital_of(uint8_t byte) {
    return byte >= 'a' && byte <= 'z' ? byte & ~32 : byte;
}
static uint8_t small_of(uint8_t byte) {
    return is_capital(byte) ? byte | 32 : byte;
}

/* Writes the least text, not below the key, that equals the folded one in all but case: 0 if there is none. If the key begins with such a text,
 * that is written. */
static int next_folded(const struct key_bound *folded, const uint8_t *key, size_t length, struct key_bound *to) {
    size_t at, can_rise = HOT_MAX_KEY;
    to->length = folded->length;
    memcpy(to->key, folded->key, folded->length);
    for (at = 0; at < folded->length && at < length; at++) {
        uint8_t capital = folded->key[at], small = small_of(capital), byte = key[at];
        if (byte < capital)
            return 1;
        if (byte > small) {
            if (can_rise == HOT_MAX_KEY)
                return 0;
            memcpy(to->key + can_rise, folded->key + can_rise, folded->length - can_rise);
            to->key[can_rise] |= 32;
            return 1;
        }
        to->key[at] = byte == capital ? capital : small;
        if (byte != capital && byte != small)
            return 1;
        if (byte < small)
            can_rise = at;
    }
    return 1;
}

static int begins_so(const struct key_bound *folded, const uint8_t *key, size_t length) {
    size_t at;
    if (length < folded->length)
        return 0;
    for (at = 0; at < folded->length && capital_of(key[at]) == folded->key[at]; at++) {
    }
    return at == folded->length;
}

/* Goes to the next row of the scan, if the current one is the page's end or, by CASELESS, doesn't begin as the pattern does. */
static int find_row(struct scan *scan) {
    int code = SQLITE_OK;
    for (;;) {
        if (is_at_page_end(scan)) {
            if (!scan->page.count || !scan->page.more)
                return code;
            code = load_next(scan);
            if (scan->left)
                return code;
        } else if (begins_so(&scan->folded, scan->key, scan->row->length)) {
            return code;
        } else {
            if (!next_folded(&scan->folded, scan->key, scan->row->length, &scan->from)) {
                begin_page(scan, 0);
                return SQLITE_OK;
            }
            scan->page.limit = FIRST_PAGE;
            code = load(scan);
        }
        if (code != SQLITE_OK)
            return code;
    }
}

static void note_end(struct scan *scan) {
    scan->is_over = !scan->left && is_at_page_end(scan);
}

/* Goes to the next row where that may not be in the page. */
__attribute__((noinline)) static int find_next_row(struct scan *scan) {
    int code = SQLITE_OK;
    if (scan->left) {
        scan->left--;
        scan->passed++;
    } else {
        pass_row(scan);
        code = find_row(scan);
    }
    note_end(scan);
    return code;
}

static int next_row(sqlite3_vtab_cursor *cursor) {
    struct scan *scan = (struct scan *)cursor;
    if (scan->row >= scan->last)
        return find_next_row(scan);
    pass_row(scan);
    return SQLITE_OK;
}

/* The bytes of a value as a key: 0 if its type is not that of keys. */
static int bytes_of(const struct hot_table *table, sqlite3_value *value, const uint8_t **bytes, size_t *length) {
    if (sqlite3_value_type(value) != (table->is_text ? SQLITE_TEXT : SQLITE_BLOB))
        return 0;
    *bytes = table->is_text ? sqlite3_value_text(value) : sqlite3_value_blob(value);
    *length = (size_t)sqlite3_value_bytes(value);
    if (!*bytes)
        *bytes = (const uint8_t *)"";
    return 1;
}

/* Sets the lower bound of a range, which `is_above` excludes. A value of another type sets none. 0 if no key is in the range. */
static int set_from(const struct hot_table *table, sqlite3_value *value, int is_above, struct key_bound *from) {
    const uint8_t *bytes;
    size_t length;
    if (sqlite3_value_type(value) == SQLITE_NULL)
        return 0;
    if (!bytes_of(table, value, &bytes, &length))
        return 1;
    if (is_above || length > HOT_MAX_KEY)
        return hot_after(bytes, length < HOT_MAX_KEY ? length : HOT_MAX_KEY, from->key, &from->length) == HOT_DONE;
    from->length = length;
    memcpy(from->key, bytes, length);
    return 1;
}

/* Sets the upper bound of a range, which `is_below` excludes, in the same way. */
static int set_upto(const struct hot_table *table, sqlite3_value *value, int is_below, struct key_bound *upto) {
    const uint8_t *bytes;
    size_t length;
    if (sqlite3_value_type(value) == SQLITE_NULL)
        return 0;
    if (!bytes_of(table, value, &bytes, &length))
        return 1;
    if (is_below && length <= HOT_MAX_KEY)
        return hot_before(bytes, length, upto->key, &upto->length) == HOT_DONE;
    upto->length = length < HOT_MAX_KEY ? length : HOT_MAX_KEY;
    memcpy(upto->key, bytes, upto->length);
    return 1;
}

/* Makes the scan one of the keys that begin with `from` in any case, if these are the keys from `from` up to `below` by NOCASE. Else it stays one of
 * all keys. */
static void set_caseless(struct scan *scan, sqlite3_value *from, sqlite3_value *below) {
    const struct hot_table *table = (struct hot_table *)scan->base.pVtab;
    const uint8_t *first, *end;
    size_t length, end_length, at;
    if (!bytes_of(table, from, &first, &length) || !bytes_of(table, below, &end, &end_length) || length != end_length || length == 0)
        return;
    for (at = 0; at + 1 < length && small_of(first[at]) == small_of(end[at]); at++) {
    }
    if (at + 1 < length || small_of(first[at]) + 1 != small_of(end[at]))
        return;
    for (at = 0; at < length && at < HOT_MAX_KEY; at++) {
        scan->from.key[at] = capital_of(first[at]);
        scan->upto.key[at] = small_of(first[at]);
    }
    scan->from.length = at;
    scan->folded = scan->from;
}

/* Makes this pair all that the page has. */
static void set_page(struct key_page *page, const uint8_t *key, size_t length, uint64_t value) {
    if (length)
        memcpy(page->bytes, key, length);
    page->heads->length = (uint8_t)length;
    page->heads->value = value;
    page->count = 1;
}

/* Looks one key up, whose row becomes the page. 0 if the value has another type, so that SQLite has to compare all keys with it. */
static int find_key(struct scan *scan, sqlite3_value *value, int *code) {
    const uint8_t *bytes;
    size_t length;
    uint64_t found;
    hot_status status;
    if (!bytes_of((struct hot_table *)scan->base.pVtab, value, &bytes, &length))
        return 0;
    status = part_get(part_of(scan), bytes, length, &found);
    if (status == HOT_FOUND)
        set_page(&scan->page, bytes, length, found);
    *code = status == HOT_FOUND || status == HOT_ABSENT ? SQLITE_OK : refused(scan->base.pVtab, status);
    return 1;
}

/* Makes the scan one of all keys, which has no row yet. */
static void begin_scan(struct scan *scan, int way) {
    scan->from.length = scan->folded.length = 0;
    scan->upto.length = HOT_MAX_KEY;
    memset(scan->upto.key, 0xff, HOT_MAX_KEY);
    scan->falls = (way & FALLING) != 0;
    scan->page.limit = FIRST_PAGE;
    scan->page.more = 0;
    begin_page(scan, 0);
    scan->counts = !(way & (LIMITED | CASELESS));
    scan->is_read = 0;
    scan->unread = scan->left = scan->passed = 0;
}

/* Goes to the first row of a plan, whose bounds have these values. */
static int begin_rows(struct scan *scan, int way, sqlite3_value **values) {
    const struct hot_table *table = (struct hot_table *)scan->base.pVtab;
    int code = SQLITE_OK, has_keys = 1;
    begin_scan(scan, way);
    if (way & EQUAL && (sqlite3_value_type(values[0]) == SQLITE_NULL || find_key(scan, values[0], &code)))
        return code;
    if (way & CASELESS)
        set_caseless(scan, values[0], values[1]);
    if (way & FROM)
        has_keys = set_from(table, *values++, way & ABOVE, &scan->from);
    if (way & UPTO)
        has_keys = set_upto(table, *values, way & BELOW, &scan->upto) && has_keys;
    if (!has_keys || (code = load(scan)) != SQLITE_OK)
        return code;
    return find_row(scan);
}

static int filter_rows(sqlite3_vtab_cursor *cursor, int way, const char *text, int count, sqlite3_value **values) {
    struct scan *scan = (struct scan *)cursor;
    int code = begin_rows(scan, way, values);
    (void)text;
    (void)count;
    note_end(scan);
    return code;
}

static int is_at_end(sqlite3_vtab_cursor *cursor) {
    return ((const struct scan *)cursor)->is_over;
}

static sqlite3_int64 value_of_row(const struct scan *scan) {
    return (sqlite3_int64)scan->row->value;
}

/* Gives SQLite the key, or a column of a row that was counted. */
__attribute__((noinline)) static int other_column(struct scan *scan, sqlite3_context *to, int number) {
    int code = scan->left ? list_counted(scan) : SQLITE_OK;
    if (code != SQLITE_OK)
        return code;
    if (number == VALUE)
        sqlite3_result_int64(to, value_of_row(scan));
    else if (((struct hot_table *)scan->base.pVtab)->is_text)
        sqlite3_result_text(to, (const char *)scan->key, scan->row->length, SQLITE_TRANSIENT);
    else
        sqlite3_result_blob(to, scan->key, scan->row->length, SQLITE_TRANSIENT);
    return SQLITE_OK;
}

static int column_of(sqlite3_vtab_cursor *cursor, sqlite3_context *to, int number) {
    struct scan *scan = (struct scan *)cursor;
    scan->is_read = 1;
    if (number != VALUE || scan->left)
        return other_column(scan, to, number);
    sqlite3_result_int64(to, value_of_row(scan));
    return SQLITE_OK;
}

static int rowid_of(sqlite3_vtab_cursor *cursor, sqlite3_int64 *number) {
    (void)cursor;
    *number = 0;
    return SQLITE_ERROR; /* the table is WITHOUT ROWID */
}

/* ---- Changes ---- */

static int take(struct hot_table *table, const uint8_t *key, size_t length) {
    hot_status status = length > HOT_MAX_KEY ? HOT_ABSENT : part_remove(&table->definition->has->part, key, length);
    return status == HOT_REMOVED || status == HOT_ABSENT ? SQLITE_OK : refused(&table->member.base, status);
}

static int put(struct hot_table *table, const uint8_t *key, size_t length, sqlite3_int64 value, int replaces) {
    hot_status status = length > HOT_MAX_KEY ? HOT_KEY_TOO_LONG : part_put(&table->definition->has->part, key, length, (uint64_t)value, replaces);
    if (status == HOT_EXISTS) {
        if (sqlite3_vtab_on_conflict(table->db) == SQLITE_IGNORE)
            return SQLITE_CONSTRAINT;
        return fails(&table->member.base, SQLITE_CONSTRAINT, "UNIQUE constraint failed: key");
    }
    return status == HOT_INSERTED || status == HOT_NEW || status == HOT_WAS ? SQLITE_OK : refused(&table->member.base, status);
}

/* Refuses a key or value of another type. As in a STRICT table, OR IGNORE leaves out a row with NULL, and refuses one with another type. */
static int refuse_type(struct hot_table *table, sqlite3_value *value, const char *text) {
    int is_null = sqlite3_value_type(value) == SQLITE_NULL;
    int is_mismatch = !is_null && sqlite3_vtab_on_conflict(table->db) == SQLITE_IGNORE;
    return fails(&table->member.base, is_mismatch ? SQLITE_MISMATCH : SQLITE_CONSTRAINT_DATATYPE, text);
}

static int update_row(sqlite3_vtab *vtab, int count, sqlite3_value **values, sqlite3_int64 *number) {
    struct hot_table *table = (struct hot_table *)vtab;
    const uint8_t *key = NULL, *old = NULL;
    size_t length = 0, old_length = 0;
    int has_old = bytes_of(table, values[0], &old, &old_length), is_same, code;
    sqlite3_int64 value;
    (void)number;
    if (count == 1)
        return has_old ? take(table, old, old_length) : SQLITE_OK;
    if (!bytes_of(table, values[2], &key, &length))
        return refuse_type(table, values[2], table->is_text ? "a key must be text" : "a key must be a blob");
    if (sqlite3_value_numeric_type(values[3]) != SQLITE_INTEGER)
        return refuse_type(table, values[3], "a value must be an integer");
    value = sqlite3_value_int64(values[3]);
    is_same = has_old && old_length == length && memcmp(old, key, length) == 0;
    code = put(table, key, length, value, is_same || sqlite3_vtab_on_conflict(table->db) == SQLITE_REPLACE);
    return code == SQLITE_OK && has_old && !is_same ? take(table, old, old_length) : code;
}

static const sqlite3_module module = {
    .iVersion = 2,
    .xCreate = create_table,
    .xConnect = connect_table,
    .xBestIndex = best_index,
    .xDisconnect = disconnect_table,
    .xDestroy = drop_table,
    .xOpen = open_cursor,
    .xClose = close_cursor,
    .xFilter = filter_rows,
    .xNext = next_row,
    .xEof = is_at_end,
    .xColumn = column_of,
    .xRowid = rowid_of,
    .xUpdate = update_row,
    .xBegin = connection_begin,
    .xCommit = connection_commit,
    .xRollback = connection_roll_back,
    .xRename = rename_table,
    .xSavepoint = connection_savepoint,
    .xRelease = connection_release,
    .xRollbackTo = connection_roll_back_to,
};

/* Sets the table of SQLite's calls, once for all connections: other threads may be using it. */
static void set_api(const sqlite3_api_routines *api) {
    static pthread_mutex_t mutex = PTHREAD_MUTEX_INITIALIZER;
    pthread_mutex_lock(&mutex);
    if (!sqlite3_api)
        SQLITE_EXTENSION_INIT2(api);
    pthread_mutex_unlock(&mutex);
}

/* What .load and sqlite3_load_extension call: the library's only public name. A connection may load the library twice. */
__attribute__((visibility("default"))) int sqlite3_hottable_init(sqlite3 *db, char **error, const sqlite3_api_routines *api) {
    struct connection *connection;
    int code;
    (void)error;
    set_api(api);
    if (!(connection = connection_use(db)))
        return SQLITE_NOMEM;
    code = connection_register(connection, &module);
    connection_end_use(connection);
    return code;
}
