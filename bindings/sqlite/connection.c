/* A connection's tables, and how a transaction that creates or drops tables ends for them.
 *
 * SQLite makes no more calls for a table that was dropped, and none for a new table when an older savepoint is rolled back. So such a
 * transaction also writes to a listener, which SQLite calls in each case. It is an eponymous virtual table: no schema has it.
 */
#include "connection.h"
#include <pthread.h>
#include <string.h>
SQLITE_EXTENSION_INIT3

/* Stands for the savepoint of a table that the open transaction has not made, or not dropped. */
enum { NOT_NOW = NO_POINT - 1 };

struct connection {
    struct connection *next;
    sqlite3 *db;
    int uses;  /* by modules and tables */
    int hears; /* whether the listener takes part in the open transaction */
    struct change_log log;
    struct held *all;
    struct definition *definitions;
};

static struct connection *connections; /* under this mutex: */
static pthread_mutex_t connections_mutex = PTHREAD_MUTEX_INITIALIZER;

/* ---- What a connection has ---- */

/* Frees parts without a definition. While the log has changes, it may name these parts: then they stay until the transaction ends. */
static void free_unused(struct connection *connection) {
    struct held **place = &connection->all, *held;
    while (!connection->log.last && (held = *place) != NULL) {
        if (held->definitions) {
            place = &held->next;
            continue;
        }
        *place = held->next;
        part_leave(&held->part);
        shared_end_use(held->part.shared);
        sqlite3_free(held);
    }
}

/* Frees a definition that is neither listed nor has a table. */
static void let_go(struct connection *connection, struct definition *definition) {
    if (definition->is_listed || definition->tables)
        return;
    definition->has->definitions--;
    sqlite3_free(definition);
    free_unused(connection);
}

static void unlist(struct connection *connection, struct definition **place) {
    struct definition *definition = *place;
    *place = definition->next;
    definition->is_listed = 0;
    let_go(connection, definition);
}

/* Takes over one use of an index. Returns the connection's part of it: NULL if it is refused. */
static struct held *hold(struct connection *connection, struct shared_index *index, int *code, char **error) {
    struct held *held = connection->all;
    hot_status status;
    while (held && held->part.shared != index)
        held = held->next;
    *code = SQLITE_NOMEM;
    if (held || !(held = sqlite3_malloc(sizeof *held))) {
        shared_end_use(index);
        return held;
    }
    memset(held, 0, sizeof *held);
    if ((status = part_take(index, &connection->log, &held->part)) != HOT_DONE) {
        if (status == HOT_NO_HANDLE) {
            *code = SQLITE_BUSY;
            *error = sqlite3_mprintf("hot: %d connections have the index: make it with more connections=",
                                     (int)shared_made_as(index)->handles);
        }
        shared_end_use(index);
        sqlite3_free(held);
        return NULL;
    }
    held->next = connection->all;
    connection->all = held;
    return held;
}

struct connection *connection_use(sqlite3 *db) {
    struct connection *connection;
    pthread_mutex_lock(&connections_mutex);
    for (connection = connections; connection && connection->db != db; connection = connection->next) {
    }
    if (!connection && (connection = sqlite3_malloc(sizeof *connection)) != NULL) {
        memset(connection, 0, sizeof *connection);
        connection->db = db;
        connection->log.point = NO_POINT;
        connection->next = connections;
        connections = connection;
    }
    if (connection)
        connection->uses++;
    pthread_mutex_unlock(&connections_mutex);
    return connection;
}

void connection_end_use(void *used) {
    struct connection *connection = used, **place = &connections;
    if (--connection->uses > 0)
        return;
    pthread_mutex_lock(&connections_mutex);
    while (*place != connection)
        place = &(*place)->next;
    *place = connection->next;
    pthread_mutex_unlock(&connections_mutex);
    while (connection->definitions)
        unlist(connection, &connection->definitions);
    sqlite3_free(connection);
}

/* ---- Transactions ---- */

static struct connection *connection_of(sqlite3_vtab *member) {
    return ((struct member *)member)->connection;
}

/* Rolls back rows, made tables and dropped tables to the beginning of a savepoint. */
static void take_back(struct connection *connection, int point) {
    struct definition **place = &connection->definitions;
    log_roll_back(&connection->log, point);
    while (*place) {
        if ((*place)->dropped_in >= point)
            (*place)->dropped_in = NOT_NOW;
        if ((*place)->made_in >= point)
            unlist(connection, place);
        else
            place = &(*place)->next;
    }
}

static int end_transaction(struct connection *connection) {
    free_unused(connection);
    connection->hears = 0;
    return SQLITE_OK;
}

int connection_begin(sqlite3_vtab *member) {
    (void)member;
    return SQLITE_OK;
}

int connection_commit(sqlite3_vtab *member) {
    struct connection *connection = connection_of(member);
    struct definition **place = &connection->definitions;
    log_commit(&connection->log);
    while (*place) {
        (*place)->made_in = NOT_NOW;
        if ((*place)->dropped_in != NOT_NOW)
            unlist(connection, place);
        else
            place = &(*place)->next;
    }
    return end_transaction(connection);
}

int connection_roll_back(sqlite3_vtab *member) {
    take_back(connection_of(member), NO_POINT);
    return end_transaction(connection_of(member));
}

int connection_savepoint(sqlite3_vtab *member, int point) {
    connection_of(member)->log.point = point;
    return SQLITE_OK;
}

int connection_release(sqlite3_vtab *member, int point) {
    struct connection *connection = connection_of(member);
    struct definition *definition;
    log_release(&connection->log, point);
    for (definition = connection->definitions; definition; definition = definition->next) {
        definition->made_in = definition->made_in < point ? definition->made_in : point - 1;
        definition->dropped_in = definition->dropped_in < point ? definition->dropped_in : point - 1;
    }
    return SQLITE_OK;
}

int connection_roll_back_to(sqlite3_vtab *member, int point) {
    take_back(connection_of(member), point);
    return SQLITE_OK;
}

/* ---- The listener ---- */

static int connect_listener(sqlite3 *db, void *connection, int count, const char *const *words, sqlite3_vtab **made, char **error) {
    struct member *listener = sqlite3_malloc(sizeof *listener);
    int code;
    (void)count;
    (void)words;
    (void)error;
    if (!listener)
        return SQLITE_NOMEM;
    memset(listener, 0, sizeof *listener);
    if ((code = sqlite3_declare_vtab(db, "CREATE TABLE x(ignored)")) != SQLITE_OK) {
        sqlite3_free(listener);
        return code;
    }
    listener->connection = connection;
    listener->connection->uses++;
    *made = &listener->base;
    return SQLITE_OK;
}

static int disconnect_listener(sqlite3_vtab *listener) {
    connection_end_use(connection_of(listener));
    sqlite3_free(listener);
    return SQLITE_OK;
}

static int refuse_query(sqlite3_vtab *listener, sqlite3_index_info *plan) {
    (void)listener;
    (void)plan;
    return SQLITE_CONSTRAINT;
}

static int refuse_row(sqlite3_vtab *listener, int count, sqlite3_value **values, sqlite3_int64 *number) {
    (void)listener;
    (void)count;
    (void)values;
    (void)number;
    return SQLITE_CONSTRAINT;
}

static int begin_to_hear(sqlite3_vtab *listener) {
    connection_of(listener)->hears = 1;
    return SQLITE_OK;
}

static const sqlite3_module listeners = {
    .iVersion = 2,
    .xConnect = connect_listener,
    .xBestIndex = refuse_query,
    .xDisconnect = disconnect_listener,
    .xUpdate = refuse_row,
    .xBegin = begin_to_hear,
    .xCommit = connection_commit,
    .xRollback = connection_roll_back,
    .xSavepoint = connection_savepoint,
    .xRelease = connection_release,
    .xRollbackTo = connection_roll_back_to,
};

/* The listener's name has the connection's address, so no other copy of this library uses it. SQLite ends the use of a module that it refuses. */
int connection_register(struct connection *connection, const sqlite3_module *tables) {
    char *name = sqlite3_mprintf("hot_transaction_%p", (void *)connection);
    int code = name ? sqlite3_create_module_v2(connection->db, name, &listeners, connection_use(connection->db), connection_end_use) : SQLITE_NOMEM;
    sqlite3_free(name);
    return code == SQLITE_OK ? sqlite3_create_module_v2(connection->db, "hot", tables, connection_use(connection->db), connection_end_use) : code;
}

/* Adds the listener to the open transaction, by a statement that writes no row. SQLITE_OK, or SQLite's code, as where the main database can't be
 * written. A statement outside BEGIN and COMMIT goes on without the listener. */
static int hear(struct connection *connection) {
    char *sql;
    int code;
    if (connection->hears)
        return SQLITE_OK;
    sql = sqlite3_mprintf("INSERT INTO hot_transaction_%p SELECT 1 WHERE 0", (void *)connection);
    code = sql ? sqlite3_exec(connection->db, sql, NULL, NULL, NULL) : SQLITE_NOMEM;
    sqlite3_free(sql);
    if (connection->hears || sqlite3_get_autocommit(connection->db))
        return SQLITE_OK;
    return code == SQLITE_OK ? SQLITE_ERROR : code;
}

/* ---- Tables ---- */

/* Where a table is stored: the path of its file, or its schema if that is in memory. NULL if there is no memory. */
static char *place_of(sqlite3 *db, const char *schema) {
    const char *path = sqlite3_db_filename(db, schema);
    return path && *path ? sqlite3_mprintf("file %s", path) : sqlite3_mprintf("schema %s", schema);
}

/* The place in the list, from this one on, of the table's definition that is not dropped; or the list's end. */
static struct definition **find(struct definition **place, const char *where, const char *table) {
    while (*place && ((*place)->dropped_in != NOT_NOW || strcmp((*place)->where, where) != 0 || strcmp((*place)->table, table) != 0))
        place = &(*place)->next;
    return place;
}

/* Lists a definition of a table. NULL if there is no memory, and then a part without a definition is freed. */
static struct definition *define(struct connection *connection, const char *where, const char *table, struct held *has) {
    const size_t size = strlen(where) + 1;
    struct definition *definition = sqlite3_malloc64(sizeof *definition + size + strlen(table) + 1);
    if (!definition) {
        free_unused(connection);
        return NULL;
    }
    memset(definition, 0, sizeof *definition);
    definition->where = strcpy((char *)(definition + 1), where);
    definition->table = strcpy((char *)(definition + 1) + size, table);
    definition->is_listed = 1;
    definition->made_in = definition->dropped_in = NOT_NOW;
    definition->has = has;
    has->definitions++;
    definition->next = connection->definitions;
    connection->definitions = definition;
    return definition;
}

/* Why a table of these words can't use the index: NULL if it can. */
static char *mismatch(const struct table_words *words, const struct index_settings *made_as) {
    if (made_as->is_text != words->settings.is_text)
        return sqlite3_mprintf("hot: the index has keys of another type");
    if ((words->has_keys && made_as->keys != words->settings.keys) ||
        (words->has_longest && made_as->longest != words->settings.longest))
        return sqlite3_mprintf("hot: the index was made with keys=%lld, longest=%lld", made_as->keys, made_as->longest);
    if (words->has_grow && made_as->grows != words->settings.grows)
        return sqlite3_mprintf("hot: the index was made with grow=%lld", made_as->grows);
    return NULL;
}

/* Defines a table, with the index of its name, or with a new one if it has none. */
static struct definition *define_new(struct connection *connection, const char *where, const struct table_words *words, int *code, char **error) {
    struct shared_index *index = shared_use(words->name, &words->settings, code, error);
    struct definition *definition;
    struct held *held;
    if (index && (*error = mismatch(words, shared_made_as(index))) != NULL) {
        shared_end_use(index);
        *code = SQLITE_ERROR;
        return NULL;
    }
    if (!index || !(held = hold(connection, index, code, error)))
        return NULL;
    if (!(definition = define(connection, where, words->table, held)))
        *code = SQLITE_NOMEM;
    return definition;
}

/* Whether the definition is that of a table of these words. It may be older: another connection may have dropped the table and made another. */
static int is_as(const struct definition *definition, const struct table_words *words) {
    const struct shared_index *index = definition->has->part.shared;
    const struct index_settings *one = shared_made_as(index), *other = &words->settings;
    if (words->name)
        return shared_has_name(index, words->name);
    return shared_has_name(index, NULL) && one->keys == other->keys && one->longest == other->longest && one->grows == other->grows &&
           one->handles == other->handles && one->is_text == other->is_text;
}

struct definition *connection_create(struct connection *connection, const struct table_words *words, int *code, char **error) {
    char *where = place_of(connection->db, words->schema);
    struct definition *definition = NULL, **place;
    *code = !where ? SQLITE_NOMEM : sqlite3_get_autocommit(connection->db) ? SQLITE_OK : hear(connection);
    if (*code == SQLITE_OK && (definition = define_new(connection, where, words, code, error)) != NULL) {
        definition->made_in = connection->log.point;
        definition->tables = 1;
        /* Another connection has dropped an older table of this name, or its database was detached. */
        if (*(place = find(&definition->next, where, words->table)) != NULL)
            unlist(connection, place);
    }
    sqlite3_free(where);
    return definition;
}

struct definition *connection_join(struct connection *connection, const struct table_words *words, int *code, char **error) {
    char *where = place_of(connection->db, words->schema);
    struct definition *definition = NULL, **place;
    *code = SQLITE_NOMEM;
    if (where) {
        place = find(&connection->definitions, where, words->table);
        if (*place && !is_as(*place, words))
            unlist(connection, place);
        else
            definition = *place;
        if (!definition)
            definition = define_new(connection, where, words, code, error);
    }
    if (definition)
        definition->tables++;
    sqlite3_free(where);
    return definition;
}

void connection_leave(struct connection *connection, struct definition *definition) {
    definition->tables--;
    let_go(connection, definition);
}

/* Without the listener the definition stays, until the table is created again or the connection is closed. */
int connection_drop(struct connection *connection, struct definition *definition) {
    int code = hear(connection);
    if (connection->hears)
        definition->dropped_in = connection->log.point;
    return code;
}

int connection_rename(struct connection *connection, struct definition *definition, const char *table) {
    int code = hear(connection);
    struct definition *renamed;
    if (code != SQLITE_OK)
        return code;
    if (!(renamed = define(connection, definition->where, table, definition->has)))
        return SQLITE_NOMEM;
    if (connection->hears)
        renamed->made_in = definition->dropped_in = connection->log.point;
    return SQLITE_OK;
}
