/* A connection's tables: which index each has, and what becomes of them and of their rows when a transaction ends. */
#ifndef CONNECTION_H
#define CONNECTION_H

#include "index.h"

struct connection;

/* A connection's part of an index. It stays as long as a definition has it, and until the open transaction ends. */
struct held {
    struct held *next;
    int definitions;
    struct part part;
};

/* A table that the connection has seen, and its index. */
struct definition {
    struct definition *next;
    struct held *has;
    int tables;              /* the number of SQLite's objects that stand for the table */
    int is_listed;           /* whether SQLite may connect the table again */
    int made_in, dropped_in; /* the savepoint of the open transaction that did so */
    const char *where;       /* the path of its file, or its schema in memory */
    const char *table;       /* its name */
};

/* What a statement says about a table. */
struct table_words {
    const char *schema, *table;
    const char *name; /* of the index, or NULL */
    struct index_settings settings;
    int has_keys, has_longest, has_grow; /* whether the statement has these arguments */
};

/* The beginning of each table, by which SQLite's calls on transactions find the connection. */
struct member {
    sqlite3_vtab base;
    struct connection *connection;
};

/* Uses what is known about SQLite's connection: NULL if there is no memory. Each use is ended. */
struct connection *connection_use(sqlite3 *db);
void connection_end_use(void *connection);

/* Registers the module of tables, and that of the listener: see connection.c. SQLITE_OK, or SQLite's code. */
int connection_register(struct connection *connection, const sqlite3_module *tables);

/* Finds or makes the index of a table that is created, or that SQLite connects again. NULL, and `code` and `error`, if it is refused. */
struct definition *connection_create(struct connection *connection, const struct table_words *words, int *code, char **error);
struct definition *connection_join(struct connection *connection, const struct table_words *words, int *code, char **error);

/* SQLite frees the table, as it does before it reads the schema again. The definition stays. */
void connection_leave(struct connection *connection, struct definition *definition);

/* Drops or renames a table: SQLITE_OK, or SQLite's code. */
int connection_drop(struct connection *connection, struct definition *definition);
int connection_rename(struct connection *connection, struct definition *definition, const char *table);

/* SQLite makes these calls for each table that takes part in a transaction. Each serves all of the connection's tables, so repeated calls do
 * nothing more. */
int connection_begin(sqlite3_vtab *member);
int connection_commit(sqlite3_vtab *member);
int connection_roll_back(sqlite3_vtab *member);
int connection_savepoint(sqlite3_vtab *member, int point);
int connection_release(sqlite3_vtab *member, int point);
int connection_roll_back_to(sqlite3_vtab *member, int point);

#endif
