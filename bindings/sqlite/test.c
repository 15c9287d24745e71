/* Tests hot_table.so beside ordinary tables: random statements, also ones that count, or create and drop tables; all pairs of comparisons of the
 * key; transactions whose room another connection tries to take; each allocation refused in turn; and threads, each with a connection.
 *
 *     test HOT_TABLE.so [threads]     the threads alone
 *
 * HOT_TABLE.so takes its memory from this program: -Wl,--wrap=malloc,--wrap=calloc,--wrap=realloc.
 */
#include <limits.h>
#include <pthread.h>
#include <sqlite3.h>
#include <stdarg.h>
#include <stdio.h>
#include <stdlib.h>
#include <string.h>
#include <unistd.h>

enum { THREADS = 4, ROUNDS = 60, STATEMENTS = 3000, CHANGES_OF_TABLES = 4000, READERS = 3 };

static const char *library;

static void fail(const char *what, const char *why) {
    fprintf(stderr, "test: %s: %s\n", what, why);
    exit(1);
}

/* Runs a statement: its status. */
static int run(sqlite3 *db, const char *form, ...) {
    va_list words;
    char *sql;
    int code;
    va_start(words, form);
    sql = sqlite3_vmprintf(form, words);
    va_end(words);
    code = sqlite3_exec(db, sql, NULL, NULL, NULL);
    sqlite3_free(sql);
    return code;
}

/* Runs a statement, which returns this status. */
static void expect(sqlite3 *db, int expected, const char *sql) {
    if (run(db, "%s", sql) != expected)
        fail(sql, sqlite3_errmsg(db));
}

/* The first column of the first row as a text, which the caller frees. */
static char *answer(sqlite3 *db, const char *form, ...) {
    va_list words;
    sqlite3_stmt *query;
    char *sql, *found;
    va_start(words, form);
    sql = sqlite3_vmprintf(form, words);
    va_end(words);
    if (sqlite3_prepare_v2(db, sql, -1, &query, NULL) != SQLITE_OK || sqlite3_step(query) != SQLITE_ROW)
        fail(sql, sqlite3_errmsg(db));
    found = sqlite3_mprintf("%s", sqlite3_column_text(query, 0));
    sqlite3_finalize(query);
    sqlite3_free(sql);
    return found;
}

static int number(sqlite3 *db, const char *sql) {
    char *text = answer(db, "%s", sql);
    int found = atoi(text);
    sqlite3_free(text);
    return found;
}

/* Opens a connection to a file, which loads the library. */
static sqlite3 *open_file(const char *file) {
    sqlite3 *db;
    char *error = NULL;
    if (sqlite3_open(file, &db) != SQLITE_OK)
        fail("open", sqlite3_errmsg(db));
    sqlite3_enable_load_extension(db, 1);
    if (sqlite3_load_extension(db, library, NULL, &error) != SQLITE_OK)
        fail(library, error);
    expect(db, SQLITE_OK, "PRAGMA synchronous = OFF; PRAGMA journal_mode = MEMORY");
    return db;
}

static const char *const ordinary_columns = "p(key TEXT PRIMARY KEY NOT NULL, value INTEGER NOT NULL) WITHOUT ROWID";

/* Opens a connection with a table t made with these arguments, and an ordinary table p. */
static sqlite3 *connect_to(const char *arguments) {
    sqlite3 *db = open_file(":memory:");
    if (run(db, "CREATE VIRTUAL TABLE t USING hot(%s)", arguments) != SQLITE_OK)
        fail(arguments, sqlite3_errmsg(db));
    if (run(db, "CREATE TABLE %s", ordinary_columns) != SQLITE_OK)
        fail("an ordinary table", sqlite3_errmsg(db));
    return db;
}

/* ---- Memory that is refused ---- */

static sqlite3_mem_methods memory;
static int left = -1; /* the number of allocations before one is refused; negative if none is */

static int is_refused(void) {
    return left >= 0 && left-- == 0;
}

static void *scarce_malloc(int size) {
    return is_refused() ? NULL : memory.xMalloc(size);
}

static void *scarce_realloc(void *at, int size) {
    return is_refused() ? NULL : memory.xRealloc(at, size);
}

static void make_memory_scarce(void) {
    sqlite3_mem_methods scarce;
    int code = sqlite3_config(SQLITE_CONFIG_GETMALLOC, &memory);
    scarce = memory;
    scarce.xMalloc = scarce_malloc;
    scarce.xRealloc = scarce_realloc;
    if (code != SQLITE_OK || sqlite3_config(SQLITE_CONFIG_MALLOC, &scarce) != SQLITE_OK)
        fail("memory", "SQLite had some before");
}

/* libhot asks these for memory. */
void *__wrap_malloc(size_t size) {
    return is_refused() ? NULL : malloc(size);
}

void *__wrap_calloc(size_t count, size_t size) {
    return is_refused() ? NULL : calloc(count, size);
}

void *__wrap_realloc(void *at, size_t size) {
    return is_refused() ? NULL : realloc(at, size);
}

/* Refuses each allocation of these statements in turn: the rows stay as they were, and the status is SQLITE_NOMEM. */
static void refused_memory(const char *sql) {
    for (int at = 0, is_done = 0; !is_done; at++) {
        sqlite3 *db = connect_to("keys=100, connections=2");
        char *rows;
        int code;
        expect(db, SQLITE_OK, "INSERT INTO t VALUES ('a', 1), ('b', 2)");
        left = at;
        code = sqlite3_exec(db, sql, NULL, NULL, NULL);
        is_done = left >= 0;
        left = -1;
        /* SQLite goes on without some allocations. */
        if (code != SQLITE_NOMEM && code != SQLITE_OK)
            fail(sql, sqlite3_errmsg(db));
        run(db, "ROLLBACK");
        rows = answer(db, "SELECT group_concat(key || value, ' ') FROM (SELECT * FROM t ORDER BY key)");
        if (strcmp(rows, "a1 b2") != 0)
            fail("after memory was refused", rows);
        sqlite3_free(rows);
        sqlite3_close(db);
    }
}

/* Refuses each allocation of a statement within a transaction in turn: if the transaction goes on, it still has its earlier changes. */
static void refused_statement(const char *before) {
    for (int at = 0, is_done = 0; !is_done; at++) {
        sqlite3 *db = connect_to("keys=100");
        int code;
        expect(db, SQLITE_OK, "CREATE VIRTUAL TABLE u USING hot(keys=100); INSERT INTO t VALUES ('a', 1); BEGIN");
        expect(db, SQLITE_OK, before);
        expect(db, SQLITE_OK, "INSERT INTO u VALUES ('b', 2); INSERT INTO t VALUES ('c', 3)");
        left = at;
        code = sqlite3_exec(db, "INSERT INTO t VALUES ('d', 4), ('e', 5)", NULL, NULL, NULL);
        is_done = left >= 0;
        left = -1;
        if (!sqlite3_get_autocommit(db)) {
            char *rows = answer(db, "SELECT group_concat(key, '') FROM (SELECT key FROM u UNION SELECT key FROM t)");
            if (strcmp(rows, code == SQLITE_OK ? "abcde" : "abc") != 0)
                fail("after memory was refused in a transaction", rows);
            sqlite3_free(rows);
        }
        sqlite3_close(db);
    }
}

/* ---- Random statements ---- */

static unsigned draw(unsigned *seed, unsigned below) {
    *seed = *seed * 1664525u + 1013904223u;
    return (*seed >> 8) % below;
}

/* Writes a beginning, and a random word of few letters after it. */
static void draw_key(unsigned *seed, const char *begin, char *key) {
    size_t length = strlen(begin), end = length + draw(seed, 4);
    memcpy(key, begin, length);
    for (; length < end; length++)
        key[length] = "abAz_~"[draw(seed, 6)];
    key[end] = '\0';
}

/* Draws a change, as a format for the table and two keys. */
static void draw_change(unsigned *seed, const char *begin, const char **form, char *one, char *two) {
    static const char *const forms[] = {
        "INSERT INTO %s VALUES ('%s', 1)",
        "INSERT INTO %s VALUES ('%s', 2), ('%s', 3)",
        "INSERT OR IGNORE INTO %s VALUES ('%s', 4), ('%s', 5)",
        "INSERT OR REPLACE INTO %s VALUES ('%s', 6), ('%s', 7)",
        "INSERT OR FAIL INTO %s VALUES ('%s', 8), ('%s', 9)",
        "UPDATE %s SET value = value + 1 WHERE key >= '%s' AND key < '%s'",
        "UPDATE %s SET key = '%s' WHERE key = '%s'",
        "UPDATE OR REPLACE %s SET key = '%s' WHERE key = '%s'",
        "DELETE FROM %s WHERE key = '%s'",
        "DELETE FROM %s WHERE key > '%s' AND key < '%s'",
        "DELETE FROM %s WHERE key LIKE '%s_'",
    };
    draw_key(seed, begin, one);
    draw_key(seed, begin, two);
    *form = forms[draw(seed, sizeof forms / sizeof *forms)];
}

/* Compares the rows of both tables for a random query. */
static void compare(sqlite3 *db, unsigned *seed, const char *begin) {
    static const char *const forms[] = {
        "key >= '%s' AND key <= '%s' ORDER BY key",
        "key > '%s' AND key < '%s' ORDER BY key DESC",
        "key LIKE '%s%%' OR key = '%s' ORDER BY key",
        "key LIKE '%s%%' ORDER BY key",
        "key LIKE '%s_' ORDER BY key DESC",
        "key GLOB '%s*' ORDER BY key DESC",
        "key IN ('%s', '%s') ORDER BY key DESC",
        "key = '%s'",
        "key > '%s' AND key < '%s' ORDER BY key DESC LIMIT 3",
        "key > '%s' AND key < '%s' ORDER BY key COLLATE NOCASE, key",
    };
    const char *form = forms[draw(seed, sizeof forms / sizeof *forms)];
    char one[16], two[16], *where, *mine, *others;
    draw_key(seed, begin, one);
    draw_key(seed, begin, two);
    where = sqlite3_mprintf(form, one, two);
    mine = answer(db, "SELECT group_concat(key || value, ' ') FROM (SELECT * FROM t WHERE %s)", where);
    others = answer(db, "SELECT group_concat(key || value, ' ') FROM (SELECT * FROM p WHERE %s)", where);
    if (strcmp(mine, others) != 0) {
        fprintf(stderr, "hot: %s\nordinary: %s\n", mine, others);
        fail("differs", where);
    }
    sqlite3_free(where);
    sqlite3_free(mine);
    sqlite3_free(others);
}

/* Begins, ends or rolls back a transaction or a savepoint. */
static void draw_transaction(sqlite3 *db, unsigned *seed) {
    static const char *const forms[] = {
        "BEGIN",       "BEGIN",     "COMMIT",    "ROLLBACK",      "SAVEPOINT a",
        "SAVEPOINT b", "RELEASE a", "RELEASE b", "ROLLBACK TO a", "ROLLBACK TO b",
    };
    run(db, "%s", forms[draw(seed, sizeof forms / sizeof *forms)]);
}

static void random_statements(void) {
    sqlite3 *db = connect_to("name=random, keys=10000");
    unsigned seed = 1;
    /* A second table over the index. */
    expect(db, SQLITE_OK, "CREATE VIRTUAL TABLE u USING hot(name=random)");
    for (int turn = 0; turn < STATEMENTS; turn++) {
        char one[16], two[16];
        const char *form;
        int mine, others;
        if (draw(&seed, 3) == 0)
            draw_transaction(db, &seed);
        draw_change(&seed, "", &form, one, two);
        mine = run(db, form, draw(&seed, 2) ? "t" : "u", one, two);
        if (mine != (others = run(db, form, "p", one, two)))
            fail(form, sqlite3_errmsg(db));
        compare(db, &seed, "");
    }
    run(db, "COMMIT");
    sqlite3_close(db);
}

/* ---- Rows that are counted ---- */

/* every(n): 1 at each nth call, and else 0. */
static void every(sqlite3_context *to, int count, sqlite3_value **values) {
    int *calls = sqlite3_user_data(to);
    (void)count;
    sqlite3_result_int(to, ++*calls % sqlite3_value_int(values[0]) == 0);
}

/* The number of the table's columns that a query may read. */
static int columns_read(sqlite3 *db, const char *sql) {
    sqlite3_stmt *query;
    char *text = sqlite3_mprintf("EXPLAIN %s", sql);
    int columns = 0;
    if (sqlite3_prepare_v2(db, text, -1, &query, NULL) != SQLITE_OK)
        fail(sql, sqlite3_errmsg(db));
    while (sqlite3_step(query) == SQLITE_ROW)
        columns += strcmp((const char *)sqlite3_column_text(query, 1), "VColumn") == 0;
    sqlite3_finalize(query);
    sqlite3_free(text);
    return columns;
}

/* Compares the answers of both tables to a query that passes rows without reading them. */
static void compare_counts(sqlite3 *db, unsigned *seed, int *calls) {
    static const char *const forms[] = {
        "SELECT count(*) FROM %s",
        "SELECT count(*) FROM %s WHERE key >= '%s' AND key <= '%s'",
        "SELECT count(*) FROM %s WHERE key > '%s' AND key < '%s'",
        "SELECT count(*) FROM %s WHERE key > '%s' AND key <> '%s'",
        "SELECT count(*) FROM %s WHERE key > '%s' AND key > '%s'",
        "SELECT count(*) FROM %s WHERE key <= '%s'",
        "SELECT count(*) FROM %s WHERE key < '%s'",
        "SELECT count(*) FROM %s WHERE key GLOB '%s*'",
        "SELECT count(*) FROM %s WHERE key LIKE '%s%%'",
        "SELECT count(*) FROM %s WHERE key > (SELECT '%s')",
        "SELECT group_concat(key) FROM (SELECT key FROM %s ORDER BY key LIMIT 5 OFFSET 2100)",
        "SELECT group_concat(key) FROM (SELECT key FROM %s WHERE key > '%s' ORDER BY key DESC LIMIT 5 OFFSET 900)",
        "SELECT group_concat(CASE WHEN every(1000) THEN key || value END) FROM (SELECT * FROM %s ORDER BY key)",
        "SELECT group_concat(CASE WHEN every(400) OR every(401) THEN key END) FROM (SELECT * FROM %s WHERE key < '%s' ORDER BY key DESC)",
        "SELECT count(*) FROM %s AS one, (SELECT 1 UNION ALL SELECT 2) WHERE key >= '%s'",
    };
    const char *form = forms[draw(seed, sizeof forms / sizeof *forms)];
    char one[16], two[16], *mine, *others;
    draw_key(seed, "", one);
    draw_key(seed, "", two);
    *calls = 0;
    mine = answer(db, form, "t", one, two);
    *calls = 0;
    others = answer(db, form, "p", one, two);
    if (strcmp(mine, others) != 0) {
        fprintf(stderr, "hot: %s\nordinary: %s\n%s, %s\n", mine, others, one, two);
        fail("differs", form);
    }
    sqlite3_free(mine);
    sqlite3_free(others);
}

/* A query reads the key of a counted row that another connection has removed since: it is refused, and changes nothing. */
static void counted_row_that_goes(void) {
    sqlite3 *db = connect_to("name=counted, keys=4000"), *other = connect_to("name=counted, keys=4000");
    sqlite3_stmt *query;
    int calls = 0;
    expect(db, SQLITE_OK, "INSERT INTO t WITH c(n) AS (SELECT 1 UNION ALL SELECT n + 1 FROM c WHERE n < 2000) SELECT 'k' || n, n FROM c");
    if (sqlite3_create_function(db, "every", 1, SQLITE_UTF8, &calls, every, NULL, NULL) != SQLITE_OK ||
        sqlite3_prepare_v2(db, "SELECT CASE WHEN every(1001) THEN key END FROM t", -1, &query, NULL) != SQLITE_OK)
        fail("every", sqlite3_errmsg(db));
    for (int row = 0; row < 1000; row++)
        if (sqlite3_step(query) != SQLITE_ROW || sqlite3_column_type(query, 0) != SQLITE_NULL)
            fail("a counted row", sqlite3_errmsg(db));
    expect(other, SQLITE_OK, "DELETE FROM t");
    if (sqlite3_step(query) != SQLITE_BUSY)
        fail("a counted row that is gone", sqlite3_errmsg(db));
    sqlite3_finalize(query);
    if (number(db, "SELECT count(*) FROM t") != 0)
        fail("counted", "rows that are gone");
    sqlite3_close(db);
    sqlite3_close(other);
}

static void counted_rows(void) {
    static const char *const unread[] = {
        "SELECT count(*) FROM t",
        "SELECT count(*) FROM t WHERE key > 'a' AND key < 'b'",
        "SELECT count(*) FROM t WHERE key >= 'a'",
    };
    sqlite3 *db = connect_to("keys=4000");
    unsigned seed = 5;
    int calls = 0;
    if (sqlite3_create_function(db, "every", 1, SQLITE_UTF8, &calls, every, NULL, NULL) != SQLITE_OK)
        fail("every", sqlite3_errmsg(db));
    expect(db, SQLITE_OK, "INSERT INTO p WITH a(x) AS (VALUES (''), ('a'), ('b'), ('A'), ('z'), ('_'), ('~')), c(n) AS (SELECT 1 UNION "
                        "ALL SELECT n + 1 FROM c WHERE n < 7) SELECT DISTINCT o.x || i.x || e.x || n || u.x, n FROM a o, a i, a e, a u, c WHERE n <> 3");
    expect(db, SQLITE_OK, "DELETE FROM p WHERE length(key) > 3 AND value > 2; INSERT INTO t SELECT * FROM p");
    if (number(db, "SELECT count(*) FROM p") < 3000)
        fail("counted_rows", "few rows");
    for (int at = 0; at < (sqlite3_libversion_number() < 3038000 ? 1 : 3); at++)
        if (columns_read(db, unread[at]) != 0)
            fail(unread[at], "it reads rows");
    for (int turn = 0; turn < 1000; turn++)
        compare_counts(db, &seed, &calls);
    /* Most pages consist of removed rows. */
    expect(db, SQLITE_OK, "BEGIN; DELETE FROM t WHERE value > 1 AND key <> 'b2'; DELETE FROM p WHERE value > 1 AND key <> 'b2'");
    for (int turn = 0; turn < 300; turn++)
        compare_counts(db, &seed, &calls);
    expect(db, SQLITE_OK, "DELETE FROM t WHERE key > 'b' AND key < 'z'; DELETE FROM p WHERE key > 'b' AND key < 'z'");
    for (int turn = 0; turn < 600; turn++) {
        if (turn == 300)
            expect(db, SQLITE_OK, "ROLLBACK");
        compare_counts(db, &seed, &calls);
    }
    sqlite3_close(db);
    counted_row_that_goes();
}

/* ---- Rollbacks ---- */

static const char *const all_rows = "SELECT group_concat(key || ' ' || value) FROM (SELECT * FROM t WHERE key < 'm' ORDER BY key)";

/* Inserts keys one by one until there are `most`, or the index is full. Returns the number of insertions. */
static int fill(sqlite3 *db, const char *begin, int most) {
    int count = 0, code = SQLITE_OK;
    while (count < most && (code = run(db, "INSERT INTO t VALUES ('%s%06d', %d)", begin, count, count)) == SQLITE_OK)
        count++;
    if (count < most && code != SQLITE_FULL)
        fail("fill", sqlite3_errmsg(db));
    return count;
}

static void expect_rows(sqlite3 *db, const char *rows) {
    char *found = answer(db, "%s", all_rows);
    if (strcmp(found, rows) != 0)
        fail("after a transaction", found);
    sqlite3_free(found);
}

/* Removed rows keep their room until COMMIT: no connection can take it, and ROLLBACK restores all rows. */
static void room_of_removed_rows(const char *end) {
    sqlite3 *one = connect_to("name=rollback, keys=0, longest=24, grow=0"), *other = connect_to("name=rollback");
    int count = fill(one, "a", INT_MAX), is_kept = strcmp(end, "COMMIT") == 0;
    char *rows = answer(one, "%s", all_rows);
    expect(one, SQLITE_OK, "BEGIN; UPDATE t SET value = -1; SAVEPOINT s; DELETE FROM t; INSERT INTO t VALUES ('a000003', 5); DELETE FROM t");
    if (number(one, "SELECT count(*) FROM t") != 0 || number(other, "SELECT count(*) FROM t") != count)
        fail("removed rows", "their connection lists them, or another one doesn't");
    if (fill(other, "z", INT_MAX) != 0)
        fail("removed rows", "another connection has taken their room");
    expect(one, SQLITE_OK, end);
    expect_rows(one, is_kept ? "" : rows);
    expect_rows(other, is_kept ? "" : rows);
    if (is_kept && fill(other, "z", INT_MAX) < count / 2)
        fail("removed rows", "they keep their room");
    sqlite3_free(rows);
    sqlite3_close(one);
    sqlite3_close(other);
}

/* A row that has no room until COMMIT is refused at once, and nothing is lost. */
static void no_room_until_commit(void) {
    static const char *const changes[] = {"INSERT INTO t VALUES ('z', 1)", "UPDATE t SET key = 'z' || key",
                                          "INSERT INTO t VALUES ('a000000', 1), ('z', 2)"};
    sqlite3 *db = connect_to("keys=0, longest=24, grow=0");
    char *rows;
    int count = fill(db, "a", INT_MAX);
    rows = answer(db, "%s", all_rows);
    for (size_t at = 0; at < sizeof changes / sizeof *changes; at++) {
        expect(db, SQLITE_OK, "BEGIN; DELETE FROM t WHERE key < 'a000005'");
        expect(db, SQLITE_FULL, changes[at]);
        if (!strstr(sqlite3_errmsg(db), "until COMMIT"))
            fail(changes[at], sqlite3_errmsg(db));
        run(db, "ROLLBACK");
        expect_rows(db, rows);
    }
    expect(db, SQLITE_OK, "DELETE FROM t WHERE key < 'a000005'");
    if (fill(db, "z", INT_MAX) < 1 || number(db, "SELECT count(*) FROM t WHERE key < 'm'") != count - 5)
        fail("room", "removed rows keep it after their transaction");
    sqlite3_free(rows);
    sqlite3_close(db);
}

/* A rollback keeps what other connections have changed since. */
static void rollback_beside_others(void) {
    sqlite3 *one = connect_to("name=beside"), *other = connect_to("name=beside");
    expect(one, SQLITE_OK, "INSERT INTO t VALUES ('a', 1), ('b', 2), ('c', 3), ('d', 4)");
    expect(one, SQLITE_OK, "BEGIN; UPDATE t SET value = value + 10; DELETE FROM t WHERE key >= 'c'; INSERT INTO t VALUES ('d', 40)");
    expect(other, SQLITE_OK, "UPDATE t SET value = 20 WHERE key = 'a'; DELETE FROM t WHERE key = 'b'; UPDATE t SET value = 30 WHERE key = 'c'");
    expect(one, SQLITE_OK, "ROLLBACK");
    expect_rows(one, "a 20,c 30,d 4");
    expect(one, SQLITE_OK, "BEGIN; DELETE FROM t WHERE key = 'a'");
    expect(other, SQLITE_CONSTRAINT, "INSERT INTO t VALUES ('a', 5)");
    expect(other, SQLITE_OK, "DELETE FROM t WHERE key <> 'd'");
    expect(one, SQLITE_OK, "ROLLBACK");
    expect_rows(other, "d 4");
    sqlite3_close(one);
    sqlite3_close(other);
}

/* ---- Threads ---- */

/* The first letter of a thread's keys, and the arguments of its table. */
typedef struct one_thread {
    char begin[2];
    const char *arguments;
} one_thread;

/* Makes transactions that change keys with the thread's letter. Both tables have the same of these rows, whatever is refused. */
static void *work(void *argument) {
    const char *begin = ((one_thread *)argument)->begin;
    sqlite3 *db = connect_to(((one_thread *)argument)->arguments);
    unsigned seed = (unsigned char)*begin;
    for (int round = 0; round < ROUNDS; round++) {
        int is_full = 0;
        expect(db, SQLITE_OK, "BEGIN");
        for (unsigned left = 1 + draw(&seed, 30); left > 0 && !is_full; left--) {
            char one[16], two[16];
            const char *form;
            int mine;
            draw_change(&seed, begin, &form, one, two);
            mine = run(db, form, "t", one, two);
            is_full = mine == SQLITE_FULL;
            if (!is_full && mine != run(db, form, "p", one, two))
                fail(form, sqlite3_errmsg(db));
        }
        /* SQLite may have rolled back already. */
        run(db, is_full || draw(&seed, 3) == 0 ? "ROLLBACK" : "COMMIT");
        compare(db, &seed, begin);
    }
    sqlite3_close(db);
    return NULL;
}

/* Threads make transactions while other keys fill the index, or grow it to `most` more, and go again. */
static void threads_at_once(const char *arguments, int most) {
    sqlite3 *db = connect_to(arguments);
    pthread_t threads[THREADS];
    one_thread each[THREADS];
    for (int at = 0; at < THREADS; at++) {
        each[at] = (one_thread){{(char)('b' + at), '\0'}, arguments};
        if (pthread_create(&threads[at], NULL, work, &each[at]) != 0)
            fail("threads", "none can be made");
    }
    for (int round = 0; round < 8; round++) {
        int count = fill(db, "z", most);
        expect(db, SQLITE_OK, "BEGIN; DELETE FROM t WHERE key > 'm'; ROLLBACK");
        if (number(db, "SELECT count(*) FROM t WHERE key > 'm'") != count)
            fail("threads", "a rollback did not put all back");
        expect(db, SQLITE_OK, "DELETE FROM t WHERE key > 'm'");
    }
    for (int at = 0; at < THREADS; at++)
        pthread_join(threads[at], NULL);
    sqlite3_close(db);
}

/* In an index that is full again and again, and in one that grows. */
static void all_threads(void) {
    threads_at_once("name=threads, keys=0, longest=24, connections=5, grow=0", INT_MAX);
    threads_at_once("name=threads, keys=0, longest=24, connections=5", 3000);
}

/* ---- Tables that come and go ---- */

static const char *scratch; /* a file for a database */

static void new_scratch(void) {
    remove(scratch);
}

/* Compares what a connection sees of both tables: whether they exist, and their rows. */
static void compare_tables(sqlite3 *db, const char *after) {
    static const char *const form =
        "SELECT count(*) || ' ' || ifnull(group_concat(key || value, ' '), '') FROM (SELECT * FROM %s ORDER BY key)";
    int mine = run(db, "SELECT 1 FROM t"), others = run(db, "SELECT 1 FROM p");
    char *one, *other;
    if (mine != others)
        fail(after, mine == SQLITE_OK ? "the table is there, and the ordinary one is not" : "the ordinary table is there alone");
    if (mine != SQLITE_OK)
        return;
    one = answer(db, form, "t");
    other = answer(db, form, "p");
    if (strcmp(one, other) != 0) {
        fprintf(stderr, "hot: %s\nordinary: %s\n", one, other);
        fail("the tables differ after", after);
    }
    sqlite3_free(one);
    sqlite3_free(other);
}

/* Runs a statement for each table, and compares and returns their statuses. */
static int run_both(sqlite3 *db, const char *mine, const char *others) {
    int code = run(db, "%s", mine), other = run(db, "%s", others);
    if (code != other)
        fail(mine, sqlite3_errmsg(db));
    return code;
}

/* Makes another change: it leaves both tables as they are, or changes both. */
static void change_others(sqlite3 *db, unsigned *seed) {
    static const char *const forms[] = {
        "CREATE TABLE other(x)",
        "DROP TABLE other",
        "VACUUM",
        "PRAGMA temp_store = 1",
        "PRAGMA temp_store = 2",
        "ATTACH ':memory:' AS m",
        "DETACH m",
        "CREATE VIRTUAL TABLE m.within USING hot(keys=7)",
        "INSERT INTO m.within VALUES ('a', 1)",
        "DROP TABLE m.within",
        "CREATE VIRTUAL TABLE temp.one USING hot(name=shared)",
        "INSERT OR REPLACE INTO temp.one VALUES ('a', 1)",
        "ALTER TABLE temp.one RENAME TO other_one",
        "ALTER TABLE temp.other_one RENAME TO one",
        "DROP TABLE temp.one",
    };
    unsigned at = draw(seed, 2 + sizeof forms / sizeof *forms);
    if (at == 0)
        sqlite3_load_extension(db, library, NULL, NULL);
    else if (at == 1)
        run_both(db, "ALTER TABLE t RENAME TO r; ALTER TABLE r RENAME TO t", "ALTER TABLE p RENAME TO q; ALTER TABLE q RENAME TO p");
    else
        run(db, "%s", forms[at - 2]);
}

static void change_tables(sqlite3 *db, const char *schema, unsigned *seed) {
    static const char *const arguments[] = {"", "(keys=5, longest=20)", "(keys=2000)", "(connections=5)"};
    char *mine = NULL, *others = NULL, one[16], two[16];
    const char *form;
    switch (draw(seed, 8)) {
    case 0: run_both(db, "DROP TABLE t", "DROP TABLE p"); return;
    case 1:
    case 2:
        mine = sqlite3_mprintf("CREATE VIRTUAL TABLE %s.t USING hot%s", schema, arguments[draw(seed, 4)]);
        others = sqlite3_mprintf("CREATE TABLE %s.%s", schema, ordinary_columns);
        break;
    case 3: change_others(db, seed); return;
    default:
        draw_change(seed, "", &form, one, two);
        mine = sqlite3_mprintf(form, "t", one, two);
        others = sqlite3_mprintf(form, "p", one, two);
    }
    run_both(db, mine, others);
    sqlite3_free(mine);
    sqlite3_free(others);
}

/* Connections to a file create, change and drop tables in a schema, open and close. At most one of them is in a transaction. */
static void random_tables(const char *schema, int connections) {
    sqlite3 *all[READERS] = {NULL};
    unsigned seed = 1;
    int within = -1; /* the connection in a transaction */
    new_scratch();
    for (int turn = 0; turn < CHANGES_OF_TABLES; turn++) {
        int at = within >= 0 ? within : (int)draw(&seed, (unsigned)connections);
        if (!all[at])
            all[at] = open_file(scratch);
        if (draw(&seed, 3) == 0)
            draw_transaction(all[at], &seed);
        change_tables(all[at], schema, &seed);
        within = sqlite3_get_autocommit(all[at]) ? -1 : at;
        compare_tables(all[at], "a change");
        for (int other = 0; other < connections && within < 0; other++)
            if (all[other])
                compare_tables(all[other], "a change of another connection");
        if (within < 0 && draw(&seed, 40) == 0) {
            run(all[at], "DELETE FROM main.p"); /* rows go with the connection */
            sqlite3_close(all[at]);
            all[at] = NULL;
        }
    }
    for (int at = 0; at < connections; at++)
        sqlite3_close(all[at]);
}

/* The rows of the table after statements, if it had the row a1 before; or "none" if there is no table. */
static const struct transaction {
    const char *statements, *rows;
} transactions[] = {
    {"BEGIN; INSERT INTO t VALUES ('b', 2); DROP TABLE t; ROLLBACK", "a1"},
    {"BEGIN; DELETE FROM t; DROP TABLE t; ROLLBACK", "a1"},
    {"BEGIN; UPDATE t SET value = 2; DROP TABLE t; COMMIT", "none"},
    {"BEGIN; INSERT INTO t VALUES ('b', 2); SAVEPOINT s; INSERT INTO t VALUES ('c', 3); DROP TABLE t; ROLLBACK TO s; COMMIT",
     "a1 b2"},
    {"BEGIN; DROP TABLE t; CREATE VIRTUAL TABLE t USING hot(keys=5); INSERT INTO t VALUES ('b', 2); COMMIT", "b2"},
    {"BEGIN; DROP TABLE t; CREATE VIRTUAL TABLE t USING hot(keys=5); INSERT INTO t VALUES ('b', 2); ROLLBACK", "a1"},
    {"SAVEPOINT s; DROP TABLE t; CREATE VIRTUAL TABLE t USING hot; INSERT INTO t VALUES ('b', 2); ROLLBACK TO s; RELEASE s", "a1"},
    {"BEGIN; SAVEPOINT s; DROP TABLE t; SAVEPOINT u; CREATE VIRTUAL TABLE t USING hot; ROLLBACK TO u; ROLLBACK TO s; COMMIT", "a1"},
    {"BEGIN; SAVEPOINT s; DROP TABLE t; RELEASE s; CREATE VIRTUAL TABLE t USING hot; SAVEPOINT u; INSERT INTO t VALUES ('b', 2);"
     "RELEASE u; SAVEPOINT v; INSERT INTO t VALUES ('c', 3); ROLLBACK TO v; COMMIT",
     "b2"},
    {"DROP TABLE t; BEGIN; CREATE VIRTUAL TABLE t USING hot; INSERT INTO t VALUES ('b', 2); COMMIT;"
     "BEGIN; INSERT INTO t VALUES ('c', 3); ROLLBACK",
     "b2"},
    {"DROP TABLE t; BEGIN; CREATE VIRTUAL TABLE t USING hot(keys=0, longest=8); ROLLBACK;"
     "CREATE VIRTUAL TABLE t USING hot(keys=2000, longest=40); INSERT INTO t VALUES (hex(zeroblob(20)), 1);"
     "UPDATE t SET key = 'b', value = 2",
     "b2"},
    {"DROP TABLE t; BEGIN; CREATE VIRTUAL TABLE t USING hot(type=blob); ROLLBACK; CREATE VIRTUAL TABLE t USING hot;"
     "INSERT INTO t VALUES ('b', 2)",
     "b2"},
    {"DROP TABLE t; BEGIN; SAVEPOINT s; CREATE VIRTUAL TABLE t USING hot(type=blob); ROLLBACK TO s;"
     "CREATE VIRTUAL TABLE t USING hot; INSERT INTO t VALUES ('b', 2); COMMIT",
     "b2"},
    {"DROP TABLE t; BEGIN; CREATE VIRTUAL TABLE t USING hot; INSERT INTO t VALUES ('b', 2); DROP TABLE t; COMMIT", "none"},
    {"DROP TABLE t; CREATE VIRTUAL TABLE t USING hot(keys=5); INSERT INTO t VALUES ('b', 2)", "b2"},
    {"BEGIN; ALTER TABLE t RENAME TO u; ROLLBACK", "a1"},
    {"BEGIN; INSERT INTO t VALUES ('b', 2); SAVEPOINT s; ALTER TABLE t RENAME TO u; INSERT INTO u VALUES ('c', 3); ROLLBACK TO s; COMMIT", "a1 b2"},
    {"ALTER TABLE t RENAME TO u; INSERT INTO u VALUES ('b', 2); ALTER TABLE u RENAME TO t", "a1 b2"},
    {"ALTER TABLE t RENAME TO u; CREATE VIRTUAL TABLE t USING hot; INSERT INTO t VALUES ('b', 2); DROP TABLE u", "b2"},
};

static void expect_in_t(sqlite3 *db, const struct transaction *transaction) {
    char *found = run(db, "SELECT 1 FROM t") != SQLITE_OK ? sqlite3_mprintf("none")
                                                          : answer(db, "SELECT ifnull(group_concat(key || value, ' '), '') FROM t");
    if (strcmp(found, transaction->rows) != 0)
        fail(transaction->statements, found);
    sqlite3_free(found);
}

static void listed_transactions(const char *schema, const char *arguments) {
    for (size_t at = 0; at < sizeof transactions / sizeof *transactions; at++) {
        const struct transaction *each = &transactions[at];
        sqlite3 *db;
        new_scratch();
        db = open_file(scratch);
        if (run(db, "CREATE VIRTUAL TABLE %s.t USING hot(%s)", schema, arguments) != SQLITE_OK)
            fail(arguments, sqlite3_errmsg(db));
        expect(db, SQLITE_OK, "INSERT INTO t VALUES ('a', 1)");
        run(db, "%s", each->statements);
        run(db, "COMMIT");
        expect_in_t(db, each);
        if (number(db, "SELECT count(*) FROM temp.sqlite_schema WHERE name NOT IN ('t', 'u')") != 0)
            fail(each->statements, "it leaves a table in temp");
        sqlite3_close(db);
    }
}

/* A DROP TABLE that fails to commit, since another connection reads, drops nothing. */
static void drop_that_fails(void) {
    sqlite3 *db, *other;
    sqlite3_stmt *query;
    new_scratch();
    db = open_file(scratch);
    other = open_file(scratch);
    expect(db, SQLITE_OK,
         "CREATE TABLE x(y); INSERT INTO x VALUES (1), (2); CREATE VIRTUAL TABLE t USING hot(name=fails); INSERT INTO t VALUES ('a', 1)");
    if (sqlite3_prepare_v2(other, "SELECT y FROM x", -1, &query, NULL) != SQLITE_OK || sqlite3_step(query) != SQLITE_ROW)
        fail("a reader", sqlite3_errmsg(other));
    expect(db, SQLITE_BUSY, "DROP TABLE t");
    if (number(db, "SELECT count(*) FROM t") != 1 || number(other, "SELECT count(*) FROM t") != 1)
        fail("DROP TABLE", "a table that was not dropped lost its rows");
    sqlite3_finalize(query);
    expect(db, SQLITE_OK, "DROP TABLE t");
    expect(other, SQLITE_ERROR, "SELECT * FROM t");
    sqlite3_close(db);
    sqlite3_close(other);
}

/* A connection without the library changes a table's definition, as another process may. The new table has no rows. */
static void definition_from_outside(void) {
    sqlite3 *db, *outside;
    new_scratch();
    db = open_file(scratch);
    expect(db, SQLITE_OK, "CREATE VIRTUAL TABLE t USING hot(keys=5); INSERT INTO t VALUES ('a', 1)");
    if (sqlite3_open(scratch, &outside) != SQLITE_OK)
        fail("open", sqlite3_errmsg(outside));
    expect(outside, SQLITE_OK, "PRAGMA writable_schema = 1; UPDATE sqlite_schema SET sql = replace(sql, '=5', '=6'); CREATE TABLE x(y)");
    if (number(db, "SELECT count(*) FROM t") != 0)
        fail("a definition from outside", "the table has the rows of the one before");
    expect(db, SQLITE_OK, "INSERT INTO t VALUES ('b', 2)");
    expect(outside, SQLITE_OK, "UPDATE sqlite_schema SET sql = replace(sql, 'keys=6', 'name=outside'); CREATE TABLE y(z)");
    if (number(db, "SELECT count(*) FROM t") != 0)
        fail("a definition from outside", "a name has the rows of the table before");
    sqlite3_close(outside);
    sqlite3_close(db);
}

/* CREATE and DROP count no changes. */
static void counts_of_changes(void) {
    static const char *const counts = "SELECT total_changes() || ' ' || last_insert_rowid()";
    sqlite3 *db = connect_to("keys=100");
    char *before, *after;
    expect(db, SQLITE_OK, "CREATE TABLE x(y); INSERT INTO x VALUES (1), (2), (3)");
    before = answer(db, counts);
    expect(db, SQLITE_OK, "CREATE VIRTUAL TABLE u USING hot(keys=5); DROP TABLE u; BEGIN; DROP TABLE t; ROLLBACK");
    after = answer(db, counts);
    if (strcmp(before, after) != 0)
        fail("changes are counted", after);
    sqlite3_free(before);
    sqlite3_free(after);
    sqlite3_close(db);
}

/* Two connections have tables of one name=, and each drops its own. */
static void tables_of_a_name(void) {
    sqlite3 *db = connect_to("name=shared, connections=2"), *other = connect_to("name=shared"), *third;
    expect(db, SQLITE_OK, "BEGIN; INSERT INTO t VALUES ('a', 1); DROP TABLE t; ROLLBACK");
    if (number(other, "SELECT count(*) FROM t") != 0)
        fail("a name", "an insertion was not taken back with its table");
    expect(db, SQLITE_OK, "BEGIN; INSERT INTO t VALUES ('a', 1); DROP TABLE t; COMMIT");
    if (number(other, "SELECT count(*) FROM t") != 1)
        fail("a name", "an insertion was lost with its table");
    /* Two tables, whose schema is read again. */
    expect(db, SQLITE_OK, "CREATE VIRTUAL TABLE t USING hot(name=shared); CREATE VIRTUAL TABLE u USING hot(name=shared)");
    expect(db, SQLITE_OK,
         "BEGIN; CREATE TABLE gone(x); ROLLBACK; DROP TABLE u; BEGIN; ALTER TABLE t RENAME TO r; ROLLBACK; ALTER TABLE t RENAME TO "
         "v");
    third = open_file(":memory:");
    expect(third, SQLITE_BUSY, "CREATE VIRTUAL TABLE t USING hot(name=shared)");
    sqlite3_close(other);
    expect(third, SQLITE_OK, "CREATE VIRTUAL TABLE t USING hot(name=shared)");
    if (number(db, "SELECT value FROM v") != 1 || number(third, "SELECT count(*) FROM t") != 1)
        fail("a name", "the rows went with one of two tables");
    /* Once no table of the name is left, it may get an index of another size. */
    expect(third, SQLITE_ERROR, "CREATE VIRTUAL TABLE w USING hot(name=shared, keys=7)");
    expect(third, SQLITE_OK, "DROP TABLE t");
    expect(db, SQLITE_OK, "DROP TABLE v");
    expect(third, SQLITE_OK, "CREATE VIRTUAL TABLE w USING hot(name=shared, keys=7)");
    sqlite3_close(third);
    sqlite3_close(db);
}

/* A connection may load the library again, even in a transaction. Its tables stay as they are. */
static void loaded_twice(void) {
    sqlite3 *db = connect_to("name=twice");
    expect(db, SQLITE_OK,
         "INSERT INTO t VALUES ('a', 1); BEGIN; INSERT INTO t VALUES ('b', 2); CREATE VIRTUAL TABLE u USING hot(name=twice)");
    if (sqlite3_load_extension(db, library, NULL, NULL) != SQLITE_OK)
        fail("loaded twice", sqlite3_errmsg(db));
    expect(db, SQLITE_OK, "CREATE VIRTUAL TABLE v USING hot(name=twice); UPDATE v SET value = 5; UPDATE t SET value = 6; ROLLBACK");
    expect(db, SQLITE_OK, "CREATE VIRTUAL TABLE v USING hot(name=twice)");
    if (number(db, "SELECT sum(value) FROM v") != 1)
        fail("loaded twice", "a rollback is not as it was");
    sqlite3_close(db);
}

/* A table's name is free once its database in memory was detached. A table that SQLite connects again and again uses one handle. */
static void names_and_handles(void) {
    sqlite3 *db = connect_to("connections=1");
    expect(db, SQLITE_OK, "ATTACH ':memory:' AS m; CREATE VIRTUAL TABLE m.x USING hot; INSERT INTO m.x VALUES ('a', 1); DETACH m");
    expect(db, SQLITE_OK, "ATTACH ':memory:' AS m; CREATE VIRTUAL TABLE m.x USING hot(type=blob, keys=5)");
    if (number(db, "SELECT count(*) FROM m.x") != 0)
        fail("DETACH", "a table has the rows of one that is gone");
    expect(db, SQLITE_OK, "DROP TABLE m.x; CREATE VIRTUAL TABLE m.x USING hot(name=gone, keys=5); DETACH m; ATTACH ':memory:' AS m");
    expect(db, SQLITE_OK, "CREATE VIRTUAL TABLE m.x USING hot; CREATE VIRTUAL TABLE m.y USING hot(name=gone, keys=7)");
    expect(db, SQLITE_OK, "BEGIN");
    for (int turn = 0; turn < 20; turn++)
        expect(db, SQLITE_OK,
             "SAVEPOINT s; CREATE TABLE gone(x); INSERT INTO t VALUES ('a', 1); ROLLBACK TO s; INSERT INTO t VALUES ('b', 2); "
             "DELETE FROM t");
    expect(db, SQLITE_OK, "COMMIT");
    sqlite3_close(db);
}

/* ---- Full ---- */

/* Inserts keys until the index is full. Returns their number. */
static int fill_with_blobs(sqlite3 *db) {
    int count = 0, code;
    while ((code = run(db, "INSERT INTO t VALUES (x'%08x%08x', %d)", count / 32, 1u << count % 32, count)) == SQLITE_OK)
        count++;
    if (code != SQLITE_FULL)
        fail("fill with blobs", sqlite3_errmsg(db));
    return count;
}

/* The rows of a full table take new values. New keys are refused, and no row is lost. The table can be emptied and filled again. */
static void full_tables(void) {
    static const int keys[] = {0, 1, 100, 1000};
    for (size_t at = 0; at < sizeof keys / sizeof *keys; at++) {
        char *arguments = sqlite3_mprintf("type=blob, longest=8, grow=0, keys=%d", keys[at]);
        sqlite3 *db = connect_to(arguments);
        int count = fill_with_blobs(db);
        expect(db, SQLITE_OK, "UPDATE t SET value = value + 1; BEGIN; DELETE FROM t; ROLLBACK");
        if (number(db, "SELECT count(*) FROM t") != count || number(db, "SELECT sum(value) FROM t") != count * (count + 1) / 2)
            fail(arguments, "a rollback did not put all back");
        expect(db, SQLITE_FULL, "UPDATE t SET key = CAST(x'ff' || substr(key, 2) AS BLOB)");
        if (number(db, "SELECT sum(value) FROM t WHERE key < x'fe'") != count * (count + 1) / 2)
            fail(arguments, "a row has not its old key");
        expect(db, SQLITE_OK, "DELETE FROM t");
        if (number(db, "SELECT count(*) FROM t") != 0 || fill_with_blobs(db) != count)
            fail(arguments, "it is not as empty as it was");
        sqlite3_close(db);
        sqlite3_free(arguments);
    }
}

/* A table takes more and longer keys than it was made for. A rollback removes them. */
static void grown_tables(void) {
    static const char *const numbers = "WITH RECURSIVE n(x) AS (SELECT 1 UNION ALL SELECT x + 1 FROM n LIMIT 20000)";
    sqlite3 *db = connect_to("keys=0, longest=8");
    for (int is_kept = 0; is_kept < 2; is_kept++) {
        expect(db, SQLITE_OK, "BEGIN");
        if (run(db, "%s INSERT INTO t SELECT printf('%%0*d', 1 + x %% 240, x), x FROM n WHERE length(x) <= 1 + x %% 240", numbers) != SQLITE_OK)
            fail("a table that grows", sqlite3_errmsg(db));
        expect(db, SQLITE_OK, is_kept ? "COMMIT" : "ROLLBACK");
        if ((number(db, "SELECT count(*) FROM t") > 19000) != is_kept)
            fail("a table that grows", "it has other rows");
    }
    if (number(db, "SELECT count(*) FROM t WHERE key <> printf('%0*d', 1 + value % 240, value)") != 0)
        fail("a table that grows", "a key has another value");
    sqlite3_close(db);
}

/* ---- Comparisons ---- */

/* A term is `key COLLATE collation operator literal`, or one of other_terms. */
static const char *const operators[] = {"<", "<=", "=", ">=", ">"};
static const char *const collations[] = {"BINARY", "NOCASE", "RTRIM"};
static const char *const literals[] = {"''", "'a'", "'B'", "'b '", "'Ab'", "'aC'", "5", "x'41'", "x'62'", "NULL"};
static const char *const other_terms[] = {
    "key <> 'a'",
    "key COLLATE NOCASE <> 'b'",
    "key IS 'B'",
    "key COLLATE NOCASE IS 'b'",
    "key IS NOT 5",
    "key IS NULL",
    "'a' COLLATE NOCASE <= key",
    "5 > key",
    "key BETWEEN 'A' AND 'ab'",
    "key COLLATE NOCASE NOT BETWEEN 'a' AND 'b'",
    "key IN ('a', 'B', 5, NULL)",
    "key COLLATE NOCASE IN ('a', 'B', x'41')",
    "key NOT IN ('a', 5)",
    "key LIKE 'a%'",
    "key LIKE 'AB%'",
    "key LIKE 'z%'",
    "key NOT LIKE 'a%'",
    "key GLOB 'a*'",
};
enum {
    COLLATIONS = sizeof collations / sizeof *collations,
    LITERALS = sizeof literals / sizeof *literals,
    FORMS = sizeof operators / sizeof *operators * COLLATIONS,
    TERMS = FORMS * LITERALS + sizeof other_terms / sizeof *other_terms
};

/* A term of this form and value, which the caller frees. */
static char *form_with(int form, const char *value) {
    return sqlite3_mprintf("key COLLATE %s %s %s", collations[form % COLLATIONS], operators[form / COLLATIONS], value);
}

static char *term_of(int at) {
    int form = at / LITERALS;
    return form < FORMS ? form_with(form, literals[at % LITERALS]) : sqlite3_mprintf("%s", other_terms[at - FORMS * LITERALS]);
}

/* A query whether both tables have the same rows for two terms: in any order, by the key, or by the falling key in turn. It frees the terms. */
static sqlite3_stmt *same_rows(sqlite3 *db, char *one, char *two) {
    static const char *const forms[] = {
        "SELECT (SELECT sum(value) FROM t WHERE %s AND %s) IS (SELECT sum(value) FROM p WHERE %s AND %s)",
        "SELECT (SELECT group_concat(value) FROM (SELECT value FROM t WHERE %s AND %s ORDER BY key)) IS "
        "(SELECT group_concat(value) FROM (SELECT value FROM p WHERE %s AND %s ORDER BY key))",
        "SELECT (SELECT group_concat(value) FROM (SELECT value FROM t WHERE %s AND %s ORDER BY key DESC)) IS "
        "(SELECT group_concat(value) FROM (SELECT value FROM p WHERE %s AND %s ORDER BY key DESC))",
    };
    static unsigned turn;
    sqlite3_stmt *query;
    char *sql = sqlite3_mprintf(forms[turn++ % 3], one, two, one, two);
    if (sqlite3_prepare_v2(db, sql, -1, &query, NULL) != SQLITE_OK)
        fail(sql, sqlite3_errmsg(db));
    sqlite3_free(sql);
    sqlite3_free(one);
    sqlite3_free(two);
    return query;
}

static void expect_same(sqlite3_stmt *query) {
    if (sqlite3_step(query) != SQLITE_ROW || !sqlite3_column_int(query, 0))
        fail("differs", sqlite3_expanded_sql(query));
    sqlite3_reset(query);
}

/* Compares terms whose values SQLite doesn't know when it plans the query. */
static void compare_bound(sqlite3 *db, sqlite3_stmt *values, int one, int two) {
    sqlite3_stmt *query = same_rows(db, form_with(one, "?1"), form_with(two, "?2"));
    for (int at = 0; at < LITERALS * LITERALS; at++) {
        sqlite3_bind_value(query, 1, sqlite3_column_value(values, at / LITERALS));
        sqlite3_bind_value(query, 2, sqlite3_column_value(values, at % LITERALS));
        expect_same(query);
    }
    sqlite3_finalize(query);
}

/* A query whose row has all literals. */
static sqlite3_stmt *all_literals(sqlite3 *db) {
    sqlite3_stmt *query;
    char *sql = sqlite3_mprintf("SELECT %s", literals[0]);
    for (int at = 1; at < LITERALS; at++)
        sql = sqlite3_mprintf("%z, %s", sql, literals[at]);
    if (sqlite3_prepare_v2(db, sql, -1, &query, NULL) != SQLITE_OK || sqlite3_step(query) != SQLITE_ROW)
        fail(sql, sqlite3_errmsg(db));
    sqlite3_free(sql);
    return query;
}

/* Each pair of terms selects the same rows of both tables. */
static void comparisons(const char *type) {
    char *arguments = sqlite3_mprintf("keys=100, type=%s", type);
    sqlite3 *db = connect_to(arguments);
    sqlite3_stmt *values = all_literals(db);
    expect(db, SQLITE_OK, "DROP TABLE p");
    if (run(db, "CREATE TABLE p(key %s PRIMARY KEY NOT NULL, value INTEGER NOT NULL) WITHOUT ROWID", type) != SQLITE_OK ||
        run(db,
            "INSERT INTO p SELECT CAST(column1 AS %s), 1 << row_number() OVER () FROM (VALUES (''), ('5'), ('@'), ('A'), ('AB'), ('Ab'), ('B'), "
            "('B '), ('Z'), ('['), ('`'), ('a'), ('a '), ('aB'), ('ab'), ('abc'), ('ac'), ('b'), ('b '), ('bb'), ('z'), ('zz'), ('{'), ('~'))",
            type) != SQLITE_OK)
        fail(type, sqlite3_errmsg(db));
    expect(db, SQLITE_OK, "INSERT INTO t SELECT * FROM p");
    for (int one = 0; one < TERMS; one++)
        for (int two = 0; two <= one; two++) {
            sqlite3_stmt *query = same_rows(db, term_of(one), term_of(two));
            expect_same(query);
            sqlite3_finalize(query);
        }
    for (int one = 0; one < FORMS; one++)
        for (int two = 0; two <= one; two++)
            compare_bound(db, values, one, two);
    sqlite3_finalize(values);
    sqlite3_close(db);
    sqlite3_free(arguments);
}

/* ---- Plans ---- */

/* A line of a query plan, in the same words for both kinds of table: "t key>?" or "t all keys". The caller frees it. */
static char *plan_line(const char *line) {
    static const char *const ordinary = " USING PRIMARY KEY (";
    const char *name = strchr(line, ' ') + 1, *end = strstr(line, " VIRTUAL TABLE INDEX "), *words;
    if (end)
        return sqlite3_mprintf("%.*s %s", (int)(end - name), name, strchr(end, ':') + 1);
    if ((end = strstr(line, ordinary)) != NULL) {
        words = end + strlen(ordinary);
        return sqlite3_mprintf("%.*s %.*s%s", (int)(end - name), name, (int)strcspn(words, ")"), words, strchr(words, ')') + 1);
    }
    return strncmp(line, "SCAN", 4) == 0 ? sqlite3_mprintf("%s all keys", name) : sqlite3_mprintf("%s", line);
}

/* The lines of a query's plan, which the caller frees. */
static char *plan_of(sqlite3 *db, const char *sql) {
    sqlite3_stmt *query;
    char *text = sqlite3_mprintf("EXPLAIN QUERY PLAN %s", sql), *plan = sqlite3_mprintf("");
    if (sqlite3_prepare_v2(db, text, -1, &query, NULL) != SQLITE_OK)
        fail(sql, sqlite3_errmsg(db));
    while (sqlite3_step(query) == SQLITE_ROW) {
        char *line = plan_line((const char *)sqlite3_column_text(query, 3));
        plan = sqlite3_mprintf("%z%s\n", plan, line);
        sqlite3_free(line);
    }
    sqlite3_finalize(query);
    sqlite3_free(text);
    return plan;
}

/* Queries have the plans that they have with an ordinary table, for which SQLite guesses a million rows. */
static void plans(void) {
    static const char *const queries[] = {
        "SELECT who, count(*) FROM a JOIN t ON key BETWEEN sym || '1' AND sym || '2' GROUP BY who",
        "SELECT who, value FROM a JOIN t ON key BETWEEN sym || '1' AND sym || '2' ORDER BY who",
        "SELECT who, value FROM a JOIN t ON key BETWEEN sym || '1' AND sym || '2'",
        "SELECT who, key FROM a JOIN t ON key BETWEEN sym || '1' AND sym || '2' ORDER BY key",
        "SELECT DISTINCT who FROM a JOIN t ON key > sym AND key < sym || '~'",
        "SELECT key, count(*) FROM a JOIN t ON key BETWEEN sym AND sym || '~' GROUP BY key",
        "SELECT who, value FROM a JOIN t ON key = sym",
        "SELECT who, value FROM a JOIN t ON key = sym ORDER BY who",
        "SELECT who, count(*) FROM a JOIN t ON key = sym GROUP BY who",
        "SELECT who, value FROM a JOIN t ON key = sym ORDER BY key",
        "SELECT who, value FROM a LEFT JOIN t ON key = sym ORDER BY id",
        "SELECT who, (SELECT count(*) FROM t WHERE key BETWEEN sym AND sym || '~') FROM a",
        "SELECT who FROM a WHERE EXISTS (SELECT 1 FROM t WHERE key = sym)",
        "SELECT who, key FROM t JOIN a ON id = value WHERE key >= 'a' AND key < 'b'",
        "SELECT who, key FROM t JOIN a ON id = value ORDER BY key",
        "SELECT t.key, count(*) FROM t JOIN t AS u ON u.key > t.key AND u.key < t.key || '~' GROUP BY t.key",
        "SELECT who, t.value, u.value FROM a JOIN t ON t.key = sym JOIN t AS u ON u.key BETWEEN t.key AND t.key || '~' ORDER BY id",
        "SELECT who, u.value FROM a, t, t AS u WHERE t.key BETWEEN sym AND sym || '~' AND u.key = t.key || 'x' ORDER BY who",
        "SELECT who, sum(value) FROM a, t WHERE key > sym || ' ' AND key < sym || '!' AND value > 5 GROUP BY id ORDER BY 2",
        "SELECT value FROM t WHERE key BETWEEN 'a' AND 'b' ORDER BY value",
        "SELECT value FROM t WHERE key IN (SELECT sym FROM a)",
        "SELECT key, count(*) FROM t GROUP BY key",
    };
    static const char *const a = "CREATE TABLE a(id INTEGER PRIMARY KEY, who TEXT, sym TEXT)";
    sqlite3 *db = open_file(":memory:"), *other = open_file(":memory:");
    expect(db, SQLITE_OK, "CREATE VIRTUAL TABLE t USING hot(keys=1000000)");
    expect(other, SQLITE_OK, "CREATE TABLE t(key TEXT PRIMARY KEY NOT NULL, value INTEGER NOT NULL) WITHOUT ROWID");
    expect(db, SQLITE_OK, a);
    expect(other, SQLITE_OK, a);
    for (size_t at = 0; at < sizeof queries / sizeof *queries; at++) {
        char *mine = plan_of(db, queries[at]), *others = plan_of(other, queries[at]);
        if (strcmp(mine, others) != 0) {
            fprintf(stderr, "hot:\n%sordinary:\n%s", mine, others);
            fail("another plan", queries[at]);
        }
        sqlite3_free(mine);
        sqlite3_free(others);
    }
    sqlite3_close(db);
    sqlite3_close(other);
}

/* ---- The application's own functions ---- */

/* Matches keys that don't begin with the pattern's first letter. */
static void other_like(sqlite3_context *to, int count, sqlite3_value **values) {
    const char *pattern = (const char *)sqlite3_value_text(values[0]), *key = (const char *)sqlite3_value_text(values[1]);
    (void)count;
    sqlite3_result_int(to, !pattern || !key || *pattern != *key);
}

static void own_functions(void) {
    static const char *const queries[] = {"key LIKE 'a%'", "key LIKE 'a%' AND key > 'b'", "key GLOB 'a*'",
                                          "key LIKE 'b%' ORDER BY key DESC"};
    sqlite3 *db = connect_to("keys=100");
    expect(db, SQLITE_OK, "INSERT INTO t VALUES ('a', 1), ('A', 2), ('ab', 3), ('b', 4), ('c', 5); INSERT INTO p SELECT * FROM t");
    for (int is_own = 0; is_own < 2; is_own++) {
        for (size_t at = 0; at < sizeof queries / sizeof *queries; at++) {
            char *mine = answer(db, "SELECT ifnull(group_concat(key), '') FROM (SELECT key FROM t WHERE %s)", queries[at]);
            char *others = answer(db, "SELECT ifnull(group_concat(key), '') FROM (SELECT key FROM p WHERE %s)", queries[at]);
            if (strcmp(mine, others) != 0)
                fail(queries[at], mine);
            sqlite3_free(mine);
            sqlite3_free(others);
        }
        sqlite3_create_function(db, "like", 2, SQLITE_UTF8, NULL, other_like, NULL, NULL);
        sqlite3_create_function(db, "glob", 2, SQLITE_UTF8, NULL, other_like, NULL, NULL);
    }
    sqlite3_close(db);
}

/* Connections to different files share the rows of a name, until the last one is closed. */
static void one_name(void) {
    char *beside = sqlite3_mprintf("%s.beside", scratch);
    new_scratch();
    remove(beside);
    for (int turn = 0; turn < 2; turn++) {
        sqlite3 *both[2] = {open_file(scratch), open_file(beside)};
        for (int at = 0; at < 2 && turn == 0; at++)
            expect(both[at], SQLITE_OK, "CREATE VIRTUAL TABLE t USING hot(name=one); CREATE VIRTUAL TABLE u USING hot(name=other)");
        if (number(both[1], "SELECT count(*) FROM t") != 0)
            fail("a name", "the index is older than its connections");
        expect(both[0], SQLITE_OK, "INSERT INTO t VALUES ('a', 1); BEGIN; INSERT INTO t VALUES ('b', 2)");
        expect(both[1], SQLITE_OK, "INSERT INTO t VALUES ('c', 3)");
        expect(both[0], SQLITE_OK, "ROLLBACK");
        if (number(both[1], "SELECT sum(value) FROM t") != 4 || number(both[0], "SELECT count(*) FROM u") != 0)
            fail("a name", "a rollback takes back another connection's row, or another name has it");
        sqlite3_close(both[0]);
        if (number(both[1], "SELECT sum(value) FROM t") != 4)
            fail("a name", "the index went too early");
        sqlite3_close(both[1]);
    }
    remove(beside);
    sqlite3_free(beside);
}

/* Without a name each connection to a file has its own rows. They stay when the schema is read again. */
static void own_rows(void) {
    sqlite3 *both[2];
    new_scratch();
    for (int at = 0; at < 2; at++)
        both[at] = open_file(scratch);
    expect(both[0], SQLITE_OK, "CREATE VIRTUAL TABLE t USING hot(keys=100); INSERT INTO t VALUES ('a', 1)");
    expect(both[1], SQLITE_OK, "INSERT INTO t VALUES ('b', 2), ('c', 3); CREATE TABLE x(y)");
    if (number(both[0], "SELECT sum(value) FROM t") != 1 || number(both[1], "SELECT sum(value) FROM t") != 5)
        fail("a table without a name", "two connections share rows");
    for (int at = 0; at < 2; at++)
        sqlite3_close(both[at]);
}

/* Two files are attached in turn by one schema name, with tables of one name. Each table keeps its rows while the connection is open. */
static void files_in_turn(const char *arguments) {
    char *files[2] = {sqlite3_mprintf("%s", scratch), sqlite3_mprintf("%s.beside", scratch)};
    sqlite3 *db = open_file(":memory:");
    remove(files[0]);
    remove(files[1]);
    for (int turn = 0; turn < 4; turn++) {
        int at = turn % 2;
        if (run(db, "ATTACH %Q AS a", files[at]) != SQLITE_OK)
            fail(files[at], sqlite3_errmsg(db));
        if (turn < 2 && run(db, "CREATE VIRTUAL TABLE a.t USING hot(%s%d); INSERT INTO a.t VALUES ('a', %d)", arguments, at, at) != SQLITE_OK)
            fail(arguments, sqlite3_errmsg(db));
        if (number(db, "SELECT count(*) FROM a.t") != 1 || number(db, "SELECT value FROM a.t") != at)
            fail(arguments, "a file has not the rows that it had");
        expect(db, SQLITE_OK, "DETACH a");
    }
    sqlite3_close(db);
    for (int at = 0; at < 2; at++) {
        remove(files[at]);
        sqlite3_free(files[at]);
    }
}

/* A table in temp is created and dropped beside a main database that another connection is writing. In a transaction that is refused. */
static void main_that_is_locked(void) {
    sqlite3 *db, *other;
    new_scratch();
    db = open_file(scratch);
    other = open_file(scratch);
    expect(other, SQLITE_OK, "CREATE TABLE x(y); BEGIN IMMEDIATE");
    expect(db, SQLITE_OK, "CREATE VIRTUAL TABLE temp.t USING hot; INSERT INTO t VALUES ('a', 1)");
    expect(db, SQLITE_OK, "ALTER TABLE t RENAME TO u; ALTER TABLE u RENAME TO t; BEGIN; INSERT INTO t VALUES ('b', 2)");
    expect(db, SQLITE_BUSY, "DROP TABLE t");
    expect(db, SQLITE_BUSY, "CREATE VIRTUAL TABLE temp.u USING hot");
    expect(db, SQLITE_OK, "ROLLBACK");
    if (number(db, "SELECT count(*) FROM t") != 1)
        fail("a locked database", "the table has other rows");
    expect(db, SQLITE_OK, "DROP TABLE t; CREATE VIRTUAL TABLE temp.t USING hot");
    if (number(db, "SELECT count(*) FROM t") != 0)
        fail("a locked database", "a new table has rows");
    sqlite3_close(other);
    sqlite3_close(db);
}

/* An application may hold its own mutexes while it uses tables. */
static void mutexes_of_applications(void) {
    static const int kinds[] = {SQLITE_MUTEX_STATIC_APP1, SQLITE_MUTEX_STATIC_APP2, SQLITE_MUTEX_STATIC_APP3};
    for (int at = 0; at < 3; at++)
        sqlite3_mutex_enter(sqlite3_mutex_alloc(kinds[at]));
    sqlite3_close(connect_to("keys=100"));
    for (int at = 0; at < 3; at++)
        sqlite3_mutex_leave(sqlite3_mutex_alloc(kinds[at]));
}

int main(int count, char **words) {
    if (count < 2)
        fail("usage", "test HOT_TABLE.so [threads]");
    library = words[1];
    alarm(900); /* a call that never returns ends the test */
    make_memory_scarce();
    scratch = sqlite3_mprintf("%s.db", library);
    if (count > 2) {
        all_threads();
        puts("the test of threads passed");
        return 0;
    }
    refused_memory("BEGIN; SAVEPOINT s; INSERT INTO t VALUES ('c', 3), ('d', 4); UPDATE t SET value = 9 WHERE key = 'a';"
                   "DELETE FROM t WHERE key LIKE 'b%'; ROLLBACK TO s; INSERT OR REPLACE INTO t VALUES ('a', 3);"
                   "SELECT * FROM t ORDER BY key DESC; ROLLBACK");
    refused_memory("CREATE VIRTUAL TABLE u USING hot(name=words, keys=100); INSERT INTO u VALUES ('a', 1); DROP TABLE u");
    refused_memory("BEGIN; INSERT INTO t VALUES ('c', 3); SAVEPOINT s; DROP TABLE t; CREATE VIRTUAL TABLE t USING hot(keys=5);"
                   "INSERT INTO t VALUES ('d', 4); ROLLBACK TO s; SELECT * FROM t; DROP TABLE t; ROLLBACK");
    refused_statement("SELECT 1");
    refused_statement("INSERT INTO u VALUES ('', 0), ('aa', 0); DELETE FROM u");
    refused_statement("CREATE VIRTUAL TABLE v USING hot(keys=5)");
    random_statements();
    counted_rows();
    room_of_removed_rows("ROLLBACK");
    room_of_removed_rows("ROLLBACK TO s; ROLLBACK");
    room_of_removed_rows("COMMIT");
    no_room_until_commit();
    rollback_beside_others();
    one_name();
    own_rows();
    files_in_turn("keys=10");
    files_in_turn("name=turn");
    main_that_is_locked();
    mutexes_of_applications();
    plans();
    listed_transactions("main", "keys=100");
    listed_transactions("temp", "keys=100");
    listed_transactions("main", "name=listed");
    random_tables("main", 1);
    random_tables("temp", READERS);
    drop_that_fails();
    definition_from_outside();
    counts_of_changes();
    tables_of_a_name();
    loaded_twice();
    names_and_handles();
    own_functions();
    comparisons("TEXT");
    comparisons("BLOB");
    full_tables();
    grown_tables();
    all_threads();
    remove(scratch);
    sqlite3_free((void *)scratch);
    if (sqlite3_memory_used() != 0)
        fail("memory", "some was not given back");
    puts("the test of tables passed");
    return 0;
}
