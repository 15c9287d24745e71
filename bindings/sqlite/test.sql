.load ./hot_table
.mode list
CREATE VIRTUAL TABLE t USING hot(keys=1000, longest=24);
CREATE TABLE p(key TEXT PRIMARY KEY NOT NULL, value INTEGER NOT NULL) WITHOUT ROWID;

-- Queries
INSERT INTO t VALUES ('pear', 3), ('apple', 1), ('Peach', 2), ('plum', 5), ('', 9);
INSERT INTO p SELECT * FROM t;
SELECT * FROM t;
SELECT 'equal', value FROM t WHERE key = 'pear';
SELECT 'downwards', key FROM t ORDER BY key DESC;
SELECT 'range', key FROM t WHERE key > 'apple' AND key <= 'pear';
SELECT 'range downwards', key FROM t WHERE key >= 'a' AND key < 'plum' ORDER BY key DESC;
SELECT 'like', key FROM t WHERE key LIKE 'pe%';
SELECT 'like downwards', key FROM t WHERE key LIKE 'PE%' ORDER BY key DESC;
SELECT 'like all', count(*) FROM t WHERE key LIKE '%';
SELECT 'like with escape', key FROM t WHERE key LIKE 'pe!a%' ESCAPE '!';
SELECT 'glob', key FROM t WHERE key GLOB 'p*';
SELECT 'not glob', key FROM t WHERE key NOT GLOB 'p*';
SELECT 'in', key FROM t WHERE key IN ('plum', 'none', 'apple') ORDER BY key DESC;
SELECT 'either', key FROM t WHERE key = 'plum' OR key = 'pear' ORDER BY key;
SELECT 'null', count(*) FROM t WHERE key > NULL OR key = NULL OR key <= NULL;
SELECT 'number', count(*) FROM t WHERE key > 5;
SELECT 'blob', count(*) FROM t WHERE key < x'00';
SELECT 'too long', count(*) FROM t WHERE key = hex(zeroblob(121)) OR key > hex(zeroblob(121));
SELECT 'first and last', min(key), max(key) FROM t;
SELECT 'nocase', key FROM t WHERE key = 'peach' COLLATE NOCASE;
SELECT 'nocase order', group_concat(key, ' ') FROM (SELECT key FROM t ORDER BY key COLLATE NOCASE);
SELECT 'join', group_concat(key, ' ') FROM t JOIN p USING (key);
EXPLAIN QUERY PLAN SELECT * FROM t WHERE key LIKE 'a%' ORDER BY key;
EXPLAIN QUERY PLAN SELECT * FROM t WHERE key > 'a' ORDER BY key DESC, value;
EXPLAIN QUERY PLAN SELECT * FROM t JOIN p USING (key) WHERE p.value > 1;

-- Changes, and what they are refused for
INSERT INTO t VALUES ('fig', 7), ('pear', 4);
SELECT 'a failed statement leaves nothing', count(*) FROM t;
INSERT OR IGNORE INTO t VALUES ('fig', 7), ('pear', 4);
SELECT 'ignored', changes();
INSERT OR REPLACE INTO t VALUES ('pear', 40);
INSERT OR FAIL INTO t VALUES ('grape', 8), ('pear', 4), ('none', 1);
SELECT 'or', group_concat(key || value, ' ') FROM t;
UPDATE t SET value = value * 2 WHERE key LIKE 'p%';
UPDATE t SET key = 'zz' WHERE key = 'fig';
UPDATE t SET key = 'plum' WHERE key = 'zz';
DELETE FROM t WHERE key < 'a';
DELETE FROM t WHERE key = 5;
SELECT 'updated', group_concat(key || value, ' ') FROM t;
INSERT INTO t VALUES (hex(zeroblob(121)), 1);
INSERT INTO t VALUES ('x', 'y');
INSERT INTO t VALUES ('x', 1.5);
INSERT INTO t VALUES ('x', NULL);
INSERT INTO t VALUES (NULL, 1);
INSERT INTO t VALUES (1, 1);
INSERT INTO t VALUES (x'00', 1);
INSERT OR IGNORE INTO t VALUES (NULL, 1), ('x', NULL);
INSERT OR IGNORE INTO t VALUES ('x', 'y');
INSERT OR IGNORE INTO t VALUES (1, 1);
UPDATE t SET value = 9223372036854775807 WHERE key = 'zz';
INSERT INTO t VALUES ('least', -9223372036854775808), ('nul' || char(0) || 'x', 0);
SELECT 'refused', group_concat(replace(key, char(0), '!') || ' ' || value, ', ') FROM t WHERE key > 'k';
SELECT 'with a nul', length(key), hex(key) FROM t WHERE key GLOB 'nul*';
INSERT INTO t VALUES ('twice', 1) ON CONFLICT DO UPDATE SET value = 2;

-- Transactions
DELETE FROM t WHERE key NOT LIKE 'p%';
BEGIN;
DELETE FROM t;
SAVEPOINT s;
INSERT INTO t VALUES ('inner', 1);
ROLLBACK TO s;
INSERT INTO t VALUES ('outer', 1);
SELECT 'within', group_concat(key || value, ' ') FROM t;
ROLLBACK;
SELECT 'after', group_concat(key || value, ' ') FROM t;
BEGIN;
SAVEPOINT one;
INSERT INTO t VALUES ('one', 1);
RELEASE one;
SAVEPOINT other;
INSERT INTO t VALUES ('other', 1);
INSERT INTO t VALUES ('third', 1), ('pear', 1);
ROLLBACK TO other;
SELECT 'a released savepoint', group_concat(key || value, ' ') FROM t;
COMMIT;
SELECT 'committed', group_concat(key || value, ' ') FROM t;
BEGIN;
CREATE TABLE gone(x);
INSERT INTO t VALUES ('gone', 1);
ROLLBACK;
SELECT 'the schema put back', group_concat(key || value, ' ') FROM t;
DELETE FROM t WHERE key COLLATE NOCASE BETWEEN 'PLUL' AND 'plum';
SELECT 'without the end of a range by NOCASE', group_concat(key || value, ' ') FROM t;

-- Indexes, names and types
CREATE VIRTUAL TABLE small USING hot(keys=0, longest=8, grow=0);
INSERT INTO small WITH RECURSIVE c(n) AS (SELECT 1 UNION ALL SELECT n + 1 FROM c WHERE n < 100000) SELECT 'k' || n, n FROM c;
SELECT 'full', count(*) FROM small;
CREATE VIRTUAL TABLE grown USING hot(keys=0, longest=8);
INSERT INTO grown WITH RECURSIVE c(n) AS (SELECT 1 UNION ALL SELECT n + 1 FROM c WHERE n < 100000) SELECT 'key ' || n, n FROM c;
SELECT 'grown', count(*), sum(value) FROM grown;
EXPLAIN QUERY PLAN SELECT * FROM p, grown WHERE grown.key BETWEEN p.key AND p.key || '~';
CREATE VIRTUAL TABLE one USING hot(name='words', connections=2);
CREATE VIRTUAL TABLE other USING hot( NAME = words );
INSERT INTO one VALUES ('shared', 1);
UPDATE other SET value = 2;
SELECT 'one index', one.value, other.value FROM one, other;
CREATE VIRTUAL TABLE third USING hot(name="words");
CREATE VIRTUAL TABLE typed USING hot(name='words', type=blob);
CREATE VIRTUAL TABLE larger USING hot(name='words', keys=20000);
CREATE VIRTUAL TABLE longer USING hot(name='words', keys=10000, longest=25);
CREATE VIRTUAL TABLE fixed USING hot(name='words', grow=0);
CREATE VIRTUAL TABLE quoted USING hot(name='it''s', keys='5');
CREATE VIRTUAL TABLE another USING hot(name="it's", keys=6);
ALTER TABLE one RENAME TO first;
SELECT 'renamed', value FROM first;
ALTER TABLE t RENAME TO tt; ALTER TABLE tt RENAME TO t;
CREATE VIRTUAL TABLE b USING hot(type='blob');
INSERT INTO b VALUES (x'00ff', 1), (x'', 2), (x'ff', -1);
SELECT 'blobs', hex(key), value FROM b WHERE key >= x'00' ORDER BY key DESC;
SELECT 'text and numbers are below blobs', count(*) FROM b WHERE key > 'zz' AND key > 5;
SELECT 'none is below text', count(*) FROM b WHERE key < 'zz' OR key = 'zz' OR key < 5;
INSERT INTO b VALUES ('text', 1);
CREATE VIRTUAL TABLE bad USING hot(key=5);
CREATE VIRTUAL TABLE bad USING hot(keys='five');
CREATE VIRTUAL TABLE bad USING hot(longest=241);
SELECT * FROM hot;
DROP TABLE t;
CREATE VIRTUAL TABLE t USING hot;
SELECT 'made again', count(*) FROM t;

-- A file that is open where one was that is closed
ATTACH 'one.db' AS a;
CREATE VIRTUAL TABLE a.t USING hot;
INSERT INTO a.t VALUES ('one', 1);
DETACH a;
ATTACH 'other.db' AS b;
PRAGMA b.journal_mode = MEMORY;
.shell rm other.db
CREATE VIRTUAL TABLE b.t USING hot;
INSERT INTO b.t VALUES ('other', 1);
DETACH b;
ATTACH 'one.db' AS a;
SELECT 'the row of', key FROM a.t;

-- A database in UTF-16, whose text has another order
.open :memory:
.load ./hot_table
PRAGMA encoding = 'UTF-16le';
CREATE VIRTUAL TABLE t USING hot;
CREATE VIRTUAL TABLE b USING hot(type=blob);
SELECT 'blobs alone', count(*) FROM b;
