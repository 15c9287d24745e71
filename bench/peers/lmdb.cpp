// LMDB in memory (/dev/shm), without syncs, a transaction for each call. Debian: liblmdb-dev.
#include "peer.hpp"
#include <cstdio>
#include <cstdlib>
#include <lmdb.h>
#include <string>
#include <sys/stat.h>
#include <unistd.h>

namespace {

void must_do(int status, const char *what) {
    if (status) {
        std::fprintf(stderr, "lmdb: %s: %s\n", what, mdb_strerror(status));
        std::abort();
    }
}

MDB_val value_of(const void *bytes, size_t length) { return {length, const_cast<void *>(bytes)}; }

struct store {
    MDB_env *environment;
    MDB_dbi pairs;

    store() {
        const std::string at = "/dev/shm/peers-lmdb-" + std::to_string(getpid());
        mkdir(at.c_str(), 0700);
        must_do(mdb_env_create(&environment), "create");
        must_do(mdb_env_set_mapsize(environment, size_t{8} << 30), "set_mapsize");
        must_do(mdb_env_set_maxreaders(environment, 2 * MAP_HANDS), "set_maxreaders");
        must_do(mdb_env_open(environment, at.c_str(), MDB_NOSYNC | MDB_NOMETASYNC | MDB_WRITEMAP | MDB_NOTLS, 0600), "open");
        MDB_txn *made;
        must_do(mdb_txn_begin(environment, nullptr, 0, &made), "begin");
        must_do(mdb_dbi_open(made, nullptr, MDB_CREATE, &pairs), "dbi_open");
        must_do(mdb_txn_commit(made), "commit");
        for (const char *file : {"/data.mdb", "/lock.mdb"}) unlink((at + file).c_str());
        rmdir(at.c_str());
    }
    store(const store &) = delete;
    ~store() { mdb_env_close(environment); }
};

// A hand has a reading transaction of its own, renewed for each call.
struct hand {
    store &all;
    MDB_txn *reading;
    MDB_cursor *cursor;

    explicit hand(store &all) : all(all) {
        must_do(mdb_txn_begin(all.environment, nullptr, MDB_RDONLY, &reading), "begin");
        must_do(mdb_cursor_open(reading, all.pairs, &cursor), "cursor_open");
        mdb_txn_reset(reading);
    }
    hand(const hand &) = delete;
    ~hand() {
        mdb_cursor_close(cursor);
        mdb_txn_abort(reading);
    }

    bool look_up(const key &key, uint64_t &had) {
        must_do(mdb_txn_renew(reading), "renew");
        MDB_val of = value_of(key.bytes, key.length), found;
        const int status = mdb_get(reading, all.pairs, &of, &found);
        if (!status) std::memcpy(&had, found.mv_data, 8);
        mdb_txn_reset(reading);
        return !status;
    }
    bool change(const key &key, uint64_t &had, bool replaces) {
        MDB_txn *writing;
        must_do(mdb_txn_begin(all.environment, nullptr, 0, &writing), "begin");
        const uint64_t number = key.number;
        MDB_val of = value_of(key.bytes, key.length), value = value_of(&number, 8);
        const int status = mdb_put(writing, all.pairs, &of, &value, MDB_NOOVERWRITE);
        const bool was_there = status == MDB_KEYEXIST;
        if (was_there)
            std::memcpy(&had, value.mv_data, 8);
        else
            must_do(status, "put");
        if (was_there && replaces) {
            value = value_of(&number, 8);
            must_do(mdb_put(writing, all.pairs, &of, &value, 0), "put");
        }
        must_do(mdb_txn_commit(writing), "commit");
        return was_there;
    }
    bool insert(const key &key, uint64_t &had) { return change(key, had, false); }
    bool upsert(const key &key, uint64_t &had) { return change(key, had, true); }
    bool take_out(const key &key, uint64_t &had) {
        MDB_txn *writing;
        must_do(mdb_txn_begin(all.environment, nullptr, 0, &writing), "begin");
        MDB_val of = value_of(key.bytes, key.length), found;
        const bool was_there = !mdb_get(writing, all.pairs, &of, &found);
        if (was_there) {
            std::memcpy(&had, found.mv_data, 8);
            must_do(mdb_del(writing, all.pairs, &of, nullptr), "del");
        }
        must_do(mdb_txn_commit(writing), "commit");
        return was_there;
    }
    void list(const key &from, page &page) {
        must_do(mdb_txn_renew(reading), "renew");
        must_do(mdb_cursor_renew(reading, cursor), "cursor_renew");
        MDB_val of = value_of(from.bytes, from.length), found;
        int status = mdb_cursor_get(cursor, &of, &found, MDB_SET_RANGE);
        while (!status) {
            uint64_t value;
            std::memcpy(&value, found.mv_data, 8);
            if (!page.add(of.mv_data, of.mv_size, value)) break;
            status = mdb_cursor_get(cursor, &of, &found, MDB_NEXT);
        }
        mdb_txn_reset(reading);
    }
};

}  // namespace

extern "C" const map lmdb_map = map_of<store, hand>("LMDB");
