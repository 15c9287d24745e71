// Tests the memtable beside the skip list's: two databases, one of each, get the same random changes, and must list and find the same; also in
// snapshots, from both ends, and once they have been opened anew. Then threads write and read at the same time, keys of their own and keys that
// all of them want. What RocksDB is told of the memory and the entries is what there is.
//
//     test FOLDER STEPS SEED
#include "memtable.hpp"
#include <cstdio>
#include <cstdlib>
#include <iostream>
#include <random>
#include <rocksdb/db.h>
#include <rocksdb/write_batch.h>
#include <rocksdb/write_buffer_manager.h>
#include <thread>
#include <unistd.h>

using namespace ROCKSDB_NAMESPACE;

static void fail(const std::string &what) {
    std::cerr << "FAILED: the memtable for RocksDB: " << what << '\n';
    std::_Exit(1);
}

static void must(const Status &status) {
    if (!status.ok())
        fail(status.ToString());
}

static Options options_of(bool is_hot) {
    Options options;
    options.create_if_missing = true;
    options.write_buffer_size = 256 << 10;
    options.max_write_buffer_number = 4;
    options.allow_concurrent_memtable_write = true;
    if (is_hot)
        options.memtable_factory = std::make_shared<hot_memtable::factory>(100, 8);
    return options;
}

/// A database with a memtable of ours, or of RocksDB.
class database {
  public:
    database(const std::string &folder, bool is_hot) : folder_(folder), options_(options_of(is_hot)) {
        DestroyDB(folder_, options_);
        open();
    }
    ~database() { close(); }
    DB *operator->() { return db_.get(); }
    void open_anew() {
        close();
        open();
    }
    void take_snapshot() { snapshots_.push_back(db_->GetSnapshot()); }
    void drop_snapshot() {
        db_->ReleaseSnapshot(snapshots_.front());
        snapshots_.erase(snapshots_.begin());
    }
    const Snapshot *oldest() const { return snapshots_.empty() ? nullptr : snapshots_.front(); }
    std::size_t snapshots() const { return snapshots_.size(); }

  private:
    void open() {
        DB *opened = nullptr;
        must(DB::Open(options_, folder_, &opened));
        db_.reset(opened);
    }
    void close() {
        while (!snapshots_.empty())
            drop_snapshot();
        db_.reset();
    }
    std::string folder_;
    Options options_;
    std::unique_ptr<DB> db_;
    std::vector<const Snapshot *> snapshots_;
};

using random_numbers = std::mt19937_64;

/// Keys that are near each other, prefixes of each other, and longer than an index's.
static std::string random_key(random_numbers &random) {
    switch (random() % 4) {
    case 0: return std::to_string(random() % 3000);
    case 1: {
        std::string key(random() % 5, '\0');
        for (char &at : key)
            at = "ab\0\xff"[random() % 4];
        return key;
    }
    case 2: return std::string(236 + random() % 8, 'x') + std::to_string(random() % 50);
    default: return std::string(random() % 400, 'q') + std::to_string(random() % 3);
    }
}

/// Compares up to `most` pairs of two databases from where both stand.
static void compare(Iterator *one, Iterator *other, bool falls, std::size_t most) {
    for (; most > 0 && one->Valid() && other->Valid(); most--) {
        if (one->key() != other->key() || one->value() != other->value())
            fail("a pair differs: " + one->key().ToString(true) + " and " + other->key().ToString(true));
        falls ? one->Prev() : one->Next();
        falls ? other->Prev() : other->Next();
    }
    if (most > 0 && one->Valid() != other->Valid())
        fail("one ends before the other");
    must(one->status());
    must(other->status());
}

/// Both ways, at a place that is drawn or over all pairs; and back and forth.
static void compare_scans(database &one, database &other, random_numbers &random, bool is_all, bool is_old) {
    ReadOptions of_one, of_other;
    of_one.snapshot = is_old ? one.oldest() : nullptr;
    of_other.snapshot = is_old ? other.oldest() : nullptr;
    const std::unique_ptr<Iterator> mine(one->NewIterator(of_one)), wanted(other->NewIterator(of_other));
    const std::string key = random_key(random);
    for (Iterator *it : {mine.get(), wanted.get()})
        is_all ? it->SeekToFirst() : it->Seek(key);
    compare(mine.get(), wanted.get(), false, is_all ? SIZE_MAX : random() % 80);
    if (mine->Valid())
        compare(mine.get(), wanted.get(), true, random() % 10);
    for (Iterator *it : {mine.get(), wanted.get()})
        is_all ? it->SeekToLast() : it->SeekForPrev(key);
    compare(mine.get(), wanted.get(), true, is_all ? SIZE_MAX : random() % 80);
    if (mine->Valid())
        compare(mine.get(), wanted.get(), false, random() % 10);
}

static void compare_get(database &one, database &other, const std::string &key) {
    std::string mine, wanted;
    const Status status = one->Get(ReadOptions(), key, &mine), other_status = other->Get(ReadOptions(), key, &wanted);
    if (status.ok() != other_status.ok() || status.IsNotFound() != other_status.IsNotFound() || mine != wanted)
        fail("a look-up differs");
}

/// Some changes as one.
static WriteBatch random_batch(random_numbers &random) {
    WriteBatch batch;
    for (std::size_t left = 1 + random() % 20; left > 0; left--) {
        const std::string key = random_key(random);
        if (random() % 4 == 0)
            must(batch.Delete(key));
        else
            must(batch.Put(key, std::string(random() % 60, 'v') + std::to_string(random())));
    }
    return batch;
}

static void step(database &one, database &other, random_numbers &random) {
    const unsigned kind = random() % 1000;
    if (kind < 500) {
        WriteBatch batch = random_batch(random), same = batch;
        must(one->Write(WriteOptions(), &batch));
        must(other->Write(WriteOptions(), &same));
    } else if (kind < 700) {
        compare_get(one, other, random_key(random));
    } else if (kind < 960) {
        compare_scans(one, other, random, false, random() % 2 == 0);
    } else if (kind < 970) {
        compare_scans(one, other, random, true, random() % 2 == 0);
    } else if (kind < 985) {
        for (database *it : {&one, &other})
            it->snapshots() < 3 ? it->take_snapshot() : it->drop_snapshot();
    } else if (kind < 995) {
        for (database *it : {&one, &other})
            must((*it)->Flush(FlushOptions()));
    } else {
        for (database *it : {&one, &other})
            it->open_anew();
    }
}

static void random_steps(const std::string &folder, unsigned long steps, unsigned long seed) {
    random_numbers random(seed);
    database one(folder + "/hot", true), other(folder + "/skip", false);
    for (unsigned long left = steps; left > 0; left--)
        step(one, other, random);
    compare_scans(one, other, random, true, false);
}

enum { THREADS = 4, OWN = 3000, COMMON = 50 };

static std::string own_key(int thread, int at) {
    const std::string number = std::to_string(at * 7919 % OWN);
    return std::string(1, static_cast<char>('a' + thread)) + (at % 7 ? number : std::string(250, 'l') + number);
}

/// Writes its own keys, which no other thread does, and common ones; and scans meanwhile.
static void write_and_read(database &db, int thread) {
    std::string value;
    for (int at = 0; at < OWN; at++) {
        must(db->Put(WriteOptions(), own_key(thread, at), std::to_string(at)));
        must(db->Put(WriteOptions(), "common" + std::to_string(at % COMMON), std::to_string(at)));
        must(db->Get(ReadOptions(), own_key(thread, at), &value));
        if (value != std::to_string(at))
            fail("a thread doesn't see its own change");
        if (at % 3 == 0)
            must(db->Delete(WriteOptions(), own_key(thread, at)));
        if (at % 500 == 0) {
            const std::unique_ptr<Iterator> it(db->NewIterator(ReadOptions()));
            std::string last;
            for (it->SeekToFirst(); it->Valid(); it->Next()) {
                if (!last.empty() && it->key().compare(last) <= 0)
                    fail("keys of a scan don't rise");
                last = it->key().ToString();
            }
            must(it->status());
        }
    }
}

static void threads_at_once(const std::string &folder) {
    database db(folder + "/threads", true);
    std::vector<std::thread> threads;
    for (int thread = 0; thread < THREADS; thread++)
        threads.emplace_back([&db, thread] { write_and_read(db, thread); });
    for (std::thread &it : threads)
        it.join();
    for (int turn = 0; turn < 2; turn++) {
        std::string value;
        for (int thread = 0; thread < THREADS; thread++)
            for (int at = 0; at < OWN; at++) {
                const Status status = db->Get(ReadOptions(), own_key(thread, at), &value);
                if (status.ok() != (at % 3 != 0) || (status.ok() && value != std::to_string(at)))
                    fail("a thread's key has another value");
            }
        db.open_anew();
    }
}

/// What is resident of the process, in bytes.
static double resident() {
    long all = 0, pages = 0;
    std::FILE *file = std::fopen("/proc/self/statm", "r");
    if (!file || std::fscanf(file, "%ld %ld", &all, &pages) != 2)
        fail("/proc/self/statm");
    std::fclose(file);
    return static_cast<double>(pages * sysconf(_SC_PAGESIZE));
}

static bool is_near(double one, double other) { return one > 0.85 * other && one < 1.15 * other; }

/// RocksDB is told what a memtable takes, the index included, and how many entries are in a range.
static void told(const std::string &folder) {
    enum { KEYS = 100000 };
    Options options = options_of(true);
    WriteOptions unlogged;
    DB *opened = nullptr;
    std::uint64_t entries = 0, size = 0;
    unlogged.disableWAL = true;
    options.write_buffer_size = std::size_t{1} << 30;
    options.write_buffer_manager = std::make_shared<WriteBufferManager>(options.write_buffer_size);
    DestroyDB(folder + "/told", options);
    must(DB::Open(options, folder + "/told", &opened));
    const std::unique_ptr<DB> db(opened);
    const double first = resident();
    for (int at = 0; at < KEYS * 3 / 2; at++)
        must(db->Put(unlogged, std::to_string(100000 + at % KEYS * 7919 % KEYS), "a value of some bytes"));
    const double taken = resident() - first, charged = static_cast<double>(options.write_buffer_manager->memory_usage());
    if (!is_near(charged, taken))
        fail("of " + std::to_string(taken) + " bytes " + std::to_string(charged) + " are charged");
    db->GetApproximateMemTableStats(Range("130000", "150000"), &entries, &size);
    if (!is_near(static_cast<double>(entries), 20000 * 1.5))
        fail("of 30000 entries " + std::to_string(entries) + " are counted");
}

/// Keys that rise in the order of their bytes are in an index: else two skip lists would be compared. One crashes here, without an allocator.
static void order_of_bytes() {
    struct by_bytes final : MemTableRep::KeyComparator {
        int operator()(const char *one, const char *other) const override { return (*this)(one, GetLengthPrefixedSlice(other)); }
        int operator()(const char *one, const Slice &other) const override {
            return hot_memtable::user_key(GetLengthPrefixedSlice(one)).compare(hot_memtable::user_key(other));
        }
    };
    const std::unique_ptr<MemTableRep> made(hot_memtable::factory().CreateMemTableRep(by_bytes(), nullptr, nullptr, nullptr));
    if (!dynamic_cast<hot_memtable::memtable *>(made.get()))
        fail("the order of bytes isn't told");
}

/// The order of bytes, but that letters of both cases are the same.
class without_case final : public Comparator {
  public:
    const char *Name() const override { return "without_case"; }
    int Compare(const Slice &one, const Slice &other) const override { return lower(one).compare(lower(other)); }
    void FindShortestSeparator(std::string *, const Slice &) const override {}
    void FindShortSuccessor(std::string *) const override {}

  private:
    static std::string lower(const Slice &key) {
        std::string made = key.ToString();
        for (char &at : made)
            at = at >= 'A' && at <= 'Z' ? static_cast<char>(at - 'A' + 'a') : at;
        return made;
    }
};

/// Keys that rise in another order than their bytes' are in a skip list.
static void another_order(const std::string &folder, const Comparator *order, const std::string &wanted) {
    Options options = options_of(true);
    options.comparator = order;
    DB *opened = nullptr;
    DestroyDB(folder + "/order", options);
    must(DB::Open(options, folder + "/order", &opened));
    const std::unique_ptr<DB> db(opened);
    for (const char *key : {"b", "C", "a"})
        must(db->Put(WriteOptions(), key, key));
    const std::unique_ptr<Iterator> it(db->NewIterator(ReadOptions()));
    std::string all;
    for (it->SeekToFirst(); it->Valid(); it->Next())
        all += it->key().ToString();
    if (all != wanted)
        fail(std::string("another order of keys isn't kept, ") + order->Name() + ": " + all);
}

int main(int count, char **words) {
    if (count != 4)
        fail("usage: test FOLDER STEPS SEED");
    told(words[1]);
    random_steps(words[1], std::strtoul(words[2], nullptr, 10), std::strtoul(words[3], nullptr, 10));
    threads_at_once(words[1]);
    order_of_bytes();
    const without_case order;
    another_order(words[1], ReverseBytewiseComparator(), "baC");
    another_order(words[1], &order, "abC");
    std::cout << "right: " << words[2] << " steps beside a skip list, and " << THREADS << " threads at once\n";
}
