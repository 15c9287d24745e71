// A memtable of RocksDB over an index that grows, for keys in the order of their bytes. The index leads from each key to its newest version, and
// each version leads to the next older one: so a further version of a key takes no record. Keys of 240 bytes and more share the entry of their
// first 240, which leads to a bucket, in which they are sorted. Nothing is freed before the memtable is.
//
// It stands on classes of RocksDB that may change with any version: MemTableRep, whose default look-up has an iterator made and doesn't delete
// it, and Arena, of which it calls one function by its name. It was tried with RocksDB 7.8.
#pragma once
#include <algorithm>
#include <atomic>
#include <array>
#include <cstring>
#include <hot.h>
#include <iterator>
#include <map>
#include <memory>
#include <mutex>
#include <new>
#include <random>
#include <rocksdb/memtablerep.h>
#include <set>
#include <string>
#include <string_view>
#include <sys/mman.h>
#include <utility>
#include <vector>

namespace ROCKSDB_NAMESPACE {
/// No public header has this class. An iterator that RocksDB wants in an arena gets its memory by this call of it.
class Arena {
  public:
    char *AllocateAligned(size_t bytes, size_t huge_page_size, Logger *logger);
};
} // namespace ROCKSDB_NAMESPACE

namespace hot_memtable {
using ROCKSDB_NAMESPACE::Allocator;
using ROCKSDB_NAMESPACE::Arena;
using ROCKSDB_NAMESPACE::KeyHandle;
using ROCKSDB_NAMESPACE::Logger;
using ROCKSDB_NAMESPACE::LookupKey;
using ROCKSDB_NAMESPACE::MemTableRep;
using ROCKSDB_NAMESPACE::MemTableRepFactory;
using ROCKSDB_NAMESPACE::Slice;
using ROCKSDB_NAMESPACE::SliceTransform;

/// Throws std::bad_alloc where a call was refused: no other refusal comes of an index that grows, but where it has billions of keys. RocksDB's
/// own memtables throw it, too.
inline hot_status check(hot_status status) {
    if ((status >= HOT_BUSY && status <= HOT_NO_MEMORY) || status > HOT_DIFFERS)
        throw std::bad_alloc();
    return status;
}

/// A version of a key: a link to the next older one, and what RocksDB has of it. That is the length of its internal key, which is the user's key
/// and eight bytes, of which the number of the change is greater the newer it is.
struct version {
    std::atomic<version *> older;
    char bytes[1];
};

inline std::string_view user_key(const Slice &internal) { return {internal.data(), internal.size() - 8}; }
inline std::string_view user_key(const version *of) { return user_key(ROCKSDB_NAMESPACE::GetLengthPrefixedSlice(of->bytes)); }
inline std::uint64_t number(const Slice &internal) {
    std::uint64_t number;
    std::memcpy(&number, internal.data() + internal.size() - sizeof number, sizeof number);
    return number;
}
inline std::uint64_t number(const version *of) { return number(ROCKSDB_NAMESPACE::GetLengthPrefixedSlice(of->bytes)); }

/// Puts a version behind a newer one. Returns false if there is one of its number.
inline bool put_behind(version *newer, version *added) {
    for (;;) {
        version *next = newer->older.load(std::memory_order_acquire);
        while (next && number(next) > number(added)) {
            newer = next;
            next = newer->older.load(std::memory_order_acquire);
        }
        if (next && number(next) == number(added))
            return false;
        added->older.store(next, std::memory_order_relaxed);
        if (newer->older.compare_exchange_strong(next, added, std::memory_order_release))
            return true;
    }
}

inline version *oldest(version *of) {
    while (version *older = of->older.load(std::memory_order_acquire))
        of = older;
    return of;
}

/// The keys that begin with the same 240 bytes, with the newest version of each. It has one at least once others see it.
class bucket {
  public:
    bool insert(version *added) {
        const std::lock_guard guard(lock_);
        version *&newest = keys_.try_emplace(std::string(user_key(added)), nullptr).first->second;
        if (newest && number(newest) >= number(added))
            return number(newest) > number(added) && put_behind(newest, added);
        added->older.store(newest, std::memory_order_relaxed);
        newest = added;
        return true;
    }
    /// The newest version of the first key, or of the last one; of the first one from a key on, or above it; of the last one below it. NULL where
    /// there is none.
    version *first() { return found([](auto &keys) { return keys.begin(); }); }
    version *last() { return found([](auto &keys) { return std::prev(keys.end()); }); }
    version *from(std::string_view key) { return found([=](auto &keys) { return keys.lower_bound(key); }); }
    version *above(std::string_view key) { return found([=](auto &keys) { return keys.upper_bound(key); }); }
    version *below(std::string_view key) {
        return found([=](auto &keys) {
            const auto at = keys.lower_bound(key);
            return at == keys.begin() ? keys.end() : std::prev(at);
        });
    }

  private:
    template <class Find> version *found(Find find) {
        const std::lock_guard guard(lock_);
        const auto at = find(keys_);
        return at == keys_.end() ? nullptr : at->second;
    }
    std::mutex lock_;
    std::map<std::string, version *, std::less<>> keys_;
};

/// What a value of the index leads to: to a bucket, if its last bit is set.
inline std::uint64_t value_of(const version *to) { return reinterpret_cast<std::uintptr_t>(to); }
inline std::uint64_t value_of(const bucket *to) { return reinterpret_cast<std::uintptr_t>(to) | 1; }
inline version *version_of(std::uint64_t value) { return reinterpret_cast<version *>(value); }
inline bucket *bucket_of(std::uint64_t value) { return value & 1 ? reinterpret_cast<bucket *>(value - 1) : nullptr; }

/// The key that the index has of a user's key.
inline std::string_view indexed(std::string_view key) { return key.substr(0, HOT_MAX_KEY); }
inline const std::uint8_t *bytes(std::string_view key) { return reinterpret_cast<const std::uint8_t *>(key.data()); }

/// An index with handles for any number of threads: each thread has a place, and few others have the same.
class places {
  public:
    explicit places(const hot_stock &first) { check(hot_open_growing(&first, SIZE_MAX, COUNT, &index_)); }
    places(const places &) = delete;
    places &operator=(const places &) = delete;
    ~places() {
        for (place &at : all_)
            hot_close(&at.handle);
        hot_close_index(index_);
    }
    /// Makes a call with the handle of this thread's place.
    template <class Call> auto with(Call call) {
        place &mine = all_[number_of_thread() % COUNT];
        const std::lock_guard guard(mine.lock);
        if (!mine.is_open)
            check(hot_open(index_, &mine.handle));
        mine.is_open = true;
        return call(&mine.handle);
    }

  private:
    static constexpr std::size_t COUNT = 64;
    struct alignas(64) place {
        std::mutex lock;
        bool is_open = false;
        hot_handle handle = HOT_HANDLE;
    };
    static std::size_t number_of_thread() {
        static std::atomic<std::size_t> next{0};
        thread_local const std::size_t mine = next++;
        return mine;
    }
    hot_index *index_ = nullptr;
    std::array<place, COUNT> all_;
};

class memtable final : public MemTableRep {
  public:
    /// Begins with room for this many keys of at most `longest` bytes, and grows.
    memtable(Allocator *allocator, std::uint32_t keys, std::size_t longest) : MemTableRep(allocator), index_(stock_for(keys, longest)) {}

    KeyHandle Allocate(const std::size_t length, char **to) override {
        const std::size_t size = offsetof(version, bytes) + length;
        std::size_t room = size + alignof(version);
        char *got = nullptr;
        MemTableRep::Allocate(room, &got);
        void *at = got;
        auto *made = new (std::align(alignof(version), size, at, room)) version;
        *to = made->bytes;
        return made;
    }
    void Insert(KeyHandle added) override { InsertKeyConcurrently(added); }
    bool InsertKey(KeyHandle added) override { return InsertKeyConcurrently(added); }
    void InsertConcurrently(KeyHandle added) override { InsertKeyConcurrently(added); }
    bool InsertKeyConcurrently(KeyHandle added) override {
        auto *it = static_cast<version *>(added);
        const std::string_view key = user_key(it);
        if (!index_.with([&](hot_handle *by) { return key.size() < HOT_MAX_KEY ? insert(by, key, it) : insert_long(by, key, it); }))
            return false;
        versions_.fetch_add(1, std::memory_order_relaxed);
        return true;
    }
    bool Contains(const char *key) const override {
        iterator at(this);
        at.Seek(Slice(), key);
        return at.Valid() && same(ROCKSDB_NAMESPACE::GetLengthPrefixedSlice(at.key()), ROCKSDB_NAMESPACE::GetLengthPrefixedSlice(key));
    }
    /// RocksDB's own look-up, which alone can read a LookupKey, with an iterator that takes no memory.
    void Get(const LookupKey &key, void *context, bool (*call)(void *, const char *)) override {
        const looking here(this);
        MemTableRep::Get(key, context, call);
    }
    /// What isn't charged yet.
    std::size_t ApproximateMemoryUsage() override { return bytes_.load(std::memory_order_relaxed) % CHARGE; }
    /// Counts the keys from one on and below another, each with as many versions as all have on average.
    std::uint64_t ApproximateNumEntries(const Slice &start, const Slice &end) override {
        const std::string_view first = indexed(user_key(start)), below = user_key(end);
        std::array<std::uint8_t, HOT_MAX_KEY> before;
        std::string_view last = indexed(below);
        std::size_t length, all = 0, some = 0;
        if (below.size() <= HOT_MAX_KEY) {
            if (hot_before(bytes(below), below.size(), before.data(), &length) != HOT_DONE)
                return 0;
            last = {reinterpret_cast<const char *>(before.data()), length};
        }
        index_.with([&](hot_handle *by) {
            check(hot_len(by, &all));
            return check(hot_count(by, bytes(first), first.size(), bytes(last), last.size(), &some));
        });
        return all ? static_cast<std::uint64_t>(static_cast<double>(some) / all * versions_.load(std::memory_order_relaxed)) : 0;
    }
    Iterator *GetIterator(Arena *arena) override {
        return arena ? new (arena->AllocateAligned(sizeof(iterator), 0, nullptr)) iterator(this) : new iterator(this);
    }
    Iterator *GetDynamicPrefixIterator(Arena *arena) override {
        return looking::now && !arena ? looking::now->iterator_of(this) : GetIterator(arena);
    }

  private:
    class iterator : public Iterator {
      public:
        explicit iterator(const memtable *of) : index_(of->index_) {}
        bool Valid() const override { return at_ != nullptr; }
        const char *key() const override { return at_->bytes; }
        void Next() override {
            if (version *older = at_->older.load(std::memory_order_acquire))
                at_ = older;
            else
                next_key();
        }
        void Prev() override {
            const std::string_view key = user_key(at_);
            version *newer = newest(key);
            if (newer == at_)
                return previous_key(key);
            while (newer->older.load(std::memory_order_acquire) != at_)
                newer = newer->older.load(std::memory_order_acquire);
            at_ = newer;
        }
        void Seek(const Slice &internal, const char *entry) override {
            const Slice wanted = entry ? ROCKSDB_NAMESPACE::GetLengthPrefixedSlice(entry) : internal;
            const std::string_view key = user_key(wanted);
            std::uint64_t value = 0;
            forget();
            if (get(indexed(key), value) != HOT_FOUND)
                return list(indexed(key));
            in_ = bucket_of(value);
            at_ = in_ ? in_->from(key) : version_of(value);
            if (!at_) // it is above all of the bucket
                return list_above(indexed(key));
            if (user_key(at_) == key)
                seek_version(number(wanted));
        }
        void SeekForPrev(const Slice &internal, const char *entry) override {
            const Slice wanted = entry ? ROCKSDB_NAMESPACE::GetLengthPrefixedSlice(entry) : internal;
            Seek(wanted, nullptr);
            if (!at_)
                SeekToLast();
            else if (!same(ROCKSDB_NAMESPACE::GetLengthPrefixedSlice(at_->bytes), wanted))
                Prev();
        }
        void SeekToFirst() override {
            forget();
            list({});
        }
        void SeekToLast() override {
            forget();
            last_upto(greatest());
        }

      private:
        static constexpr std::size_t FEW = 16, PAGE = 64;
        static std::string_view greatest() { return {reinterpret_cast<const char *>(hot_last_key), HOT_MAX_KEY}; }

        /// At nothing, with no page.
        void forget() {
            at_ = nullptr;
            in_ = nullptr;
            place_ = count_ = 0;
            limit_ = FEW;
        }
        hot_status get(std::string_view key, std::uint64_t &value) {
            return check(index_.with([&](hot_handle *by) { return hot_get(by, bytes(key), key.size(), &value); }));
        }
        version *newest(std::string_view key) {
            std::uint64_t value = 0;
            get(indexed(key), value);
            return in_ ? in_->from(key) : version_of(value);
        }
        /// To the first version of this key that isn't newer than a number, or else to the next key.
        void seek_version(std::uint64_t wanted) {
            while (number(at_) > wanted) {
                version *older = at_->older.load(std::memory_order_acquire);
                if (!older)
                    return next_key();
                at_ = older;
            }
        }
        /// To the first key that a value leads to.
        void enter(std::uint64_t value) {
            in_ = bucket_of(value);
            at_ = in_ ? in_->first() : version_of(value);
        }
        /// To the first key from one on. It lists values alone: what they lead to has the keys.
        void list(std::string_view from) {
            std::uint32_t more;
            check(index_.with([&](hot_handle *by) {
                return hot_scan_values(by, bytes(from), from.size(), HOT_TO_END, values_.data(), limit_, &count_, &more);
            }));
            limit_ = PAGE;
            place_ = 0;
            at_ = nullptr;
            if (count_ > 0)
                enter(values_[0]);
        }
        void next_key() {
            const std::string_view key = user_key(at_);
            if (version *next = in_ ? in_->above(key) : nullptr)
                at_ = next;
            else if (++place_ < count_)
                enter(values_[place_]);
            else
                list_above(indexed(key));
        }
        void list_above(std::string_view key) {
            std::array<std::uint8_t, HOT_MAX_KEY> next;
            std::size_t length;
            at_ = nullptr;
            if (hot_after(bytes(key), key.size(), next.data(), &length) == HOT_DONE)
                list({reinterpret_cast<const char *>(next.data()), length});
        }
        void previous_key(std::string_view key) {
            std::array<std::uint8_t, HOT_MAX_KEY> before;
            std::size_t length;
            version *newer = in_ ? in_->below(key) : nullptr;
            if (newer) {
                at_ = oldest(newer);
                return;
            }
            const std::string_view held = indexed(key);
            forget();
            if (hot_before(bytes(held), held.size(), before.data(), &length) == HOT_DONE)
                last_upto({reinterpret_cast<const char *>(before.data()), length});
        }
        /// To the oldest version of the last key up to one.
        void last_upto(std::string_view upto) {
            hot_pair pair;
            if (check(index_.with([&](hot_handle *by) { return hot_last(by, bytes(upto), upto.size(), &pair); })) != HOT_FOUND)
                return;
            in_ = bucket_of(pair.value);
            at_ = oldest(in_ ? in_->last() : version_of(pair.value));
        }

        places &index_;
        version *at_ = nullptr;
        bucket *in_ = nullptr; // that has the key, if one does
        std::array<std::uint64_t, PAGE> values_;
        std::size_t place_ = 0, count_ = 0, limit_ = FEW;
    };

    /// A look-up that is under way in this thread. Its iterator needn't be deleted, and may be.
    class looking {
      public:
        explicit looking(const memtable *of) : of_(of), outer_(std::exchange(now, this)) {}
        ~looking() {
            now = outer_;
            if (is_made_)
                std::launder(reinterpret_cast<kept *>(room_))->~kept();
        }
        Iterator *iterator_of(const memtable *of) {
            if (of != of_ || is_made_)
                return new iterator(of);
            is_made_ = true;
            return new (room_) kept(of, is_made_);
        }
        static inline thread_local looking *now = nullptr;

      private:
        struct kept final : iterator {
            kept(const memtable *of, bool &is_made) : iterator(of), is_made_(is_made) {}
            ~kept() override { is_made_ = false; }
            static void *operator new(std::size_t, void *at) { return at; }
            static void operator delete(void *) {}
            bool &is_made_;
        };
        const memtable *of_;
        looking *outer_;
        bool is_made_ = false;
        alignas(iterator) unsigned char room_[sizeof(iterator) + 2 * sizeof(bool *)];
    };

    static hot_stock stock_for(std::uint32_t keys, std::size_t longest) {
        hot_stock stock;
        hot_stock_for_keys(keys, longest, &stock);
        return stock;
    }
    static bool same(const Slice &one, const Slice &other) { return one == other; }

    static constexpr std::size_t CHARGE = 256 << 10, SYSTEM_PAGE = 4096;

    /// Charges memory that isn't the allocator's. RocksDB's limits, also a WriteBufferManager's, count what the allocator gives. So for CHARGE bytes
    /// from elsewhere as many are asked of it, and stay unused: their pages go back to the system.
    void charge(std::size_t more) {
        const std::size_t had = bytes_.fetch_add(more, std::memory_order_relaxed);
        char *taken = nullptr;
        for (std::size_t left = (had + more) / CHARGE - had / CHARGE; left > 0; left--) {
            MemTableRep::Allocate(CHARGE, &taken);
            const std::size_t before = -reinterpret_cast<std::uintptr_t>(taken) % SYSTEM_PAGE;
            madvise(taken + before, (CHARGE - before) / SYSTEM_PAGE * SYSTEM_PAGE, MADV_DONTNEED);
        }
    }
    /// Charges what the index takes for a new key: 64 bytes, and what its leaf record has more than the smallest one.
    void charge_key(std::size_t length) {
        charge(length <= 8 ? 64 : length <= 24 ? 80 : length <= 56 ? 112 : length <= 88 ? 144 : 296);
    }
    bool insert(hot_handle *by, std::string_view key, version *added) {
        std::uint64_t had;
        added->older.store(nullptr, std::memory_order_relaxed);
        if (check(hot_insert(by, bytes(key), key.size(), value_of(added), &had)) == HOT_INSERTED) {
            charge_key(key.size());
            return true;
        }
        for (;;) {
            version *newest = version_of(had);
            if (number(newest) >= number(added))
                return number(newest) > number(added) && put_behind(newest, added);
            added->older.store(newest, std::memory_order_relaxed);
            if (check(hot_exchange(by, bytes(key), key.size(), had, value_of(added), &had)) == HOT_EXCHANGED)
                return true;
        }
    }
    bool insert_long(hot_handle *by, std::string_view key, version *added) {
        std::uint64_t value;
        charge(key.size() + 96);
        if (hot_get(by, bytes(key), HOT_MAX_KEY, &value) == HOT_FOUND)
            return bucket_of(value)->insert(added);
        bucket *made = new_bucket();
        made->insert(added);
        if (check(hot_insert(by, bytes(key), HOT_MAX_KEY, value_of(made), &value)) != HOT_INSERTED)
            return bucket_of(value)->insert(added);
        charge_key(HOT_MAX_KEY);
        return true;
    }
    bucket *new_bucket() {
        const std::lock_guard guard(buckets_lock_);
        return buckets_.emplace_back(std::make_unique<bucket>()).get();
    }

    mutable places index_;
    std::atomic<std::size_t> bytes_{0}; // that aren't the allocator's
    std::atomic<std::size_t> versions_{0};
    std::mutex buckets_lock_;
    std::vector<std::unique_ptr<bucket>> buckets_;
};

/// Makes memtables for column families whose keys are in the order of their bytes. Others get a skip list.
class factory final : public MemTableRepFactory {
  public:
    /// A memtable begins with room for this many keys of at most `longest` bytes. It grows beyond them.
    explicit factory(std::uint32_t keys = 10000, std::size_t longest = 24) : keys_(keys), longest_(longest) {}
    using MemTableRepFactory::CreateMemTableRep;
    MemTableRep *CreateMemTableRep(const MemTableRep::KeyComparator &order, Allocator *allocator, const SliceTransform *transform,
                                   Logger *logger) override {
        if (!is_by_bytes(order))
            return ROCKSDB_NAMESPACE::SkipListFactory().CreateMemTableRep(order, allocator, transform, logger);
        return new memtable(allocator, keys_, longest_);
    }
    const char *Name() const override { return "HotMemTableFactory"; }
    bool IsInsertConcurrentlySupported() const override { return true; }
    bool CanHandleDuplicatedKey() const override { return true; }

  private:
    static std::string entry_of(std::string_view key) {
        return static_cast<char>(key.size() + 8) + std::string(key) + std::string(8, '\0');
    }
    /// Entries of keys that rise by their bytes. A key has 16 of them or more, of which eight may be a time. Each byte has its turn at four
    /// places, in keys that end or go on. Other keys are drawn, always the same: of digits, of letters of both cases, and of any bytes. Many
    /// begin alike.
    static std::vector<std::string> sample() {
        std::set<std::string> keys;
        for (const std::size_t place : {0, 7, 8, 15})
            for (int byte = 0; byte < 256; byte++) {
                std::string key(16, '\0');
                key[place] = static_cast<char>(byte);
                keys.insert({key, key + '\0', key + '\xff'});
            }
        std::minstd_rand random;
        std::string key;
        for (int left = 3000; left > 0; left--) {
            key.resize(random() % (key.size() + 1));
            const auto kind = random() % 3;
            while (key.size() < 16 || random() % 4 > 0)
                key += kind == 0 ? "0123456789"[random() % 10] : kind == 1 ? "ABZabz"[random() % 6] : static_cast<char>(random());
            keys.insert(key);
        }
        std::vector<std::string> entries;
        std::transform(keys.begin(), keys.end(), std::back_inserter(entries), entry_of);
        return entries;
    }
    /// By the sample: an order that differs for other keys alone is not found out.
    static bool is_by_bytes(const MemTableRep::KeyComparator &order) {
        static const std::vector<std::string> entries = sample();
        const auto falls = [&](const std::string &one, const std::string &next) { return order(one.c_str(), next.c_str()) >= 0; };
        return std::adjacent_find(entries.begin(), entries.end(), falls) == entries.end();
    }
    std::uint32_t keys_;
    std::size_t longest_;
};
} // namespace hot_memtable
