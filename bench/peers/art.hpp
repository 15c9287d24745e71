// An adaptive radix tree with optimistic lock coupling: Leis, Scheibner, Kemper, Neumann, "The ART of Practical Synchronization" (DaMoN
// 2016), over Leis, Kemper, Neumann, "The Adaptive Radix Tree" (ICDE 2013).
//
// A node has 4, 16, 48 or 256 children. Paths are compressed: up to STORED bytes of a node's prefix stand in it. Writers and scans take
// the rest of a longer one from a leaf below; look-ups skip it, and compare the whole key at the leaf. Keys are any bytes: besides its
// children a node has a place for the key that ends there. Values are words in leaves {value, length, key}, changed by one atomic store.
// Removals shrink nodes, and join a node with its only child. Memory comes back by three epochs, with a seat for each thread.
#ifndef BENCH_ART_HPP
#define BENCH_ART_HPP

#include <algorithm>
#include <atomic>
#include <cstddef>
#include <cstdint>
#include <cstdlib>
#include <cstring>
#include <deque>
#include <immintrin.h>
#include <mutex>
#include <new>
#include <sched.h>
#include <utility>

namespace art {

constexpr auto relaxed = std::memory_order_relaxed;
constexpr auto acquire = std::memory_order_acquire;

struct leaf {
    std::atomic<uint64_t> value;
    uint32_t length;
    uint8_t key[];

    bool has(const uint8_t *bytes, size_t count) const { return length == count && !std::memcmp(key, bytes, count); }
};

struct node;

// What a node names: nothing (0), a node, or a leaf with its lowest bit set.
using link = uintptr_t;
inline bool is_leaf(link it) { return it & 1; }
inline leaf *leaf_of(link it) { return reinterpret_cast<leaf *>(it & ~link{1}); }
inline node *node_of(link it) { return reinterpret_cast<node *>(it); }
inline link link_to(leaf *it) { return reinterpret_cast<link>(it) | 1; }
inline link link_to(node *it) { return reinterpret_cast<link>(it); }

using slot = std::atomic<link>;
inline link load(const slot &it) { return it.load(relaxed); }
inline void store(slot &it, link to) { it.store(to, relaxed); }

enum kind : uint8_t { OF_4, OF_16, OF_48, OF_256 };
constexpr int ROOM[] = {4, 16, 48, 257};
enum { STORED = 11, SPINS = 64 };
enum : uint64_t { OBSOLETE = 1, LOCKED = 2 };

// What all nodes begin with. A function that changes a node is called under its lock; what one reads without it counts only if the version
// is still the one that was seen before.
struct node {
    std::atomic<uint64_t> version{4};
    std::atomic<leaf *> ending{nullptr};
    uint16_t prefix_length = 0, count = 0;
    kind type;
    uint8_t prefix[STORED];

    explicit node(kind type) : type(type) {}

    // Waits until the node isn't locked, and tells its version; false if it is obsolete.
    bool read(uint64_t &seen) {
        unsigned spins = 0;
        while ((seen = version.load(acquire)) & LOCKED) {
            if (++spins % SPINS == 0)
                sched_yield();
            else
                _mm_pause();
        }
        return !(seen & OBSOLETE);
    }
    bool is_still(uint64_t seen) {
        std::atomic_thread_fence(acquire);
        return version.load(relaxed) == seen;
    }
    bool lock(uint64_t seen) { return version.compare_exchange_strong(seen, seen + LOCKED); }
    void unlock() { version.fetch_add(LOCKED); }
    void unlock_as_obsolete() { version.fetch_add(LOCKED | OBSOLETE); }

    bool is_full() const { return count == ROOM[type]; }
    inline link child(uint8_t byte) const;
    // Adds a child whose byte is absent; there is room. Exchanges, removes one whose byte is there.
    inline void add(uint8_t byte, link to);
    inline void exchange(uint8_t byte, link to);
    inline void remove(uint8_t byte);
    // The first children with bytes from `from` on, `most` of them: how many there are.
    inline int children(unsigned from, int most, link *links, uint8_t *bytes) const;
};

// The bytes of children, rising, and their links.
template <int N, kind K> struct sorted_node : node {
    uint8_t bytes[N] = {};
    slot links[N] = {};

    sorted_node() : node(K) {}

    unsigned number() const { return std::min<unsigned>(count, N); }
    // The place of a byte, or N if it has none.
    unsigned place(uint8_t byte) const {
        if constexpr (N == 16) {
            const __m128i all = _mm_loadu_si128(reinterpret_cast<const __m128i *>(bytes));
            const unsigned found = _mm_movemask_epi8(_mm_cmpeq_epi8(_mm_set1_epi8(static_cast<char>(byte)), all)) & ((1u << number()) - 1);
            return found ? __builtin_ctz(found) : N;
        }
        for (unsigned at = 0; at < number(); at++) {
            if (bytes[at] == byte) return at;
        }
        return N;
    }
    link child_of(uint8_t byte) const {
        const unsigned at = place(byte);
        return at < N ? load(links[at]) : 0;
    }
    void add_child(uint8_t byte, link to) {
        int at = count;
        for (; at > 0 && bytes[at - 1] > byte; at--) {
            bytes[at] = bytes[at - 1];
            store(links[at], load(links[at - 1]));
        }
        bytes[at] = byte;
        store(links[at], to);
        count++;
    }
    void remove_child(uint8_t byte) {
        unsigned at = place(byte);
        for (count--; at < count; at++) {
            bytes[at] = bytes[at + 1];
            store(links[at], load(links[at + 1]));
        }
    }
    int children_from(unsigned from, int most, link *to, uint8_t *to_bytes) const {
        int found = 0;
        for (unsigned at = 0; at < number() && found < most; at++) {
            if (bytes[at] < from) continue;
            to_bytes[found] = bytes[at];
            to[found++] = load(links[at]);
        }
        return found;
    }
};
using node4 = sorted_node<4, OF_4>;
using node16 = sorted_node<16, OF_16>;

// The children of a node that finds each by its byte.
template <class N> inline int children_by_byte(const N *it, unsigned from, int most, link *to, uint8_t *to_bytes) {
    int found = 0;
    for (unsigned byte = from; byte < 256 && found < most; byte++) {
        if (const link child = it->child_of(static_cast<uint8_t>(byte))) {
            to_bytes[found] = static_cast<uint8_t>(byte);
            to[found++] = child;
        }
    }
    return found;
}

// For each byte the place of its link, or NOWHERE.
struct node48 : node {
    enum : uint8_t { NOWHERE = 255 };
    uint8_t places[256];
    slot links[48] = {};

    node48() : node(OF_48) { std::memset(places, NOWHERE, sizeof places); }

    link child_of(uint8_t byte) const { return places[byte] < 48 ? load(links[places[byte]]) : 0; }
    void add_child(uint8_t byte, link to) {
        unsigned at = count;
        if (load(links[at])) {
            for (at = 0; load(links[at]);) at++;
        }
        store(links[at], to);
        places[byte] = static_cast<uint8_t>(at);
        count++;
    }
    void remove_child(uint8_t byte) {
        store(links[places[byte]], 0);
        places[byte] = NOWHERE;
        count--;
    }
    int children_from(unsigned from, int most, link *to, uint8_t *to_bytes) const {
        return children_by_byte(this, from, most, to, to_bytes);
    }
};

struct node256 : node {
    slot links[256] = {};

    node256() : node(OF_256) {}

    link child_of(uint8_t byte) const { return load(links[byte]); }
    void add_child(uint8_t byte, link to) {
        store(links[byte], to);
        count++;
    }
    void remove_child(uint8_t byte) {
        store(links[byte], 0);
        count--;
    }
    int children_from(unsigned from, int most, link *to, uint8_t *to_bytes) const {
        return children_by_byte(this, from, most, to, to_bytes);
    }
};

// Calls a function on a node as what it is.
template <class F> inline auto as_its_kind(const node *it, F f) {
    switch (it->type) {
    case OF_4: return f(static_cast<node4 *>(const_cast<node *>(it)));
    case OF_16: return f(static_cast<node16 *>(const_cast<node *>(it)));
    case OF_48: return f(static_cast<node48 *>(const_cast<node *>(it)));
    default: return f(static_cast<node256 *>(const_cast<node *>(it)));
    }
}

inline link node::child(uint8_t byte) const {
    return as_its_kind(this, [=](auto *it) { return it->child_of(byte); });
}
inline void node::add(uint8_t byte, link to) {
    as_its_kind(this, [=](auto *it) { it->add_child(byte, to); });
}
inline void node::remove(uint8_t byte) {
    as_its_kind(this, [=](auto *it) { it->remove_child(byte); });
}
inline void node::exchange(uint8_t byte, link to) {
    switch (type) {
    case OF_4: return store(static_cast<node4 *>(this)->links[static_cast<node4 *>(this)->place(byte)], to);
    case OF_16: return store(static_cast<node16 *>(this)->links[static_cast<node16 *>(this)->place(byte)], to);
    case OF_48: return store(static_cast<node48 *>(this)->links[static_cast<node48 *>(this)->places[byte]], to);
    default: return store(static_cast<node256 *>(this)->links[byte], to);
    }
}
inline int node::children(unsigned from, int most, link *links, uint8_t *bytes) const {
    return as_its_kind(this, [=](auto *it) { return it->children_from(from, most, links, bytes); });
}

template <class N> inline N *made() {
    void *room = std::malloc(sizeof(N));
    if (!room) std::abort();
    return new (room) N();
}
inline leaf *made_leaf(const uint8_t *key, size_t length, uint64_t value) {
    leaf *it = static_cast<leaf *>(std::malloc(offsetof(leaf, key) + length));
    if (!it) std::abort();
    it->value.store(value, relaxed);
    it->length = static_cast<uint32_t>(length);
    std::memcpy(it->key, key, length);
    return it;
}

// All of a node but its child at `without`, if there is one, in a node of another size.
inline node *moved(const node *from, node *to, int without = -1) {
    link links[256];
    uint8_t bytes[256];
    const int count = from->children(0, 256, links, bytes);
    for (int at = 0; at < count; at++) {
        if (bytes[at] != without) to->add(bytes[at], links[at]);
    }
    to->ending.store(from->ending.load(relaxed), relaxed);
    to->prefix_length = from->prefix_length;
    std::memcpy(to->prefix, from->prefix, STORED);
    return to;
}
inline node *grown(const node *it) {
    return moved(it, it->type == OF_4    ? static_cast<node *>(made<node16>())
                     : it->type == OF_16 ? static_cast<node *>(made<node48>())
                                         : made<node256>());
}
inline node *shrunk(const node *it, uint8_t without) {
    return moved(it,
                 it->type == OF_16   ? static_cast<node *>(made<node4>())
                 : it->type == OF_48 ? static_cast<node *>(made<node16>())
                                     : made<node48>(),
                 without);
}

// Three epochs: what is retired in one is freed when the epoch is two further. A thread inside a call holds the epoch in which it entered,
// or the next.
struct alignas(128) seat {
    std::atomic<uint64_t> epoch{0};  // 0: outside of calls
    bool is_taken = false;
    unsigned retired = 0;
    std::deque<std::pair<uint64_t, void *>> limbo;
};
struct epochs {
    enum { SEATS = 72, OFTEN = 64 };
    alignas(128) std::atomic<uint64_t> now{1};
    seat seats[SEATS];
    std::mutex mutex;

    seat *take() {
        const std::lock_guard guard(mutex);
        for (auto &it : seats) {
            if (!it.is_taken) {
                it.is_taken = true;
                return &it;
            }
        }
        return nullptr;
    }
    void give(seat *it) {
        const std::lock_guard guard(mutex);
        it->is_taken = false;
    }
    // What was unlinked by a sequentially consistent step.
    void retire(seat *own, void *it) {
        own->limbo.emplace_back(now.load(), it);
        if (++own->retired % OFTEN == 0) collect(own);
    }
    void collect(seat *own) {
        uint64_t epoch = now.load();
        const auto holds_earlier = [&](const seat &it) {
            const uint64_t held = it.epoch.load();
            return held && held != epoch;
        };
        if (std::none_of(std::begin(seats), std::end(seats), holds_earlier)) now.compare_exchange_strong(epoch, epoch + 1);
        epoch = now.load();
        for (; !own->limbo.empty() && own->limbo.front().first + 2 <= epoch; own->limbo.pop_front()) std::free(own->limbo.front().second);
    }
};
// A call of a thread, from the first step to the last.
struct inside {
    seat *own;

    inside(epochs &all, seat *own) : own(own) { own->epoch.store(all.now.load(relaxed), std::memory_order_seq_cst); }
    inside(const inside &) = delete;
    ~inside() { own->epoch.store(0, std::memory_order_release); }
};

// Where a descent is: a node, the version that was seen, how many bytes of the key lie above it, and the node above with the byte that
// leads from there.
struct place {
    node *at, *above = nullptr;
    uint64_t seen = 0, seen_above = 0;
    size_t level = 0;
    uint8_t byte_above = 0;

    explicit place(node *root) : at(root) {}

    bool is_still() { return at->is_still(seen); }
    // Goes to a child, whose byte is the key's next one; false if the descent has to begin again.
    bool go_down(node *child, uint8_t byte) {
        uint64_t seen_below;
        if (!child->read(seen_below) || !is_still()) return false;
        above = at;
        seen_above = seen;
        byte_above = byte;
        at = child;
        seen = seen_below;
        level++;
        return true;
    }
    // Locks the node above and the node, or none.
    bool lock_both() {
        if (!above->lock(seen_above)) return false;
        if (at->lock(seen)) return true;
        above->unlock();
        return false;
    }
    // Puts another child in the node's place, which both locks cover.
    void replace_by(link to) {
        above->exchange(byte_above, to);
        above->unlock();
        at->unlock_as_obsolete();
    }
};

// How a try ends.
enum outcome { DONE, FOUND, AGAIN, DEEPER };

struct tree {
    epochs memory;
    node *root = made<node256>();

    tree() = default;
    tree(const tree &) = delete;
    ~tree() {
        free_below(root);
        for (auto &seat : memory.seats) {
            for (auto &it : seat.limbo) std::free(it.second);
        }
    }

    // The leaf of a key, or null.
    leaf *find(const uint8_t *key, size_t length) {
        leaf *found;
        while (search(key, length, found) == AGAIN) {
        }
        return found;
    }

    // Whether the key was there, and what it had; it has the value now if it was not, or if `replaces`.
    bool put(seat *own, const uint8_t *key, size_t length, uint64_t value, bool replaces, uint64_t &had) {
        insertion it{*this, own, key, length, value, nullptr};
        leaf *held = nullptr;
        outcome how;
        while ((how = it.try_once(held)) == AGAIN) {
        }
        if (how == DONE) return false;
        had = replaces ? held->value.exchange(value, std::memory_order_acq_rel) : held->value.load(acquire);
        std::free(it.mine);
        return true;
    }

    // Whether the key was there, and what it had.
    bool remove(seat *own, const uint8_t *key, size_t length, uint64_t &had) {
        leaf *gone = nullptr;
        outcome how;
        while ((how = try_to_remove(own, key, length, gone)) == AGAIN) {
        }
        if (!gone) return false;
        had = gone->value.load(acquire);
        memory.retire(own, gone);
        return true;
    }

    // Shows the leaves from a key on, in order, until `show` wants no other.
    template <class F> void scan(const uint8_t *key, size_t length, F show) {
        walk<F> it{key, length, false, show, nullptr};
        for (;;) {
            uint64_t seen;
            if (!root->read(seen)) continue;
            if (it.list(root, seen, 0, true) != AGAIN) return;
            if (it.last) {
                it.key = it.last->key;
                it.length = it.last->length;
                it.is_above = true;
            }
        }
    }

    // Counts the leaves, while nobody changes the tree.
    static size_t count_leaves(const node *it) {
        link links[256];
        uint8_t bytes[256];
        size_t count = it->ending.load() != nullptr;
        const int children = it->children(0, 256, links, bytes);
        for (int at = 0; at < children; at++) count += is_leaf(links[at]) ? 1 : count_leaves(node_of(links[at]));
        return count;
    }

private:
    static void free_below(node *it) {
        link links[256];
        uint8_t bytes[256];
        const int children = it->children(0, 256, links, bytes);
        std::free(it->ending.load());
        for (int at = 0; at < children; at++) {
            if (is_leaf(links[at]))
                std::free(leaf_of(links[at]));
            else
                free_below(node_of(links[at]));
        }
        std::free(it);
    }

    // What a node names for a key of which so many bytes lie above it: nothing if the key differs in the prefix, as far as that stands
    // there.
    __attribute__((always_inline)) static link next(const node *it, size_t &level, const uint8_t *key, size_t length) {
        if (const size_t whole = it->prefix_length) {
            const size_t stored = std::min<size_t>(whole, STORED);
            if (level + whole > length) return 0;
            for (size_t at = 0; at < stored; at++) {
                if (it->prefix[at] != key[level + at]) return 0;
            }
            level += whole;
        }
        if (level < length) return it->child(key[level]);
        leaf *ending = it->ending.load(relaxed);
        return ending ? link_to(ending) : 0;
    }

    // Searches for a key's leaf once.
    outcome search(const uint8_t *key, size_t length, leaf *&found) {
        node *it = root;
        uint64_t seen, seen_below;
        size_t level = 0;
        if (!it->read(seen)) return AGAIN;
        for (;; level++) {
            const link to = next(it, level, key, length);
            if (!it->is_still(seen)) return AGAIN;
            if (!to || is_leaf(to)) {
                found = to && leaf_of(to)->has(key, length) ? leaf_of(to) : nullptr;
                return DONE;
            }
            if (!node_of(to)->read(seen_below) || !it->is_still(seen)) return AGAIN;
            it = node_of(to);
            seen = seen_below;
        }
    }

    // Any leaf below a node; null if that has to be tried again.
    static leaf *any_below(node *it) {
        uint64_t seen;
        for (;;) {
            if (!it->read(seen)) return nullptr;
            leaf *ending = it->ending.load(relaxed);
            link to = 0;
            uint8_t byte;
            if (!ending) it->children(0, 1, &to, &byte);
            if (!it->is_still(seen) || (!ending && !to)) return nullptr;
            if (ending) return ending;
            if (is_leaf(to)) return leaf_of(to);
            it = node_of(to);
        }
    }

    // The bytes of a node's prefix, copied to `own` or in a leaf below; null if that has to be tried again.
    static const uint8_t *whole_prefix(node *it, uint64_t seen, size_t level, uint8_t *own) {
        std::memcpy(own, it->prefix, STORED);
        const size_t whole = it->prefix_length;
        if (!it->is_still(seen)) return nullptr;
        if (whole <= STORED) return own;
        const leaf *below = any_below(it);
        return below && it->is_still(seen) && below->length >= level + whole ? below->key + level : nullptr;
    }

    // A key that is put in. `mine` is its leaf, once that is wanted.
    struct insertion {
        tree &all;
        seat *own;
        const uint8_t *key;
        size_t length;
        uint64_t value;
        leaf *mine;

        leaf *fresh() { return mine = mine ? mine : made_leaf(key, length, value); }

        // Puts a leaf below a node, at this level of its key.
        static void hang(node *below, leaf *it, size_t level) {
            if (it->length == level)
                below->ending.store(it, relaxed);
            else
                below->add(it->key[level], link_to(it));
        }
        outcome try_once(leaf *&held) {
            place it(all.root);
            outcome how = AGAIN;
            if (!all.root->read(it.seen)) return AGAIN;
            while ((how = step(it, held)) == DEEPER) {
            }
            return how;
        }
        outcome step(place &it, leaf *&held) {
            const size_t whole = it.at->prefix_length;
            if (whole) {
                uint8_t stored[STORED];
                size_t same = 0;
                const uint8_t *prefix = whole_prefix(it.at, it.seen, it.level, stored);
                if (!prefix) return AGAIN;
                while (same < whole && it.level + same < length && prefix[same] == key[it.level + same]) same++;
                if (same < whole) return split_prefix(it, prefix, same);
                it.level += whole;
            }
            if (it.level == length) return end_here(it, held);
            const uint8_t byte = key[it.level];
            const link to = it.at->child(byte);
            if (!it.is_still()) return AGAIN;
            if (!to) return add_child(it, byte);
            if (!is_leaf(to)) return it.go_down(node_of(to), byte) ? DEEPER : AGAIN;
            held = leaf_of(to);
            return held->has(key, length) ? FOUND : split_leaf(it, byte, held);
        }
        // A new node above, for the bytes that both have.
        outcome split_prefix(place &it, const uint8_t *prefix, size_t same) {
            fresh();
            if (!it.lock_both()) return AGAIN;
            const size_t rest = it.at->prefix_length - same - 1;
            node *up = made<node4>();
            up->prefix_length = static_cast<uint16_t>(same);
            std::memcpy(up->prefix, prefix, std::min<size_t>(same, STORED));
            up->add(prefix[same], link_to(it.at));
            hang(up, mine, it.level + same);
            it.above->exchange(it.byte_above, link_to(up));
            std::memmove(it.at->prefix, prefix + same + 1, std::min<size_t>(rest, STORED));
            it.at->prefix_length = static_cast<uint16_t>(rest);
            it.at->unlock();
            it.above->unlock();
            return DONE;
        }
        // The key ends in a node.
        outcome end_here(place &it, leaf *&held) {
            held = it.at->ending.load(relaxed);
            if (!it.is_still()) return AGAIN;
            if (held) return FOUND;
            fresh();
            if (!it.at->lock(it.seen)) return AGAIN;
            it.at->ending.store(mine, relaxed);
            it.at->unlock();
            return DONE;
        }
        // A node has no child for the byte: it gets one, or a larger node takes its place.
        outcome add_child(place &it, uint8_t byte) {
            const bool is_full = it.at->is_full();
            fresh();
            if (!it.is_still()) return AGAIN;
            if (is_full) {
                if (!it.lock_both()) return AGAIN;
                node *larger = grown(it.at);
                larger->add(byte, link_to(mine));
                it.replace_by(link_to(larger));
                all.memory.retire(own, it.at);
                return DONE;
            }
            if (!it.at->lock(it.seen)) return AGAIN;
            it.at->add(byte, link_to(mine));
            it.at->unlock();
            return DONE;
        }
        // A leaf of another key stands there: a node takes its place, for the bytes that both have.
        outcome split_leaf(place &it, uint8_t byte, leaf *other) {
            fresh();
            if (!it.at->lock(it.seen)) return AGAIN;
            const size_t from = it.level + 1;
            size_t at = from;
            while (at < length && at < other->length && key[at] == other->key[at]) at++;
            node *low = made<node4>();
            low->prefix_length = static_cast<uint16_t>(at - from);
            std::memcpy(low->prefix, key + from, std::min<size_t>(at - from, STORED));
            hang(low, mine, at);
            hang(low, other, at);
            it.at->exchange(byte, link_to(low));
            it.at->unlock();
            return DONE;
        }
    };

    // Tries to remove a key: `gone` is its leaf then.
    outcome try_to_remove(seat *own, const uint8_t *key, size_t length, leaf *&gone) {
        place it(root);
        if (!root->read(it.seen)) return AGAIN;
        for (;;) {
            const link to = next(it.at, it.level, key, length);
            const bool ends = it.level == length;
            const uint8_t byte = ends ? 0 : key[it.level];
            if (!it.is_still()) return AGAIN;
            if (!to || (is_leaf(to) && !leaf_of(to)->has(key, length))) return DONE;
            if (is_leaf(to)) {
                if (!take_out(own, it, ends, byte)) return AGAIN;
                gone = leaf_of(to);
                return DONE;
            }
            if (!it.go_down(node_of(to), byte)) return AGAIN;
        }
    }

    // Takes a leaf out of a node: what ends there, or the child at a byte. A node with one thing left goes, and one with few shrinks.
    bool take_out(seat *own, place &it, bool ends, uint8_t byte) {
        const unsigned count = it.at->count, all = count + (it.at->ending.load(relaxed) != nullptr);
        static constexpr unsigned few[] = {0, 4, 13, 38};
        if (!it.is_still()) return false;
        if (it.at != root && all == 2) return join(own, it, ends, byte);
        if (it.at != root && !ends && it.at->type != OF_4 && count <= few[it.at->type]) {
            if (!it.lock_both()) return false;
            it.replace_by(link_to(shrunk(it.at, byte)));
            memory.retire(own, it.at);
            return true;
        }
        if (!it.at->lock(it.seen)) return false;
        if (ends)
            it.at->ending.store(nullptr, relaxed);
        else
            it.at->remove(byte);
        it.at->unlock();
        return true;
    }

    // Puts what is left of a node in its place; a node that is left takes its prefix over.
    bool join(seat *own, place &it, bool ends, uint8_t byte) {
        if (!it.lock_both()) return false;
        link left = 0, links[2];
        uint8_t byte_of_left = 0, bytes[2];
        const int children = it.at->children(0, 2, links, bytes);
        leaf *ending = it.at->ending.load(relaxed);
        if (ending && !ends) left = link_to(ending);
        for (int at = 0; at < children && !left; at++) {
            if (!ends && bytes[at] == byte) continue;
            left = links[at];
            byte_of_left = bytes[at];
        }
        if (!is_leaf(left) && !prepend(node_of(left), it.at, byte_of_left)) {
            it.at->unlock();
            it.above->unlock();
            return false;
        }
        it.replace_by(left);
        memory.retire(own, it.at);
        return true;
    }

    // Puts the prefix of a node and a byte before that of its child; false if the child is locked.
    static bool prepend(node *child, const node *above, uint8_t byte) {
        const uint64_t seen = child->version.load();
        if (seen & (LOCKED | OBSOLETE) || !child->lock(seen)) return false;
        uint8_t joined[2 * STORED + 1];
        const size_t stored = std::min<size_t>(above->prefix_length, STORED);
        std::memcpy(joined, above->prefix, stored);
        if (stored == above->prefix_length) {
            joined[stored] = byte;
            std::memcpy(joined + stored + 1, child->prefix, STORED);
        }
        child->prefix_length = static_cast<uint16_t>(child->prefix_length + above->prefix_length + 1);
        std::memcpy(child->prefix, joined, STORED);
        child->unlock();
        return true;
    }

    // A scan from a key on, or of what is above it.
    template <class F> struct walk {
        const uint8_t *key;
        size_t length;
        bool is_above;
        F show;
        leaf *last;

        bool shows(leaf *it) {
            last = it;
            return show(it);
        }
        // Whether a leaf on the path of the key is before the first that is wanted.
        bool is_before(const leaf *it) const {
            int order = std::memcmp(it->key, key, std::min<size_t>(it->length, length));
            if (!order) order = it->length < length ? -1 : it->length > length;
            return order < 0 || (!order && is_above);
        }
        // Lists all below a node, or, where its path is the key's, what is wanted: DONE if more may follow, FOUND at the end.
        outcome list(node *it, uint64_t seen, size_t level, bool is_on_path) {
            const size_t whole = it->prefix_length;
            if (is_on_path && whole) {
                uint8_t stored[STORED];
                const uint8_t *prefix = whole_prefix(it, seen, level, stored);
                if (!prefix) return AGAIN;
                for (size_t at = 0; is_on_path && at < whole; at++) {
                    if (level + at >= length || prefix[at] > key[level + at])
                        is_on_path = false;
                    else if (prefix[at] < key[level + at])
                        return DONE;
                }
            }
            level += whole;
            leaf *ending = it->ending.load(relaxed);
            unsigned from = 0, edge = 256;
            if (is_on_path && level >= length) {  // The key ends here.
                if (is_above) ending = nullptr;
            } else if (is_on_path) {
                ending = nullptr;
                from = edge = key[level];
            }
            if (!it->is_still(seen)) return AGAIN;
            if (ending && !shows(ending)) return FOUND;
            return list_children(it, seen, level, from, edge);
        }
        outcome list_children(node *it, uint64_t seen, size_t level, unsigned from, unsigned edge) {
            for (;;) {
                link links[16];
                uint8_t bytes[16];
                const int count = it->children(from, 16, links, bytes);
                if (!it->is_still(seen)) return AGAIN;
                for (int at = 0; at < count; at++) __builtin_prefetch(reinterpret_cast<void *>(links[at] & ~link{1}));
                for (int at = 0; at < count; at++) {
                    const outcome how = list_child(it, seen, level, links[at], bytes[at] == edge);
                    if (how != DONE) return how;
                }
                if (count < 16 || bytes[15] == 255) return DONE;
                from = bytes[15] + 1u;
            }
        }
        __attribute__((always_inline)) outcome list_child(node *it, uint64_t seen, size_t level, link to, bool is_on_path) {
            if (is_leaf(to)) return (is_on_path && is_before(leaf_of(to))) || shows(leaf_of(to)) ? DONE : FOUND;
            uint64_t seen_below;
            if (!node_of(to)->read(seen_below) || (is_on_path && !it->is_still(seen))) return AGAIN;
            return list(node_of(to), seen_below, level + 1, is_on_path);
        }
    };
};

}  // namespace art

#endif
