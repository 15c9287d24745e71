// Makes a map of the measurements (bench/map.h) from C++ classes: one of the map, and one of a hand, which a thread uses it by.
#ifndef BENCH_PEER_HPP
#define BENCH_PEER_HPP

extern "C" {
#include "../map.h"
}
#include <cstring>
#include <string_view>

// The bytes of a key.
inline std::string_view bytes_of(const key &key) { return {reinterpret_cast<const char *>(key.bytes), key.length}; }

// Where a scan puts its pairs, packed.
struct page {
    uint8_t *bytes;
    hot_head *heads;
    size_t limit, count = 0;

    // Adds a pair, and returns whether there is place for another.
    bool add(const void *key, size_t length, uint64_t value) {
        std::memcpy(bytes, key, length);
        bytes += length;
        heads[count].length = static_cast<uint8_t>(length);
        heads[count].value = value;
        return ++count < limit;
    }
};

// A map M, of which H(M &) makes a hand.
template <class M, class H> constexpr map map_of(const char *name) {
    map made{};
    made.name = name;
    made.make = [](const hot_stock *, void **hands, int count) {
        M *all = new M;
        for (int place = 0; place < count; place++) hands[place] = new H(*all);
    };
    made.end = [](void **hands, int count) {
        M *all = &static_cast<H *>(hands[0])->all;
        for (int place = 0; place < count; place++) delete static_cast<H *>(hands[place]);
        delete all;
    };
    made.look_up = [](void *hand, const key *key, uint64_t *had) -> int { return static_cast<H *>(hand)->look_up(*key, *had); };
    made.insert = [](void *hand, const key *key, uint64_t *had) -> int { return static_cast<H *>(hand)->insert(*key, *had); };
    made.upsert = [](void *hand, const key *key, uint64_t *had) -> int { return static_cast<H *>(hand)->upsert(*key, *had); };
    if constexpr (requires { &H::take_out; })
        made.take_out = [](void *hand, const key *key, uint64_t *had) -> int { return static_cast<H *>(hand)->take_out(*key, *had); };
    made.list = [](void *hand, const key *from, uint8_t *bytes, hot_head *heads, size_t limit) -> size_t {
        page page{bytes, heads, limit};
        if (limit) static_cast<H *>(hand)->list(*from, page);
        return page.count;
    };
    return made;
}

#endif
