// TBB's concurrent_map, a skip list whose calls take no lock. It removes nothing while others use it: `unsafe_erase` wants the map for
// itself, and takes longer the more keys there are. Debian: libtbb-dev.
#include "peer.hpp"
#include <atomic>
#include <functional>
#include <oneapi/tbb/concurrent_map.h>
#include <string>

namespace {

struct cell {
    std::atomic<uint64_t> value;
    cell(uint64_t value) : value(value) {}
};
using skip_list = tbb::concurrent_map<std::string, cell, std::less<>>;

struct hand {
    skip_list &all;

    explicit hand(skip_list &all) : all(all) {}

    // The key's cell, which is made if there is none; whether there was.
    cell *find(const key &key, bool &was_there) {
        auto it = all.find(bytes_of(key));
        was_there = it != all.end();
        if (!was_there) {
            const auto put = all.emplace(bytes_of(key), key.number);
            was_there = !put.second;
            it = put.first;
        }
        return &it->second;
    }
    bool look_up(const key &key, uint64_t &had) {
        const auto it = all.find(bytes_of(key));
        if (it == all.end()) return false;
        had = it->second.value.load();
        return true;
    }
    bool insert(const key &key, uint64_t &had) {
        bool was_there;
        const cell *at = find(key, was_there);
        if (was_there) had = at->value.load();
        return was_there;
    }
    bool upsert(const key &key, uint64_t &had) {
        bool was_there;
        cell *at = find(key, was_there);
        if (was_there) had = at->value.exchange(key.number);
        return was_there;
    }
    void list(const key &from, page &page) {
        for (auto it = all.lower_bound(bytes_of(from)); it != all.end(); ++it)
            if (!page.add(it->first.data(), it->first.size(), it->second.value.load())) return;
    }
};

}  // namespace

extern "C" const map skip_list_map = map_of<skip_list, hand>("skip list");
