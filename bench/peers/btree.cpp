// absl's B-tree, with its keys as strings, under a reader-writer lock. Debian: libabsl-dev.
#include "locked.hpp"
#include <absl/container/btree_map.h>
#include <absl/strings/string_view.h>
#include <string>
#include <utility>

namespace {

struct btree {
    absl::btree_map<std::string, uint64_t> pairs;

    // Debian's absl has a string_view of its own.
    static absl::string_view text(const key &key) { return {reinterpret_cast<const char *>(key.bytes), key.length}; }

    bool look_up(const key &key, uint64_t &had) {
        const auto it = pairs.find(text(key));
        if (it == pairs.end()) return false;
        had = it->second;
        return true;
    }
    // Where the key is there, its place; else it is put in.
    uint64_t *put(const key &key) {
        const auto it = pairs.lower_bound(text(key));
        if (it != pairs.end() && it->first == text(key)) return &it->second;
        pairs.emplace_hint(it, std::string(text(key)), key.number);
        return nullptr;
    }
    bool insert(const key &key, uint64_t &had) {
        const uint64_t *place = put(key);
        if (place) had = *place;
        return place;
    }
    bool upsert(const key &key, uint64_t &had) {
        uint64_t *place = put(key);
        if (place) had = std::exchange(*place, key.number);
        return place;
    }
    bool take_out(const key &key, uint64_t &had) {
        const auto it = pairs.find(text(key));
        if (it == pairs.end()) return false;
        had = it->second;
        pairs.erase(it);
        return true;
    }
    void list(const key &from, page &page) {
        for (auto it = pairs.lower_bound(text(from)); it != pairs.end(); ++it)
            if (!page.add(it->first.data(), it->first.size(), it->second)) return;
    }
};

}  // namespace

extern "C" const map btree_map = map_of<locked<btree>, locked_hand<btree>>("btree");
