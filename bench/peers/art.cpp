// The adaptive radix tree of art.hpp: a hand is a seat among its epochs.
#include "art.hpp"
#include "peer.hpp"

namespace {

struct hand {
    art::tree &all;
    art::seat *seat;

    explicit hand(art::tree &all) : all(all), seat(all.memory.take()) {
        if (!seat) std::abort();
    }
    hand(const hand &) = delete;
    ~hand() { all.memory.give(seat); }

    bool look_up(const key &key, uint64_t &had) {
        const art::inside inside(all.memory, seat);
        const art::leaf *leaf = all.find(key.bytes, key.length);
        if (leaf) had = leaf->value.load(std::memory_order_acquire);
        return leaf;
    }
    bool insert(const key &key, uint64_t &had) {
        const art::inside inside(all.memory, seat);
        return all.put(seat, key.bytes, key.length, key.number, false, had);
    }
    bool upsert(const key &key, uint64_t &had) {
        const art::inside inside(all.memory, seat);
        return all.put(seat, key.bytes, key.length, key.number, true, had);
    }
    bool take_out(const key &key, uint64_t &had) {
        const art::inside inside(all.memory, seat);
        return all.remove(seat, key.bytes, key.length, had);
    }
    void list(const key &from, page &page) {
        const art::inside inside(all.memory, seat);
        all.scan(from.bytes, from.length,
                 [&](const art::leaf *leaf) { return page.add(leaf->key, leaf->length, leaf->value.load(std::memory_order_acquire)); });
    }
};

}  // namespace

extern "C" const map art_map = map_of<art::tree, hand>("ART");
