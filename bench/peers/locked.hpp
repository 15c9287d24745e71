// A map of one thread under a reader-writer lock: M does each call, and the lock guards it.
#ifndef BENCH_LOCKED_HPP
#define BENCH_LOCKED_HPP

#include "peer.hpp"
#include <mutex>
#include <shared_mutex>

template <class M> struct locked {
    M map;
    std::shared_mutex lock;
};

template <class M> struct locked_hand {
    locked<M> &all;

    explicit locked_hand(locked<M> &all) : all(all) {}

    bool look_up(const key &key, uint64_t &had) {
        std::shared_lock guard(all.lock);
        return all.map.look_up(key, had);
    }
    bool insert(const key &key, uint64_t &had) {
        std::unique_lock guard(all.lock);
        return all.map.insert(key, had);
    }
    bool upsert(const key &key, uint64_t &had) {
        std::unique_lock guard(all.lock);
        return all.map.upsert(key, had);
    }
    bool take_out(const key &key, uint64_t &had) {
        std::unique_lock guard(all.lock);
        return all.map.take_out(key, had);
    }
    void list(const key &from, page &page) {
        std::shared_lock guard(all.lock);
        all.map.list(from, page);
    }
};

#endif
