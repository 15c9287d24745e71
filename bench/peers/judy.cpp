// Judy arrays under a reader-writer lock: JudyL where all keys have eight bytes, else JudySL, whose keys have no zero bytes. Debian:
// libjudy-dev.
#include "locked.hpp"
#include <Judy.h>

namespace {

struct judy {
    // The keys of eight bytes, and the others. A value is kept as one more, since 0 tells a new place.
    void *words = nullptr, *texts = nullptr;

    judy() = default;
    judy(const judy &) = delete;
    ~judy() {
        JudyLFreeArray(&words, nullptr);
        JudySLFreeArray(&texts, nullptr);
    }

    static Word_t word(const key &key) {
        uint64_t word;
        std::memcpy(&word, key.bytes, 8);
        return __builtin_bswap64(word);
    }
    // A key with the zero at its end that JudySL wants.
    struct text {
        uint8_t bytes[MAP_LONGEST + 1];
        explicit text(const key &key) {
            std::memcpy(bytes, key.bytes, key.length);
            bytes[key.length] = 0;
        }
    };

    uint64_t *place(const key &key) {
        return reinterpret_cast<uint64_t *>(key.length == 8 ? JudyLGet(words, word(key), nullptr)
                                                            : JudySLGet(texts, text(key).bytes, nullptr));
    }
    uint64_t *made_place(const key &key) {
        return reinterpret_cast<uint64_t *>(key.length == 8 ? JudyLIns(&words, word(key), nullptr)
                                                            : JudySLIns(&texts, text(key).bytes, nullptr));
    }
    bool look_up(const key &key, uint64_t &had) {
        const uint64_t *at = place(key);
        if (at) had = *at - 1;
        return at;
    }
    bool insert(const key &key, uint64_t &had) {
        uint64_t *at = made_place(key);
        const bool was_there = *at != 0;
        if (was_there)
            had = *at - 1;
        else
            *at = key.number + 1ull;
        return was_there;
    }
    bool upsert(const key &key, uint64_t &had) {
        uint64_t *at = made_place(key);
        const bool was_there = *at != 0;
        if (was_there) had = *at - 1;
        *at = key.number + 1ull;
        return was_there;
    }
    bool take_out(const key &key, uint64_t &had) {
        if (!look_up(key, had)) return false;
        if (key.length == 8)
            JudyLDel(&words, word(key), nullptr);
        else
            JudySLDel(&texts, text(key).bytes, nullptr);
        return true;
    }
    void list(const key &from, page &page) {
        if (from.length == 8) {
            Word_t at = word(from);
            for (void **it = JudyLFirst(words, &at, nullptr); it; it = JudyLNext(words, &at, nullptr)) {
                const uint64_t bytes = __builtin_bswap64(at);
                if (!page.add(&bytes, 8, reinterpret_cast<uint64_t>(*it) - 1)) return;
            }
        } else {
            text at(from);
            for (void **it = JudySLFirst(texts, at.bytes, nullptr); it; it = JudySLNext(texts, at.bytes, nullptr))
                if (!page.add(at.bytes, std::strlen(reinterpret_cast<char *>(at.bytes)), reinterpret_cast<uint64_t>(*it) - 1)) return;
        }
    }
};

}  // namespace

extern "C" const map judy_map = map_of<locked<judy>, locked_hand<judy>>("judy");
