// A log-structured store, whose key directory is the index. Values lie in a log, which only grows; the index has the place of each key's
// last record: twice its offset, and one more if the record deletes the key. Several threads may write and read at once.
//
//     store LOG THREADS     put KEY VALUE     get KEY     del KEY     list PREFIX     fill COUNT
//
// A put is in the log when it returns; a store that must outlive the machine calls fdatasync, too.
#include <hot.hpp>
#include <algorithm>
#include <atomic>
#include <cstdio>
#include <cstring>
#include <fcntl.h>
#include <future>
#include <iostream>
#include <mutex>
#include <sstream>
#include <system_error>
#include <unistd.h>

// No record goes from one block of the log into the next, so that threads can read the blocks of a log side by side.
static constexpr std::size_t block = 1 << 16;

struct head {
    std::uint32_t sum, key, value, is_deletion;
};

struct record {
    std::string_view key, value;
    bool is_deletion = false;

    std::size_t size() const { return sizeof(head) + key.size() + value.size(); }

    std::string bytes() const {
        head it{0, static_cast<std::uint32_t>(key.size()), static_cast<std::uint32_t>(value.size()), is_deletion};
        std::string all = std::string(reinterpret_cast<const char *>(&it), sizeof it).append(key).append(value);
        it.sum = sum_of(all);
        return all.replace(0, sizeof it.sum, reinterpret_cast<const char *>(&it.sum), sizeof it.sum);
    }

    // The record with which these bytes begin, if it is whole.
    static std::optional<record> read(std::string_view bytes) {
        head it;
        if (bytes.size() < sizeof it)
            return std::nullopt;
        std::memcpy(&it, bytes.data(), sizeof it);
        if (it.key == 0 || it.key > HOT_MAX_KEY || it.value > block || bytes.size() < sizeof it + it.key + it.value)
            return std::nullopt;
        if (it.sum != sum_of(bytes.substr(0, sizeof it + it.key + it.value)))
            return std::nullopt;
        return record{bytes.substr(sizeof it, it.key), bytes.substr(sizeof it + it.key, it.value), it.is_deletion != 0};
    }

  private:
    // FNV-1a over all of a record but its sum.
    static std::uint32_t sum_of(std::string_view bytes) {
        std::uint32_t sum = 2166136261;
        for (const unsigned char byte : bytes.substr(sizeof(head::sum)))
            sum = (sum ^ byte) * 16777619;
        return sum;
    }
};

class store {
  public:
    // A thread's way to the store.
    class session {
      public:
        session(store &of) : of_(of), directory_(of.directory_.open()) {}

        void put(std::string_view key, std::string_view value) { change({key, value, false}); }
        void erase(std::string_view key) { change({key, {}, true}); }

        std::optional<std::string> get(std::string_view key) {
            const auto place = directory_.get(key);
            if (!place || *place % 2 == 1)
                return std::nullopt;
            const std::string bytes = of_.read(*place / 2);
            const auto it = record::read(bytes);
            if (!it || it->key != key)
                throw std::runtime_error("the log is damaged");
            return std::string(it->value);
        }

        // The keys with a prefix, in order.
        template <class Each> void list(std::string_view prefix, Each each) {
            for (const auto [key, place] : directory_.scan_prefix(prefix))
                if (place % 2 == 0)
                    each(key);
        }

        // Takes block after block that no other thread has taken, and brings its records into the directory: up to one that was torn.
        void recover(std::atomic<std::uint64_t> &next_block) {
            for (;;) {
                const std::uint64_t start = block * next_block++;
                const std::string bytes = of_.read(start);
                if (bytes.empty())
                    return;
                std::size_t at = 0;
                while (const auto it = record::read(std::string_view(bytes).substr(at))) {
                    point(*it, start + at);
                    at += it->size();
                }
                const std::lock_guard lock(of_.appends_);
                if (at > 0)
                    of_.end_ = std::max(of_.end_, start + at);
            }
        }

      private:
        void change(const record &it) {
            if (it.key.empty() || it.key.size() > HOT_MAX_KEY || it.size() > block)
                throw std::length_error("a key or value of this length can't be kept");
            point(it, of_.append(it.bytes()));
        }

        // Lets the directory have a key's record at this place, unless it has a later one. So it does not matter in which order threads
        // come here, after their appends or when they read a log again.
        void point(const record &it, std::uint64_t offset) {
            const std::uint64_t place = 2 * offset + it.is_deletion;
            hot::change made = directory_.insert(it.key, place);
            while (made.had < place && (made.what == hot::status::exists || made.what == hot::status::differs))
                made = directory_.exchange(it.key, *made.had, place);
            if (made.is_refused()) // it is in the log, and in the directory when the store is opened again
                throw std::runtime_error(made.text());
        }

        store &of_;
        hot::handle directory_;
    };

    // The directory grows: a record that is in the log has room when it is opened again, however many there are.
    store(const char *path, std::size_t threads) : directory_(hot::index::growing(threads + 1)), threads_(threads) {
        if (threads == 0) // nothing would be read of the log, and it would be written over
            throw std::invalid_argument("a store has one thread at least");
        file_ = ::open(path, O_RDWR | O_CREAT, 0666);
        if (file_ < 0)
            throw std::system_error(errno, std::generic_category(), path);
        std::atomic<std::uint64_t> next_block = 0;
        side_by_side([&](session &mine, std::size_t) { mine.recover(next_block); });
    }
    store(const store &) = delete;
    ~store() { ::close(file_); }

    // Has each thread do its part, which is told by its number. It throws what a thread has thrown.
    template <class Work> void side_by_side(Work work) {
        std::vector<std::future<void>> started;
        for (std::size_t of = 0; of < threads_; of++)
            started.push_back(std::async(std::launch::async, [this, work, of] {
                session mine(*this);
                work(mine, of);
            }));
        for (std::future<void> &one : started)
            one.get();
    }

    void fill(std::size_t count) {
        side_by_side([&](session &mine, std::size_t of) {
            for (std::size_t i = of; i < count; i += threads_) {
                char key[32];
                std::snprintf(key, sizeof key, "fill/%06zu", i);
                mine.put(key, "value " + std::to_string(i));
            }
        });
    }

  private:
    std::uint64_t append(const std::string &bytes) {
        const std::lock_guard lock(appends_);
        const std::uint64_t offset = end_ % block + bytes.size() <= block ? end_ : (end_ / block + 1) * block;
        if (::pwrite(file_, bytes.data(), bytes.size(), static_cast<off_t>(offset)) != static_cast<ssize_t>(bytes.size()))
            throw std::system_error(errno, std::generic_category(), "append");
        end_ = offset + bytes.size();
        return offset;
    }
    std::string read(std::uint64_t offset) const {
        std::string bytes(block, '\0');
        const ssize_t got = ::pread(file_, bytes.data(), bytes.size(), static_cast<off_t>(offset));
        if (got < 0)
            throw std::system_error(errno, std::generic_category(), "read");
        bytes.resize(static_cast<std::size_t>(got));
        return bytes;
    }

    int file_ = -1;
    hot::index directory_;
    std::size_t threads_;
    std::mutex appends_;
    std::uint64_t end_ = 0;
};

static void answer(store &all, store::session &mine, const std::string &line) {
    std::istringstream words(line);
    std::string verb, key, value;
    words >> verb >> key >> std::ws;
    std::getline(words, value);
    if (verb == "put")
        mine.put(key, value);
    else if (verb == "get")
        std::cout << mine.get(key).value_or("absent") << '\n';
    else if (verb == "del")
        mine.erase(key);
    else if (verb == "list")
        mine.list(key, [](std::string_view it) { std::cout << it << '\n'; });
    else if (verb == "fill")
        all.fill(std::stoul(key));
    else
        std::cout << "unknown command\n";
}

int main(int argc, char **argv) {
    try {
        if (argc != 3)
            throw std::runtime_error("usage: store LOG THREADS");
        store all(argv[1], std::stoul(argv[2]));
        store::session mine(all);
        for (std::string line; std::getline(std::cin, line);)
            answer(all, mine, line);
    } catch (const std::exception &error) {
        std::cerr << "store: " << error.what() << '\n';
        return 1;
    }
}
