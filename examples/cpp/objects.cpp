// A map of objects that threads read, replace and take out. A value is the address of an object that the map owns. Who takes one out keeps it
// with the moment of that, and frees it once all sections that were open then have been left: so a reader may use what it finds in its section.
#include <deque>
#include <hot.hpp>
#include <iostream>
#include <memory>
#include <string>
#include <thread>

struct account {
    std::string owner;
    long balance;
};

// The objects of a map that are out of it, and may still be read. Each thread that changes the map has its own.
class retired {
  public:
    void add(hot::handle &handle, std::uint64_t value) {
        waiting_.push_back({handle.retired(), std::unique_ptr<account>(reinterpret_cast<account *>(value))});
    }
    // Frees those that nobody reads any more, oldest first, and returns how many are left.
    std::size_t free_past(hot::handle &handle) {
        while (!waiting_.empty() && handle.is_past(waiting_.front().moment))
            waiting_.pop_front();
        return waiting_.size();
    }

  private:
    struct object {
        hot::retirement moment;
        std::unique_ptr<account> owned;
    };
    std::deque<object> waiting_;
};

// Puts an object in, in the place of another.
static bool put(hot::handle &handle, retired &old, std::string_view name, std::unique_ptr<account> one) {
    const hot::change made = handle.upsert(name, reinterpret_cast<std::uintptr_t>(one.get()));
    if (made.is_refused())
        return false;
    one.release(); // The map owns it now.
    if (made.had)
        old.add(handle, *made.had);
    return true;
}

static void take_out(hot::handle &handle, retired &old, std::string_view name) {
    const hot::change made = handle.remove(name);
    if (made.had)
        old.add(handle, *made.had);
}

// The balance of an account, read in a section.
static long balance(hot::handle &handle, std::string_view name) {
    const hot::section inside(handle);
    const auto value = handle.get(name);
    if (!value)
        return 0;
    const auto *found = reinterpret_cast<const account *>(*value);
    return found->owner == name ? found->balance : -1;
}

int main() {
    static constexpr int turns = 5000;
    static const std::string names[] = {"ada", "grace", "barbara", "frances"};
    hot::index index(1000, 16, 4);
    long wrong[2] = {0, 0};
    std::vector<std::thread> threads;
    for (long &seen : wrong)
        threads.emplace_back([&index, &seen] {
            hot::handle handle = index.open();
            for (int turn = 0; turn < turns; turn++)
                seen += balance(handle, names[turn % 4]) < 0;
        });
    for (int writer = 0; writer < 2; writer++)
        threads.emplace_back([&index, writer] {
            hot::handle handle = index.open();
            retired old;
            for (int turn = 0; turn < turns; turn++) {
                const std::string &name = names[turn % 2 * 2 + writer];
                if (turn % 5 == 4)
                    take_out(handle, old, name);
                else if (!put(handle, old, name, std::make_unique<account>(account{name, turn})))
                    break;
                old.free_past(handle);
            }
            while (old.free_past(handle) > 0)
                std::this_thread::yield();
        });
    for (std::thread &one : threads)
        one.join();
    // The map goes, with what it owns.
    hot::handle last = index.open();
    for (const std::string &name : names)
        if (const auto value = last.remove(name).had)
            delete reinterpret_cast<account *>(*value);
    std::cout << (wrong[0] + wrong[1] == 0 ? "each read found a whole object\n" : "an object was gone\n");
    return wrong[0] + wrong[1] != 0;
}
