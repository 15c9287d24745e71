// Tests of hot::map: random calls beside std::map, what iterators keep, what is thrown, and threads that read what others replace and erase.
//
//     HOT_MAP_OBJECTS=10000000 map    so many objects, by four threads, and how long that took; nothing else
#include "hot.hpp"
#include "check.h"
#include <chrono>
#include <cstdlib>
#include <map>
#include <random>

// An object that tells whether it is there, and counts those that are.
static std::atomic<long> alive = 0;
class watched {
  public:
    explicit watched(long of) : number_(of) { alive++; }
    watched(const watched &other) : number_(other.number()) {
        if (number_ < 0)
            throw number_;
        alive++;
    }
    watched &operator=(const watched &) = delete;
    ~watched() {
        CHECK(canary_ == there);
        canary_ = 0;
        alive--;
    }
    long number() const {
        CHECK(canary_ == there);
        return number_;
    }

  private:
    static constexpr std::uint64_t there = 0x1234567890abcdef;
    std::uint64_t canary_ = there;
    long number_;
};

template <class Error, class Call> static bool throws(Call call) {
    try {
        (void)call();
    } catch (const Error &) {
        return true;
    }
    return false;
}

// ---- Random calls ----

using mixed = std::tuple<int, std::string>;
using model = std::map<mixed, long>;

template <class Pairs> static std::vector<std::pair<mixed, long>> listed(Pairs begin, Pairs end) {
    std::vector<std::pair<mixed, long>> found;
    for (; begin != end; ++begin) {
        if constexpr (std::is_same_v<Pairs, model::const_iterator>)
            found.emplace_back(*begin);
        else
            found.emplace_back(begin->first, begin->second.number());
    }
    return found;
}

static void change(hot::map<mixed, watched> &map, model &beside, const mixed &at, long number, unsigned long kind) {
    const auto had = beside.find(at);
    const bool is_there = had != beside.end();
    if (kind == 0) {
        const auto [where, is_new] = map.insert({at, watched(number)});
        CHECK(is_new != is_there && where->first == at && where->second.number() == (is_there ? had->second : number));
        beside.emplace(at, number);
    } else if (kind == 1) {
        const auto [where, is_new] = map.insert_or_assign(at, watched(number));
        CHECK(is_new != is_there && where->second.number() == number);
        beside[at] = number;
    } else if (kind == 2) {
        const auto where = map.update(at, [&](const watched &one) { return watched(one.number() + number); });
        CHECK((where != map.end()) == is_there && (!is_there || where->second.number() == (had->second += number)));
    } else if (kind == 3) {
        CHECK(map.erase(at) == beside.erase(at));
    } else if (is_there) {
        const auto where = map.find(at);
        CHECK(map.erase(where) && !map.erase(where) && where->second.number() == had->second);
        beside.erase(had);
    }
}

static void test_random() {
    std::mt19937 random(1);
    hot::map<mixed, watched> map;
    model beside;
    const auto any = [&] { return mixed(static_cast<int>(random() % 7) - 3, std::string(random() % 4, "\0a\xff"[random() % 3])); };
    for (int turn = 0; turn < 20000; turn++) {
        const mixed one = any(), other = any();
        change(map, beside, one, static_cast<long>(random() % 100), random() % 5);
        CHECK(map.size() == beside.size() && map.contains(other) == (beside.count(other) == 1) && map.empty() == beside.empty());
        if (turn % 20 != 0)
            continue;
        const model &now = beside;
        CHECK(listed(map.begin(), map.end()) == listed(now.begin(), now.end()));
        CHECK(listed(map.lower_bound(one), map.end()) == listed(now.lower_bound(one), now.end()));
        CHECK(listed(map.upper_bound(one), map.end()) == listed(now.upper_bound(one), now.end()));
        const auto range = map.between(one, std::max(one, other));
        CHECK(listed(range.begin(), range.end()) == listed(now.lower_bound(one), now.lower_bound(std::max(one, other))));
    }
    CHECK(alive == static_cast<long>(beside.size()));
}

// ---- One thread: what is kept, and what is thrown ----

static void test_iterators() {
    hot::map<int, watched> map;
    for (int i = 0; i < 300; i++)
        map.emplace(i, i);
    auto kept = map.find(7), copy = kept;
    CHECK(map.erase(7) == 1 && map.erase(8) == 1 && alive == 299 && kept->second.number() == 7);
    kept = map.end();
    CHECK(alive == 299 && (copy++)->second.number() == 7);
    CHECK(copy->first == 9 && alive == 298);
    // Where an object was replaced meanwhile, its iterator doesn't erase the other one.
    CHECK(!map.insert_or_assign(9, watched(90)).second && !map.erase(copy) && map.find(9)->second.number() == 90);
    long sum = 0;
    for (const auto &[key, value] : map.between(100, 200))
        sum += value.number() - key + 1;
    CHECK(sum == 100 && map.between(5, 5).begin() == map.end() && map.between(9, 2).begin() == map.end());
    map.clear();
    // The iterator has fetched what comes next, too.
    CHECK(map.empty() && map.size() == 0 && alive <= 65 && copy->second.number() == 9 && (++copy)->second.number() == 10);
    copy = map.end();
    CHECK(alive == 0);
}

static void test_throws() {
    const auto number_of = [](auto where) { return where->second.number(); };
    hot::map<std::string, watched> map(100000);
    map.emplace("a", 1);
    const std::pair<const std::string, watched> bad("a", -1), fresh("b", -1);
    CHECK(throws<long>([&] { return map.insert(bad); }) && throws<long>([&] { return map.insert(fresh); }));
    CHECK(throws<long>([&] { return map.insert_or_assign("a", bad.second); }) && throws<long>([&] { return map.insert_or_assign("b", bad.second); }));
    CHECK(throws<long>([&] { return map.update("a", [&](const watched &) { return watched(bad.second); }); }));
    CHECK(map.size() == 1 && number_of(map.find("a")) == 1 && alive == 3);
    const std::string longest(238, 'a'), too_long = longest + 'a';
    CHECK(throws<std::length_error>([&] { return map.emplace(too_long, 1); }) && map.emplace(longest, 2).second);
    CHECK(map.find(too_long) == map.end() && map.erase(too_long) == 0 && !map.contains(too_long) && map.lower_bound(too_long) == map.end());
    CHECK(number_of(map.lower_bound("aa")) == 2 && map.upper_bound(longest) == map.end());
    // Until it is full.
    CHECK(throws<std::runtime_error>([&] {
        for (int i = 0;; i++)
            map.emplace(std::to_string(i), i);
    }));
    const auto size = static_cast<long>(map.size());
    CHECK(size > 500 && alive == size + 2 && !map.insert_or_assign("a", watched(5)).second);
    CHECK(alive == size + 2);
    map.clear();
    CHECK(alive == 2 && map.emplace("a", 1).second);
}

// An object whose destructor makes calls, and that can't be moved.
struct chained {
    hot::map<int, chained> &of;
    const int next;
    chained(hot::map<int, chained> &map, int number) : of(map), next(number) {}
    chained(const chained &) = delete;
    ~chained() {
        if (next > 0)
            of.erase(next);
    }
};

static void test_destructors() {
    hot::map<int, chained> map;
    for (int i = 0; i < 100; i++)
        map.emplace(std::piecewise_construct, std::tuple(i), std::forward_as_tuple(map, i < 99 ? i + 1 : 0));
    CHECK(map.size() == 100 && map.erase(0) == 1 && map.empty());
    hot::map<double, std::unique_ptr<int>> owners;
    owners.emplace(-0.5, std::make_unique<int>(1));
    owners.insert_or_assign(-0.5, std::make_unique<int>(2));
    CHECK(*owners.find(-0.5)->second == 2 && *owners.begin()->second == 2 && !owners.contains(0.5));
}

// ---- Threads ----

static void write(hot::map<int, watched> &map, unsigned seed, int turns, int keys) {
    std::mt19937 random(seed);
    for (int turn = 0; turn < turns; turn++) {
        const int key = static_cast<int>(random() % static_cast<unsigned>(keys));
        switch (random() % 6) {
        case 0:
        case 1: map.emplace(key, key); break;
        case 2: map.insert_or_assign(key, watched(key)); break;
        case 3: map.update(key, [&](const watched &one) { return watched(one.number() + keys); }); break;
        case 4: map.erase(key); break;
        default:
            if (const auto where = map.find(key); where != map.end())
                map.erase(where);
        }
    }
}

static void read(hot::map<int, watched> &map, int turns, int keys) {
    for (int turn = 0; turn < turns; turn++) {
        const int key = turn % keys;
        if (const auto where = map.find(key); where != map.end())
            CHECK(where->first == key && where->second.number() % keys == key);
        int last = -1;
        for (auto at = map.begin(); turn % keys == keys / 2 && at != map.end(); ++at) {
            CHECK(at->first > last && at->second.number() % keys == at->first);
            last = at->first;
        }
    }
}

// With few keys threads meet at them, and with many the index grows meanwhile.
static void test_threads(int turns, int keys) {
    {
        hot::map<int, watched> map;
        std::vector<std::thread> threads;
        for (unsigned of = 0; of < 2; of++) {
            threads.emplace_back([&map, of, turns, keys] { write(map, of, turns, keys); });
            threads.emplace_back([&map, turns, keys] { read(map, turns, keys); });
        }
        for (std::thread &one : threads)
            one.join();
        // Calls of this thread look after what others have left.
        for (int turn = 0; turn < std::max(2000, keys); turn++)
            map.insert_or_assign(turn % keys, watched(turn));
        CHECK(alive == keys && map.size() == static_cast<std::size_t>(keys));
    }
    CHECK(alive == 0);
}

// More threads than there are places for calls.
static void test_many_threads() {
    hot::map<int, watched> map;
    std::vector<std::thread> threads;
    for (int of = 0; of < 100; of++)
        threads.emplace_back([&map, of] {
            for (int i = 0; i < 20; i++)
                CHECK(map.emplace(i * 100 + of, of).second && map.find(i * 100 + of)->second.number() == of);
        });
    for (std::thread &one : threads)
        one.join();
    CHECK(map.size() == 2000);
}

// ---- Many objects ----

template <class Call> static void timed(const char *what, long count, Call call) {
    const auto begin = std::chrono::steady_clock::now();
    std::vector<std::thread> threads;
    for (long of = 0; of < 4; of++)
        threads.emplace_back([=] {
            for (long i = of; i < count; i += 4)
                call(static_cast<std::uint64_t>(i) * 0x9e3779b97f4a7c15);
        });
    for (std::thread &one : threads)
        one.join();
    const std::chrono::duration<double> took = std::chrono::steady_clock::now() - begin;
    std::printf("%s: %.1f s, %.0f ns for each of a thread's\n", what, took.count(), took.count() * 4e9 / static_cast<double>(count));
}

static void test_many(long count) {
    auto map = std::make_unique<hot::map<std::uint64_t, watched>>();
    timed("insert", count, [&](std::uint64_t key) { map->emplace(key, static_cast<long>(key >> 1)); });
    CHECK(alive == count && map->size() == static_cast<std::size_t>(count));
    timed("find", count, [&](std::uint64_t key) { CHECK(map->find(key)->second.number() == static_cast<long>(key >> 1)); });
    timed("replace", count, [&](std::uint64_t key) { map->insert_or_assign(key, watched(static_cast<long>(key >> 2))); });
    timed("erase every second", count, [&](std::uint64_t key) { CHECK(key % 2 == 0 || map->erase(key) == 1); });
    const auto begin = std::chrono::steady_clock::now();
    long seen = 0;
    for (const auto &[key, value] : *map)
        seen += value.number() == static_cast<long>(key >> 2);
    const auto middle = std::chrono::steady_clock::now();
    CHECK(seen == (count + 1) / 2);
    map.reset();
    const std::chrono::duration<double> list = middle - begin, end = std::chrono::steady_clock::now() - middle;
    std::printf("iterate: %.1f s; destroy: %.1f s\n", list.count(), end.count());
    CHECK(alive == 0);
}

int main() {
    alarm(900); // a call that doesn't return fails the test
    if (const char *count = std::getenv("HOT_MAP_OBJECTS")) {
        test_many(std::atol(count));
    } else {
        test_random();
        test_iterators();
        test_throws();
        test_destructors();
        test_threads(60000, 3);
        test_threads(20000, 5000);
        test_many_threads();
        CHECK(alive == 0);
        std::puts(failures ? "the test of hot::map failed" : "the test of hot::map passed");
    }
    return failures;
}
