// Tests hot.hpp where memory is refused: each operator new of each call in turn. A refused call has changed nothing and keeps no memory.
#include "hot.hpp"
#include "check.h"
#include <climits>
#include <cstdlib>
#include <map>

// How many more times memory is given, and how many times it was given and isn't back.
static long given = LONG_MAX, held = 0;

// Not inline: a compiler that sees through them warns of what new and free have mixed.
[[gnu::noinline]] void *operator new(std::size_t size) {
    void *const at = given > 0 ? std::malloc(size ? size : 1) : nullptr;
    if (!at)
        throw std::bad_alloc();
    given--;
    held++;
    return at;
}
[[gnu::noinline]] void operator delete(void *at) noexcept {
    held -= at != nullptr;
    std::free(at);
}
void operator delete(void *at, std::size_t) noexcept { operator delete(at); }

using entries = std::vector<hot::entry>;

// Makes a call where memory is refused from the first time on, then from the second on, and so on, until it is made. Whenever it was
// refused, `look` finds what it found before. Returns how many times that was.
template <class Look, class Call> static long refused(Look look, Call call) {
    const entries before = look();
    for (long times = 0;; times++) {
        const long kept = held;
        given = times;
        try {
            (void)call();
            given = LONG_MAX;
            return times;
        } catch (const std::bad_alloc &) {
            given = LONG_MAX;
            CHECK(held <= kept && look() == before);
        }
    }
}

// Keys of more than fifteen bytes, which a std::string keeps in memory of its own.
static const std::string one = "the first of the keys", two = "the second of the keys", three = "the third of the keys";
static const std::string too_long(HOT_MAX_KEY + 1, 'a');
static const hot_stock stock = hot::stock_for_keys(100, 40);

static void test_look_ups(hot::handle &at) {
    const auto look = [&] { return at.scan().entries(); };
    const auto takes = [&](auto call) { return refused(look, call) > 0; };
    hot::packed page(10, 400);
    CHECK(!takes([&] { return at.get(one); }) && !takes([&] { return at.contains(one); }) && !takes([&] { return at.size(); }));
    CHECK(!takes([&] { return at.get(too_long); }) && !takes([&] { return at.remove(too_long); }) && takes([&] { return at.get_many({too_long}); }));
    CHECK(takes([&] { return at.get_many({one, "none"}); }) && takes([&] { return at.get_many({}); }));
    CHECK(takes([&] { return at.scan(one, two, 1).entries(); }) && takes([&] { return at.scan().entries(); }));
    CHECK(takes([&] { return at.scan_prefix("the").entries(); }) && takes([&] { return at.scan_prefix_reverse("the").entries(); }));
    CHECK(takes([&] { return at.scan_half_open(one, three).entries(); }) && takes([&] { return at.scan_reverse(one, three).entries(); }));
    CHECK(takes([&] { return at.scan_reverse().entries(); }) && takes([&] { return at.scan_last(one, three, 2).entries(); }));
    CHECK(!takes([&] { return at.scan_packed(one, three, page), 0; }) && !takes([&] { return at.scan_packed_reverse(one, three, page), 0; }));
    CHECK(takes([&] { return page.entries(); }) && takes([&] { return hot::packed(page); }) && takes([] { return hot::packed(1, 1); }));
    CHECK(!takes([&] { return at.count(one, three); }) && !takes([&] { return at.count_prefix("the"); }) && takes([&] { return at.values(one, three); }));
    CHECK(takes([&] { return at.first(); }) && takes([&] { return at.last(); }) && takes([&] { return at.last(two); }) && takes([&] { return at.empty(); }));
    CHECK(takes([] { return hot::after(one); }) && takes([] { return hot::before(one); }) && takes([] { return hot::key_of(one, 1); }));
    CHECK(takes([] { return hot::values_of<std::string>(hot::key_of(one)); }));
    CHECK(!takes([&] { return at.seek(two).next(); }) && !takes([&] { return at.seek(hot::greatest()).previous(); }));
    // An iterator stays where it is until the next page is there.
    hot::range all = at.scan(one, three, 2);
    auto last = ++all.begin();
    CHECK(refused([&] { return entries{*last}; }, [&] { return ++last; }) > 0 && last->key == three && ++last == all.end());
}

static void test_changes(hot::handle &at, hot::handle &other) {
    const auto look = [&] { return at.scan().entries(); };
    const auto takes = [&](auto call) { return refused(look, call) > 0; };
    CHECK(takes([&] { return at.pop_first(); }) && at.size() == 2 && takes([&] { return at.pop_last(one, three); }) && at.size() == 1);
    CHECK(!at.contains(one) && at.contains(two));
    CHECK(!takes([&] { return at.insert(one, 1); }) && !takes([&] { return at.upsert(three, 3); }) && !takes([&] { return at.remove(two); }));
    CHECK(!takes([&] { return at.exchange(one, 1, 4); }) && !takes([&] { return at.add(one, 1); }) && !takes([&] { return at.remove_if(three, 3); }));
    CHECK(!takes([&] { return at.try_insert(two, 2); }) && !takes([&] { return at.try_upsert(two, 2); }) && !takes([&] { return at.try_add(two, 2); }));
    CHECK(!takes([&] { return at.try_exchange(two, 4, 2); }) && !takes([&] { return at.try_remove_if(one, 5); }) && !takes([&] { return at.try_remove(one); }));
    CHECK(!takes([&] { return at.fetch_add(one, 1); }) && !takes([&] { return at.fetch_update(one, [](auto had) { return had; }); }));
    CHECK(!takes([&] { return at.copy_to(other), 0; }) && other.scan().entries() == look());
    CHECK(!takes([&] { return at.clear_range(one, one), 0; }) && !takes([&] { return at.clear(), 0; }) && at.empty());
}

static void test_handles(hot::index &index, hot::handle &at) {
    const auto look = [&] { return at.scan().entries(); };
    const auto takes = [&](auto call) { return refused(look, call) > 0; };
    const std::map<std::string, std::uint64_t> pairs{{one, 1}, {two, 2}};
    CHECK(takes([] { return hot::index(stock, 2); }) && takes([] { return hot::create(stock, 3); }));
    CHECK(takes([&] { return hot::index::load(stock, pairs); }) && takes([&] { return hot::index::load(stock, at.scan().entries()); }));
    CHECK(takes([&] { return index.open(); }) && takes([&] { return index.try_open(); }) && !takes([&] { return index.stats(); }));
    hot::handle other = index.open();
    CHECK(!takes([&] { return at.meet(other), 0; }) && !takes([&] { return other.follow(at.stamp()), 0; }) && !takes([&] { return at.collect(); }));
    CHECK(!takes([&] { return at.census(); }) && !takes([&] { return at.is_past(at.retired()); }) && !takes([&] { return hot::section(at), 0; }));
    CHECK(!takes([] { return hot::stock_bytes(stock); }) && !takes([&] { return other.close(), 0; }));
}

static void test_growing() {
    CHECK(refused([] { return entries(); }, [] { return std::make_unique<hot::growing>(stock, 2); }) > 0);
    hot::growing index(hot_stock{1, 0, 2, 0, 0, 0}, 2);
    hot::growing::user me(index), reader(index);
    const auto look = [&] { return reader.read([](hot::handle &at) { return at.scan().entries(); }); };
    for (const std::string &key : {one, two, three})
        CHECK(refused(look, [&] { return me.change([&](hot::handle &at) { return at.insert(key, 1); }); }) == 0 || key == three);
    CHECK(look() == (entries{{one, 1}, {two, 1}, {three, 1}}));
    CHECK(refused(look, [&] { return me.read([](hot::handle &at) { return at.get(one); }); }) == 0);
}

// A map of objects: also the objects that it was given are gone, or its own.
static void test_map() {
    hot::map<std::string, std::string> map;
    const auto look = [&] {
        entries all;
        for (const auto &[key, text] : map)
            all.push_back({key + text, 0});
        return all;
    };
    const auto takes = [&](auto call) { return refused(look, call) > 0; };
    CHECK(refused([] { return entries(); }, [] { return std::make_unique<hot::map<std::string, std::string>>(); }) > 0);
    CHECK(takes([&] { return map.emplace(one, two); }) && takes([&] { return map.insert({two, three}); }) && map.size() == 2);
    CHECK(takes([&] { return map.insert_or_assign(one, three); }) && takes([&] { return map.insert_or_assign(three, one); }) && map.size() == 3);
    CHECK(takes([&] { return map.update(one, [](const std::string &had) { return had + two; }); }) && map.find(one)->second == three + two);
    CHECK(takes([&] { return map.find(two); }) && takes([&] { return map.contains(two); }) && takes([&] { return map.lower_bound(two); }));
    CHECK(takes([&] { return map.upper_bound(one); }) && takes([&] { return map.between(one, three).begin(); }));
    for (auto at = map.begin(), end = map.end(); at != end;) {
        const std::string key = at->first;
        refused([&] { return entries{{at == end ? "" : at->first, 0}}; }, [&] { return ++at; });
        CHECK(at == end || at->first > key);
    }
    CHECK(takes([&] { return map.erase(two); }) && takes([&] { return map.erase(map.begin()); }) && takes([&] { return map.clear(), 0; }));
    CHECK(map.empty());
}

int main() {
    const long kept = held;
    {
        hot::index index(stock, 4);
        hot::handle at = index.open(), other = hot::index(stock, 1).open();
        for (const std::string &key : {one, two, three})
            CHECK(!at.insert(key, key.size()).is_refused());
        test_look_ups(at);
        test_handles(index, at);
        test_changes(at, other);
        test_growing();
        test_map();
    }
    CHECK(held == kept);
    std::puts(failures ? "the C++ test without memory failed" : "the C++ test without memory passed");
    return failures;
}
