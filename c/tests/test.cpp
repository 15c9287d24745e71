// Tests of the library from C++: what each call gives or throws, scans over several pages, moved handles, and threads that wait.
#include "hot.hpp"
#include "check.h"
#include <algorithm>
#include <array>
#include <atomic>
#include <cstdio>
#include <functional>
#include <map>
#include <thread>
#include <type_traits>
#include <unistd.h>
#if __cplusplus >= 202002L
#include <ranges>
#include <span>
static_assert(std::input_iterator<hot::range::iterator> && std::ranges::input_range<hot::range> && std::ranges::viewable_range<hot::range>);
static_assert(std::derived_from<std::ranges::range_value_t<hot::range>, hot::entry>);
static_assert(std::bidirectional_iterator<hot::packed::iterator> && std::ranges::bidirectional_range<const hot::packed>);
static_assert(std::ranges::sized_range<hot::packed> && std::ranges::common_range<hot::packed> && std::ranges::viewable_range<hot::packed &>);
static_assert(!std::ranges::borrowed_range<hot::packed> && std::convertible_to<hot::pair, hot::entry>);
static_assert(std::movable<hot::handle> && std::movable<hot::index> && std::default_initializable<hot::handle>);
static_assert(std::convertible_to<std::span<const std::byte>, hot::key_view> && !std::convertible_to<int, hot::key_view>);
#endif

template <class Error, class Call> static bool throws(Call call) {
    try {
        (void)call();
    } catch (const Error &) {
        return true;
    }
    return false;
}

static_assert(!std::is_copy_constructible_v<hot::handle> && std::is_nothrow_move_constructible_v<hot::handle>);
// Whether a call of a handle compiles, or of one that is a temporary.
#define COMPILES(NAME, ...)                                     \
    template <class, class = void> constexpr bool NAME = false; \
    template <class Of> constexpr bool NAME<Of, std::void_t<decltype(std::declval<Of>().__VA_ARGS__)>> = true
COMPILES(scans_all, scan());
COMPILES(scans, scan("a", "b"));
COMPILES(scans_prefix, scan_prefix("a"));
COMPILES(scans_prefix_reverse, scan_prefix_reverse("a"));
COMPILES(scans_half_open, scan_half_open("a", "b"));
COMPILES(scans_reverse, scan_reverse("a", "b"));
COMPILES(scans_all_reverse, scan_reverse());
COMPILES(scans_last, scan_last("a", "b", 1));
COMPILES(finds_text, contains("0"));
COMPILES(finds_number, contains(0));
COMPILES(finds_null, contains(nullptr));
COMPILES(finds_bytes, contains({"0", 1}));
COMPILES(finds_number_of_bytes, contains({0, 40}));
COMPILES(finds_null_of_bytes, contains({nullptr, 40}));
using open = hot::handle &;
static_assert(scans_all<open> && scans<open> && scans_prefix<open> && scans_prefix_reverse<open>);
static_assert(scans_half_open<open> && scans_reverse<open> && scans_all_reverse<open> && scans_last<open> && finds_text<open>);
// The range of a temporary handle would outlive it.
static_assert(!scans_all<hot::handle> && !scans<hot::handle> && !scans_prefix<hot::handle> && !scans_prefix_reverse<hot::handle>);
static_assert(!scans_half_open<hot::handle> && !scans_reverse<hot::handle> && !scans_all_reverse<hot::handle> && !scans_last<hot::handle>);
// A 0 would be a null pointer, where a key's text begins.
static_assert(!finds_number<open> && !finds_null<open>);
static_assert(finds_bytes<open> && !finds_number_of_bytes<open> && !finds_null_of_bytes<open>);
// Values that are narrower for some numbers. A load takes what fits.
template <class Value, class = void> constexpr bool loads = false;
template <class Value>
constexpr bool loads<Value, std::void_t<decltype(hot::index::load({}, std::declval<std::map<std::string, Value>>())),
                                        decltype(hot::index::load_growing(std::declval<std::map<std::string, Value> &>()))>> = true;
static_assert(loads<std::uint64_t> && loads<unsigned> && loads<unsigned char> && loads<bool> && loads<const unsigned long>);
static_assert(!loads<int> && !loads<long> && !loads<double> && !loads<float> && !loads<const char *>);
static_assert(std::is_same_v<std::iterator_traits<hot::range::iterator>::value_type, hot::entry>);
// A pair would keep the key of a page that is gone.
static_assert(!std::is_constructible_v<hot::pair, hot::range::item> && std::is_convertible_v<hot::range::item, hot::entry>);

static void test_calls() {
    auto handles = hot::create(100, 100, 2);
    hot::handle first = std::move(handles[0]);
    CHECK(!first.get("b"));
    CHECK(first.insert("b", 20).what == hot::status::inserted && first.get("b") == 20);
    CHECK(first.try_insert("b", 21).what == hot::status::exists && first.insert("b", 22).had == 20);
    const auto change = first.upsert({}, 10);
    CHECK(change.what == hot::status::added && !change.had && !change.is_refused() && first.get({}) == 10);
    CHECK(first.try_upsert("b", 23).had == 20 && handles[1].upsert("b", 24).what == hot::status::replaced);
    CHECK(first.try_remove("b").had == 24 && first.remove("b").what == hot::status::absent);
    const auto found = first.get_many({"b", {}});
    CHECK(found.size() == 2 && !found[0] && found[1] == 10 && first.get_many({}).empty());
    CHECK(first.census().long_leaves.obsolete == 1);
    CHECK(first.collect().leaves == 1 && first.census().long_leaves.free == 99);
    CHECK(throws<std::logic_error>([&] { return handles[0].get("b"); }));
    CHECK(throws<std::invalid_argument>([] { return hot::create(0, 10); }));
    CHECK(throws<std::invalid_argument>([] { return hot::create(10, 10, 1025); }));
    handles.clear();
    CHECK(first.get({}) == 10);
}

// A key that is too long is absent, and can't be put in.
static void test_long_keys() {
    hot::handle handle = hot::index(10, 8, 1).open();
    const std::string longest(HOT_MAX_KEY, 'a'), too_long = longest + 'a';
    CHECK(handle.insert({}, 1).what == hot::status::inserted);
    for (const std::string &key : {longest, too_long}) {
        CHECK(!handle.get(key) && !handle.contains(key) && handle.remove(key).what == hot::status::absent);
        CHECK(handle.try_remove(key).what == hot::status::absent && handle.add(key, 1).what == hot::status::absent);
        CHECK(handle.try_add(key, 1).what == hot::status::absent && handle.exchange(key, 1, 2).what == hot::status::absent);
        CHECK(handle.try_exchange(key, 1, 2).what == hot::status::absent && handle.remove_if(key, 1).what == hot::status::absent);
        const auto removed = handle.try_remove_if(key, 1);
        CHECK(removed.what == hot::status::absent && !removed.had);
        const auto found = handle.get_many({key, {}, key});
        CHECK(found.size() == 3 && !found[0] && found[1] == 1 && !found[2]);
        CHECK(!handle.fetch_update(key, [](auto had) { return had; }));
        CHECK(throws<std::length_error>([&] { return handle.insert(key, 1); }) && throws<std::length_error>([&] { return handle.upsert(key, 1); }));
        CHECK(throws<std::length_error>([&] { return handle.try_insert(key, 1); }) && throws<std::length_error>([&] { return handle.fetch_add(key, 1); }));
    }
    CHECK(throws<std::length_error>([&] { return handle.first(too_long); }) && throws<std::length_error>([&] { return handle.count({}, too_long); }));
}

// An index that opens handles one by one: a moved one goes on, a handle outlives its index, and there are no more than it has room for.
static_assert(!std::is_copy_constructible_v<hot::index> && std::is_nothrow_move_constructible_v<hot::index>);

static void test_index() {
    hot::index moved(hot::stock_for_keys(100, 8), 2);
    hot::index index = std::move(moved);
    hot::handle first = index.open();
    {
        hot::handle second = index.open();
        CHECK(throws<std::runtime_error>([&] { (void)index.open(); }));
        CHECK(first.insert("a", 5).what == hot::status::inserted && second.contains("a") && !second.contains("b"));
    }
    hot::handle third = index.open();
    CHECK(third.add("a", 3).had == 5 && third.try_add("a", 1).what == hot::status::replaced && third.get("a") == 9);
    CHECK(third.add("b", 1).what == hot::status::absent && third.insert("b", 1).what == hot::status::inserted && third.size() == 2);
    CHECK(third.first()->key == "a" && third.last()->value == 1 && third.last("a")->value == 9 && !third.first("c"));
    CHECK(to_string(hot::status::held_back) == hot_status_text(HOT_HELD_BACK));
    CHECK(throws<std::logic_error>([&] { (void)moved.open(); }));
    CHECK(throws<std::invalid_argument>([] { hot::index none(hot::stock_for_keys(1, 8), 0); }));
    { const hot::index gone = std::move(index); }
    CHECK(third.get("b") == 1);
}

// Handles that meet, and moments, also of another index, and where no handle is left for the first.
static void test_order() {
    hot::index index(hot::stock_for_keys(100, 8), 3), other(hot::stock_for_keys(100, 8), 2);
    hot::handle one = index.open(), two = index.open(), strange = other.open(), last = other.open();
    CHECK(!one.insert("a", 1).is_refused());
    one.meet(two);
    const hot::moment told = one.stamp(), copy = told;
    two.follow(copy);
    CHECK(two.get("a") == 1);
    CHECK(throws<std::invalid_argument>([&] { one.meet(strange); }) && throws<std::invalid_argument>([&] { strange.follow(told); }));
    CHECK(throws<std::runtime_error>([&] { (void)strange.stamp(); }) && throws<std::runtime_error>([&] { (void)index.open(); }));
    two.close();
    CHECK(throws<std::logic_error>([&] { one.meet(two); }) && throws<std::logic_error>([&] { (void)two.stamp(); }));
}

// Calls that expect a value: made, declined with the value that the key has, or absent.
static void test_expected() {
    auto handles = hot::create(100, 100);
    hot::handle &handle = handles[0];
    CHECK(handle.exchange("a", 1, 2).what == hot::status::absent && !handle.try_exchange("a", 1, 2).had);
    CHECK(!handle.insert("a", 1).is_refused());
    const auto other = handle.exchange("a", 2, 3);
    CHECK(other.what == hot::status::differs && other.had == 1 && !other.is_refused());
    const auto change = handle.exchange("a", 1, 2);
    CHECK(change.what == hot::status::exchanged && change.had == 1 && !change.is_refused() && handle.get("a") == 2);
    CHECK(handle.try_exchange("a", 2, 3).what == hot::status::exchanged && handle.try_remove_if("a", 2).had == 3);
    CHECK(handle.remove_if("a", 2).what == hot::status::differs && handle.remove_if("a", 3).had == 3 && !handle.get("a"));
    CHECK(handle.remove_if("a", 3).what == hot::status::absent);
}

static void test_full() {
    auto handles = hot::create(10, 1);
    CHECK(!handles[0].insert("a", 1).is_refused());
    const auto change = handles[0].insert("b", 2);
    CHECK(change.what == hot::status::full_leaves && change.is_refused() && !change.had);
    CHECK(std::string(change.text()) == hot_status_text(HOT_FULL_LEAVES));
    CHECK(handles[0].upsert("a", 2).had == 1 && handles[0].exchange("a", 2, 3).had == 2 && handles[0].try_add("a", 4).had == 3);
    hot::index index(hot_stock{10, 1, 0, 0, 0, 0}, 1);
    hot::handle handle = index.open();
    CHECK(index.stats().full == 0 && !handle.insert("a", 1).is_refused() && handle.insert("b", 2).is_refused());
    CHECK(throws<std::bad_alloc>([] { return hot::index(hot_stock{10, 1, 0, 0, 0, 0}, 1, 1000); }));
    CHECK(!hot::index(hot_stock{10, 1, 0, 0, 0, 0}, 1, SIZE_MAX).open().get("a"));
    const hot::index moved = std::move(index);
    CHECK(moved.stats().full == 1 && moved.stats().busy == 0 && moved.stats().held_back == 0);
    CHECK(moved.bytes().now > 0 && moved.bytes().now <= moved.bytes().most);
    CHECK(throws<std::logic_error>([&] { return index.stats(); }) && throws<std::logic_error>([&] { return index.bytes(); }));
}

// Small indexes are filled to their last node record, and emptied again.
static void test_filled() {
    for (std::uint32_t nodes = 1; nodes <= 100; nodes++) {
        auto handles = hot::create(nodes, 10000, nodes % 2 + 1);
        std::uint64_t number = nodes;
        hot::change change{hot::status::inserted, {}};
        do {
            number = number * 6364136223846793005u + 1442695040888963407u;
            change = handles[0].insert(std::string(reinterpret_cast<const char *>(&number), sizeof number), 1);
        } while (!change.is_refused());
        CHECK(change.what == hot::status::full_nodes && handles[0].size() >= 2);
        while (const auto first = handles[0].first())
            CHECK(handles[0].remove(first->key).what == hot::status::removed);
        CHECK(handles[0].empty());
    }
}

// Leaves of two sizes: a key takes the smallest with room that is free. And the stock for so many keys, and what it takes.
static void test_stock() {
    hot_stock stock = hot::stock_for_keys(7, 8);
    CHECK(stock.nodes == 3 && stock.short_leaves == 10 && !stock.medium_leaves && hot::stock_bytes(stock) == 2688);
    CHECK(hot::create(stock, 1024).size() == 1024);
    stock = hot::stock_for_any_keys(7, 8, 2);
    CHECK(stock.nodes == 7 + 2 * 145 && stock.short_leaves == 9 && !stock.medium_leaves);
    CHECK(throws<std::invalid_argument>([&] { return hot::stock_bytes(stock, 1025); }));
    CHECK(throws<std::invalid_argument>([&] { return hot::create(stock, 1025); }));
    stock.short_leaves = stock.medium_leaves = 1;
    auto handles = hot::create(stock);
    CHECK(handles.size() == 1 && !handles[0].insert(std::string(24, 'a'), 1).is_refused());
    CHECK(handles[0].insert(std::string(9, 'a'), 2).what == hot::status::full_leaves);
    CHECK(!handles[0].insert(std::string(8, 'a'), 3).is_refused() && handles[0].get(std::string(24, 'a')) == 1);
    stock.short_leaves = stock.medium_leaves = 0;
    CHECK(throws<std::invalid_argument>([&] { return hot::create(stock); }));
    // Of a number of more than 32 bits 5 would be left.
    std::size_t many = UINT32_MAX;
    CHECK(hot::stock_for_keys(many, 8).nodes > 1000000000);
    many += 6;
    CHECK(throws<std::invalid_argument>([&] { return hot::index(many, 8, 1); }));
    CHECK(throws<std::invalid_argument>([&] { return hot::create(many, 1); }));
    CHECK(throws<std::invalid_argument>([&] { return hot::stock_for_keys(many, 8); }));
    CHECK(throws<std::invalid_argument>([&] { return hot::stock_for_any_keys(many, 8, 1); }));
}

// A cursor goes up and down, finds no more at both ends, and goes on behind keys that are gone; with a handle that was moved, too.
static void test_cursors() {
    auto handles = hot::create(1000, 1000);
    hot::handle &handle = handles[0];
    CHECK(!handle.seek().next() && !handle.seek(hot::greatest()).previous());
    for (std::size_t length = 1; length <= 100; length++)
        CHECK(handle.insert(std::string(length, 'a'), length).what == hot::status::inserted);
    hot::cursor up = handle.seek(), down = handle.seek(hot::greatest()), within = handle.seek(std::string(50, 'a'));
    hot::handle moved = std::move(handle);
    for (std::size_t length = 1; length <= 100; length++) {
        CHECK(up.next().value().key == std::string(length, 'a') && down.previous().value().value == 101 - length);
        CHECK(moved.remove(std::string(length, 'a')).had == length && moved.insert(std::string(length, 'a'), length).had == std::nullopt);
    }
    CHECK(!up.next() && !down.previous() && up.previous().value().value == 99 && down.next().value().value == 2);
    CHECK(within.previous().value().value == 50 && within.next().value().value == 51);
    moved.clear();
    CHECK(!moved.seek().next() && throws<std::length_error>([&] { return moved.seek(std::string(HOT_MAX_KEY + 1, 'a')); }));
    CHECK(throws<std::logic_error>([&] { return handle.seek(); }));
}

// Keys of a, aa, .. to the greatest length, and one of the greatest length with other bytes: on each page, one goes on after its last;
// and so it is downwards.
static void test_scans() {
    auto handles = hot::create(1000, 1000);
    hot::handle &handle = handles[0];
    for (std::size_t length = 1; length <= HOT_MAX_KEY; length++)
        CHECK(handle.insert(std::string(length, 'a'), length).what == hot::status::inserted);
    CHECK(!handle.insert(std::string(HOT_MAX_KEY, '\xff'), HOT_MAX_KEY + 1).is_refused());
    for (const std::size_t page : {1, 2, 60, 241, 500}) {
        std::uint64_t count = 0;
        for (const auto [key, value] : handle.scan("a", std::string(HOT_MAX_KEY, '\xff'), page)) {
            CHECK(value == ++count && key.size() == (value <= HOT_MAX_KEY ? value : HOT_MAX_KEY));
            CHECK(handle.upsert(key, value).had == value);
        }
        CHECK(count == HOT_MAX_KEY + 1);
    }
    for (const std::size_t page : {1, 2, 60, 241, 500}) {
        std::uint64_t count = HOT_MAX_KEY + 1;
        for (const auto [key, value] : handle.scan_reverse("a", std::string(HOT_MAX_KEY, '\xff'), page)) {
            CHECK(value == count-- && key.size() == (value <= HOT_MAX_KEY ? value : HOT_MAX_KEY));
            CHECK(handle.upsert(key, value).had == value);
        }
        CHECK(count == 0);
    }
    for (const std::size_t count : {1, 2, 240, 500}) {
        std::uint64_t listed = 0, last = 0;
        for (const auto [key, value] : handle.scan_last("a", std::string(HOT_MAX_KEY, 'a'), count)) {
            CHECK(key.size() == value && (last == 0 || value == last + 1));
            last = value;
            listed++;
        }
        CHECK(last == HOT_MAX_KEY && listed == (count < HOT_MAX_KEY ? count : HOT_MAX_KEY));
    }
    hot::packed some(100, 30), all(HOT_MAX_KEY, HOT_MAX_KEY * HOT_MAX_KEY);
    CHECK(some.begin() == some.end() && some.size() == 0 && !some.has_more());
    for (const bool is_all : {false, true}) {
        hot::packed &page = is_all ? all : some;
        std::uint64_t last = 0;
        handle.scan_packed("a", std::string(HOT_MAX_KEY, 'a'), page);
        for (const auto [key, value] : page)
            CHECK(value == ++last && key == std::string(value, 'a'));
        CHECK(last == page.size() && last == (is_all ? HOT_MAX_KEY : 7) && page.has_more() == !is_all);
        handle.scan_packed_reverse("a", std::string(8, 'a'), page);
        last = 9;
        for (const auto [key, value] : page)
            CHECK(value == --last && key == std::string(value, 'a'));
        CHECK(page.size() == (is_all ? 8 : 5) && page.has_more() == !is_all);
    }
    std::uint64_t sum = 0;
    for (const auto it : handle.scan_prefix(std::string(238, 'a')))
        sum += it.value;
    CHECK(sum == 238 + 239 + 240);
    auto none = handle.scan("b", "c");
    CHECK(none.begin() == none.end());
    auto none_down = handle.scan_reverse("b", "c");
    CHECK(none_down.begin() == none_down.end() && (*handle.scan_reverse().begin()).value == HOT_MAX_KEY + 1);
    CHECK(throws<std::length_error>([&] { handle.scan(std::string(HOT_MAX_KEY + 1, 'a')).begin(); }));
}

// What stands at the ends, half-open ranges, and what is counted.
static void test_ends() {
    hot::handle handle = hot::index(100, HOT_MAX_KEY, 1).open();
    CHECK(!handle.first() && !handle.last() && handle.empty() && handle.size() == 0);
    const std::string long_key(HOT_MAX_KEY, '\xff'), too_long(HOT_MAX_KEY + 1, '\xff');
    for (const std::string &key : {std::string("a"), std::string("b"), std::string("b\0", 2), std::string("c"), long_key})
        CHECK(!handle.insert(key, key.size()).is_refused());
    CHECK(handle.first() == hot::entry{"a", 1} && handle.first("aa") == hot::entry{"b", 1} && !handle.empty());
    CHECK(handle.last()->key == long_key && handle.last("c") == hot::entry{"c", 1} && !handle.last({}) && handle.size() == 5);
    CHECK(handle.contains("b") && !handle.contains("ba"));
    const auto keys = [&](std::string_view from, std::string_view below) {
        std::string all;
        for (const auto &it : handle.scan_half_open(from, below).entries())
            all += it.key + ' ';
        return all;
    };
    CHECK(keys("a", "c") == std::string("a b b\0 ", 7) && keys("a", "b") == "a " && keys("a", std::string("b\0", 2)) == "a b ");
    CHECK(keys("", "").empty() && keys("b", "b").empty() && keys("c", "b").empty() && keys("c", long_key) == "c ");
    CHECK(keys("c", too_long) == "c " + long_key + ' ' && hot::before(too_long) == long_key && !hot::before({}));
    CHECK(hot::before("b") == "a" + std::string(HOT_MAX_KEY - 1, '\xff') && hot::before(std::string("b\0", 2)) == "b");
    CHECK(hot::after("b") == std::string("b\0", 2) && hot::after("b" + std::string(HOT_MAX_KEY - 1, '\xff')) == "c");
    CHECK(!hot::after(long_key) && !hot::after(too_long) && hot::after({}) == std::string(1, '\0'));
    CHECK(hot::to_string(hot::status::full_leaves) == hot_status_text(HOT_FULL_LEAVES));
    CHECK(hot::values_of<float>(hot::key_of(-1.5f)) == std::tuple(-1.5f) && hot::key_of(-1.5f) < hot::key_of(0.5f));
    CHECK(handle.pop_first() == hot::entry{"a", 1} && handle.pop_last({}, "c") == hot::entry{"c", 1} && !handle.pop_first("ba", "bb"));
    CHECK(handle.pop_first("b\1")->key == long_key && !handle.pop_last("c") && throws<std::length_error>([&] { return handle.pop_last(too_long); }));
    handle.clear_range("b", "b");
    CHECK(handle.pop_last() == hot::entry{std::string("b\0", 2), 2} && !handle.pop_last() && !handle.insert("a", 1).is_refused());
    handle.clear();
    CHECK(handle.empty());
}

// What is listed goes into containers and through algorithms, and keys come as strings and as bytes.
static void test_containers() {
    hot::handle handle = hot::index(100, 8, 1).open();
    const std::array<std::byte, 2> bytes{std::byte{'a'}, std::byte{'b'}};
    const std::vector<std::uint8_t> more{'a', 'c'};
    CHECK(handle.insert(bytes, 1).what == hot::status::inserted && handle.insert(more, 2).what == hot::status::inserted);
    CHECK(handle.get("ab") == 1 && handle.get(std::string("ac")) == 2);
    const std::array<std::string, 2> keys{"ac", "ad"};
    const std::vector<std::string_view> views{"ab"};
    CHECK(handle.get_many(keys) == (std::vector<std::optional<std::uint64_t>>{2, std::nullopt}) && handle.get_many(views).at(0) == 1);
    auto scan = handle.scan({}, hot::greatest(), 1);
    const std::vector copied(scan.begin(), scan.end());
    CHECK((copied == std::vector<hot::entry>{{"ab", 1}, {"ac", 2}}) && copied == handle.scan().entries());
    CHECK(scan.begin()->key == "ab" && (*scan.begin()++).value == 1);
    const auto found = std::find_if(scan.begin(), scan.end(), [](const auto &it) { return it.value == 2; });
    CHECK(found != scan.end() && found->key == "ac");
    std::map<std::string, std::uint64_t> map;
    std::for_each(scan.begin(), scan.end(), [&](const auto &it) { map.emplace(it.key, it.value); });
    CHECK(map.size() == 2 && map["ac"] == 2);
    hot::packed page(10, 100);
    handle.scan_packed({}, hot::greatest(), page);
    const std::vector<hot::pair> pairs(page.begin(), page.end());
    CHECK(pairs.size() == 2 && pairs[1].key == "ac" && !page.empty() && (--page.end())->key == "ac");
    hot::packed last(1, 2);
    handle.scan_packed_reverse({}, hot::greatest(), last);
    CHECK(last.size() == 1 && last.has_more() && (*last.begin()).key == "ac" && ++last.begin() == last.end());
    const std::vector<hot::entry> kept = last.entries();
    handle.scan_packed({}, "ab", last);
    CHECK((*last.begin()).key == "ab" && kept.size() == 1 && kept[0] == hot::entry{"ac", 2});
    // A page that is moved goes on, and leaves one that has no room. A copy is another page.
    hot::packed moved = std::move(page), copy(moved);
    CHECK(page.empty() && !page.has_more() && page.entries().empty() && moved.entries() == copied);
    handle.scan_packed({}, hot::greatest(), page);
    CHECK(page.empty() && page.has_more());
    handle.scan_packed_reverse({}, "aa", page);
    CHECK(page.empty() && !page.has_more());
    page = std::move(moved);
    handle.scan_packed({}, "ab", page);
    CHECK(moved.empty() && page.size() == 1 && copy.entries() == copied);
    handle.scan_packed({}, hot::greatest(), page);
    // Clang has views of other libraries from its version 16 on.
#if __cplusplus >= 202002L && (!defined __clang__ || __clang_major__ >= 16)
    CHECK(handle.get_many(std::span(keys)).at(0) == 2 && handle.get(std::span(bytes)) == 1);
    std::string all;
    for (const auto [key, value] : handle.scan() | std::views::filter([](const auto &it) { return it.value > 1; }))
        all.append(key);
    for (const auto [key, value] : page | std::views::reverse | std::views::take(1))
        all.append(key);
    std::ranges::for_each(scan, [&](const auto &it) { all.append(it.key); });
    CHECK(all == "acacabac");
    // Projections by members.
    using item = hot::range::item;
    auto both = handle.scan();
    CHECK(std::ranges::find(scan, "ac", &item::key)->value == 2 && std::ranges::count(scan, 1u, &item::value) == 1);
    const auto greatest = std::ranges::max(both, {}, &item::key), least = std::ranges::min(both, {}, &item::value);
    CHECK(greatest == hot::entry{"ac", 2} && static_cast<const item &>(greatest).key.data() == greatest.key.data());
    auto other = greatest;
    other = least;
    const auto [key, value] = other;
    CHECK(other == hot::entry{"ab", 1} && std::invoke(&item::key, other) == "ab" && key == "ab" && value == 1);
    CHECK(std::ranges::find(page, "ac", &hot::pair::key)->value == 2);
#endif
}

// Handles that are closed, moved and empty, and an index that takes the place of another.
static void test_handles() {
    hot::index index(hot::stock_for_keys(100, 8), 2);
    hot::handle one = index.open(), two = index.open(), none;
    CHECK(!index.try_open() && throws<std::runtime_error>([&] { return index.open(); }));
    CHECK(one && two && !none && throws<std::logic_error>([&] { return none.get("a"); }));
    CHECK(!two.insert("a", 1).is_refused());
    two.close();
    CHECK(!two && throws<std::logic_error>([&] { return two.get("a"); }));
    none = index.open();
    CHECK(none.get("a") == 1);
    hot::index moved = std::move(index);
    one = hot::handle();
    std::thread([&] { CHECK(moved.open().get("a") == 1); }).join();
    moved = hot::index(10, 8, 1);
    CHECK(none.get("a") == 1 && !moved.open().get("a"));
    CHECK(throws<std::invalid_argument>([] { return hot::index(10, 8, 0); }) && throws<std::invalid_argument>([] { return hot::index(10, 8, 1025); }));
}

// Four threads that change the same keys by handles of their own: none is told that it was busy, and each key ends with a value.
static void test_threads() {
    auto handles = hot::create(2000, 4000, 4);
    std::atomic<int> busy = 0;
    std::vector<std::thread> threads;
    for (hot::handle &handle : handles)
        threads.emplace_back([&handle, &busy] {
            for (std::uint64_t i = 0; i < 5000; i++)
                busy += handle.upsert(std::to_string(i % 100), i).what == hot::status::busy;
        });
    for (std::thread &thread : threads)
        thread.join();
    std::size_t count = 0;
    for (const auto [key, value] : handles[3].scan())
        count += std::to_string(value % 100) == key;
    CHECK(busy == 0 && count == 100);
}

// Four threads that add one to values by exchanges, each made again with the value that it was told, and by additions: none is lost.
static void test_counting() {
    auto handles = hot::create(10, 400, 4);
    CHECK(!handles[0].insert("sum", 0).is_refused());
    std::vector<std::thread> threads;
    for (hot::handle &handle : handles)
        threads.emplace_back([&handle] {
            for (int i = 0; i < 2000; i++) {
                (void)handle.fetch_add("added", 1);
                for (std::uint64_t seen = *handle.get("sum");;) {
                    const auto change = handle.exchange("sum", seen, seen + 1);
                    if (change.what == hot::status::exchanged)
                        break;
                    seen = change.had.value_or(seen);
                }
            }
        });
    for (std::thread &thread : threads)
        thread.join();
    CHECK(handles[0].get("sum") == 8000 && handles[0].get("added") == 8000 && handles[1].fetch_add("added", UINT64_MAX) == 8000);
}

// Its users have its address.
static_assert(!std::is_move_constructible_v<hot::growing> && !std::is_move_assignable_v<hot::growing>);

// Two threads put keys into an index that grows, and two find each key that was put in.
static void test_growing() {
    constexpr std::uint32_t many = 4000;
    hot::growing index(hot_stock{4, 20, 0, 0, 0, 0}, 4);
    std::atomic<std::uint32_t> written[2] = {0, 0}, wrong = 0;
    std::vector<std::thread> threads;
    for (std::uint8_t of = 0; of < 2; of++) {
        threads.emplace_back([&, of] {
            hot::growing::user me(index);
            for (std::uint32_t number = 0; number < many; written[of] = ++number)
                wrong += me.change([&](hot::handle &at) { return at.insert(hot::key_of(number, of), number); }).what != hot::status::inserted;
        });
        threads.emplace_back([&, of] {
            hot::growing::user me(index);
            for (std::uint32_t turn = 0, count = 0; count < many; turn++)
                if (count = written[of]; count == 0)
                    std::this_thread::yield();
                else
                    wrong += me.read([&](hot::handle &at) { return at.get(hot::key_of(turn % count, of)); }) != turn % count;
        });
    }
    for (std::thread &thread : threads)
        thread.join();
    hot::growing::user me(index);
    CHECK(wrong == 0 && me.read([](hot::handle &at) { return at.size(); }) == 2 * many);
    CHECK(me.change([](hot::handle &at) { return at.upsert("longer than 8 bytes", 1); }).what == hot::status::added);
    CHECK(throws<std::invalid_argument>([] { return hot::growing(hot_stock{4, 20, 0, 0, 0, 0}, 1024); }));
}

// Each change runs once, also where the index has grown for it, but one that is only tried. And what an index has besides, if it grows.
static void test_changes_once() {
    hot::growing index(hot_stock{4, 20, 0, 0, 0, 0}, 1);
    hot::growing::user me(index);
    std::uint32_t runs = 0, tried = 0;
    for (std::uint32_t number = 0; number < 1000; number++)
        CHECK(me.change([&](hot::handle &at) { return runs++, at.insert(hot::key_of(number), 1); }).what == hot::status::inserted);
    CHECK(runs == 1000);
    for (std::uint32_t number = 1000; number < 9000; number++)
        CHECK(me.change([&](hot::handle &at) { return tried++, at.try_insert(hot::key_of(number), 1); }).what == hot::status::inserted);
    CHECK(tried == 8000);
    hot::index grows = hot::index::growing(2), fixed(10, 8, 1), bounded = hot::index::growing(1, 100000);
    hot::handle handle = grows.open(), other = bounded.open();
    for (std::uint32_t number = 0; number < 1000; number++)
        CHECK(handle.insert(hot::key_of(number), number).what == hot::status::inserted);
    grows.grow_begin();
    CHECK(!grows.grow_step() && handle.get(hot::key_of(std::uint32_t{7})) == 7);
    const std::size_t large = handle.census().bytes;
    handle.clear();
    CHECK(throws<std::logic_error>([&] { grows.trim(); }));
    handle.close();
    grows.trim();
    handle = grows.open();
    CHECK(handle.empty() && handle.census().bytes < large / 4 && !grows.is_filling());
    grows.grow();
    hot::index loaded = hot::index::load_growing(std::vector<hot::entry>{{"a", 1}, {"b", 2}}, 1);
    CHECK(loaded.open().get("b") == 2);
    CHECK(throws<std::logic_error>([&] { fixed.grow(); }) && throws<std::logic_error>([&] { fixed.trim(); }) && !fixed.is_filling());
    std::uint32_t number = 0;
    while (!other.insert(hot::key_of(number), 1).is_refused())
        number++;
    CHECK(number > 500 && other.size() == number);
}

// A section holds back the moments of its time, and its handle can't be closed in it.
static void test_sections() {
    hot::index index(10, 8, 2), elsewhere(10, 8, 1);
    hot::handle one = index.open(), other = index.open(), foreign = elsewhere.open();
    hot::retirement moment = one.retired();
    CHECK(one.is_past(moment) && other.is_past(moment));
    CHECK(throws<std::invalid_argument>([&] { (void)foreign.is_past(moment); }));
    {
        const hot::section inside(one);
        CHECK(throws<std::logic_error>([&] { hot::section again(one); }));
        CHECK(throws<std::logic_error>([&] { one.close(); }));
        hot::handle moved = std::move(one);
        CHECK(moved.insert("a", 1).what == hot::status::inserted && other.is_past(moment));
        moment = other.retired();
        CHECK(!moved.is_past(moment) && !other.is_past(moment));
        one = std::move(moved);
    }
    CHECK(one.is_past(moment) && other.is_past(moment));
    one.close();
    CHECK(throws<std::logic_error>([&] { hot::section inside(one); }));
}

// A handle that goes inside its section, or is assigned to there, is closed when the section goes. So is one whose index has gone.
static void test_handles_inside() {
    hot::index index(10, 8, 2);
    hot::handle one = index.open(), other = index.open();
    auto inside = std::make_unique<hot::section>(one);
    const hot::retirement moment = other.retired();
    { const hot::handle gone = std::move(one); }
    CHECK(!other.is_past(moment) && !index.try_open());
    inside.reset();
    CHECK(other.is_past(moment));
    one = index.open();
    CHECK(one.insert("a", 1).what == hot::status::inserted);
    inside = std::make_unique<hot::section>(one);
    one = hot::handle();
    CHECK(!one && !index.try_open());
    inside.reset();
    CHECK(index.try_open());
    inside = std::make_unique<hot::section>(other);
    index = hot::index(10, 8, 1);
    other = index.open();
    inside.reset();
    CHECK(other.empty());
}

// Pairs of which the second one throws.
struct throwing {
    struct iterator {
        int at;
        hot::entry operator*() const { return at == 0 ? hot::entry{"a", 1} : throw std::domain_error("thrown"); }
        iterator &operator++() {
            ++at;
            return *this;
        }
        bool operator==(const iterator &other) const { return at == other.at; }
    };
    iterator begin() const { return {0}; }
    iterator end() const { return {3}; }
};

// Sequences of which an index can be made, and what it is told where one doesn't rise, or throws.
static void test_loads() {
    const std::map<std::string, std::uint64_t> few{{"", 0}, {"a", 1}, {std::string("a\0", 2), 2}, {"b", 3}};
    hot::index index = hot::index::load(hot::stock_for_keys(10, 8), few, 2);
    hot::handle handle = index.open();
    CHECK(handle.size() == 4 && handle.get(std::string("a\0", 2)) == 2 && handle.scan().entries().back() == (hot::entry{"b", 3}));
    CHECK(handle.insert("a", 5).had == 1 && handle.insert("c", 4).what == hot::status::inserted);
    auto all = handle.scan({}, hot::greatest(), 2);
    hot::packed page(10, 100);
    handle.scan_packed({}, hot::greatest(), page);
    hot::handle one = hot::index::load(hot::stock_for_keys(10, 8), all).open(), other = hot::index::load(hot::stock_for_keys(10, 8), page).open();
    CHECK(one.scan().entries() == handle.scan().entries() && other.scan().entries() == handle.scan().entries());
    CHECK(hot::index::load(hot::stock_for_keys(1, 1), std::vector<hot::entry>()).open().empty());
    const std::array<std::pair<const char *, unsigned>, 3> falls{{{"a", 1}, {"c", 2}, {"b", 3}}};
    try {
        (void)hot::index::load(hot::stock_for_keys(10, 8), falls);
        CHECK(false);
    } catch (const hot::load_error &error) {
        CHECK(error.why == HOT_NOT_RISING && error.number == 2 && std::string(error.what()) == hot_status_text(HOT_NOT_RISING));
    }
    const std::vector<hot::entry> long_ones{{std::string(HOT_MAX_KEY, 'a'), 1}, {std::string(1000, 'b'), 2}};
    try {
        (void)hot::index::load(hot::stock_for_keys(10, HOT_MAX_KEY), long_ones);
        CHECK(false);
    } catch (const hot::load_error &error) {
        CHECK(error.why == HOT_KEY_TOO_LONG && error.number == 1);
    }
    CHECK(throws<std::invalid_argument>([&] { return hot::index::load(hot::stock_for_keys(10, 8), few, 0); }));
    const throwing some;
    CHECK(throws<std::domain_error>([&] { return hot::index::load(hot::stock_for_keys(10, 8), some); }));
}

int main() {
    alarm(900); // a call that never returns ends the test
    test_calls();
    test_long_keys();
    test_index();
    test_order();
    test_expected();
    test_full();
    test_filled();
    test_stock();
    test_scans();
    test_cursors();
    test_ends();
    test_containers();
    test_handles();
    test_sections();
    test_handles_inside();
    test_threads();
    test_counting();
    test_growing();
    test_changes_once();
    test_loads();
    std::puts(failures ? "the C++ test failed" : "the C++ test passed");
    return failures;
}
