// Tests of hot.hpp beside std::map: random calls, also by threads at once; small indexes that are filled and emptied; what closing gives
// back; and keys from values.
//
//     model KEYS          KEYS is bindings/keys.txt
//     model threads       the threads alone
//
// It is linked with -Wl,--wrap=hot_close_index.
#include "hot.hpp"
#include <atomic>
#include <cmath>
#include <cstdio>
#include <cstdlib>
#include <fstream>
#include <map>
#include <random>
#include <sstream>
#include <thread>
#include <unistd.h>

using model = std::map<std::string, std::uint64_t>;
using value = std::optional<std::uint64_t>;
using hot::status;

#define CHECK(...)                                                                     \
    do {                                                                               \
        if (!(__VA_ARGS__)) {                                                          \
            std::fprintf(stderr, "model.cpp:%d: not so: %s\n", __LINE__, #__VA_ARGS__); \
            std::exit(1);                                                              \
        }                                                                              \
    } while (0)

static std::atomic<int> closed_indexes = 0;
extern "C" hot_status __real_hot_close_index(hot_index *index);
extern "C" hot_status __wrap_hot_close_index(hot_index *index) {
    closed_indexes++;
    return __real_hot_close_index(index);
}

// ---- Random calls ----

class random_calls {
  public:
    // Keys begin with `begin`: threads at once have keys of their own.
    random_calls(hot::handle handle, unsigned seed, std::string begin) : handle_(std::move(handle)), random_(seed), begin_(std::move(begin)) {}

    void run(int turns) {
        for (int turn = 0; turn < turns; turn++) {
            change();
            if (turn % 8 == 0)
                compare();
        }
    }
    model &all() { return model_; }
    hot::handle &handle() { return handle_; }

  private:
    std::size_t below(std::size_t limit) { return random_() % limit; }
    // Else a call that is tried once may find another in its way.
    bool is_alone() const { return begin_.empty(); }

    // Few bytes and all lengths, so that there are prefixes, equal keys and long ones.
    std::string key() {
        static constexpr char letters[] = {'\0', '\1', 'a', '\xfe', '\xff'};
        const std::size_t kind = below(20), room = HOT_MAX_KEY - begin_.size();
        const std::size_t length = kind == 0 ? room : kind == 1 ? room - 1 : kind == 2 ? below(60) : below(5);
        std::string made = begin_;
        while (made.size() < begin_.size() + length)
            made.push_back(letters[below(sizeof letters)]);
        return made;
    }

    value held(const std::string &key) const {
        const auto at = model_.find(key);
        return at == model_.end() ? std::nullopt : value(at->second);
    }

    void set(const std::string &key, value to) {
        if (to)
            model_[key] = *to;
        else
            model_.erase(key);
    }

    // What a call is to return, and what the key has then.
    void expect(const hot::change &made, status what, value had, const std::string &key, value to) {
        CHECK(made.what == what && made.had == had);
        set(key, to);
    }

    void change() {
        const std::string key = this->key();
        const value had = held(key);
        const std::uint64_t one = below(3), other = below(3);
        const bool is_try = is_alone() && below(2), is_equal = had == one;
        const status unequal = had ? status::differs : status::absent;
        switch (below(9)) {
        case 0:
            return expect(is_try ? handle_.try_insert(key, one) : handle_.insert(key, one), had ? status::exists : status::inserted, had, key,
                          had ? had : one);
        case 1:
            return expect(is_try ? handle_.try_upsert(key, one) : handle_.upsert(key, one), had ? status::replaced : status::added, had, key, one);
        case 2:
            return expect(is_try ? handle_.try_remove(key) : handle_.remove(key), had ? status::removed : status::absent, had, key, {});
        case 3:
            return expect(is_try ? handle_.try_exchange(key, one, other) : handle_.exchange(key, one, other),
                          is_equal ? status::exchanged : unequal, had, key, is_equal ? other : had);
        case 4:
            return expect(is_try ? handle_.try_remove_if(key, one) : handle_.remove_if(key, one), is_equal ? status::removed : unequal, had, key,
                          is_equal ? value() : had);
        case 5:
            return expect(is_try ? handle_.try_add(key, one) : handle_.add(key, one), had ? status::replaced : status::absent, had, key,
                          had ? value(*had + one) : had);
        case 6: CHECK(handle_.fetch_add(key, one) == had.value_or(0)); return set(key, had.value_or(0) + one);
        case 7: return take();
        default: return update(key, had, below(2) ? value(one) : value());
        }
    }

    // Takes a pair from an end of a range, or now and then all of its pairs.
    void take() {
        const std::string one = key(), other = key(), &from = std::min(one, other), &upto = std::max(one, other);
        const std::vector<hot::entry> wanted = listed(from, upto + '\0');
        if (below(20) == 0) {
            handle_.clear_range(from, upto);
            model_.erase(model_.lower_bound(from), model_.upper_bound(upto));
            return;
        }
        const bool is_first = below(2);
        const std::optional<hot::entry> taken = is_first ? handle_.pop_first(from, upto) : handle_.pop_last(from, upto);
        CHECK(wanted.empty() ? !taken : taken == (is_first ? wanted.front() : wanted.back()));
        if (taken)
            model_.erase(taken->key);
    }

    void update(const std::string &key, value had, value to) {
        CHECK(handle_.fetch_update(key, [&](value seen) {
            CHECK(seen == had);
            return to;
        }) == had);
        set(key, to);
    }

    std::vector<hot::entry> listed(const std::string &from, const std::string &below) const {
        std::vector<hot::entry> found;
        for (auto at = model_.lower_bound(from); at != model_.end() && at->first < below; ++at)
            found.push_back({at->first, at->second});
        return found;
    }

    void compare() {
        const std::string one = key(), other = key(), &from = std::min(one, other), &upto = std::max(one, other), after = upto + '\0';
        const std::size_t page = 1 + below(70);
        auto wanted = listed(from, after);
        CHECK(handle_.scan(from, upto, page).entries() == wanted && handle_.count(from, upto) == wanted.size());
        std::vector<std::uint64_t> values;
        for (const hot::entry &it : wanted)
            values.push_back(it.value);
        CHECK(handle_.values(from, upto) == values);
        CHECK(handle_.scan_half_open(from, upto, page).entries() == listed(from, upto));
        const std::size_t count = std::min(wanted.size(), page);
        CHECK(handle_.scan_last(from, upto, page).entries() == std::vector(wanted.end() - static_cast<std::ptrdiff_t>(count), wanted.end()));
        hot::packed packed(page, HOT_MAX_KEY * page);
        handle_.scan_packed(from, upto, packed);
        CHECK(packed.entries() == std::vector(wanted.begin(), wanted.begin() + static_cast<std::ptrdiff_t>(count)));
        CHECK(packed.has_more() == (wanted.size() > page));
        const std::optional<hot::entry> first = handle_.first(from), last = handle_.last(upto);
        CHECK(wanted.empty() ? !first || first->key > upto : first == wanted.front() && last == wanted.back());
        compare_cursors(from, upto, wanted);
        std::reverse(wanted.begin(), wanted.end());
        CHECK(handle_.scan_reverse(from, upto, page).entries() == wanted);
        CHECK(from == upto || (handle_.scan(upto, from).entries().empty() && handle_.count(upto, from) == 0));
        compare_prefix(one);
        CHECK(handle_.get_many({one, other}) == std::vector({held(one), held(other)}));
        CHECK(handle_.get(one) == held(one) && handle_.contains(other) == held(other).has_value());
    }

    // One cursor goes up through the pairs from a key to another and turns at times; one goes down.
    void compare_cursors(const std::string &from, const std::string &upto, const std::vector<hot::entry> &wanted) {
        using entry = std::optional<hot::entry>;
        hot::cursor up = handle_.seek(from), down = handle_.seek(upto);
        for (std::size_t place = 0; place < wanted.size(); place++) {
            CHECK(entry(up.next()) == wanted[place] && entry(down.previous()) == wanted[wanted.size() - 1 - place]);
            if (place > 0 && below(3) == 0)
                CHECK(entry(up.previous()) == wanted[place - 1] && entry(up.next()) == wanted[place]);
        }
        const entry above = up.next(), under = down.previous();
        CHECK((!above || above->key > upto) && (!under || under->key < from));
    }

    void compare_prefix(const std::string &prefix) {
        std::vector<hot::entry> wanted;
        for (auto at = model_.lower_bound(prefix); at != model_.end() && at->first.compare(0, prefix.size(), prefix) == 0; ++at)
            wanted.push_back({at->first, at->second});
        CHECK(handle_.scan_prefix(prefix).entries() == wanted && handle_.count_prefix(prefix) == wanted.size());
        std::reverse(wanted.begin(), wanted.end());
        CHECK(handle_.scan_prefix_reverse(prefix).entries() == wanted);
    }

    hot::handle handle_;
    std::mt19937 random_;
    std::string begin_;
    model model_;
};

static void test_random() {
    for (unsigned seed = 1; seed <= 4; seed++) {
        random_calls calls(hot::index(3000, HOT_MAX_KEY, 1).open(), seed, "");
        calls.run(2500);
        CHECK(calls.handle().size() == calls.all().size());
        for (const auto &[key, value] : model(calls.all()))
            CHECK(calls.handle().remove(key).had == value);
        CHECK(calls.handle().empty());
    }
}

// Threads at once, each with keys of its own, and a counter that all add to.
static void test_threads() {
    constexpr int turns = 600;
    hot::index index(8000, HOT_MAX_KEY, 5);
    std::vector<std::thread> threads;
    for (unsigned of = 0; of < 4; of++)
        threads.emplace_back([&index, of] {
            random_calls calls(index.open(), of, std::string(1, static_cast<char>('b' + of)));
            for (int turn = 0; turn < turns; turn++) {
                calls.run(1);
                (void)calls.handle().fetch_update("sum", [](value had) { return value(had.value_or(0) + 1); });
            }
        });
    for (std::thread &thread : threads)
        thread.join();
    CHECK(index.open().get("sum") == 4 * turns);
}

// ---- What closing gives back, and what changes leave where they are refused ----

static void test_closing() {
    hot::handle kept, moved;
    {
        hot::index index(10, 8, 2);
        kept = index.open();
    }
    CHECK(closed_indexes == 0 && !kept.insert("a", 1).is_refused());
    kept.close();
    CHECK(closed_indexes == 1 && !kept);
    kept.close();
    kept = hot::index(10, 8, 1).open();
    moved = std::move(kept);
    kept = hot::handle();
    CHECK(closed_indexes == 1);
    moved = hot::index(10, 8, 1).open();
    CHECK(closed_indexes == 2);
    moved = hot::handle();
    CHECK(closed_indexes == 3);
    hot::index one(10, 8, 1), other = std::move(one);
    std::string said;
    try {
        (void)one.open();
    } catch (const std::logic_error &why) {
        said = why.what();
    }
    CHECK(said.find("index") != said.npos && said.find("handle") == said.npos && other.open().empty());
}

template <class Error, class Call> static bool throws(Call call) {
    try {
        (void)call();
    } catch (const Error &) {
        return true;
    }
    return false;
}

static void test_updates() {
    hot::handle handle = std::move(hot::create(100, 1).at(0));
    CHECK(!handle.fetch_update("a", [](value) { return value(5); }) && handle.get("a") == 5);
    CHECK(throws<std::runtime_error>([&] { return handle.fetch_update("b", [](value) { return value(6); }); }));
    CHECK(throws<int>([&] { return handle.fetch_update("a", [](value) -> value { throw 1; }); }));
    CHECK(throws<std::length_error>([&] { return handle.fetch_update(std::string(HOT_MAX_KEY + 1, 'a'), [](value) { return value(1); }); }));
    CHECK(handle.get("a") == 5 && handle.size() == 1);
    // Another call comes in between each time.
    handle = hot::index(10, 8, 1).open();
    CHECK(!handle.insert("a", 5).is_refused());
    int calls = 0;
    CHECK(handle.fetch_update("a", [&](value had) {
        if (calls++ == 0)
            CHECK(handle.upsert("a", 7).had == 5);
        else if (calls == 2)
            CHECK(handle.remove("a").had == 7);
        else if (calls == 3)
            CHECK(handle.insert("a", 8).what == status::inserted);
        return value(had.value_or(0) + 1);
    }) == 8);
    CHECK(calls == 4 && handle.get("a") == 9 && handle.fetch_update("a", [](value) { return value(); }) == 9 && handle.empty());
}

// ---- Small indexes that are filled to the last record, and emptied ----

// Inserts keys, in turn, until one is refused, as full: how many went in.
static std::size_t fill(hot::handle &handle, const std::vector<std::string> &keys) {
    for (std::size_t at = 0; at < keys.size(); at++) {
        const hot::change made = handle.insert(keys[at], at);
        if (made.is_refused()) {
            CHECK(made.what == status::full_nodes || made.what == status::full_leaves);
            return at;
        }
    }
    return keys.size();
}

static void test_full(std::uint32_t nodes, std::uint32_t leaves, const std::vector<std::string> &keys) {
    hot::handle handle = std::move(hot::create(nodes, leaves).at(0));
    const std::size_t count = fill(handle, keys);
    CHECK(count > 0 && count < keys.size() && handle.size() == count);
    for (int turn = 0; turn < 2; turn++) {
        for (std::size_t at = 0; at < count; at++)
            CHECK(handle.get(keys[at]) == at && handle.remove(keys[at]).had == at);
        CHECK(handle.empty() && handle.size() == 0 && fill(handle, keys) == count);
    }
}

static void test_small() {
    std::mt19937 random(1);
    for (std::uint32_t nodes = 1; nodes <= 100; nodes++) {
        std::vector<std::string> steps, any;
        for (std::uint16_t i = 0; i < 4000; i++) {
            steps.push_back(hot::key_of(static_cast<std::uint16_t>(i * 37)));
            any.push_back(hot::key_of(static_cast<std::uint64_t>(random()) << 32 | 1u << random() % 32));
        }
        test_full(nodes, 4000, steps);
        test_full(nodes, 4000, any);
        test_full(4000, nodes, any);
    }
}

// ---- Keys from values ----

template <class Number> static std::string number(const std::string &text) {
    std::istringstream from(text);
    Number made{};
    if constexpr (std::is_floating_point_v<Number>)
        made = static_cast<Number>(std::is_same_v<Number, float> ? std::strtof(text.c_str(), nullptr) : std::strtod(text.c_str(), nullptr));
    else if constexpr (std::is_same_v<Number, bool>)
        made = text == "true";
    else if constexpr (std::is_signed_v<Number>)
        made = static_cast<Number>(std::strtoll(text.c_str(), nullptr, 10));
    else
        made = static_cast<Number>(std::strtoull(text.c_str(), nullptr, 10));
    const std::string key = hot::key_of(made);
    const auto again = hot::values_of<Number>(key);
    CHECK(again && hot::key_of(std::get<0>(*again)) == key && !hot::values_of<Number>(key.substr(1)) && !hot::values_of<Number>(key + '0'));
    return key;
}

static std::string text(const std::string &quoted) {
    std::string made;
    for (std::size_t at = 1; at + 1 < quoted.size(); at++) {
        const bool is_zero = quoted[at] == '\\';
        made.push_back(is_zero ? '\0' : quoted[at]);
        at += is_zero;
    }
    const std::string key = hot::key_of(made);
    CHECK(hot::values_of<std::string>(key) == std::tuple(made) && !hot::values_of<std::string>(key.substr(0, key.size() - 1)));
    return key;
}

static std::string part(const std::string &type, const std::string &of) {
    static const std::map<std::string, std::string (*)(const std::string &)> parts = {
        {"bool", number<bool>},         {"u8", number<std::uint8_t>},   {"u16", number<std::uint16_t>}, {"u32", number<std::uint32_t>},
        {"u64", number<std::uint64_t>}, {"i8", number<std::int8_t>},    {"i16", number<std::int16_t>},  {"i32", number<std::int32_t>},
        {"i64", number<std::int64_t>},  {"f32", number<float>},         {"f64", number<double>},        {"text", text},
    };
    return parts.at(type)(of);
}

static std::string hex(const std::string &bytes) {
    std::string made;
    for (const unsigned char byte : bytes)
        for (const int digit : {byte >> 4, byte & 15})
            made.push_back("0123456789abcdef"[digit]);
    return made;
}

// The examples that all languages share.
static void test_examples(const char *path) {
    std::ifstream file(path);
    std::string line, last, last_types;
    int count = 0;
    while (std::getline(file, line)) {
        if (line.rfind('#', 0) == 0)
            continue;
        std::string types, values, bytes, type, one, key;
        std::istringstream(line) >> types >> values >> bytes;
        for (std::istringstream all(types), each(values); std::getline(all, type, ',') && std::getline(each, one, ',');)
            key += part(type, one);
        CHECK(hex(key) == bytes);
        CHECK(types != last_types || last < key || (types[0] == 'f' && values == "0" && last == key));
        last = key;
        last_types = types;
        count++;
    }
    CHECK(count > 80);
}

static void test_keys() {
    using namespace std::string_literals;
    const std::string key = hot::key_of(std::uint8_t{1}, -1.5, true, "x");
    CHECK(key == hot::key_of(std::uint8_t{1}, -1.5) + hot::key_of(true, "x"s));
    CHECK((hot::values_of<std::uint8_t, double, bool, std::string>(key) == std::tuple(std::uint8_t{1}, -1.5, true, "x"s)));
    CHECK(std::isnan(std::get<0>(*hot::values_of<double>(hot::key_of(-std::nan("1"))))) && hot::key_of(-0.0) == hot::key_of(0.0));
    CHECK(hot::key_of().empty() && hot::values_of<>("") && !hot::values_of<>("a") && !hot::values_of<bool>("\2"));
    CHECK(!hot::values_of<std::string>("a") && !hot::values_of<std::string>("a\0"s) && !hot::values_of<std::string>("a\0\2\0\0"s));
    CHECK(!hot::values_of<float>("\x7f\xff\xff\xff") && !hot::values_of<float>("\xff\xc0\0\1"s));
}

int main(int count, char **words) {
    if (count != 2)
        return 2;
    alarm(900); // a call that doesn't return fails the test
    if (std::string(words[1]) != "threads") {
        test_closing();
        test_updates();
        test_keys();
        test_examples(words[1]);
        test_random();
        test_small();
    }
    test_threads();
    std::puts("the C++ model passed");
}
