// The index for C++17: handles that close themselves, keys as std::string_view, scans as ranges, and maps of objects. hot.h has the rules.
#ifndef HOT_HPP
#define HOT_HPP

#include "hot.h"
#include <algorithm>
#include <atomic>
#include <cstddef>
#include <cstdint>
#include <cstring>
#include <exception>
#include <initializer_list>
#include <iterator>
#include <limits>
#include <memory>
#include <new>
#include <optional>
#include <stdexcept>
#include <string>
#include <string_view>
#include <thread>
#include <tuple>
#include <type_traits>
#include <utility>
#include <vector>

namespace hot {

/// How a change came out. If it is `busy`, `held_back` or full, it was refused and changed nothing.
enum class status : hot_status {
    inserted = HOT_INSERTED,
    exists = HOT_EXISTS,
    added = HOT_NEW,
    replaced = HOT_WAS,
    removed = HOT_REMOVED,
    absent = HOT_ABSENT,
    exchanged = HOT_EXCHANGED,
    differs = HOT_DIFFERS,
    busy = HOT_BUSY,
    full_nodes = HOT_FULL_NODES,
    full_leaves = HOT_FULL_LEAVES,
    held_back = HOT_HELD_BACK
};

/// A status in a few words of English.
inline std::string_view to_string(status what) { return hot_status_text(static_cast<hot_status>(what)); }

/// A change's status, and the value that the key had, if it had one. For an exchange that was made this is the expected value.
struct [[nodiscard]] change {
    status what;
    std::optional<std::uint64_t> had;
    bool is_refused() const {
        return what == status::busy || what == status::held_back || what == status::full_nodes || what == status::full_leaves;
    }
    const char *text() const { return hot_status_text(static_cast<hot_status>(what)); }
};

/// A key: text, or bytes that lie in one piece, such as a std::array<std::byte, 8> or a std::span of std::uint8_t. It points to the bytes,
/// which must be there as long as it is used; no call of a handle keeps it. Making one throws nothing, however long the key is.
class key_view : public std::string_view {
  public:
    /// From text that a 0 byte ends, which is no part of the key; or from a pointer and a length.
    using std::string_view::string_view;
    /// The empty key, which comes before all others.
    constexpr key_view() = default;
    /// No key is made of a null pointer, or of a 0, which would be one: neither alone nor with a length.
    key_view(std::nullptr_t) = delete;
    key_view(std::nullptr_t, std::size_t) = delete;
    /// All bytes of a text, 0 bytes among them.
    constexpr key_view(std::string_view text) : std::string_view(text) {}
    key_view(const std::string &text) : std::string_view(text) {}
    /// All elements of what has std::data and std::size, and whose elements are std::byte or unsigned char.
    template <class Bytes, class Byte = std::remove_cv_t<std::remove_pointer_t<decltype(std::data(std::declval<const Bytes &>()))>>,
              std::enable_if_t<std::is_same_v<Byte, std::byte> || std::is_same_v<Byte, unsigned char>, int> = 0>
    key_view(const Bytes &bytes) : std::string_view(reinterpret_cast<const char *>(std::data(bytes)), std::size(bytes)) {}
};

/// A key with its value, and no part of anything else.
struct entry {
    std::string key;
    std::uint64_t value;
    friend bool operator==(const entry &one, const entry &other) { return one.key == other.key && one.value == other.value; }
    friend bool operator!=(const entry &one, const entry &other) { return !(one == other); }
};

/// A key with its value. The key lies in the page that the pair is of. As an `entry` it may be kept.
struct pair {
    std::string_view key;
    std::uint64_t value;
    operator entry() const { return {std::string(key), value}; }
};

/// What a handle had seen: hot_moment.
using moment = hot_moment;

/// A moment by which something was out of an index: hot_retirement.
using retirement = hot_retirement;

/// How many records a collection gave back.
struct collected {
    std::uint32_t nodes, leaves;
};

namespace detail {
// ThreadSanitizer sees nothing of the library. It is told that a call that ends comes after what threads did before they began theirs, those
// of C among them (hot_tsan.h).
#if defined(__SANITIZE_THREAD__)
#define HOT_TELLS_SANITIZER
#elif defined(__has_feature)
#if __has_feature(thread_sanitizer)
#define HOT_TELLS_SANITIZER
#endif
#endif
#ifdef HOT_TELLS_SANITIZER
extern "C" void __tsan_acquire(void *);
extern "C" void __tsan_release(void *);
inline void *calls() { return const_cast<std::uint8_t *>(hot_last_key); }
inline void call_begins() { __tsan_release(calls()); }
inline void call_ends() { __tsan_acquire(calls()); }
#else
inline void call_begins() {}
inline void call_ends() {}
#endif
} // namespace detail

/// Throws for each refusal that isn't returned as a value: std::length_error for a key that is too long to be put in, and for an end of a range of
/// more than HOT_MAX_KEY bytes; std::bad_alloc; std::invalid_argument for numbers out of range, and for what is of another index; std::logic_error for
/// handles that are closed or open, sections that are open, and an index that doesn't grow; std::runtime_error where no handle is free, or the processor is too old.
inline void check(hot_status status) {
    detail::call_ends();
    switch (status) {
    case HOT_KEY_TOO_LONG: throw std::length_error(hot_status_text(status));
    case HOT_OTHER_INDEX:
    case HOT_OUT_OF_RANGE: throw std::invalid_argument(hot_status_text(status));
    case HOT_NO_MEMORY: throw std::bad_alloc();
    case HOT_OLD_PROCESSOR:
    case HOT_NO_HANDLE: throw std::runtime_error(hot_status_text(status));
    case HOT_CLOSED:
    case HOT_FIXED:
    case HOT_INSIDE:
    case HOT_OPEN: throw std::logic_error(hot_status_text(status));
    default: break;
    }
}

inline const std::uint8_t *bytes(std::string_view key) {
    return reinterpret_cast<const std::uint8_t *>(key.data() ? key.data() : "");
}

/// The key that no other comes after.
inline std::string_view greatest() { return {reinterpret_cast<const char *>(hot_last_key), HOT_MAX_KEY}; }

/// The least possible key above this one, or none for the greatest key, which has none above. Nothing needs to have the key.
inline std::optional<std::string> after(key_view key) {
    std::string found(key.substr(0, HOT_MAX_KEY));
    if (key.size() < HOT_MAX_KEY)
        return found.append(1, '\0');
    while (!found.empty() && found.back() == '\xff')
        found.pop_back();
    if (found.empty())
        return std::nullopt;
    found.back() = static_cast<char>(static_cast<unsigned char>(found.back()) + 1);
    return found;
}

/// The greatest possible key below this one, or none for the empty key, which has none below. Nothing needs to have the key.
inline std::optional<std::string> before(key_view key) {
    std::string found(key.substr(0, HOT_MAX_KEY));
    if (key.size() > HOT_MAX_KEY)
        return found;
    if (found.empty())
        return std::nullopt;
    if (found.back() == '\0') {
        found.pop_back();
        return found;
    }
    found.back() = static_cast<char>(static_cast<unsigned char>(found.back()) - 1);
    found.resize(HOT_MAX_KEY, '\xff');
    return found;
}

/// How keys are made from values, for `key_of` and `values_of`.
namespace part {

/// Whether a value of this type is a number that has a place in keys: not char and the like, which differ from machine to machine.
template <class Value>
inline constexpr bool is_number = std::is_same_v<Value, bool> || std::is_same_v<Value, float> || std::is_same_v<Value, double> ||
                                  std::is_same_v<Value, signed char> || std::is_same_v<Value, unsigned char> ||
                                  std::is_same_v<Value, short> || std::is_same_v<Value, unsigned short> || std::is_same_v<Value, int> ||
                                  std::is_same_v<Value, unsigned> || std::is_same_v<Value, long> || std::is_same_v<Value, unsigned long> ||
                                  std::is_same_v<Value, long long> || std::is_same_v<Value, unsigned long long>;

/// A number's bits, changed so that they have the order of the numbers: those of bool and unsigned ones as they are; with the other sign
/// bit for signed ones and floats that aren't negative; with all bits turned for negative floats. All zeros are one, and so is each NaN,
/// which comes last.
template <class Number> std::uint64_t ordered(Number value) {
    constexpr std::uint64_t sign = std::uint64_t{1} << (8 * sizeof(Number) - 1);
    if constexpr (std::is_floating_point_v<Number>) {
        std::conditional_t<sizeof(Number) == 4, std::uint32_t, std::uint64_t> bits;
        if (value == 0)
            value = 0;
        if (value != value)
            value = std::numeric_limits<Number>::quiet_NaN();
        std::memcpy(&bits, &value, sizeof bits);
        if (value != value)
            bits = static_cast<decltype(bits)>(bits & ~sign);
        return bits & sign ? (2 * sign - 1) ^ bits : bits | sign;
    } else {
        return (static_cast<std::uint64_t>(value) & (2 * sign - 1)) ^ (std::is_signed_v<Number> ? sign : 0);
    }
}

/// The number of these bits.
template <class Number> Number number(std::uint64_t ordered) {
    constexpr std::uint64_t sign = std::uint64_t{1} << (8 * sizeof(Number) - 1);
    if constexpr (std::is_floating_point_v<Number>) {
        const auto bits = static_cast<std::conditional_t<sizeof(Number) == 4, std::uint32_t, std::uint64_t>>(
            ordered & sign ? ordered ^ sign : (2 * sign - 1) ^ ordered);
        Number value;
        std::memcpy(&value, &bits, sizeof value);
        return value;
    } else {
        return static_cast<Number>(ordered ^ (std::is_signed_v<Number> ? sign : 0));
    }
}

template <class Value> void write(std::string &key, const Value &value) {
    if constexpr (is_number<Value>) {
        const std::uint64_t bits = ordered(value);
        for (std::size_t left = sizeof value; left-- > 0;)
            key.push_back(static_cast<char>(bits >> 8 * left));
    } else {
        for (const char byte : key_view(value)) {
            key.push_back(byte);
            if (byte == '\0')
                key.push_back('\1');
        }
        key.append(2, '\0');
    }
}

/// Reads a value, and leaves what comes after it. False if the bytes are no such value.
template <class Value> bool read(std::string_view &from, Value &to) {
    if constexpr (is_number<Value>) {
        if (from.size() < sizeof to)
            return false;
        std::uint64_t bits = 0;
        for (const char byte : from.substr(0, sizeof to))
            bits = bits << 8 | static_cast<unsigned char>(byte);
        from.remove_prefix(sizeof to);
        to = number<Value>(bits);
        return ordered(to) == bits;
    } else {
        static_assert(std::is_same_v<Value, std::string>, "text is read as std::string");
        for (std::size_t at = 0; at + 1 < from.size(); at++) {
            to.push_back(from[at]);
            if (from[at] != '\0')
                continue;
            const char next = from[++at];
            if (next == '\0') {
                to.pop_back();
                from.remove_prefix(at + 1);
            }
            if (next != '\1')
                return next == '\0';
        }
        return false;
    }
}

} // namespace part

/// A key from values, whose bytes have the order of the values: by the first one, then by the next, and so on. Integers, bool, float and
/// double take their size; text, or bytes, takes two more bytes, and one for each 0 byte. The key of the first values is a prefix of each
/// key that begins with them. The same values have the same bytes in each language: bindings/keys.txt says which.
template <class... Values> [[nodiscard]] std::string key_of(const Values &...values) {
    std::string key;
    (part::write(key, values), ...);
    return key;
}

/// The values of a key that `key_of` made from values of these types, of which text is std::string; or none if it is no such key.
template <class... Values> [[nodiscard]] std::optional<std::tuple<Values...>> values_of(key_view key) {
    std::tuple<Values...> values{};
    std::string_view left = key;
    const bool is_read = std::apply([&](auto &...value) { return (part::read(left, value) && ...); }, values);
    return is_read && left.empty() ? std::optional(std::move(values)) : std::nullopt;
}

/// The order in which a scan gives its pairs: rising, falling from the last one on, or the last page alone, rising.
enum class order { rising, falling, last };

/// The pairs of a scan in this order of their keys, fetched page by page. The handle may be used or moved meanwhile, but not
/// closed. Use one iterator at a time. Making an iterator and moving it on throw as `check` does. It stays at its pair then.
class range {
  public:
    /// What an iterator stands at: the key is valid until the iterator goes on. As an `entry` it may be kept.
    struct item {
        std::string_view key;
        std::uint64_t value;
        operator entry() const { return {std::string(key), value}; }
    };

    /// An entry that is also the item of its own key. std::ranges copies a pair as such, so that a projection may be a member of `item`. It is
    /// assigned to as a whole: the item doesn't follow another change of the key.
    class owned : public entry, public item {
      public:
        using entry::key, entry::value;
        owned(const item &from) : entry(from), item{entry::key, from.value} {}
        owned(const owned &other) : owned(static_cast<const item &>(other)) {}
        owned &operator=(const owned &other) {
            entry::operator=(other);
            item::operator=({key, value});
            return *this;
        }
        /// By which it can be taken apart, as an entry can.
        template <std::size_t Place> const auto &get() const {
            if constexpr (Place == 0)
                return key;
            else
                return value;
        }
    };

    class iterator {
        struct arrow {
            item at;
            const item *operator->() const { return &at; }
        };
        struct kept {
            entry at;
            const entry &operator*() const { return at; }
        };

      public:
        using iterator_category = std::input_iterator_tag;
        using value_type = entry;
        using difference_type = std::ptrdiff_t;
        using pointer = arrow;
        using reference = item;

        /// The end of any range.
        iterator() = default;
        /// At the pair at which the range stands: `begin` makes it.
        explicit iterator(range *of) : of_(of) {}
        item operator*() const { return of_->at_place(of_->at_); }
        arrow operator->() const { return {**this}; }
        iterator &operator++() {
            if (!of_->go_on())
                of_ = nullptr;
            return *this;
        }
        kept operator++(int) {
            kept old{**this};
            ++*this;
            return old;
        }
        friend bool operator==(const iterator &one, const iterator &other) { return one.of_ == other.of_; }
        friend bool operator!=(const iterator &one, const iterator &other) { return one.of_ != other.of_; }

      private:
        range *of_ = nullptr;
    };

    /// The pairs from one key to another, both included, of a handle that is open as long as the range is used; the calls of `handle` make
    /// it. It copies both keys, has room for `page` pairs, at least one, and asks for none before `begin`. Throws std::bad_alloc, or
    /// std::length_error if no vector has so many pairs.
    range(hot_handle *handle, std::string_view from, std::string_view upto, std::size_t page, order goes = order::rising)
        : handle_(handle), from_(from), upto_(upto), page_(page ? page : 1), goes_(goes) {}
    iterator begin() {
        load(goes_ == order::rising ? from_ : upto_);
        return count_ ? iterator(this) : iterator();
    }
    iterator end() { return iterator(); }
    /// All of them, copied.
    std::vector<entry> entries() { return std::vector<entry>(begin(), end()); }

  private:
    void load(std::string_view at) {
        const bool rises = goes_ == order::rising;
        const std::string_view from = rises ? at : from_, upto = rises ? upto_ : at;
        const auto scan = rises ? hot_scan : goes_ == order::falling ? hot_scan_reverse : hot_scan_last;
        check(scan(handle_, bytes(from), from.size(), bytes(upto), upto.size(), page_.data(), page_.size(), &count_, &more_));
        at_ = 0;
    }
    item at_place(std::size_t place) const {
        const hot_pair &it = page_[place];
        return {{reinterpret_cast<const char *>(it.key), it.length}, it.value};
    }
    // Where the next page is refused, it stays at the pair before.
    bool go_on() {
        if (at_ + 1 < count_) {
            at_++;
            return true;
        }
        if (!more_ || goes_ == order::last)
            return false;
        const std::string_view last = at_place(count_ - 1).key;
        const std::optional<std::string> next = goes_ == order::rising ? after(last) : before(last);
        if (!next)
            return false;
        load(*next);
        return count_ > 0;
    }

    hot_handle *handle_;
    std::string from_, upto_;
    std::vector<hot_pair> page_;
    order goes_;
    std::size_t at_ = 0, count_ = 0;
    std::uint32_t more_ = 0;
};

} // namespace hot

template <> struct std::tuple_size<hot::range::owned> : std::integral_constant<std::size_t, 2> {};
template <std::size_t Place> struct std::tuple_element<Place, hot::range::owned> {
    using type = const std::remove_reference_t<decltype(std::declval<const hot::range::owned &>().template get<Place>())>;
};
#if __cplusplus >= 202002L
template <> struct std::indirectly_readable_traits<hot::range::iterator> {
    using value_type = hot::range::owned;
};
#endif

namespace hot {

/// A page with room for so many pairs, and for so many bytes of their keys, which lie one after another. It may be filled again and
/// again, and the keys of its pairs are valid until then.
class packed {
  public:
    class iterator {
        struct arrow {
            pair at;
            const pair *operator->() const { return &at; }
        };

      public:
        // What it stands at is a pair and no reference to one, as C++17 wants of more than input.
        using iterator_category = std::input_iterator_tag;
        using iterator_concept = std::bidirectional_iterator_tag;
        using value_type = pair;
        using difference_type = std::ptrdiff_t;
        using pointer = arrow;
        using reference = pair;

        /// At no pair: it may only be assigned to.
        iterator() = default;
        /// At the pair whose key and head are at these places: `begin` and `end` make it.
        iterator(const std::uint8_t *key, const hot_head *head) : key_(key), head_(head) {}
        pair operator*() const { return {{reinterpret_cast<const char *>(key_), head_->length}, head_->value}; }
        arrow operator->() const { return {**this}; }
        iterator &operator++() {
            key_ += head_++->length;
            return *this;
        }
        iterator operator++(int) {
            iterator old = *this;
            ++*this;
            return old;
        }
        iterator &operator--() {
            key_ -= (--head_)->length;
            return *this;
        }
        iterator operator--(int) {
            iterator old = *this;
            --*this;
            return old;
        }
        friend bool operator==(const iterator &one, const iterator &other) { return one.head_ == other.head_; }
        friend bool operator!=(const iterator &one, const iterator &other) { return one.head_ != other.head_; }

      private:
        const std::uint8_t *key_ = nullptr;
        const hot_head *head_ = nullptr;
    };

    /// A page that is empty until a scan fills it, with room for `pairs` pairs whose keys have `bytes` bytes together at most. `pairs`
    /// times HOT_MAX_KEY bytes are always enough, and HOT_MAX_KEY bytes for one pair. Throws std::bad_alloc, or std::length_error if no
    /// vector has so many.
    packed(std::size_t pairs, std::size_t bytes) : keys_(bytes), heads_(pairs) {}
    packed(const packed &) = default;
    /// A move leaves the other page empty and without room: a scan fills it with no pairs.
    packed(packed &&other) noexcept
        : keys_(std::move(other.keys_)), heads_(std::move(other.heads_)), count_(std::exchange(other.count_, 0)),
          used_(std::exchange(other.used_, 0)), more_(std::exchange(other.more_, 0)) {}
    packed &operator=(packed other) noexcept {
        keys_.swap(other.keys_);
        heads_.swap(other.heads_);
        std::tie(count_, used_, more_) = std::tie(other.count_, other.used_, other.more_);
        return *this;
    }
    iterator begin() const { return {keys_.data(), heads_.data()}; }
    iterator end() const { return {keys_.data() + used_, heads_.data() + count_}; }
    std::size_t size() const { return count_; }
    bool empty() const { return count_ == 0; }
    /// All of them, copied.
    std::vector<entry> entries() const { return std::vector<entry>(begin(), end()); }
    /// Whether the range has more pairs than these.
    bool has_more() const { return more_ != 0; }

  private:
    friend class handle;
    std::vector<std::uint8_t> keys_;
    std::vector<hot_head> heads_;
    std::size_t count_ = 0, used_ = 0;
    std::uint32_t more_ = 0;
};

/// A place among an index's keys, from which one goes up and down: hot_cursor. `handle::seek` makes it, and its handle stays open, in its place or
/// moved, as long as the cursor is used. The key of a pair is valid until the cursor goes on.
class cursor {
  public:
    /// Go to the next pair, or to the one before, and return it, or none where there is none, and then the cursor stays: hot_next, hot_previous. They
    /// throw std::bad_alloc, and std::logic_error if the handle is closed. It stays then, too.
    std::optional<pair> next() { return go(hot_next); }
    std::optional<pair> previous() { return go(hot_previous); }

  private:
    friend class handle;
    cursor(hot_handle *of, std::string_view key) { check(hot_seek(&at_, of, bytes(key), key.size())); }
    template <class Call> std::optional<pair> go(Call call) {
        const std::uint8_t *key = nullptr;
        std::size_t length = 0;
        std::uint64_t value = 0;
        detail::call_begins();
        const hot_status status = call(&at_, &key, &length, &value);
        check(status);
        return status == HOT_FOUND ? std::optional(pair{{reinterpret_cast<const char *>(key), length}, value}) : std::nullopt;
    }

    hot_cursor at_;
};

/// The right to use an index, for one thread at a time, which index::open gives. It closes itself. A move leaves the other handle closed,
/// and a handle that is assigned to is closed first. A call on a closed handle throws std::logic_error. Otherwise calls throw only as
/// `check` does.
class handle {
  public:
    static constexpr std::size_t page = 64;

    /// A closed handle, of no index. It takes no memory and throws nothing.
    handle() = default;
    /// Whether it is open.
    explicit operator bool() const { return it_ != nullptr; }
    /// Gives the handle back to its index, whose next `open` may have it, and keeps nothing of the index. It does nothing if the handle is
    /// closed, and throws std::logic_error inside the handle's section.
    void close() {
        if (it_)
            check(hot_close(&it_->raw));
        it_ = nullptr;
    }

    /// The key's value, or none if it is absent. So is a key of more than HOT_MAX_KEY bytes for each call but those that put one in.
    [[nodiscard]] std::optional<std::uint64_t> get(key_view key) {
        std::uint64_t value = 0;
        const hot_status status = absent_if_long(hot_get(it(), bytes(key), key.size(), &value));
        check(status);
        return status == HOT_FOUND ? std::optional(value) : std::nullopt;
    }
    [[nodiscard]] bool contains(key_view key) { return get(key).has_value(); }

    /// Looks up many keys: hot_get_many. They lie in anything that can be iterated over, such as a span of strings.
    template <class Keys> [[nodiscard]] std::vector<std::optional<std::uint64_t>> get_many(const Keys &keys) {
        using key = decltype(*std::begin(keys));
        static_assert(std::is_lvalue_reference_v<key> || std::is_base_of_v<std::string_view, key>, "the keys would be gone");
        static constexpr std::uint8_t too_long = 0; // the empty key is looked up instead of one that is
        std::vector<hot_lookup> lookups;
        lookups.reserve(1); // so that it points somewhere with no key too
        for (const key_view one : keys)
            lookups.push_back(one.size() > HOT_MAX_KEY ? hot_lookup{&too_long, 0, 0, HOT_ABSENT} : hot_lookup{bytes(one), one.size(), 0, HOT_ABSENT});
        check(hot_get_many(it(), lookups.data(), lookups.size()));
        std::vector<std::optional<std::uint64_t>> found;
        found.reserve(lookups.size());
        for (const hot_lookup &one : lookups)
            found.push_back(one.status == HOT_FOUND && one.key != &too_long ? std::optional(one.value) : std::nullopt);
        return found;
    }
    [[nodiscard]] std::vector<std::optional<std::uint64_t>> get_many(std::initializer_list<key_view> keys) {
        return get_many<std::initializer_list<key_view>>(keys);
    }

    /// Give a key a value if it is absent; give a key a value; remove a key. Each waits while other calls are in its way or hold
    /// records back.
    change insert(key_view key, std::uint64_t value) { return put(hot_insert, key, value); }
    change upsert(key_view key, std::uint64_t value) { return put(hot_upsert, key, value); }
    change remove(key_view key) { return take(hot_remove, key); }

    /// Give a key a new value, or remove it, if it has the expected value; else nothing is changed, and it `differs` or is
    /// `absent`. They wait too.
    change exchange(key_view key, std::uint64_t expected, std::uint64_t value) {
        return put_if(hot_exchange, key, expected, value);
    }
    change remove_if(key_view key, std::uint64_t expected) { return turn(hot_remove_if, key, expected); }

    /// Adds to the value of a key that is there, modulo 2 to the power of 64: hot_add.
    change add(key_view key, std::uint64_t delta) { return turn(hot_add, key, delta); }

    /// Adds to a key's value, and returns the one before; a key that is absent gets the value, as if it had had 0. It waits, too, and
    /// throws std::length_error, or std::runtime_error where the index is full: hot_add_or_insert.
    std::uint64_t fetch_add(key_view key, std::uint64_t delta) {
        std::uint64_t had = 0;
        made(hot_add_or_insert(it(), bytes(key), key.size(), delta, &had));
        return had;
    }

    /// Gives a key the value that `change` makes of the one that it has, or removes it where `change` returns none, and returns the one that
    /// it had. Both are std::optional. `change` is called again as long as other calls change the key meanwhile. It waits and throws as
    /// `fetch_add` does, and throws what `change` throws; nothing is changed then.
    template <class Change> std::optional<std::uint64_t> fetch_update(key_view key, Change change) {
        std::optional<std::uint64_t> had = get(key);
        for (;;) {
            const std::optional<std::uint64_t> to = change(std::as_const(had));
            if (to == had)
                return had;
            const hot::change made = !had ? insert(key, *to) : to ? exchange(key, *had, *to) : remove_if(key, *had);
            if (made.is_refused())
                throw std::runtime_error(made.text());
            if (made.what != status::exists && made.what != status::differs && made.what != status::absent)
                return had;
            had = made.had;
        }
    }

    /// The same calls, tried once: they may return `busy` or `held_back`.
    change try_insert(key_view key, std::uint64_t value) { return put(hot_try_insert, key, value); }
    change try_upsert(key_view key, std::uint64_t value) { return put(hot_try_upsert, key, value); }
    change try_remove(key_view key) { return take(hot_try_remove, key); }
    change try_exchange(key_view key, std::uint64_t expected, std::uint64_t value) {
        return put_if(hot_try_exchange, key, expected, value);
    }
    change try_remove_if(key_view key, std::uint64_t expected) { return turn(hot_try_remove_if, key, expected); }
    change try_add(key_view key, std::uint64_t delta) { return turn(hot_try_add, key, delta); }

    /// The pairs from one key to another, both included; those from a key on; those whose keys begin with a prefix. A handle that is a
    /// temporary has no range, which would last longer.
    [[nodiscard]] range scan(key_view from, key_view upto, std::size_t pairs = page) & { return range(it(), from, upto, pairs); }
    [[nodiscard]] range scan(key_view from = {}) & { return scan(from, greatest()); }
    [[nodiscard]] range scan_prefix(key_view prefix) & {
        return scan(prefix, last_with(prefix));
    }
    range scan(key_view, key_view, std::size_t = page) && = delete;
    range scan(key_view = {}) && = delete;
    range scan_prefix(key_view) && = delete;

    /// The pairs whose keys begin with a prefix, the greatest key first.
    [[nodiscard]] range scan_prefix_reverse(key_view prefix) & {
        return scan_reverse(prefix, last_with(prefix));
    }
    range scan_prefix_reverse(key_view) && = delete;

    /// The pairs from one key on and below another, which is not included.
    [[nodiscard]] range scan_half_open(key_view from, key_view below, std::size_t pairs = page) & {
        const std::optional<std::string> upto = before(below);
        return upto ? scan(from, *upto, pairs) : scan(std::string_view("\0", 1), {}, pairs);
    }
    range scan_half_open(key_view, key_view, std::size_t = page) && = delete;

    /// Fill a page with the first pairs from one key to another, both included, or with the last ones, the greatest key first:
    /// hot_scan_packed, hot_scan_packed_reverse.
    void scan_packed(key_view from, key_view upto, packed &into) { fill(hot_scan_packed, from, upto, into); }
    void scan_packed_reverse(key_view from, key_view upto, packed &into) { fill(hot_scan_packed_reverse, from, upto, into); }

    /// The pairs from one key to another, both included, the greatest key first; and all pairs in that order.
    [[nodiscard]] range scan_reverse(key_view from, key_view upto, std::size_t pairs = page) & {
        return range(it(), from, upto, pairs, order::falling);
    }
    [[nodiscard]] range scan_reverse() & { return scan_reverse({}, greatest()); }
    range scan_reverse(key_view, key_view, std::size_t = page) && = delete;
    range scan_reverse() && = delete;

    /// The last `count` pairs from one key to another, both included, in rising order: hot_scan_last. `count` is at least 1.
    [[nodiscard]] range scan_last(key_view from, key_view upto, std::size_t count) & {
        return range(it(), from, upto, count, order::last);
    }
    range scan_last(key_view, key_view, std::size_t) && = delete;

    /// A cursor at a key, which need not be there: hot_seek. From an empty key on `next` goes to the first pair, and from `greatest()` on `previous`
    /// goes to the last one. It throws std::length_error.
    [[nodiscard]] cursor seek(key_view key = {}) & { return cursor(it(), key); }
    cursor seek(key_view = {}) && = delete;

    /// How many keys there are from one key to another, both included: hot_count. And how many begin with a prefix: hot_count_prefix.
    [[nodiscard]] std::size_t count(key_view from, key_view upto) {
        std::size_t count = 0;
        check(hot_count(it(), bytes(from), from.size(), bytes(upto), upto.size(), &count));
        return count;
    }
    [[nodiscard]] std::size_t count_prefix(key_view prefix) {
        std::size_t count = 0;
        check(hot_count_prefix(it(), bytes(prefix), prefix.size(), &count));
        return count;
    }

    /// The values of the keys from one key to another, both included, in key order: hot_scan_values.
    [[nodiscard]] std::vector<std::uint64_t> values(key_view from, key_view upto) {
        std::vector<std::uint64_t> found(count(from, upto) + page);
        std::size_t listed = 0;
        for (std::uint32_t more = 1; more != 0;) {
            check(hot_scan_values(it(), bytes(from), from.size(), bytes(upto), upto.size(), found.data(), found.size(), &listed, &more));
            found.resize(more != 0 ? found.size() * 2 : listed);
        }
        return found;
    }

    /// The first pair whose key is `from` or above, and the last one whose key is `upto` or below: those of all keys, if none is given.
    [[nodiscard]] std::optional<entry> first(key_view from = {}) { return end(hot_first, from); }
    [[nodiscard]] std::optional<entry> last(key_view upto) { return end(hot_last, upto); }
    [[nodiscard]] std::optional<entry> last() { return last(greatest()); }
    [[nodiscard]] bool empty() { return !first(); }

    /// Remove the first pair whose key is from one to another, both included, or the last one, and return it, or none where there is none:
    /// hot_pop_first, hot_pop_last, which say what holds beside other calls. They wait, and throw std::bad_alloc.
    std::optional<entry> pop_first(key_view from = {}, key_view upto = greatest()) { return pop(hot_pop_first, from, upto); }
    std::optional<entry> pop_last(key_view from = {}, key_view upto = greatest()) { return pop(hot_pop_last, from, upto); }

    /// Remove all keys, or those from one to another, both included, page by page: hot_clear, hot_clear_range. They wait and throw in the
    /// same way, and then some keys are left.
    void clear() { clear_range({}, greatest()); }
    void clear_range(key_view from, key_view upto) {
        made(hot_clear_range(it(), bytes(from), from.size(), bytes(upto), upto.size()));
    }

    /// Gives each key its value in the index of another handle: hot_copy. It waits, and throws std::bad_alloc, std::runtime_error where that
    /// index is full, or std::length_error where no leaf record of it has room for a key. Then the rest isn't copied.
    void copy_to(handle &other) { made(hot_copy(it(), other.it())); }

    /// How many keys there are: hot_len.
    [[nodiscard]] std::size_t size() {
        std::size_t count = 0;
        check(hot_len(it(), &count));
        return count;
    }

    /// Order in time: two handles that meet see all that either has seen; a moment tells any handle that follows it of all that this one has
    /// seen. hot.h says what a moment is, and that the first one takes a handle of the index.
    void meet(handle &other) { check(hot_meet(it(), other.it())); }
    [[nodiscard]] moment stamp() {
        moment made{};
        check(hot_stamp(it(), &made));
        return made;
    }
    void follow(const moment &told) { check(hot_follow(it(), &told)); }

    /// The moment of the call, behind a change that took a value out; and whether each section that was open at a moment has been left:
    /// hot_retired, hot_is_past.
    [[nodiscard]] retirement retired() {
        retirement made{};
        check(hot_retired(it(), &made));
        return made;
    }
    [[nodiscard]] bool is_past(const retirement &noted) {
        const hot_status status = hot_is_past(it(), &noted);
        check(status);
        return status == HOT_DONE;
    }

    collected collect() {
        collected given{};
        check(hot_collect(it(), &given.nodes, &given.leaves));
        return given;
    }

    /// How many records of each size are in each state: hot_census.
    [[nodiscard]] hot_counts census() {
        hot_counts counts{};
        check(hot_census(it(), &counts));
        return counts;
    }

  private:
    friend class index;
    friend class section;
    template <class, class> friend class map;

    // A hot_handle must not move, and its index is there as long as it is.
    struct held {
        std::shared_ptr<hot_index> of;
        hot_handle raw = HOT_HANDLE;
        bool is_left = false; // inside its section, which closes it
    };
    struct closer {
        void operator()(held *it) const {
            it->is_left = hot_close(&it->raw) == HOT_INSIDE;
            if (!it->is_left)
                delete it;
        }
    };
    explicit handle(std::shared_ptr<hot_index> of) : it_(new held{std::move(of)}) {}

    hot_handle *it() const {
        if (!it_)
            check(HOT_CLOSED);
        detail::call_begins();
        return &it_->raw;
    }
    // The greatest key that begins with the prefix.
    static std::string last_with(std::string_view prefix) {
        std::string last(prefix);
        last.resize(std::max<std::size_t>(last.size(), HOT_MAX_KEY), '\xff');
        return last;
    }
    template <class Call> void fill(Call call, key_view from, key_view upto, packed &into) {
        // What has no room may point nowhere.
        std::uint8_t no_byte;
        hot_head no_head;
        check(call(it(), bytes(from), from.size(), bytes(upto), upto.size(), into.keys_.empty() ? &no_byte : into.keys_.data(),
                   into.keys_.size(), into.heads_.empty() ? &no_head : into.heads_.data(), into.heads_.size(), &into.count_, &into.more_));
        into.used_ = 0;
        for (std::size_t i = 0; i < into.count_; i++)
            into.used_ += into.heads_[i].length;
    }
    static entry copied(const hot_pair &it) { return {std::string(reinterpret_cast<const char *>(it.key), it.length), it.value}; }
    template <class Call> std::optional<entry> end(Call call, key_view key) {
        hot_pair found;
        const hot_status status = call(it(), bytes(key), key.size(), &found);
        check(status);
        return status == HOT_FOUND ? std::optional(copied(found)) : std::nullopt;
    }
    // Throws where a change was refused.
    static void made(hot_status status) {
        check(status);
        if (change{static_cast<hot::status>(status), {}}.is_refused())
            throw std::runtime_error(hot_status_text(status));
    }
    // Room for the key comes first: once the pair is removed, nothing may be refused.
    template <class Call> std::optional<entry> pop(Call call, key_view from, key_view upto) {
        hot_pair found;
        std::optional<entry> popped(std::in_place);
        popped->key.reserve(HOT_MAX_KEY);
        const hot_status status = call(it(), bytes(from), from.size(), bytes(upto), upto.size(), &found);
        made(status);
        if (status != HOT_REMOVED)
            return std::nullopt;
        popped->key.assign(reinterpret_cast<const char *>(found.key), found.length);
        popped->value = found.value;
        return popped;
    }
    // A key that is too long is in no index.
    static hot_status absent_if_long(hot_status status) { return status == HOT_KEY_TOO_LONG ? hot_status{HOT_ABSENT} : status; }
    template <class Call> change put(Call call, key_view key, std::uint64_t value) {
        std::uint64_t had = 0;
        const hot_status status = call(it(), bytes(key), key.size(), value, &had);
        return told(status, had);
    }
    // These change a key that is there.
    template <class Call> change turn(Call call, key_view key, std::uint64_t number) {
        std::uint64_t had = 0;
        const hot_status status = call(it(), bytes(key), key.size(), number, &had);
        return told(absent_if_long(status), had);
    }
    template <class Call> change put_if(Call call, key_view key, std::uint64_t expected, std::uint64_t value) {
        std::uint64_t had = expected;
        const hot_status status = call(it(), bytes(key), key.size(), expected, value, &had);
        return told(absent_if_long(status), had);
    }
    template <class Call> change take(Call call, key_view key) {
        std::uint64_t had = 0;
        const hot_status status = call(it(), bytes(key), key.size(), &had);
        return told(absent_if_long(status), had);
    }
    static change told(hot_status status, std::uint64_t had) {
        check(status);
        return {static_cast<hot::status>(status), is_held(status) ? std::optional(had) : std::nullopt};
    }
    static bool is_held(hot_status status) {
        switch (status) {
        case HOT_EXISTS:
        case HOT_WAS:
        case HOT_REMOVED:
        case HOT_EXCHANGED:
        case HOT_DIFFERS: return true;
        default: return false;
        }
    }

    std::unique_ptr<held, closer> it_;
};

/// A section of a handle, from when it is made until it goes: what values point to may be followed there, since hot::handle::is_past holds
/// back who would free it. The handle may be used and moved meanwhile. One that goes before its section is closed when the section goes.
class section {
  public:
    /// Enters the section. Throws std::logic_error if the handle is inside it already, or closed.
    explicit section(handle &of) : of_(of.it_.get()) { check(hot_enter(of.it())); }
    ~section() {
        detail::call_begins();
        hot_leave(&of_->raw);
        if (of_->is_left)
            handle::closer()(of_);
    }
    section(const section &) = delete;
    section &operator=(const section &) = delete;

  private:
    handle::held *of_;
};

namespace detail {
// A number of keys or records, as C takes it.
inline std::uint32_t in_range(std::size_t number) {
    if (number > UINT32_MAX)
        check(HOT_OUT_OF_RANGE);
    return static_cast<std::uint32_t>(number);
}
} // namespace detail

/// A stock for `keys` keys of at most `longest` bytes each; hot.h says what it has to spare. Throws std::invalid_argument for more than
/// 4294967295 keys.
[[nodiscard]] inline hot_stock stock_for_keys(std::size_t keys, std::size_t longest) {
    hot_stock stock{};
    hot_stock_for_keys(detail::in_range(keys), longest, &stock);
    return stock;
}

/// A stock that is always enough for `keys` keys of at most `longest` bytes each, whatever they are, in an index of so many handles. Throws as
/// `stock_for_keys` does.
[[nodiscard]] inline hot_stock stock_for_any_keys(std::size_t keys, std::size_t longest, std::size_t handles) {
    hot_stock stock{};
    hot_stock_for_any_keys(detail::in_range(keys), longest, handles, &stock);
    return stock;
}

/// Why a load ended at a pair: a status of hot_load, and the pair's number, from 0 on.
class load_error : public std::runtime_error {
  public:
    load_error(hot_status status, std::size_t place) : std::runtime_error(hot_status_text(status)), why(status), number(place) {}
    hot_status why;
    std::size_t number;
};

namespace detail {
// What each pair of a sequence has as its value, and whether that is a std::uint64_t without narrowing.
template <class Pairs> auto value_in(Pairs &pairs) {
    using std::begin;
    auto &&[its_key, its_value] = *begin(pairs);
    return its_value;
}
template <class Pairs, class = void> inline constexpr bool has_values = false;
template <class Pairs>
inline constexpr bool has_values<Pairs, std::void_t<decltype(std::uint64_t{value_in(std::declval<Pairs &>())})>> = true;

// What a load takes from a sequence of pairs. A pair may be gone once its iterator goes on, so the key is kept here. What is thrown goes on when
// the call of C has returned.
template <class At, class End> struct source {
    At at;
    End end;
    std::exception_ptr thrown{};
    std::uint8_t kept[HOT_MAX_KEY + 1]{};

    void take(std::size_t &length, std::uint64_t &value) {
        auto &&[its_key, its_value] = *at;
        const key_view key = its_key;
        length = std::min(key.size(), sizeof kept);
        std::copy_n(bytes(key), length, kept);
        value = its_value;
        ++at;
    }
    static int next(void *context, const std::uint8_t **key, std::size_t *length, std::uint64_t *value) noexcept {
        source &it = *static_cast<source *>(context);
        try {
            if (it.at == it.end)
                return 0;
            it.take(*length, *value);
            *key = it.kept;
            return 1;
        } catch (...) {
            it.thrown = std::current_exception();
            return 0;
        }
    }
};
} // namespace detail

/// An index, which gives handles to threads. It may be moved, and gone before its handles: the last one frees what there is.
class index {
  public:
    /// Makes an empty index with this stock of records, and room for so many handles, 1 to 1024, none of which is open. What
    /// isn't used of it takes no memory. Throws std::invalid_argument if a number is out of range, std::bad_alloc, also at once if it is larger
    /// than all memory, or std::runtime_error if the library is compiled for newer processors. Nothing is left then: hot_open_index.
    explicit index(const hot_stock &stock, std::size_t handles = 64) {
        hot_index *made = nullptr;
        check(hot_open_index(&stock, handles, &made));
        at_ = std::shared_ptr<hot_index>(made, hot_close_index);
    }
    /// The same, if its records and pins have `most` bytes or fewer, which may be more than all memory; else it throws std::bad_alloc at once:
    /// hot_open_index_within.
    index(const hot_stock &stock, std::size_t handles, std::size_t most) {
        hot_index *made = nullptr;
        check(hot_open_index_within(&stock, handles, most, &made));
        at_ = std::shared_ptr<hot_index>(made, hot_close_index);
    }
    /// The same with `stock_for_keys`: room for `keys` keys of at most `longest` bytes each; for 256 for each handle at least, of several, and
    /// for eight of them at most. A call with a key that no leaf record has room for throws std::length_error.
    index(std::size_t keys, std::size_t longest, std::size_t handles = 64)
        : index(stock_for_keys(std::max(keys, least_for(handles)), longest), handles) {}
    /// Makes an index of pairs, whose keys rise: hot_load. They are a key and a value each, in anything that can be iterated over, such as a
    /// std::map, a vector of entries, or the range of a scan in another index. It doesn't compile with values of a type that a std::uint64_t
    /// doesn't hold all of, such as int or double. Throws as the constructor does, load_error where a pair is refused, and what the iterators
    /// throw. Nothing is left then.
    template <class Pairs, std::enable_if_t<detail::has_values<Pairs>, int> = 0>
    [[nodiscard]] static index load(const hot_stock &stock, Pairs &&pairs, std::size_t handles = 64) {
        return load_by([&](auto... with) { return hot_load(&stock, handles, with...); }, pairs);
    }

    /// An empty index that grows, for keys of which nobody can say how many there will be, with room for so many handles, 1 to 1023:
    /// hot_open_growing. It has this stock committed at first, or a small one, and commits no more than `most` bytes.
    [[nodiscard]] static index growing(const hot_stock &stock, std::size_t handles = 64, std::size_t most = SIZE_MAX) {
        return open_growing(&stock, handles, most);
    }
    [[nodiscard]] static index growing(std::size_t handles = 64, std::size_t most = SIZE_MAX) { return open_growing(nullptr, handles, most); }
    /// Such an index of pairs, as `load` makes one: hot_load_growing.
    template <class Pairs, std::enable_if_t<detail::has_values<Pairs>, int> = 0>
    [[nodiscard]] static index load_growing(Pairs &&pairs, std::size_t handles = 64, std::size_t most = SIZE_MAX) {
        return load_by([&](auto... with) { return hot_load_growing(most, handles, with...); }, pairs);
    }
    /// `trim` gives memory of such an index back, while no handle is open: hot_trim. The others have nothing to do: hot_grow, hot_grow_begin,
    /// hot_grow_step, hot_is_filling. They throw std::logic_error if the index was moved from. If it doesn't grow, `is_filling` returns false, and the
    /// others throw std::logic_error. `trim` throws that where a handle is open, std::bad_alloc, and std::runtime_error where it may have no other table.
    /// The index is as it was then.
    void grow() { made(hot_grow(at())); }
    void trim() { made(hot_trim(at())); }
    void grow_begin() { made(hot_grow_begin(at())); }
    bool grow_step() {
        std::uint32_t more = 0;
        made(hot_grow_step(at(), &more));
        return more != 0;
    }
    [[nodiscard]] bool is_filling() { return hot_is_filling(at()) != 0; }

    /// A move leaves the other index with nothing: its `open` throws std::logic_error, which says so. Handles stay open.
    index(index &&) = default;
    index &operator=(index &&) = default;

    /// Opens a handle, at any time and from any thread. Throws std::runtime_error if all are open, std::logic_error if the index was
    /// moved from.
    [[nodiscard]] handle open() {
        std::optional<handle> one = try_open();
        if (!one)
            check(HOT_NO_HANDLE);
        return *std::move(one);
    }
    /// The same, or none if all are open.
    [[nodiscard]] std::optional<handle> try_open() {
        hot_index *of = at();
        handle one(at_);
        const hot_status status = hot_open(of, one.it());
        if (status == HOT_NO_HANDLE)
            return std::nullopt;
        check(status);
        return one;
    }

    /// How often tries to change the index were refused: hot_stats. Throws std::logic_error if the index was moved from.
    [[nodiscard]] hot_refusals stats() const {
        hot_refusals told{};
        hot_stats(at(), &told);
        return told;
    }
    /// What the index takes of memory, with all of its handles: hot_bytes. Throws std::logic_error if the index was moved from.
    [[nodiscard]] hot_memory bytes() const {
        if (!at_)
            throw std::logic_error("the index was moved away");
        hot_memory told{};
        hot_bytes(at_.get(), &told);
        return told;
    }

  private:
    /// For how many keys at least an index has records that so many handles change.
    static std::size_t least_for(std::size_t handles) { return handles > 1 ? 256 * std::min<std::size_t>(handles, 8) : 0; }
    explicit index(std::shared_ptr<hot_index> at) : at_(std::move(at)) {}
    hot_index *at() const {
        if (!at_)
            throw std::logic_error("the index was moved away");
        detail::call_begins();
        return at_.get();
    }
    static void made(hot_status status) {
        check(status);
        if (status != HOT_DONE)
            throw std::runtime_error(hot_status_text(status));
    }
    static index open_growing(const hot_stock *stock, std::size_t handles, std::size_t most) {
        hot_index *made = nullptr;
        check(hot_open_growing(stock, most, handles, &made));
        return index(std::shared_ptr<hot_index>(made, hot_close_index));
    }
    // Makes an index by a load of C, which takes what comes after its numbers.
    template <class Load, class Pairs> static index load_by(Load load, Pairs &pairs) {
        using std::begin, std::end;
        detail::source<decltype(begin(pairs)), decltype(end(pairs))> from{begin(pairs), end(pairs)};
        hot_index *made = nullptr;
        std::size_t count = 0;
        detail::call_begins();
        const hot_status status = load(from.next, &from, &made, &count);
        if (!made)
            check(status);
        index loaded(std::shared_ptr<hot_index>(made, hot_close_index));
        detail::call_ends();
        if (from.thrown)
            std::rethrow_exception(from.thrown);
        if (status != HOT_DONE)
            throw load_error(status, count);
        return loaded;
    }
    std::shared_ptr<hot_index> at_;
};

/// Makes an empty index with a stock of records, and opens `count` handles on it, 1 to 1024. The last one that is closed
/// frees it. Throws as the constructor of `index` does, and leaves nothing then.
[[nodiscard]] inline std::vector<handle> create(const hot_stock &stock, std::size_t count = 1) {
    index made(stock, count);
    std::vector<handle> handles;
    while (handles.size() < count)
        handles.push_back(made.open());
    return handles;
}

/// The same with this number of node records, and of leaf records for keys of any length.
[[nodiscard]] inline std::vector<handle> create(std::size_t nodes, std::size_t leaves, std::size_t count = 1) {
    return create(hot_stock{detail::in_range(nodes), 0, 0, 0, 0, detail::in_range(leaves)}, count);
}

/// An index that grows, as `index::growing` makes one, with handles that are called users. It can't be moved: users have its address.
class growing {
  public:
    /// An empty index that begins with this stock, and has room for so many users at a time, 1 to 1023. Throws as the constructor of `index`.
    explicit growing(const hot_stock &stock, std::size_t users = 63) : at_(index::growing(stock, users)) {}
    growing(const growing &) = delete;
    growing &operator=(const growing &) = delete;

    /// The right to use the index, for one thread at a time. It must be gone before the index.
    class user {
      public:
        /// Throws std::runtime_error if there are too many users.
        explicit user(growing &of) : of_(&of), handle_(of.at_.open()) {}

        /// Calls `call` with a handle, and returns what it returns.
        template <class Call> auto read(Call call) { return call(handle_); }

        /// The same for a change, which `call` returns. Should that be full, `call` runs again.
        template <class Call> hot::change change(Call call) {
            for (;;) {
                const hot::change made = call(handle_);
                if (made.what != status::full_nodes && made.what != status::full_leaves)
                    return made;
                of_->at_.grow();
            }
        }

      private:
        growing *of_;
        handle handle_;
    };

  private:
    index at_;
};

/// How many bytes the records of an index with this stock and this number of handles take: hot_stock_bytes. Throws std::invalid_argument.
[[nodiscard]] inline std::size_t stock_bytes(const hot_stock &stock, std::size_t count = 1) {
    std::size_t bytes = 0;
    check(hot_stock_bytes(&stock, count, &bytes));
    return bytes;
}

namespace detail {
// What a map has of a key and its object. Its owners are the map, until no call can have just found it, and each iterator there.
template <class Value> struct object {
    template <class... Args> explicit object(Args &&...args) : value(std::forward<Args>(args)...) {}
    Value value;
    std::atomic<std::size_t> owners{1};
    // Once it is out of the map: when that was, and what went out after it.
    retirement out{};
    object *next = nullptr;
};

// One of the owners of an object, or none.
template <class Value> class owner {
  public:
    owner() = default;
    // Is the owner that was `release`d.
    explicit owner(object<Value> *of) : of_(of) {}
    owner(const owner &other) : of_(other.of_) {
        if (of_)
            of_->owners.fetch_add(1, std::memory_order_relaxed);
    }
    owner(owner &&other) noexcept : of_(other.release()) {}
    owner &operator=(owner other) noexcept {
        std::swap(of_, other.of_);
        return *this;
    }
    ~owner() {
        if (of_ && of_->owners.fetch_sub(1, std::memory_order_acq_rel) == 1)
            delete of_;
    }
    object<Value> *get() const { return of_; }
    object<Value> *operator->() const { return of_; }
    [[nodiscard]] object<Value> *release() { return std::exchange(of_, nullptr); }

  private:
    object<Value> *of_ = nullptr;
};

// A key of a map as bytes: text, or bytes, as one value of `key_of`; and a tuple, a pair or an array as its items.
template <class Key> std::string bytes_of(const Key &key) {
    if constexpr (part::is_number<Key> || std::is_convertible_v<const Key &, key_view>)
        return key_of(key);
    else
        return std::apply([](const auto &...items) { return key_of(items...); }, key);
}
} // namespace detail

/// An ordered map from keys to objects of any type, for all threads at once: what std::map is for one, and tbb::concurrent_map without its
/// `unsafe_` calls. A key is a number, text, bytes, or a tuple, a pair or an array of these: what `key_of` takes, and in its order. It has
/// 240 bytes at most.
///
/// An iterator keeps what it stands at: the object is there as long as the iterator, also when another thread has replaced or erased it. The map
/// destroys an object that is out of it once no call can have just found it and no iterator keeps it: at once, by a later change, or when it
/// goes. The destructor may make calls with the map, unless the map goes. An object that others may read is changed by its own atomics or
/// locks, or replaced.
///
/// Changes wait while others are in their way. Where one throws, nothing is changed: what the copies of a key and an object throw;
/// std::length_error for a key of more than 240 bytes; std::bad_alloc; std::runtime_error where the map is full. No call may be made
/// in the child of a fork.
template <class Key, class T> class map {
  public:
    using key_type = Key;
    using mapped_type = T;
    using value_type = std::pair<const Key, T>;
    using size_type = std::size_t;

  private:
    using object = detail::object<value_type>;
    using owner = detail::owner<value_type>;
    static constexpr bool is_text = !part::is_number<Key> && std::is_convertible_v<const Key &, key_view>;
    /// What a key is looked up by: any text or bytes for a key that is text.
    using wanted = std::conditional_t<is_text, key_view, const Key &>;
    static constexpr std::size_t places = 64, page = 64;

  public:
    /// Stands at a key and its object, and keeps both, also beyond the map, where it can't go on. It goes through the keys that were there all
    /// along in their order, and through others that were there for a time. It fetches some at a time, 64 at most, and keeps them, too; a copy of
    /// it fetches them anew.
    class iterator {
      public:
        using iterator_category = std::input_iterator_tag;
        using value_type = map::value_type;
        using difference_type = std::ptrdiff_t;
        using pointer = value_type *;
        using reference = value_type &;

        /// The end of any map.
        iterator() = default;
        iterator(const iterator &other) : of_(other.of_), at_(other.at_), upto_(other.upto_) {}
        iterator(iterator &&) noexcept = default;
        iterator &operator=(iterator other) noexcept {
            std::swap(of_, other.of_);
            at_ = std::move(other.at_);
            upto_.swap(other.upto_);
            next_.swap(other.next_);
            std::swap(is_last_, other.is_last_);
            return *this;
        }
        reference operator*() const { return at_->value; }
        pointer operator->() const { return &at_->value; }
        /// Goes on. Where it throws std::bad_alloc it stays at its key.
        iterator &operator++() {
            if (next_.empty() && !is_last_) {
                const std::optional<std::string> from = after(detail::bytes_of(at_->value.first));
                if (from)
                    fetch(*from, page);
            }
            step();
            return *this;
        }
        iterator operator++(int) {
            iterator old(*this);
            ++*this;
            return old;
        }
        friend bool operator==(const iterator &one, const iterator &other) { return one.at_.get() == other.at_.get(); }
        friend bool operator!=(const iterator &one, const iterator &other) { return one.at_.get() != other.at_.get(); }

      private:
        friend class map;
        iterator(map *of, owner at) : of_(of), at_(std::move(at)) {}
        // At the first key of a range; if `upto` is empty, that has no end.
        iterator(map *of, std::string_view from, std::string_view upto) : of_(of), upto_(upto) {
            fetch(from, 8);
            step();
        }
        // The next ones of the range, last one first.
        void fetch(std::string_view from, std::size_t limit) {
            std::uint64_t found[page];
            std::size_t count = 0;
            std::uint32_t more = 0;
            const std::string_view upto = upto_.empty() ? greatest() : upto_;
            next_.reserve(limit);
            lease by(*of_);
            const section inside(by.handle());
            check(hot_scan_values(by.handle().it(), bytes(from), from.size(), bytes(upto), upto.size(), found, limit, &count, &more));
            while (count > 0)
                next_.push_back(shared(found[--count]));
            is_last_ = more == 0;
        }
        void step() {
            at_ = next_.empty() ? owner() : std::move(next_.back());
            if (!next_.empty())
                next_.pop_back();
        }

        map *of_ = nullptr;
        owner at_;
        std::string upto_;
        std::vector<owner> next_;
        bool is_last_ = false;
    };

    /// The keys of a range, from `begin` to `end`.
    class range {
      public:
        iterator begin() const { return iterator(of_, from_, upto_); }
        iterator end() const { return iterator(); }

      private:
        friend class map;
        range(map *of, std::string from, std::string upto) : of_(of), from_(std::move(from)), upto_(std::move(upto)) {}
        map *of_;
        std::string from_, upto_;
    };

    /// An empty map, whose table has `most` bytes of records at most; objects don't count. It is an index that grows: index::growing. Throws as
    /// that does.
    explicit map(std::size_t most = SIZE_MAX) : index_(index::growing(places, most)), places_(new place[places]) {}
    map(const map &) = delete;
    map &operator=(const map &) = delete;
    /// Destroys all objects at which no iterator stands. Where memory for a page of addresses is refused, objects leak.
    ~map() {
        try {
            end_all();
        } catch (const std::bad_alloc &) {
        }
    }

    /// Put a key with its object in, if the key is absent, and return where it is, and whether it was put in.
    std::pair<iterator, bool> insert(const value_type &one) { return emplace(one); }
    std::pair<iterator, bool> insert(value_type &&one) { return emplace(std::move(one)); }
    /// The same with what a `value_type` is made from, which is made in any case.
    template <class... Args> std::pair<iterator, bool> emplace(Args &&...args) {
        owner made(new object(std::forward<Args>(args)...));
        const std::string key = detail::bytes_of(made->value.first);
        owner of_map = made;
        lease by(*this);
        const section inside(by.handle());
        const change told = done(by.handle().insert(key, address(made)));
        if (told.what == status::exists)
            return {iterator(this, shared(*told.had)), false};
        (void)of_map.release();
        return {iterator(this, std::move(made)), true};
    }

    /// Gives a key an object in any case, and returns where that is, and whether the key was absent.
    template <class Object> std::pair<iterator, bool> insert_or_assign(const Key &key, Object &&one) {
        owner made(new object(key, std::forward<Object>(one)));
        const std::string its = detail::bytes_of(key);
        owner of_map = made;
        lease by(*this);
        const change told = done(by.handle().upsert(its, address(made)));
        (void)of_map.release();
        by.retire(told.had);
        return {iterator(this, std::move(made)), !told.had};
    }

    /// Gives a key that is there the object that `change` makes of the one that it has, a `const T &`, and returns where that is; the end if the
    /// key is absent. `change` is called again as long as other threads change the key meanwhile; what it throws goes on.
    template <class Change> iterator update(wanted key, Change change) {
        const std::string its = detail::bytes_of(key);
        for (owner had = look_up(its); had.get();) {
            owner made(new object(had->value.first, change(std::as_const(had->value.second)))), of_map = made;
            owner other;
            if (exchange(its, had, made, other)) {
                (void)of_map.release();
                return iterator(this, std::move(made));
            }
            had = std::move(other);
        }
        return end();
    }

    /// Erases a key, and returns how many there were.
    size_type erase(wanted key) {
        const std::string its = detail::bytes_of(key);
        lease by(*this);
        const change told = done(by.handle().remove(its));
        by.retire(told.had);
        return told.had ? 1 : 0;
    }
    /// Erases the key that an iterator stands at, if it still has that object, and returns whether it did.
    bool erase(const iterator &at) {
        const std::string its = detail::bytes_of(at->first);
        lease by(*this);
        const change told = done(by.handle().remove_if(its, address(at.at_)));
        if (told.what == status::removed)
            by.retire(told.had);
        return told.what == status::removed;
    }
    /// Erases all keys, one by one. One that another thread puts in meanwhile may stay. Where it throws, some keys are left.
    void clear() {
        for (iterator at = begin(); at != end(); ++at)
            erase(at);
    }

    /// Where a key is, or the end.
    [[nodiscard]] iterator find(wanted key) { return iterator(this, look_up(detail::bytes_of(key))); }
    [[nodiscard]] bool contains(wanted key) {
        const std::string its = detail::bytes_of(key);
        return lease(*this).handle().contains(its);
    }
    [[nodiscard]] size_type count(wanted key) { return contains(key) ? 1 : 0; }

    /// The first key, the first one that isn't below a key, and the first one above it.
    [[nodiscard]] iterator begin() { return iterator(this, "", ""); }
    [[nodiscard]] iterator end() { return iterator(); }
    [[nodiscard]] iterator lower_bound(wanted key) { return iterator(this, least(key), ""); }
    [[nodiscard]] iterator upper_bound(wanted key) {
        const std::optional<std::string> next = after(detail::bytes_of(key));
        return next ? iterator(this, *next, "") : end();
    }
    /// The keys from one on and below another. (`lower_bound` of the other one is no end for a loop: its key may go meanwhile.)
    [[nodiscard]] range between(wanted key, wanted below) {
        const std::optional<std::string> upto = before(detail::bytes_of(below));
        return upto && !upto->empty() ? range(this, least(key), *upto) : range(this, "\2", "\1");
    }

    /// How many keys there are: exact while no other call changes the map.
    [[nodiscard]] size_type size() { return lease(*this).handle().size(); }
    [[nodiscard]] bool empty() { return begin() == end(); }

  private:
    // A handle for one call at a time, and what its calls took out, oldest first, which some call may still have.
    struct alignas(64) place {
        std::atomic<bool> is_taken{false};
        hot::handle handle;
        object *oldest = nullptr, *newest = nullptr;
        std::size_t turn = 0;
    };

    // A place that this call has. What can't be had any more goes when it is given back, since destructors may make calls.
    class lease {
      public:
        explicit lease(map &of) : of_(of) {
            // A thread keeps to a place, until another one meets it there.
            static thread_local std::size_t last = 0;
            for (std::size_t tries = 1; !try_take(last); tries++) {
                last = (last + 1) % places;
                if (tries % places == 0)
                    std::this_thread::yield();
            }
            at_ = &of.places_[last];
            if (!at_->handle)
                open();
        }
        lease(const lease &) = delete;
        lease &operator=(const lease &) = delete;
        ~lease() {
            give_back(*at_);
            while (gone_)
                owner(std::exchange(gone_, gone_->next));
        }
        hot::handle &handle() { return at_->handle; }

        // Takes what a change took out of the map. Now and then it looks after what another place has.
        void retire(std::optional<std::uint64_t> out) {
            if (!out)
                return;
            object *const one = at(*out);
            one->out = handle().retired();
            (at_->oldest ? at_->newest->next : at_->oldest) = one;
            at_->newest = one;
            collect(*at_);
            const std::size_t other = at_->turn++ / 16 % places;
            if (at_->turn % 16 == 0 && try_take(other)) {
                collect(of_.places_[other]);
                give_back(of_.places_[other]);
            }
        }

      private:
        bool try_take(std::size_t number) {
            std::atomic<bool> &is_taken = of_.places_[number].is_taken;
            return !is_taken.load(std::memory_order_relaxed) && !is_taken.exchange(true, std::memory_order_acquire);
        }
        static void give_back(place &one) { one.is_taken.store(false, std::memory_order_release); }
        void open() {
            try {
                at_->handle = of_.index_.open();
            } catch (...) {
                give_back(*at_);
                throw;
            }
        }
        void collect(place &from) {
            while (from.oldest && handle().is_past(from.oldest->out)) {
                object *const next = from.oldest->next;
                from.oldest->next = gone_;
                gone_ = std::exchange(from.oldest, next);
            }
        }
        map &of_;
        place *at_;
        object *gone_ = nullptr;
    };

    static std::uint64_t address(const owner &of) { return reinterpret_cast<std::uintptr_t>(of.get()); }
    static object *at(std::uint64_t address) { return reinterpret_cast<object *>(static_cast<std::uintptr_t>(address)); }
    // One owner more of what a call has found in its section.
    static owner shared(std::uint64_t address) {
        owner of_map(at(address)), one = of_map;
        (void)of_map.release();
        return one;
    }
    static change done(change told) {
        if (told.is_refused())
            throw std::runtime_error(told.text());
        return told;
    }
    owner look_up(const std::string &key) {
        lease by(*this);
        const section inside(by.handle());
        const std::optional<std::uint64_t> found = by.handle().get(key);
        return found ? shared(*found) : owner();
    }
    // Gives a key another object than the one that it had; else it finds which other one the key has, if any.
    bool exchange(const std::string &key, const owner &had, const owner &made, owner &other) {
        lease by(*this);
        std::optional<std::uint64_t> out;
        {
            const section inside(by.handle());
            const change told = done(by.handle().exchange(key, address(had), address(made)));
            if (told.what == status::differs)
                other = shared(*told.had);
            else
                out = told.had;
        }
        by.retire(out);
        return out.has_value();
    }
    // The least bytes of a key that isn't below this one, also if this one is too long.
    static std::string least(wanted key) {
        std::string its = detail::bytes_of(key);
        return its.size() > HOT_MAX_KEY ? after(its).value_or(std::string(greatest())) : its;
    }
    void end_all() {
        for (std::size_t i = 0; i < places; i++)
            while (places_[i].oldest)
                owner(std::exchange(places_[i].oldest, places_[i].oldest->next));
        for (iterator at = begin(); at != end(); ++at)
            owner of_map(at.at_.get());
    }

    index index_;
    std::unique_ptr<place[]> places_;
};

} // namespace hot

#endif
