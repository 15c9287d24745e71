// An index of rows by a value that several rows may have. A key is the value and the row's number, so the keys of one value are together,
// in the order of the rows, and no two rows have the same key.
#include <hot.hpp>
#include <iostream>

template <class Pairs> static void print(const char *what, Pairs &&pairs) {
    std::cout << what << ':';
    for (const auto [key, row] : pairs)
        std::cout << ' ' << row;
    std::cout << '\n';
}

int main() {
    const std::vector<double> rows = {21.5, -3, 21.5, 0, -3, 30.25};
    hot::handle by_value = hot::index(100, sizeof(double) + sizeof(std::uint64_t), 1).open();
    for (std::uint64_t row = 0; row < rows.size(); row++)
        if (by_value.insert(hot::key_of(rows[row], row), row).is_refused())
            return 1;
    print("-3", by_value.scan_prefix(hot::key_of(-3.0)));
    print("from -3 and below 21.5", by_value.scan_half_open(hot::key_of(-3.0), hot::key_of(21.5)));
    // The greatest value, read from its key.
    const auto last = hot::values_of<double, std::uint64_t>(by_value.last()->key);
    std::cout << "the greatest: " << std::get<0>(*last) << " of row " << std::get<1>(*last) << '\n';
    // Row 2 gets the value -3. It has both keys for a moment, so that no reader misses it.
    if (by_value.insert(hot::key_of(-3.0, std::uint64_t{2}), 2).is_refused() || by_value.remove(hot::key_of(rows[2], std::uint64_t{2})).is_refused())
        return 1;
    print("-3 later", by_value.scan_prefix(hot::key_of(-3.0)));
    print("21.5 later", by_value.scan_prefix(hot::key_of(21.5)));
}
