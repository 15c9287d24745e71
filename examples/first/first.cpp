#include "hot.hpp"
#include <iostream>
int main() {
    hot::index index(100000, 24); // room for 100,000 keys of up to 24 bytes
    hot::handle h = index.open();
    if (h.upsert("pear", 3).is_refused()) return 1;
    if (const auto value = h.get("pear")) std::cout << *value << '\n';
    for (const auto [key, value] : h.scan_prefix("p")) std::cout << key << ' ' << value << '\n';
}
