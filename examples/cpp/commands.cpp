// A key-value loop: reads commands, a line each, and answers them.
//
//     put KEY NUMBER     get KEY     del KEY     list
#include "hot.hpp"
#include <iostream>
#include <sstream>

static void say(const hot::change &change) {
    if (change.is_refused())
        std::cout << "refused: " << change.text() << '\n';
    else if (change.had)
        std::cout << *change.had << '\n';
    else if (change.what == hot::status::absent)
        std::cout << "absent\n";
}

static void answer(hot::handle &handle, const std::string &command, const std::string &key, std::uint64_t number) {
    if (command == "put") {
        say(handle.upsert(key, number));
    } else if (command == "get") {
        if (const auto value = handle.get(key))
            std::cout << *value << '\n';
        else
            std::cout << "absent\n";
    } else if (command == "del") {
        say(handle.remove(key));
    } else if (command == "list") {
        for (const auto [held, value] : handle.scan())
            std::cout << held << ' ' << value << '\n';
    } else {
        std::cout << "unknown command\n";
    }
}

int main() {
    hot::index index(10000, 24, 1); // so many keys of up to 24 bytes, handles
    hot::handle handle = index.open();
    for (std::string line; std::getline(std::cin, line);) {
        std::istringstream words(line);
        std::string command, key;
        std::uint64_t number = 0;
        words >> command >> key >> number;
        try {
            answer(handle, command, key, number);
        } catch (const std::length_error &error) {
            std::cout << "refused: " << error.what() << '\n';
        }
    }
}
