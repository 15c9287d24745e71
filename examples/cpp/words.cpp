// Counts the words of standard input with several threads, each with a handle of its own, and lists them in order.
//
//     words THREADS <TEXT
#include <hot.hpp>
#include <cctype>
#include <future>
#include <iostream>
#include <iterator>

static bool is_letter(char it) { return std::isalpha(static_cast<unsigned char>(it)) != 0; }

static void count(hot::handle handle, std::string_view text) {
    while (!text.empty()) {
        std::size_t length = 0;
        while (length < text.size() && is_letter(text[length]))
            length++;
        if (length > 0)
            handle.fetch_add(text.substr(0, length < HOT_MAX_KEY ? length : HOT_MAX_KEY), 1);
        text.remove_prefix(length > 0 ? length : 1);
    }
}

int main(int argc, char **argv) {
    try {
        const std::size_t threads = argc > 1 ? std::stoul(argv[1]) : 4;
        const std::string text(std::istreambuf_iterator<char>(std::cin), {});
        hot::index index(100000, 24, threads);
        std::vector<std::future<void>> started;
        std::size_t from = 0;
        for (std::size_t i = 1; i <= threads; i++) {
            // A part ends where no word goes on.
            std::size_t end = std::max(from, text.size() * i / threads);
            while (end < text.size() && is_letter(text[end]))
                end++;
            started.push_back(std::async(std::launch::async, count, index.open(), std::string_view(text).substr(from, end - from)));
            from = end;
        }
        // It throws what its thread has thrown: that the index is full, or that a word is too long.
        for (std::future<void> &one : started)
            one.get();
        hot::handle handle = index.open();
        for (const auto [word, times] : handle.scan())
            std::cout << word << ' ' << times << '\n';
    } catch (const std::exception &error) {
        std::cerr << "words: " << error.what() << '\n';
        return 1;
    }
}
