// Readings of sensors by time. A key is a sensor's name and a number, so that keys are in the order of time.
#include <hot.hpp>
#include <iostream>

static std::string key_of(char sensor, std::uint64_t time) { return hot::key_of(std::string(1, sensor), time); }

template <class Pairs> static void print(Pairs &&pairs, std::size_t most) {
    for (const auto [key, value] : pairs) {
        if (most-- == 0)
            break;
        const auto [sensor, time] = *hot::values_of<std::string, std::uint64_t>(key);
        std::cout << sensor << ' ' << time << ": " << value << '\n';
    }
}

int main() {
    hot::handle handle = hot::index(3000, 11, 1).open();
    for (const char sensor : {'a', 'b', 'c'})
        for (std::uint64_t time = 0; time < 1000; time++)
            if (handle.insert(key_of(sensor, time), time * 7 % 100).is_refused())
                return 1;
    // From a time on and before another.
    print(handle.scan_half_open(key_of('b', 254), key_of('b', 258)), 1000);
    // The last three of a sensor, the latest first.
    print(handle.scan_prefix_reverse(hot::key_of("a")), 3);
    // All of a sensor.
    std::uint64_t count = 0, sum = 0;
    for (const auto [key, value] : handle.scan_prefix(hot::key_of("c"))) {
        count++;
        sum += value;
    }
    std::cout << "c: " << count << " readings, " << sum << " in all\n";
}
