// Measures RocksDB with the memtable of examples/rocksdb beside its own skip list, in nanoseconds of the processors for each call, with keys of 16
// bytes and values of 100, without a log, all in one memtable: changes and look-ups in an order by chance, seeks with ten steps, and what is
// resident. With values of 20 bytes: insertions of keys that rise, and what is resident after those of others. The index begins with room for all
// keys, or for 10,000. Each is done three times, by turns, in a process of its own; the median counts. A line has four cells, as bench/room.py reads
// them. `bench/run rocksdb` builds and runs it.
#include "../examples/rocksdb/memtable.hpp"
#include <algorithm>
#include <cstdio>
#include <cstdlib>
#include <rocksdb/db.h>
#include <sys/wait.h>
#include <thread>
#include <time.h>
#include <unistd.h>

using namespace ROCKSDB_NAMESPACE;

namespace {
enum { FILL, RISING, READ, OVERWRITE, SEEK, RESIDENT, SHORT, CALLS, TIMES = 3 };
const char *const calls[CALLS] = {
    "fillrandom",
    "fillseq, values of 20 bytes",
    "readrandom",
    "overwrite",
    "seek and ten steps",
    "resident, values of 100 bytes",
    "resident, values of 20 bytes",
};

void need(bool is_so) {
    if (!is_so) {
        std::fprintf(stderr, "rocksdb: a call went wrong\n");
        std::exit(1);
    }
}

double processors() {
    timespec now;
    clock_gettime(CLOCK_PROCESS_CPUTIME_ID, &now);
    return static_cast<double>(now.tv_sec) * 1e9 + static_cast<double>(now.tv_nsec);
}

std::uint64_t mixed(std::uint64_t word) {
    word = (word ^ word >> 31) * 0x9E3779B97F4A7C15u;
    word = (word ^ word >> 29) * 0xBF58476D1CE4E5B9u;
    return word ^ word >> 32;
}

std::string rising_key(std::uint64_t number) {
    char text[24];
    std::snprintf(text, sizeof text, "%016llu", static_cast<unsigned long long>(number));
    return text;
}

std::string key_of(std::uint64_t number) { return rising_key(mixed(number) % 10000000000000000u); }

double resident() {
    long bytes = 0, pages = 0;
    std::FILE *file = std::fopen("/proc/self/statm", "r");
    need(file && std::fscanf(file, "%ld %ld", &bytes, &pages) == 2);
    std::fclose(file);
    return static_cast<double>(pages * sysconf(_SC_PAGESIZE));
}

/// The time of each of so many calls by so many threads, which each get their number and the next numbers.
template <class Call> double timed(std::uint64_t count, unsigned threads, Call call) {
    std::vector<std::thread> running;
    const double began = processors();
    for (unsigned thread = 0; thread < threads; thread++)
        running.emplace_back([=] {
            for (std::uint64_t at = thread; at < count; at += threads)
                call(at);
        });
    for (std::thread &it : running)
        it.join();
    return (processors() - began) / static_cast<double>(count);
}

/// A database of so many keys by so many threads, with a memtable of RocksDB's, or ours with room for so many keys.
class filled {
  public:
    filled(std::uint64_t count, unsigned threads, std::uint32_t room, const std::string &folder) : count_(count), threads_(threads) {
        Options options;
        options.create_if_missing = true;
        options.compression = kNoCompression;
        options.write_buffer_size = std::size_t{8} << 30;
        if (room > 0)
            options.memtable_factory = std::make_shared<hot_memtable::factory>(room, 16);
        unlogged_.disableWAL = true;
        DestroyDB(folder, options);
        first_ = resident();
        need(DB::Open(options, folder, &opened_).ok());
    }
    template <class Key> double put(Key key, const std::string &value) {
        return timed(count_, threads_, [&](std::uint64_t at) { need(opened_->Put(unlogged_, key(at), value).ok()); });
    }
    double bytes_a_key() const { return (resident() - first_) / static_cast<double>(count_); }
    DB *operator->() { return opened_; }

  private:
    std::uint64_t count_;
    unsigned threads_;
    WriteOptions unlogged_;
    double first_;
    DB *opened_ = nullptr;
};

void measure(std::uint64_t count, unsigned threads, std::uint32_t room, const std::string &folder, double *to) {
    filled db(count, threads, room, folder);
    const auto by_chance = [&](std::uint64_t at) { return key_of(mixed(at) % count); };
    to[FILL] = db.put(key_of, std::string(100, 'v'));
    to[RESIDENT] = db.bytes_a_key();
    to[READ] = timed(count, threads, [&](std::uint64_t at) {
        std::string found;
        need(db->Get(ReadOptions(), by_chance(at), &found).ok());
    });
    to[OVERWRITE] = db.put(by_chance, std::string(100, 'w'));
    to[SEEK] = timed(count / 10, threads, [&](std::uint64_t at) {
        const std::unique_ptr<Iterator> it(db->NewIterator(ReadOptions()));
        it->Seek(by_chance(at));
        for (int step = 0; step < 10 && it->Valid(); step++)
            it->Next();
    });
}

void measure_short(std::uint64_t count, unsigned threads, std::uint32_t room, const std::string &folder, double *to) {
    filled db(count, threads, room, folder);
    db.put(key_of, std::string(20, 'v'));
    to[SHORT] = db.bytes_a_key();
}

void measure_rising(std::uint64_t count, unsigned threads, std::uint32_t room, const std::string &folder, double *to) {
    filled db(count, threads, room, folder);
    to[RISING] = db.put(rising_key, std::string(20, 'v'));
}

/// Each in a process of its own.
void measure_apart(std::uint64_t count, unsigned threads, std::uint32_t room, const std::string &folder, double *to) {
    for (const auto part : {measure, measure_short, measure_rising}) {
        double got[CALLS] = {};
        int pipes[2];
        need(pipe(pipes) == 0);
        const pid_t child = fork();
        if (child == 0) {
            part(count, threads, room, folder, got);
            _exit(write(pipes[1], got, sizeof got) != sizeof got); // what is in memory alone needn't be written
        }
        need(child > 0 && read(pipes[0], got, sizeof got) == sizeof got && waitpid(child, nullptr, 0) == child);
        close(pipes[0]), close(pipes[1]);
        for (int call = 0; call < CALLS; call++)
            to[call] += got[call];
    }
}

/// The medians of each kind of memtable, by turns.
void show(std::uint64_t count, unsigned threads, const std::string &folder) {
    const std::uint32_t rooms[3] = {0, static_cast<std::uint32_t>(count), 10000};
    static const char *const names[3] = {"skip list", "index", "index that grows"};
    std::vector<double> figures[3][CALLS];
    for (int time = 0; time < TIMES; time++)
        for (int kind = 0; kind < 3; kind++) {
            double got[CALLS] = {};
            measure_apart(count, threads, rooms[kind], folder, got);
            for (int call = 0; call < CALLS; call++)
                figures[kind][call].push_back(got[call]);
        }
    for (int kind = 0; kind < 3; kind++)
        for (int call = 0; call < CALLS; call++) {
            std::vector<double> &all = figures[kind][call];
            std::sort(all.begin(), all.end());
            std::printf("%s\t%s, %u thread%s\t%llu\t%.1f\n", calls[call], names[kind], threads, threads == 1 ? "" : "s",
                        static_cast<unsigned long long>(count), all[TIMES / 2]);
        }
    std::fflush(stdout);
}
} // namespace

int main(int words, char **word) {
    if (words < 2)
        return 2;
    for (int next = 2; next < words || next == 2; next++) {
        const std::uint64_t count = next < words ? std::strtoull(word[next], nullptr, 10) : 300000;
        if (count < 1000 || count > 100000000)
            return 2;
        show(count, 1, word[1]);
        show(count, 4, word[1]);
    }
}
