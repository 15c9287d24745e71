// Tests art.hpp beside std::map, and then by threads: `bench/run peers` runs it first.
#include "art.hpp"
#include <barrier>
#include <cstdio>
#include <map>
#include <string>
#include <thread>
#include <vector>
using namespace art;
// Numbers by chance (splitmix64).
struct rng {
    uint64_t s;
    uint64_t operator()() {
        uint64_t z = s += 0x9E3779B97F4A7C15;
        z = (z ^ z >> 30) * 0xBF58476D1CE4E5B9;
        z = (z ^ z >> 27) * 0x94D049BB133111EB;
        return z ^ z >> 31;
    }
    uint32_t below(uint32_t n) { return (uint64_t)(uint32_t)(*this)() * n >> 32; }
};
static std::string big_endian(uint64_t w) {
    w = __builtin_bswap64(w);
    return std::string((char *)&w, 8);
}
typedef std::vector<std::pair<std::string, uint64_t>> pairs;
static tree *T;
struct user {
    seat *s;
    user() : s(T->memory.take()) {
        if (!s) abort();
    }
    ~user() { T->memory.give(s); }
    static const uint8_t *u(const std::string &k) { return (const uint8_t *)k.data(); }
    int get(const std::string &k, uint64_t &v) {
        inside g(T->memory, s);
        leaf *l = T->find(u(k), k.size());
        if (l) v = l->value.load();
        return !!l;
    }
    bool put(const std::string &k, uint64_t v, bool r, uint64_t &had) {
        inside g(T->memory, s);
        return T->put(s, u(k), k.size(), v, r, had);
    }
    bool remove(const std::string &k, uint64_t &had) {
        inside g(T->memory, s);
        return T->remove(s, u(k), k.size(), had);
    }
    int rmw(const std::string &k) {
        inside g(T->memory, s);
        leaf *l = T->find(u(k), k.size());
        if (l) l->value.fetch_add(1);
        return !!l;
    }
    size_t scan(const std::string &k, size_t n, pairs &got) {
        if (!n) return 0;
        inside g(T->memory, s);
        T->scan(u(k), k.size(), [&](leaf *l) {
            got.push_back({std::string((char *)l->key, l->length), l->value.load()});
            return got.size() < n;
        });
        return got.size();
    }
};
static void must(bool ok, const char *what) {
    if (!ok) {
        fprintf(stderr, "WRONG: %s\n", what);
        abort();
    }
}

static std::string some_key(rng &r, int style) {
    std::string k;
    switch (style) {
    case 0: {
        int n = r.below(7);
        while (n--) k += "ab"[r.below(2)];
        return k;
    }  // dense chains of prefixes
    case 1: {
        int n = r.below(5);
        while (n--) k += (char)r.below(256);
        return k;
    }  // wide nodes
    case 2: {
        k = std::string(r.below(3) * 14, 'x');
        int n = r.below(20);
        while (n--)
            k += (char)("\0\xff"
                        "a"[r.below(3)]);
        return k;
    }  // long prefixes
    case 3: {
        uint64_t w = r() % 5000;
        return big_endian(w * 0x9E3779B97F4A7C15ull);
    }
    case 4: {
        k = "https://www.example.org/a/very/long/common/prefix/";
        k += std::to_string(r.below(3000));
        if (r.below(2)) k += "/tail/of/it/" + std::to_string(r.below(3));
        return k;
    }
    default: {
        uint32_t w = r.below(3000);
        k = {(char)(w >> 8), (char)w};
        return k;
    }
    }
}
static void one(uint64_t seed, size_t ops, int style) {
    rng r{seed};
    delete T;
    T = new tree();
    user a;
    std::map<std::string, uint64_t> m;
    uint32_t bias = 50;
    for (size_t i = 0; i < ops; i++) {
        if (i % 20000 == 0) bias = r.below(3) == 0 ? 20 : r.below(2) ? 50 : 80;
        std::string k = some_key(r, style < 0 ? r.below(6) : style);
        uint64_t v = 0, nv = r() | 1;
        uint32_t what = r.below(200);
        auto it = m.find(k);
        bool has = it != m.end();
        if (what < 40) {
            must(a.get(k, v) == has && (!has || v == it->second), "get");
        } else if (what < 44) {
            if (a.rmw(k) != has) must(false, "rmw");
            if (has) it->second++;
        } else if (what < 50) {
            pairs got;
            size_t lim = r.below(40), n = a.scan(k, lim, got);
            must(n == got.size(), "scan count");
            auto w = m.lower_bound(k);
            for (auto &p : got) {
                must(w != m.end() && w->first == p.first && w->second == p.second, "scan pair");
                ++w;
            }
            must(n == lim || w == m.end(), "scan ends early");
        } else {
            uint32_t z = r.below(100);
            uint64_t had = 0;
            if (z < bias) {
                bool up = r.below(2);
                must(a.put(k, nv, up, had) == has && (!has || had == it->second), "put");
                if (!has || up) m[k] = nv;
            } else {
                must(a.remove(k, had) == has && (!has || had == it->second), "remove");
                if (has) m.erase(it);
            }
        }
    }
    pairs got;
    a.scan("", ~0ull, got);
    must(got.size() == m.size() &&
             std::equal(got.begin(), got.end(), m.begin(), [](auto &x, auto &y) { return x.first == y.first && x.second == y.second; }),
         "last scan");
    must(tree::count_leaves(T->root) == m.size(), "count");
}
// Threads: key i belongs to thread i % 4, which alone inserts and removes it and so knows the answers; every tenth key stays for ever and
// must be in every scan; all look up all; counters are raised by all.
static void threads(uint64_t seed, size_t ops, int style) {
    rng r{seed};
    delete T;
    T = new tree();
    std::vector<std::string> ks;
    {
        std::map<std::string, int> seen;
        size_t want = style == 0 ? 100 : 4000;
        for (size_t t = 0; ks.size() < want && t < 200000; t++) {
            auto k = some_key(r, style);
            if (!seen[k]++) ks.push_back(k);
        }
    }
    std::sort(ks.begin(), ks.end());
    std::vector<int> stays(ks.size());
    for (auto &x : stays) x = r.below(10) == 0;
    std::map<std::string, size_t> number;
    for (size_t i = 0; i < ks.size(); i++) number[ks[i]] = i;
    std::vector<std::string> permanent;
    {
        user a;
        for (size_t i = 0; i < ks.size(); i++)
            if (stays[i]) {
                uint64_t had;
                a.put(ks[i], i << 32, false, had);
                permanent.push_back(ks[i]);
            }
    }
    std::vector<std::atomic<uint64_t>> bumps(ks.size());
    std::barrier start(4);
    std::vector<std::vector<char>> held(4, std::vector<char>(ks.size()));
    auto work = [&](int t) {
        user a;
        rng r{seed * 7 + t};
        start.arrive_and_wait();
        for (size_t n = 0; n < ops; n++) {
            size_t i = r.below(ks.size());
            uint64_t v = 0;
            bool mine = i % 4 == (size_t)t && !stays[i];
            switch (r.below(mine ? 6 : 10)) {
            case 0:
            case 1:
            case 2:
            case 3:
                if (mine) {
                    if (held[t][i]) {
                        must(a.remove(ks[i], v), "own remove");
                        held[t][i] = 0;
                    } else {
                        must(!a.put(ks[i], i << 32, r.below(2), v), "own insert");
                        held[t][i] = 1;
                    }
                    break;
                }
                [[fallthrough]];
            case 4:
            case 5:
            case 6: {
                int g = a.get(ks[i], v);
                must(!g || v >> 32 == i, "value of another key");
                if (mine) must(g == held[t][i], "own get");
                if (stays[i]) must(g, "stays");
                break;
            }
            case 7:
                if (stays[i]) {
                    must(a.rmw(ks[i]), "rmw");
                    bumps[i]++;
                } else if (mine && held[t][i])
                    must(a.put(ks[i], i << 32 | 5, true, v), "own upsert");
                break;
            case 8: {
                pairs got;
                size_t lim = 1 + r.below(100), c = a.scan(ks[i], lim, got);
                must(c == got.size() && c <= lim, "count");
                for (size_t j = 0; j < c; j++) {
                    must(got[j].first >= ks[i] && (!j || got[j - 1].first < got[j].first), "order");
                    auto f = number.find(got[j].first);
                    must(f != number.end() && got[j].second >> 32 == f->second, "scan: value of another key");
                }
                auto p = std::lower_bound(permanent.begin(), permanent.end(), ks[i]);
                auto q = c < lim ? permanent.end() : std::upper_bound(permanent.begin(), permanent.end(), got.back().first);
                size_t j = 0;
                for (; p < q; ++p) {
                    while (j < c && got[j].first < *p) j++;
                    must(j < c && got[j].first == *p, "a key that stays is missing");
                }
                break;
            }
            default:
                if (!mine && !stays[i]) a.get(ks[i], v);
            }
        }
    };
    std::vector<std::thread> ts;
    for (int t = 0; t < 4; t++) ts.emplace_back(work, t);
    for (auto &t : ts) t.join();
    user a;
    size_t have = 0;
    for (size_t i = 0; i < ks.size(); i++) {
        uint64_t v = 0;
        bool want = stays[i] || held[i % 4][i];
        must(a.get(ks[i], v) == want, "at the end");
        if (stays[i]) must(v == ((uint64_t)i << 32) + bumps[i], "bumps lost");
        have += want;
    }
    pairs got;
    must(a.scan("", ~0ull, got) == have, "last scan");
}
int main(int argc, char **argv) {
    size_t ops = argc > 1 ? atol(argv[1]) : 100000;
    for (int style = -1; style < 6; style++) one(100 + style, ops, style);
    for (int style = 0; style < 6; style++) threads(200 + style, ops, style);
    puts("the ART gives a map's answers");
}
