/* Fills an index with many random keys of 8 bytes, looks each up, and goes through all by scans; says on standard error how far it is,
 * and at the end how long each part took. `bench/run large` builds and runs it. */
#include "keys.h"

enum { PAGE = 1000, TOLD = 20 };

static void fail(const char *what, uint64_t number, hot_status status)
{
    fprintf(stderr, "large: %s %llu: %s\n", what, (unsigned long long)number, hot_status_text(status));
    exit(1);
}

static void tell(const char *what, uint64_t done, uint64_t count, double begun)
{
    if (done % (count / TOLD + 1) == 0 || done == count) {
        fprintf(stderr, "large: %s %llu of %llu, %.0f s\n", what, (unsigned long long)done, (unsigned long long)count,
                seconds(CLOCK_MONOTONIC) - begun);
    }
}

static void insert_all(hot_handle *handle, uint64_t count)
{
    double begun = seconds(CLOCK_MONOTONIC);
    uint64_t number;
    for (number = 1; number <= count; number++) {
        uint8_t key[LONGEST];
        uint64_t had;
        size_t length = key_of(RANDOM, number - 1, key);
        hot_status status = hot_try_insert(handle, key, length, number, &had);
        if (status != HOT_INSERTED) {
            fail("insert", number, status);
        }
        tell("inserted", number, count, begun);
    }
    printf("inserts: %.0f ns each\n", 1e9 * (seconds(CLOCK_MONOTONIC) - begun) / (double)count);
}

static void look_up_all(hot_handle *handle, uint64_t count)
{
    double begun = seconds(CLOCK_MONOTONIC);
    uint64_t turn;
    /* In another order than they came; each once, where the count is no multiple of this prime. */
    uint64_t step = 0;
    for (turn = 1; turn <= count; turn++) {
        uint8_t key[LONGEST];
        uint64_t value = 0;
        hot_status status;
        step = (step + UINT64_C(7919)) % count;
        status = hot_get(handle, key, key_of(RANDOM, step, key), &value);
        if (status != HOT_FOUND || value != step + 1) {
            fail("look-up", step + 1, status);
        }
        tell("looked up", turn, count, begun);
    }
    printf("look-ups: %.0f ns each\n", 1e9 * (seconds(CLOCK_MONOTONIC) - begun) / (double)count);
}

static void scan_all(hot_handle *handle, uint64_t count, hot_pair *pairs)
{
    double begun = seconds(CLOCK_MONOTONIC);
    uint8_t from[HOT_MAX_KEY], last[8], upto[HOT_MAX_KEY];
    size_t length = 0, found;
    uint64_t listed = 0;
    uint32_t more = 1;
    memset(upto, 0xff, sizeof upto);
    while (more) {
        size_t place;
        hot_status status = hot_scan(handle, from, length, upto, sizeof upto, pairs, PAGE, &found, &more);
        if (status != HOT_DONE) {
            fail("scan after", listed, status);
        }
        for (place = 0; place < found; place++) {
            if (listed > 0 && memcmp(last, pairs[place].key, sizeof last) >= 0) {
                fail("order at", listed, HOT_DONE);
            }
            memcpy(last, pairs[place].key, sizeof last);
            listed++;
            tell("listed", listed, count, begun);
        }
        if (more && hot_after(pairs[found - 1].key, pairs[found - 1].length, from, &length) != HOT_DONE) {
            fail("key after", listed, HOT_ABSENT);
        }
    }
    if (listed != count) {
        fail("pairs listed", listed, HOT_DONE);
    }
    printf("scans: %.0f ns a pair\n", 1e9 * (seconds(CLOCK_MONOTONIC) - begun) / (double)count);
}

int main(int words, char **word)
{
    uint64_t count = words > 1 ? strtoull(word[1], NULL, 10) : 1000000, a_node = words > 2 ? strtoull(word[2], NULL, 10) : 20;
    hot_handle handle = HOT_HANDLE;
    hot_stock stock;
    hot_pair *pairs = malloc(PAGE * sizeof *pairs);
    size_t bytes;
    hot_status status;
    double begun = seconds(CLOCK_MONOTONIC);
    if (count < 1 || count > 200000000 || a_node < 1 || !pairs) {
        fprintf(stderr, "usage: large [KEYS [KEYS_A_NODE]]    at least 1, and at most 200,000,000 keys\n");
        return 2;
    }
    memset(&stock, 0, sizeof stock);
    stock.nodes = (uint32_t)(count / a_node + 1000);
    stock.short_leaves = (uint32_t)(count + count / 100 + 100);
    status = hot_stock_bytes(&stock, 1, &bytes);
    if (status != HOT_DONE || (status = hot_create_with(&stock, &handle, 1)) != HOT_DONE) {
        fail("index of keys", count, status);
    }
    printf("%llu keys: %.2f GB, %.1f bytes a key of the whole index, made in %.1f s\n", (unsigned long long)count, 1e-9 * (double)bytes,
           (double)bytes / (double)count, seconds(CLOCK_MONOTONIC) - begun);
    insert_all(&handle, count);
    look_up_all(&handle, count);
    scan_all(&handle, count, pairs);
    hot_destroy(&handle);
    free(pairs);
    return 0;
}
