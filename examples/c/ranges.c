/* Readings of sensors by time. A key is a sensor's name and a number of 8 bytes, the greatest byte first, so that keys are in the order
 * of time. */
#include <hot.h>
#include <inttypes.h>
#include <stdio.h>
#include <stdlib.h>
#include <string.h>

enum { PAGE = 16, KEY = 9 };

static void check(hot_status status) {
    if (status == HOT_DONE || status == HOT_INSERTED)
        return;
    fprintf(stderr, "ranges: %s\n", hot_status_text(status));
    exit(1);
}

static void write_key(char sensor, uint64_t time, uint8_t *key) {
    int i;
    key[0] = (uint8_t)sensor;
    for (i = 8; i > 0; i--, time >>= 8)
        key[i] = (uint8_t)time;
}

static uint64_t time_of(const hot_pair *pair) {
    uint64_t time = 0;
    int i;
    for (i = 1; i < KEY; i++)
        time = time << 8 | pair->key[i];
    return time;
}

static void print(const hot_pair *pairs, size_t count) {
    size_t i;
    for (i = 0; i < count; i++)
        printf("%c %" PRIu64 ": %" PRIu64 "\n", pairs[i].key[0], time_of(&pairs[i]), pairs[i].value);
}

struct total {
    size_t count;
    uint64_t sum;
};

static int add(void *context, const hot_pair *pair) {
    struct total *total = context;
    total->count++;
    total->sum += pair->value;
    return 1;
}

int main(void) {
    hot_handle handle = HOT_HANDLE;
    hot_stock stock;
    hot_pair page[PAGE];
    uint8_t from[KEY], upto[KEY];
    struct total total = { 0, 0 };
    size_t count;
    uint64_t time;
    uint32_t more;
    const char *sensor;
    hot_stock_for_keys(3000, KEY, &stock);
    check(hot_create_with(&stock, &handle, 1));
    for (sensor = "abc"; *sensor; sensor++)
        for (time = 0; time < 1000; time++) {
            write_key(*sensor, time, from);
            check(hot_insert(&handle, from, KEY, time * 7 % 100, NULL));
        }
    /* From a time on and before another. A scan's bounds are both included. */
    write_key('b', 254, from), write_key('b', 258 - 1, upto);
    check(hot_scan(&handle, from, KEY, upto, KEY, page, PAGE, &count, &more));
    print(page, count);
    /* The last three of a sensor, the latest first. */
    write_key('a', 0, from), write_key('a', UINT64_MAX, upto);
    check(hot_scan_reverse(&handle, from, KEY, upto, KEY, page, 3, &count, &more));
    print(page, count);
    /* All of a sensor, one by one. */
    write_key('c', 0, from), write_key('c', UINT64_MAX, upto);
    check(hot_each(&handle, from, KEY, upto, KEY, add, &total));
    printf("c: %zu readings, %" PRIu64 " in all\n", total.count, total.sum);
    hot_destroy(&handle);
    return 0;
}
