/* Makes so many calls of one kind on an index that has so many random keys of 8 bytes, or URLs. `bench/run count` runs it with two numbers of
 * calls, under valgrind, and subtracts. The keys of the calls are made before the first, as many in each run, so they don't count. */
#include "keys.h"

enum { PAGE = 100, MOST_KEYS = 200000, MOST_CALLS = 20000 };

/* The keys of the calls, and the end of each range, behind which is no key. */
static struct { uint8_t bytes[LONGEST]; size_t length; } keys_of_calls[MOST_CALLS];
static uint8_t upto[HOT_MAX_KEY];

static void call(hot_handle *handle, const char *kind, uint64_t number)
{
    static hot_pair pairs[PAGE];
    static hot_head heads[PAGE];
    static uint8_t bytes[PAGE * HOT_MAX_KEY];
    const uint8_t *key = keys_of_calls[number].bytes;
    size_t length = keys_of_calls[number].length, found;
    uint64_t had;
    uint32_t more;
    switch (kind[0]) {
    case 'i':
        must(hot_try_insert(handle, key, length, number, &had), HOT_INSERTED);
        break;
    case 'u':
        must(hot_try_upsert(handle, key, length, number + 1, &had), HOT_WAS);
        break;
    case 'a':
        must(hot_try_add(handle, key, length, 1, &had), HOT_WAS);
        break;
    case 'e':
        must(hot_get(handle, key, length, &had), HOT_FOUND);
        must(hot_try_exchange(handle, key, length, had, had + 1, &had), HOT_EXCHANGED);
        break;
    case 'r':
        must(hot_try_remove(handle, key, length, &had), HOT_REMOVED);
        break;
    case 'g':
        must(hot_get(handle, key, length, &had), HOT_FOUND);
        break;
    case 'c': /* half of the keys, on average */
        must(hot_count(handle, key, length, upto, sizeof upto, &found), HOT_DONE);
        break;
    case 'p':
        must(hot_scan_packed(handle, key, length, upto, sizeof upto, bytes, sizeof bytes, heads, PAGE, &found, &more), HOT_DONE);
        break;
    default:
        must(hot_scan(handle, key, length, upto, sizeof upto, pairs, PAGE, &found, &more), HOT_DONE);
    }
}

int main(int words, char **word)
{
    uint64_t keys = words > 3 ? strtoull(word[2], NULL, 10) : 0, calls = words > 3 ? strtoull(word[3], NULL, 10) : 0, number;
    hot_handle handle = HOT_HANDLE;
    int of = words == 5 && !strcmp(word[4], "urls") ? PAGES : RANDOM;
    if (words != (of == PAGES ? 5 : 4) || !strchr("iuaergspc", word[1][0]) || keys < 1 || keys > MOST_KEYS || calls > keys || calls > MOST_CALLS) {
        fprintf(stderr, "usage: count insert|upsert|add|exchange|remove|get|scan|packed|count KEYS CALLS [urls]    at most 200,000 and 20,000, and no more calls than keys\n");
        return 2;
    }
    must(hot_create(MOST_KEYS / 8, MOST_KEYS + 2 * MOST_CALLS, &handle, 1), HOT_DONE);
    for (number = 0; number < keys; number++) {
        uint8_t key[LONGEST];
        uint64_t had;
        must(hot_try_insert(&handle, key, key_of(of, number, key), number, &had), HOT_INSERTED);
    }
    for (number = 0; number < MOST_CALLS; number++) {
        keys_of_calls[number].length = key_of(of, word[1][0] == 'i' ? keys + number : number, keys_of_calls[number].bytes);
    }
    memset(upto, 0xff, sizeof upto);
    for (number = 0; number < calls; number++) {
        call(&handle, word[1], number);
    }
    hot_destroy(&handle);
    return 0;
}
