/* Measures look-ups of one key a call beside those of many keys a call, on an index of random keys of 8 bytes. `bench/run many` builds and
 * runs it. */
#include "keys.h"

enum { LOOKUPS = 192 * 100, ROUNDS = 50, FORMS = 8, FEW = 2 };

/* How many keys a call looks up; 0 is hot_get. LOOKUPS is a multiple of each. */
static const size_t forms[FORMS] = { 0, 1, 2, 3, 4, 8, 16, 64 };

/* Among how few keys hot_get also looks up: what one key needs is in the nearest cache, what a thousand need in the next. */
static const uint64_t few[FEW] = { 1, 1000 };

static uint8_t keys[LOOKUPS][8];
static uint64_t wanted[LOOKUPS];
static hot_lookup lookups[LOOKUPS];

/* Draws the keys that are looked up next. */
static void draw(uint64_t count)
{
    static uint64_t drawn = 0;
    size_t place;
    for (place = 0; place < LOOKUPS; place++) {
        wanted[place] = mixed(~drawn++) % count;
        lookups[place].key = keys[place];
        lookups[place].length = key_of(RANDOM, wanted[place], keys[place]);
        lookups[place].value = 0;
        lookups[place].status = HOT_ABSENT;
    }
}

/* Looks all that were drawn up, so many a call; how many nanoseconds a key took. */
static double look_up(hot_handle *handle, size_t together)
{
    double begun = seconds(CLOCK_PROCESS_CPUTIME_ID), took;
    size_t place;
    if (together == 0) {
        for (place = 0; place < LOOKUPS; place++) {
            lookups[place].status = hot_get(handle, lookups[place].key, lookups[place].length, &lookups[place].value);
        }
    } else {
        for (place = 0; place < LOOKUPS; place += together) {
            must(hot_get_many(handle, &lookups[place], together), HOT_DONE);
        }
    }
    took = seconds(CLOCK_PROCESS_CPUTIME_ID) - begun;
    for (place = 0; place < LOOKUPS; place++) {
        must(lookups[place].status, HOT_FOUND);
        must(lookups[place].value == wanted[place] ? HOT_DONE : HOT_DIFFERS, HOT_DONE);
    }
    return 1e9 * took / LOOKUPS;
}

/* Looks up keys among so many, so many a call; keeps the least time of all rounds, where 0 stands for none so far. */
static void time_form(hot_handle *handle, uint64_t count, size_t together, double *best)
{
    double took;
    draw(count);
    took = look_up(handle, together);
    if (*best == 0 || took < *best) {
        *best = took;
    }
}

static void measure(uint64_t count)
{
    hot_handle handle = HOT_HANDLE;
    hot_stock stock;
    double best[FORMS] = { 0 }, of_few[FEW] = { 0 };
    uint64_t number, had;
    int round, form;
    memset(&stock, 0, sizeof stock);
    stock.nodes = (uint32_t)(count / 18 + 1000);
    stock.short_leaves = (uint32_t)(count + count / 100 + 100);
    must(hot_create_with(&stock, &handle, 1), HOT_DONE);
    for (number = 0; number < count; number++) {
        uint8_t key[LONGEST];
        must(hot_try_insert(&handle, key, key_of(RANDOM, number, key), number, &had), HOT_INSERTED);
    }
    for (round = 0; round < ROUNDS; round++) {
        for (form = 0; form < FORMS; form++) {
            time_form(&handle, count, forms[form], &best[form]);
        }
        for (form = 0; form < FEW; form++) {
            time_form(&handle, few[form] < count ? few[form] : count, 0, &of_few[form]);
        }
    }
    printf("%llu keys: hot_get %.0f ns, of one key alone %.0f, of a thousand %.0f;", (unsigned long long)count, best[0], of_few[0], of_few[1]);
    for (form = 1; form < FORMS; form++) {
        printf(" %u a call %.0f (%.2f)%s", (unsigned)forms[form], best[form], best[form] / best[0], form + 1 < FORMS ? "," : "\n");
    }
    must(hot_destroy(&handle), HOT_DONE);
}

int main(int words, char **word)
{
    static const uint64_t counts[] = { 10000, 200000, 1000000 };
    int place;
    if (words == 1) {
        for (place = 0; place < 3; place++) {
            measure(counts[place]);
        }
    }
    for (place = 1; place < words; place++) {
        uint64_t count = strtoull(word[place], NULL, 10);
        if (count < 1 || count > 200000000) {
            fprintf(stderr, "usage: many [KEYS..]    each 1 to 200,000,000\n");
            return 2;
        }
        measure(count);
    }
    return 0;
}
