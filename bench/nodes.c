/* Tells how many keys there are for each node of an index, and how many bytes of nodes for each key: once keys of a kind have been
 * inserted, in the order of their numbers, and once a share of them, drawn by chance, has been replaced by keys of the next numbers, some
 * times over. `bench/run nodes` builds and runs it. */
#include "keys.h"

/* How many bytes a node record has. */
#define NODE_BYTES 464

/* How many keys there are for each node, once all that was replaced has been given back. */
static double keys_a_node(hot_handle *handle, uint32_t keys)
{
    hot_counts counts;
    uint32_t nodes, leaves;
    must(hot_collect(handle, &nodes, &leaves), HOT_DONE);
    must(hot_collect(handle, &nodes, &leaves), HOT_DONE);
    must(hot_census(handle, &counts), HOT_DONE);
    return (double)keys / (double)counts.nodes.live;
}

static void insert(hot_handle *handle, int kind, uint64_t number)
{
    uint8_t key[LONGEST];
    uint64_t had;
    must(hot_try_insert(handle, key, key_of(kind, number, key), number, &had), HOT_INSERTED);
}

/* Replaces so many of ten keys, drawn by chance, one after the other: each is removed, and then a new one is inserted. */
static void replace(hot_handle *handle, int kind, uint64_t *numbers, uint32_t keys, uint32_t of_ten, uint64_t *next)
{
    static uint64_t drawn = 0;
    uint32_t place;
    for (place = 0; place < (uint32_t)((uint64_t)keys * of_ten / 10); place++) {
        uint32_t other = place + (uint32_t)(mixed(~drawn++) % (keys - place));
        uint64_t number = numbers[other], had;
        uint8_t key[LONGEST];
        numbers[other] = numbers[place];
        must(hot_try_remove(handle, key, key_of(kind, number, key), &had), HOT_REMOVED);
        numbers[place] = *next;
        insert(handle, kind, (*next)++);
    }
}

static void measure(int kind, uint64_t *numbers, uint32_t keys, uint32_t of_ten, int times)
{
    hot_handle handle = HOT_HANDLE;
    hot_stock stock;
    uint64_t next = keys;
    double before, least;
    uint32_t place;
    int turn;
    hot_stock_for_keys(keys, LONGEST, &stock);
    stock.nodes += keys;
    must(hot_create_with(&stock, &handle, 1), HOT_DONE);
    for (place = 0; place < keys; place++) {
        numbers[place] = place;
        insert(&handle, kind, place);
    }
    before = least = keys_a_node(&handle, keys);
    for (turn = 0; turn < times; turn++) {
        double now;
        replace(&handle, kind, numbers, keys, of_ten, &next);
        now = keys_a_node(&handle, keys);
        least = now < least ? now : least;
    }
    printf("%-26s%6.1f keys a node, %5.1f bytes of nodes a key; %u tenths replaced, %d times over: %.1f, at least %.1f\n", kind_names[kind],
           before, NODE_BYTES / before, (unsigned)of_ten, times, keys_a_node(&handle, keys), least);
    must(hot_destroy(&handle), HOT_DONE);
}

int main(int words, char **word)
{
    static const uint32_t shares[3] = { 1, 5, 9 };
    uint64_t keys = words > 1 ? strtoull(word[1], NULL, 10) : 20000, times = words > 2 ? strtoull(word[2], NULL, 10) : 20;
    uint64_t *numbers;
    int kind, share;
    if (words > 3 || keys < 2 || keys > 10000000 || times > 10000 || !(numbers = malloc(keys * sizeof *numbers))) {
        fprintf(stderr, "usage: nodes [KEYS [TIMES]]    2 to 10,000,000 and 0 to 10,000\n");
        return 2;
    }
    for (kind = 0; kind < KINDS; kind++) {
        for (share = 0; share < 3; share++) {
            measure(kind, numbers, (uint32_t)keys, shares[share], (int)times);
        }
    }
    free(numbers);
    return 0;
}
