/* Keys come and go while their number stays: how many keys there are for each node then, how many calls were refused as full, and how
 * long look-ups take beside those of a fresh index with the same keys. The index has the records that hot_stock_for_keys gives. Then an
 * index that shrinks, and one that grows and shrinks in turn. `bench/run churn` builds and runs it, and
 * bench/churn.py reads its lines, whose parts stand between tabs. */
#include "keys.h"
#include <pthread.h>

enum { LOOK_UPS = 400000, ROUNDS = 9, MOST_THREADS = 16, MOST_TIMES = 100 };

/* What keys are like, how long they are at most, and whether the oldest go first: else they go by chance. */
static const struct form {
    const char *name;
    int kind;
    uint8_t longest, oldest_first;
} forms[] = {
    { "user:N, by chance", USERS, 24, 0 },
    { "URLs, by chance", PAGES, 88, 0 },
    { "URLs of one host, by chance", KINDS, 56, 0 },
    { "random keys of 8 bytes, by chance", RANDOM, 8, 0 },
    { "dense numbers of 8 bytes, by chance", DENSE, 8, 0 },
    { "user:N, the oldest first", USERS, 24, 1 },
    { "dense numbers of 8 bytes, the oldest first", DENSE, 8, 1 },
};

/* A thread's part of the keys that are there: the numbers of its keys, and the next number that it takes. */
struct part {
    const struct form *form;
    hot_handle handle;
    uint64_t *numbers, count, next, step, oldest, drawn, refused;
};

static size_t churn_key(const struct form *form, uint64_t number, uint8_t *key)
{
    if (form->kind < KINDS) {
        return key_of(form->kind, number, key);
    }
    return (size_t)sprintf((char *)key, "https://example.org/%u/page/%llu.html", (unsigned)(number % 977), (unsigned long long)number);
}

/* Whether the key of this number was inserted; that it was refused as full is counted. */
static int insert(struct part *part, uint64_t number)
{
    uint8_t key[LONGEST];
    uint64_t had;
    hot_status status = hot_insert(&part->handle, key, churn_key(part->form, number, key), number, &had);
    if (status == HOT_FULL_NODES || status == HOT_FULL_LEAVES) {
        part->refused++;
        return 0;
    }
    must(status, HOT_INSERTED);
    return 1;
}

static int take_out(struct part *part, uint64_t number)
{
    uint8_t key[LONGEST];
    uint64_t had;
    hot_status status = hot_remove(&part->handle, key, churn_key(part->form, number, key), &had);
    if (status == HOT_FULL_NODES) {
        part->refused++;
        return 0;
    }
    must(status, HOT_REMOVED);
    return 1;
}

/* A fifth of the part's keys go, one after the other, and for each a new one comes. Where one is refused, the old one stays. */
static void *turn(void *context)
{
    struct part *part = context;
    uint64_t left;
    for (left = part->count / 5; left > 0; left--) {
        uint64_t draw = part->form->oldest_first ? part->oldest++ : mixed(~part->drawn++);
        uint64_t *number = &part->numbers[draw % part->count];
        if (!take_out(part, *number)) {
            continue;
        }
        if (insert(part, part->next)) {
            *number = part->next;
            part->next += part->step;
        } else {
            must(insert(part, *number) ? HOT_DONE : HOT_FULL_NODES, HOT_DONE);
        }
    }
    return NULL;
}

static void turn_of_all(struct part *parts, int threads)
{
    pthread_t running[MOST_THREADS];
    int place;
    for (place = 1; place < threads; place++) {
        if (pthread_create(&running[place], NULL, turn, &parts[place])) {
            exit(1);
        }
    }
    turn(&parts[0]);
    for (place = 1; place < threads; place++) {
        pthread_join(running[place], NULL);
    }
}

static uint32_t live_nodes(hot_handle *handle)
{
    hot_counts counts;
    must(hot_census(handle, &counts), HOT_DONE);
    return counts.nodes.live;
}

/* The nanoseconds of a look-up of keys that are there, drawn by chance. */
static double look_up_time(hot_handle *handle, const struct part *part)
{
    double begun = seconds(CLOCK_PROCESS_CPUTIME_ID);
    uint64_t place, value;
    uint8_t key[LONGEST];
    for (place = 0; place < LOOK_UPS; place++) {
        uint64_t number = part->numbers[mixed(place) % part->count];
        must(hot_get(handle, key, churn_key(part->form, number, key), &value), HOT_FOUND);
    }
    return 1e9 * (seconds(CLOCK_PROCESS_CPUTIME_ID) - begun) / LOOK_UPS;
}

static void open_all(const struct form *form, struct part *parts, uint64_t keys, int threads)
{
    hot_handle handles[MOST_THREADS] = { HOT_HANDLE };
    hot_stock stock;
    uint64_t place;
    int thread;
    hot_stock_for_keys((uint32_t)keys, form->longest, &stock);
    for (thread = 0; thread < threads; thread++) {
        handles[thread] = (hot_handle)HOT_HANDLE;
    }
    must(hot_create_with(&stock, handles, (size_t)threads), HOT_DONE);
    for (thread = 0; thread < threads; thread++) {
        uint64_t count = keys / (uint64_t)threads, *numbers = malloc(count * sizeof *numbers);
        if (!numbers) {
            exit(1);
        }
        parts[thread] = (struct part){ form, handles[thread], numbers, count, (uint64_t)thread, (uint64_t)threads, 0, (uint64_t)thread << 40, 0 };
        for (place = 0; place < count; place++, parts[thread].next += parts[thread].step) {
            numbers[place] = parts[thread].next;
            insert(&parts[thread], numbers[place]);
        }
    }
}

static uint64_t close_all(struct part *parts, int threads)
{
    uint64_t refused = 0;
    int thread;
    for (thread = 0; thread < threads; thread++) {
        refused += parts[thread].refused;
        must(hot_destroy(&parts[thread].handle), HOT_DONE);
        free(parts[thread].numbers);
    }
    return refused;
}

/* A fresh index with the keys of a part. */
static struct part fresh_index(const struct part *part)
{
    struct part fresh = *part;
    hot_stock stock;
    uint64_t place;
    fresh.handle = (hot_handle)HOT_HANDLE;
    hot_stock_for_keys((uint32_t)part->count, part->form->longest, &stock);
    must(hot_create_with(&stock, &fresh.handle, 1), HOT_DONE);
    for (place = 0; place < part->count; place++) {
        insert(&fresh, part->numbers[place]);
    }
    return fresh;
}

static int is_longer(const void *one, const void *other)
{
    double first = *(const double *)one, second = *(const double *)other;
    return (first > second) - (first < second);
}

/* How many times as long look-ups take as in a fresh index with the same keys: the median of rounds in which both are timed by turns. */
static double look_ups(struct part *part, struct part *fresh)
{
    double ratios[ROUNDS];
    int round;
    for (round = 0; round < ROUNDS; round++) {
        double time = look_up_time(&part->handle, part);
        ratios[round] = time / look_up_time(&fresh->handle, part);
    }
    qsort(ratios, ROUNDS, sizeof *ratios, is_longer);
    return ratios[ROUNDS / 2];
}

static void measure(const struct form *form, uint64_t keys, int turns, int threads)
{
    struct part parts[MOST_THREADS], fresh;
    uint32_t most = 0;
    double sum = 0;
    int at;
    open_all(form, parts, keys, threads);
    for (at = 0; at < turns; at++) {
        uint32_t nodes;
        turn_of_all(parts, threads);
        nodes = live_nodes(&parts[0].handle);
        sum += nodes;
        most = nodes > most ? nodes : most;
    }
    fresh = fresh_index(&parts[0]);
    printf("churn\t%s\t%d\t%.1f\t%.1f\t%.1f\t", form->name, turns, (double)fresh.count / live_nodes(&fresh.handle),
           (double)keys * turns / sum, (double)keys / most);
    if (threads == 1) {
        printf("%.2f", look_ups(&parts[0], &fresh));
    }
    must(hot_destroy(&fresh.handle), HOT_DONE);
    printf("\t%llu\n", (unsigned long long)close_all(parts, threads));
    fflush(stdout);
}

/* All keys of one part go by chance but for so many, and then come again. */
static void shrink(struct part *part, uint64_t left)
{
    for (; part->count > left; part->count--) {
        uint64_t at = mixed(~part->drawn++) % part->count, number = part->numbers[at];
        part->numbers[at] = part->numbers[part->count - 1];
        part->numbers[part->count - 1] = number;
        if (!take_out(part, number)) {
            return;
        }
    }
}

static void grow(struct part *part, uint64_t keys)
{
    for (; part->count < keys; part->count++, part->next++) {
        part->numbers[part->count] = part->next;
        insert(part, part->next);
    }
}

/* Down to a hundredth, and then up and down between a tenth and all keys: the most nodes at the top, beside those of a fresh index with
 * the same keys. */
static void measure_shrinking(const struct form *form, uint64_t keys, int times)
{
    struct part part;
    double low, most = 0;
    int at;
    open_all(form, &part, keys, 1);
    shrink(&part, keys / 100);
    low = (double)part.count / live_nodes(&part.handle);
    for (at = 0; at < times; at++) {
        struct part fresh;
        double ratio;
        grow(&part, keys);
        fresh = fresh_index(&part);
        ratio = (double)live_nodes(&part.handle) / live_nodes(&fresh.handle);
        must(hot_destroy(&fresh.handle), HOT_DONE);
        most = ratio > most ? ratio : most;
        shrink(&part, keys / 10);
    }
    printf("shrinks\t%.1f\t%d\t%.2f\t%llu\n", low, times, most, (unsigned long long)close_all(&part, 1));
    fflush(stdout);
}

int main(int words, char **word)
{
    uint64_t keys = words > 1 ? strtoull(word[1], NULL, 10) : 100000;
    int turns = words > 2 ? atoi(word[2]) : 100, threads = words > 3 ? atoi(word[3]) : 1;
    size_t form;
    if (words > 4 || keys < 1000 || keys > 10000000 || turns < 1 || threads < 1 || threads > MOST_THREADS) {
        fprintf(stderr, "usage: churn [KEYS [TURNS [THREADS]]]    1,000 to 10,000,000 keys, and 1 to %d threads\n", MOST_THREADS);
        return 2;
    }
    printf("keys\t%llu\t%d\n", (unsigned long long)(keys - keys % (uint64_t)threads), threads);
    for (form = 0; form < sizeof forms / sizeof forms[0]; form++) {
        measure(&forms[form], keys - keys % (uint64_t)threads, turns, threads);
        if (threads == 1 && !forms[form].oldest_first && turns >= 10) {
            measure_shrinking(&forms[form], keys, turns / 10 < MOST_TIMES ? turns / 10 : MOST_TIMES);
        }
    }
    return 0;
}
