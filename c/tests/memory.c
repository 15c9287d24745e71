/* Tests of what memory the library takes: how many bytes handles have before and after they are opened and between calls, what is resident,
 * that none is lost, and what calls return where memory is refused, each allocation in turn. It is linked with --wrap for malloc, calloc, realloc,
 * free, mmap, munmap and madvise. */
#define _GNU_SOURCE
#include "hot.h"
#include "check.h"
#include <malloc.h>
#include <stdio.h>
#include <stdlib.h>
#include <string.h>
#include <sys/mman.h>
#include <sys/prctl.h>
#include <sys/sysinfo.h>
#include <sys/wait.h>
#include <unistd.h>

#define HANDLES 1024

void *__real_malloc(size_t size);
void *__real_calloc(size_t count, size_t size);
void *__real_realloc(void *at, size_t size);
void __real_free(void *at);
void *__real_mmap(void *at, size_t size, int protection, int flags, int file, off_t offset);
int __real_munmap(void *at, size_t size);
int __real_madvise(void *at, size_t size, int advice);

/* The bytes that are in use, how many allocations were asked for, the number of the one that is refused, or 0, and whether that may be
 * done without. */
static size_t in_use;
static long asked, refused;
static int is_spared;

static int is_refused(int spared) {
    if (++asked != refused)
        return 0;
    is_spared = spared;
    return 1;
}

static void *counted(void *at) {
    in_use += malloc_usable_size(at);
    return at;
}

void *__wrap_malloc(size_t size) {
    return is_refused(0) ? NULL : counted(__real_malloc(size));
}

void *__wrap_calloc(size_t count, size_t size) {
    return is_refused(0) ? NULL : counted(__real_calloc(count, size));
}

void *__wrap_realloc(void *at, size_t size) {
    if (is_refused(0))
        return NULL;
    in_use -= malloc_usable_size(at);
    return counted(__real_realloc(at, size));
}

void __wrap_free(void *at) {
    in_use -= malloc_usable_size(at);
    __real_free(at);
}

/* The fewest bytes that were mapped at once. */
static size_t least_mapped = SIZE_MAX;

/* Where addresses begin that are no memory yet. */
enum { MOST_ADDRESSES = 2048 };
static void *addresses[MOST_ADDRESSES];

static void **addresses_at(const void *at) {
    int place = 0;
    while (place < MOST_ADDRESSES - 1 && addresses[place] != at)
        place++;
    return &addresses[place];
}

/* Without addresses for long lists they come from malloc. */
void *__wrap_mmap(void *at, size_t size, int protection, int flags, int file, off_t offset) {
    if (is_refused(1))
        return MAP_FAILED;
    at = __real_mmap(at, size, protection, flags, file, offset);
    least_mapped = size < least_mapped ? size : least_mapped;
    if (at != MAP_FAILED && flags & MAP_NORESERVE)
        *addresses_at(NULL) = at;
    in_use += at == MAP_FAILED || flags & MAP_NORESERVE ? 0 : size;
    return at;
}

int __wrap_munmap(void *at, size_t size) {
    void **listed = addresses_at(at);
    if (*listed == at) {
        *listed = NULL;
    } else {
        in_use -= size;
    }
    return __real_munmap(at, size);
}

/* What a sanitizer holds for itself beside the memory that it watches. */
#ifdef IS_WATCHED
enum { WATCHING = 64 << 20 };
#else
enum { WATCHING = 0 };
#endif

/* How often huge pages were asked for, in the place of pages that had filled. */
static long filled;

int __wrap_madvise(void *at, size_t size, int advice) {
    filled += advice == 25;
    if (is_refused(1))
        return -1;
    return __real_madvise(at, size, advice);
}

static const hot_stock stock = {20, 40, 0, 0, 0, 10}, large_stock = {2500, 2500, 0, 0, 0, 10};

/* The bytes of the process that are resident, without those of files, which the system may take back at any time. It counts pages: what
 * /proc/self/statm says may be some dozens of them off. */
static long resident(void) {
    char line[256];
    long bytes = 0, part;
    FILE *file;
    malloc_trim(0); /* else blocks that were freed count until malloc gives them back */
    file = fopen("/proc/self/smaps_rollup", "r");
    CHECK(file != NULL);
    while (file != NULL && fgets(line, sizeof line, file) != NULL)
        if (sscanf(line, "Pss_Anon: %ld", &part) == 1 || sscanf(line, "Pss_Shmem: %ld", &part) == 1)
            bytes += part * 1024;
    if (file != NULL)
        fclose(file);
    CHECK(bytes > 0);
    return bytes;
}

/* What the system says of this process by the words before that, in bytes. */
static long of_status(const char *words) {
    char line[256];
    long found = 0;
    FILE *file = fopen("/proc/self/status", "r");
    CHECK(file != NULL);
    while (file != NULL && fgets(line, sizeof line, file) != NULL)
        if (strncmp(line, words, strlen(words)) == 0)
            found = 1024 * atol(line + strlen(words));
    if (file != NULL)
        fclose(file);
    CHECK(found > 0);
    return found;
}

/* 1,024 handles take little until they are opened. One that is closed and opened again takes no more. */
static void test_light(void) {
    static hot_handle handles[HANDLES];
    hot_handle handle = HOT_HANDLE;
    hot_index *index = NULL;
    size_t bytes, none, one, turn;
    CHECK(hot_stock_bytes(&stock, HANDLES, &bytes) == HOT_DONE);
    CHECK(hot_open_index(&stock, HANDLES, &index) == HOT_DONE);
    none = in_use;
    CHECK(hot_open(index, &handle) == HOT_DONE);
    one = in_use;
    CHECK(one - none <= 80000);
    /* The last handle is open to the library, and 128 bytes of each are in the table. */
    CHECK((none - bytes - (one - none)) / HANDLES + 128 <= 360);
    for (turn = 0; turn < 10000; turn++) {
        CHECK(hot_close(&handle) == HOT_DONE && hot_open(index, &handle) == HOT_DONE);
        CHECK(hot_upsert(&handle, (const uint8_t *)"key", 3, turn, NULL) == (turn ? HOT_WAS : HOT_NEW));
    }
    CHECK(in_use == one && hot_close(&handle) == HOT_DONE);
    for (turn = 0; turn < HANDLES; turn++)
        CHECK(hot_open(index, &handles[turn]) == HOT_DONE);
    CHECK(hot_open(index, &handle) == HOT_NO_HANDLE);
    for (turn = 0; turn < HANDLES; turn++)
        CHECK(hot_close(&handles[turn]) == HOT_DONE);
    CHECK(hot_close_index(index) == HOT_DONE && in_use == 0);
    printf("%d handles take %zu bytes, and each that is open %zu\n", HANDLES, none - bytes, one - none);
}

/* Many small indexes: each takes 6,100 bytes at most with its handle and ten keys, and of malloc a few more. None of their changes asks for memory.
 * No mapping is small. */
static void test_small(void) {
    enum { MANY = 1000, KEYS = 10, MOST = 6100, OF_MALLOC = 400 };
    static hot_index *indexes[MANY];
    static hot_handle handles[MANY];
    hot_stock small;
    size_t place, before = in_use;
    uint64_t key;
    long first = resident(), made = 0;
    least_mapped = SIZE_MAX;
    hot_stock_for_keys(KEYS, 8, &small);
    for (place = 0; place < MANY; place++) {
        CHECK(hot_open_index(&small, 1, &indexes[place]) == HOT_DONE && hot_open(indexes[place], &handles[place]) == HOT_DONE);
        made = asked;
        for (key = 0; key < 3 * KEYS; key++)
            CHECK(hot_upsert(&handles[place], (const uint8_t *)&key, 8, key, NULL) == HOT_NEW &&
                  (key < KEYS || hot_remove(&handles[place], (const uint8_t *)&key, 8, NULL) == HOT_REMOVED));
        CHECK(asked == made);
    }
    CHECK((in_use - before) / MANY <= MOST && (resident() - first) / MANY <= MOST + OF_MALLOC + WATCHING && least_mapped >= 64 << 10);
    printf("a small index takes %zu bytes, and %ld are resident\n", (in_use - before) / MANY, (resident() - first) / MANY);
    for (place = 0; place < MANY; place++)
        CHECK(hot_close(&handles[place]) == HOT_DONE && hot_close_index(indexes[place]) == HOT_DONE);
    CHECK(in_use == before);
}

/* Between its calls a handle keeps 64 KiB at most of what its scans took, however many pairs they listed, and some of it. */
static void test_kept(void) {
    enum { MANY = 8192 };
    static const hot_stock roomy = {MANY, 0, 0, 0, 0, MANY};
    static const size_t lengths[4] = {2, 15, 16, HOT_MAX_KEY};
    static hot_pair pairs[MANY];
    hot_handle handle = HOT_HANDLE;
    uint8_t key[HOT_MAX_KEY] = {0};
    size_t place, number, limit, count, before, most = 0;
    uint32_t more;
    for (place = 0; place < 4; place++) {
        CHECK(hot_create_with(&roomy, &handle, 1) == HOT_DONE);
        before = in_use;
        for (number = 0; number < MANY; number++) {
            key[0] = (uint8_t)(number >> 8), key[1] = (uint8_t)number;
            CHECK(hot_insert(&handle, key, lengths[place], number, NULL) == HOT_INSERTED);
        }
        CHECK(in_use == before);
        for (limit = 1; limit <= MANY; limit += limit < 64 ? 1 : 61) {
            CHECK(hot_scan(&handle, key, 0, HOT_TO_END, pairs, limit, &count, &more) == HOT_DONE && count == limit);
            CHECK(in_use - before <= (64 << 10) + 64);
            most = in_use - before > most ? in_use - before : most;
        }
        CHECK(hot_close(&handle) == HOT_DONE && in_use == 0);
    }
    CHECK(most > 48 << 10);
}

/* Calls that look up many keys ask for no memory. */
static void test_looked_up(void) {
    enum { MANY = 300 };
    static hot_lookup lookups[MANY];
    hot_handle handle = HOT_HANDLE;
    size_t count;
    long first;
    CHECK(hot_create_with(&stock, &handle, 1) == HOT_DONE && hot_upsert(&handle, (const uint8_t *)"key", 3, 7, NULL) == HOT_NEW);
    for (count = 0; count < MANY; count++) {
        lookups[count].key = (const uint8_t *)"key";
        lookups[count].length = 3;
    }
    first = asked;
    for (count = 0; count < MANY; count++) {
        lookups[count].value = 0;
        CHECK(hot_get_many(&handle, lookups, count) == HOT_DONE && (count == 0 || lookups[count - 1].value == 7) && lookups[count].value == 0);
    }
    lookups[MANY - 1].length = HOT_MAX_KEY + 1;
    lookups[0].value = 0;
    CHECK(hot_get_many(&handle, lookups, MANY) == HOT_KEY_TOO_LONG && lookups[0].value == 0 && asked == first);
    CHECK(hot_close(&handle) == HOT_DONE && in_use == 0);
}

/* What isn't used of an index is not resident: neither while there are few keys, nor in a handle. Huge pages, which some systems give
 * unasked, would be resident as wholes. */
static void test_resident(void) {
    enum { KEYS = 300000, FEW = 10000, MOST = 70 };
    hot_handle handle = HOT_HANDLE, other = HOT_HANDLE;
    hot_index *index = NULL;
    hot_stock roomy;
    hot_memory bytes;
    long first, made, opened, filled;
    uint32_t key;
    CHECK(prctl(PR_SET_THP_DISABLE, 1, 0, 0, 0) == 0);
    first = resident();
    hot_stock_for_keys(KEYS, 8, &roomy);
    CHECK(hot_open_index(&roomy, 4, &index) == HOT_DONE);
    made = resident();
    CHECK(made - first < 1000000);
    CHECK(hot_open(index, &handle) == HOT_DONE && hot_open(index, &other) == HOT_DONE);
    opened = resident();
    CHECK(opened - made < 20000 + WATCHING);
    for (key = 0; key < FEW; key++) {
        uint64_t mixed = key * 0x9E3779B97F4A7C15u;
        CHECK(hot_insert(&handle, (const uint8_t *)&mixed, 8, key, NULL) == HOT_INSERTED);
    }
    filled = resident();
    CHECK(filled - opened < FEW * MOST);
    hot_bytes(index, &bytes);
    CHECK((long)bytes.now + WATCHING >= filled - first && (long)bytes.now < filled - first + 700000 && bytes.most > bytes.now);
    CHECK(hot_close(&handle) == HOT_DONE && hot_close(&other) == HOT_DONE && hot_close_index(index) == HOT_DONE && in_use == 0);
    CHECK(prctl(PR_SET_THP_DISABLE, 0, 0, 0, 0) == 0);
    printf("resident: %ld bytes once the index is made, %ld for each handle, %ld for each of %d keys\n", made - first,
           (opened - made) / 2, (filled - opened) / FEW, FEW);
}

/* Numbers to load, as keys of eight bytes, the highest first. */
typedef struct numbers {
    uint8_t key[8];
    uint32_t next, end;
} numbers;

static void spell(uint32_t number, uint8_t *key) {
    int place;
    for (place = 0; place < 4; place++)
        key[place] = (uint8_t)(number >> (8 * (3 - place))), key[place + 4] = 0;
}

static int next_number(void *context, const uint8_t **key, size_t *length, uint64_t *value) {
    numbers *all = context;
    if (all->next == all->end)
        return 0;
    spell(all->next, all->key);
    *key = all->key;
    *length = 8;
    *value = all->next++;
    return 1;
}

/* Whether the index of a handle has the numbers below this one as they were loaded, and no other key. */
static int has_numbers(hot_handle *handle, uint32_t end) {
    uint8_t key[8];
    uint64_t value = 0;
    size_t count = 0;
    uint32_t number;
    for (number = 0; number < end; number++) {
        spell(number, key);
        if (hot_get(handle, key, 8, &value) != HOT_FOUND || value != number)
            return 0;
    }
    return hot_len(handle, &count) == HOT_DONE && count == end;
}

/* Lets VmHWM tell of what is resident at most from now on. Returns what is resident now. */
static long watch_resident(void) {
    FILE *file = fopen("/proc/self/clear_refs", "w");
    CHECK(file != NULL && fputs("5", file) >= 0 && fclose(file) == 0);
    return of_status("VmRSS:");
}

/* A loaded index takes what its keys need, and no more while it is loaded: tables of malloc's, and those of pages of their own. */
static void test_load_resident(void) {
    enum { MOST = 70, FOR_HANDLE = 300000 };
    static const uint32_t counts[4] = {100, 5000, 300000, 600000};
    size_t place;
    CHECK(prctl(PR_SET_THP_DISABLE, 1, 0, 0, 0) == 0);
    for (place = 0; place < 4; place++) {
        numbers all = {{0}, 0, counts[place]};
        hot_handle handle = HOT_HANDLE;
        hot_index *index = NULL;
        hot_stock roomy = {20, 200, 0, 0, 0, 0};
        hot_memory bytes;
        long first = resident(), before = watch_resident(), loaded;
        size_t count = 0;
        if (place > 0)
            hot_stock_for_keys(counts[place], 8, &roomy);
        CHECK(hot_load(&roomy, 4, next_number, &all, &index, &count) == HOT_DONE && count == counts[place]);
        loaded = resident() - first;
        CHECK(loaded < MOST * (long)count + FOR_HANDLE && of_status("VmHWM:") - before < MOST * (long)count + 2 * FOR_HANDLE + WATCHING);
        hot_bytes(index, &bytes);
        CHECK((long)bytes.now + WATCHING > loaded - FOR_HANDLE && (long)bytes.now < loaded + 2 * FOR_HANDLE && bytes.most >= bytes.now);
        CHECK(hot_open(index, &handle) == HOT_DONE && has_numbers(&handle, counts[place]));
        CHECK(hot_close(&handle) == HOT_DONE && hot_close_index(index) == HOT_DONE && in_use == 0);
        if (place == 3)
            printf("resident: %ld bytes for each of %zu keys that were loaded\n", loaded / (long)count, count);
    }
    CHECK(prctl(PR_SET_THP_DISABLE, 0, 0, 0, 0) == 0);
}

/* Huge pages are asked for. */
static void test_huge(void) {
    numbers all = {{0}, 0, 100000};
    hot_handle handle = HOT_HANDLE;
    hot_index *index = NULL;
    hot_stock huge;
    size_t count = 0;
    memset(&huge, 0, sizeof huge);
    huge.nodes = 200000;
    huge.short_leaves = 100000;
    CHECK(hot_create_with(&huge, &handle, 1) == HOT_DONE);
    CHECK(hot_upsert(&handle, (const uint8_t *)"key", 3, 1, NULL) == HOT_NEW);
    CHECK(hot_destroy(&handle) == HOT_DONE && in_use == 0);
    CHECK(hot_load(&huge, 1, next_number, &all, &index, &count) == HOT_DONE && count == 100000);
    CHECK(hot_open(index, &handle) == HOT_DONE && has_numbers(&handle, 100000));
    CHECK(hot_close(&handle) == HOT_DONE && hot_close_index(index) == HOT_DONE && in_use == 0);
}

static void insert_numbers(hot_handle *handle, uint32_t from, uint32_t upto) {
    uint8_t key[8];
    for (; from < upto; from++) {
        spell(from * 0x9E3779B9u, key);
        CHECK(hot_insert(handle, key, 8, from, NULL) == HOT_INSERTED);
    }
}

/* Few keys take little of a table that asks for huge pages, and so do many: it gets them where it has filled, also when it is loaded. */
static void test_filled(void) {
    enum { FEW = 1000, MANY = 150000, MOST = 70 };
    numbers all = {{0}, 0, MANY};
    hot_handle handle = HOT_HANDLE;
    hot_index *index = NULL;
    hot_stock roomy;
    size_t count;
    long opened;
    hot_stock_for_keys(1000000, 8, &roomy);
    CHECK(hot_open_index(&roomy, 2, &index) == HOT_DONE && hot_open(index, &handle) == HOT_DONE);
    opened = resident();
    filled = 0;
    insert_numbers(&handle, 0, FEW);
    CHECK(resident() - opened < 1000000 && filled == 0);
    insert_numbers(&handle, FEW, MANY);
    CHECK(resident() - opened < MANY * MOST && filled > 0);
    CHECK(hot_close(&handle) == HOT_DONE && hot_close_index(index) == HOT_DONE);
    filled = 0;
    CHECK(hot_load(&roomy, 1, next_number, &all, &index, &count) == HOT_DONE && count == MANY && filled > 0);
    CHECK(hot_open(index, &handle) == HOT_DONE && has_numbers(&handle, MANY));
    CHECK(hot_close(&handle) == HOT_DONE && hot_close_index(index) == HOT_DONE && in_use == 0);
}

/* Where there are too few addresses, memory is refused, and nothing is left behind. */
static void test_addresses(void) {
    hot_handle handle = HOT_HANDLE;
    hot_index *index = NULL;
    numbers all = {{0}, 0, 10};
    hot_stock most;
    struct rlimit before;
    size_t count;
    memset(&most, 0xff, sizeof most);
    most.medium_leaves = most.large_leaves = most.wide_leaves = most.long_leaves = 0;
    if (!limit_addresses((rlim_t)1 << 40, &before))
        return;
    CHECK(hot_open_index(&most, 1, &index) == HOT_NO_MEMORY && index == NULL);
    CHECK(hot_create_with(&most, &handle, 1) == HOT_NO_MEMORY);
    CHECK(hot_load(&most, 1, next_number, &all, &index, &count) == HOT_NO_MEMORY && index == NULL && all.next == 0);
    CHECK(setrlimit(RLIMIT_AS, &before) == 0 && in_use == 0);
}

/* How the system promises memory: '0' by a guess, '1' any amount, or '2' no more than it has. */
static int promises(void) {
    FILE *file = fopen("/proc/sys/vm/overcommit_memory", "r");
    int how = file != NULL ? fgetc(file) : '1';
    if (file != NULL)
        fclose(file);
    return how;
}

static size_t memory_of_machine(void) {
    struct sysinfo machine;
    CHECK(sysinfo(&machine) == 0);
    return (machine.totalram + machine.totalswap) * machine.mem_unit;
}

/* A table that is larger than all memory is refused at once, unless the system promises any amount. */
static void test_most(void) {
    hot_handle handle = HOT_HANDLE;
    hot_index *index = NULL;
    hot_stock most;
    size_t bytes;
    memset(&most, 0, sizeof most);
    most.nodes = UINT32_MAX;
    most.long_leaves = UINT32_MAX;
    CHECK(hot_stock_bytes(&most, 1, &bytes) == HOT_DONE);
    if (promises() != '1' && memory_of_machine() < bytes)
        CHECK(hot_open_index(&most, 1, &index) == HOT_NO_MEMORY && hot_create_with(&most, &handle, 1) == HOT_NO_MEMORY);
    CHECK(in_use == 0);
}

/* It is made where the caller allows it, as small as any other until keys come. */
static void test_allowed(void) {
    enum { KEYS = 1000000000, FEW = 1000, MOST_RESIDENT = 400000 };
    hot_handle handle = HOT_HANDLE;
    hot_index *index = NULL;
    hot_stock roomy;
    hot_memory taken;
    size_t bytes;
    long first = resident();
    hot_stock_for_keys(KEYS, 8, &roomy);
    CHECK(hot_stock_bytes(&roomy, 2, &bytes) == HOT_DONE);
    CHECK(hot_open_index_within(&roomy, 2, bytes - 1, &index) == HOT_NO_MEMORY && index == NULL && in_use == 0);
    if (promises() == '2')
        return;
    CHECK(hot_open_index_within(&roomy, 2, bytes, &index) == HOT_DONE && hot_open(index, &handle) == HOT_DONE);
    insert_numbers(&handle, 0, FEW);
    hot_bytes(index, &taken);
    CHECK(resident() - first < MOST_RESIDENT + WATCHING && taken.now < MOST_RESIDENT && taken.most > bytes);
    CHECK(hot_close(&handle) == HOT_DONE && hot_close_index(index) == HOT_DONE && in_use == 0);
}

/* After a fork, of a process with one thread, parent and child have an index each. */
static void test_fork(void) {
    hot_handle handle = HOT_HANDLE;
    uint64_t value = 0;
    int status = 1;
    pid_t child;
    CHECK(hot_create_with(&large_stock, &handle, 1) == HOT_DONE);
    CHECK(hot_upsert(&handle, (const uint8_t *)"both", 4, 1, NULL) == HOT_NEW);
    child = fork();
    if (child == 0) {
        int is_right = hot_get(&handle, (const uint8_t *)"both", 4, &value) == HOT_FOUND && value == 1;
        is_right &= hot_upsert(&handle, (const uint8_t *)"both", 4, 2, NULL) == HOT_WAS;
        is_right &= hot_upsert(&handle, (const uint8_t *)"child", 5, 2, NULL) == HOT_NEW;
        _exit(!is_right || hot_destroy(&handle) != HOT_DONE);
    }
    CHECK(child > 0 && waitpid(child, &status, 0) == child && status == 0);
    CHECK(hot_get(&handle, (const uint8_t *)"both", 4, &value) == HOT_FOUND && value == 1);
    CHECK(hot_get(&handle, (const uint8_t *)"child", 5, &value) == HOT_ABSENT);
    CHECK(hot_destroy(&handle) == HOT_DONE && in_use == 0);
}

/* Loads as many keys as there are records for. */
enum { LOADED = 40 };

static hot_status load_some(const hot_stock *asks, hot_index **index) {
    numbers all = {{0}, 0, LOADED};
    size_t count = 0;
    hot_status status = hot_load(asks, 3, next_number, &all, index, &count);
    CHECK(status == HOT_NO_MEMORY || count == LOADED);
    return status;
}

/* What calls return where the allocation of this number is refused: that there is no memory, or what they return with it, and then all
 * goes on. Tells whether one was refused. */
static int test_refused(const hot_stock *asks, long number) {
    hot_handle handles[3] = {HOT_HANDLE, HOT_HANDLE, HOT_HANDLE};
    hot_index *index = NULL;
    hot_status status;
    hot_pair pairs[3];
    hot_lookup lookup = {(const uint8_t *)"c", 1, 0, HOT_ABSENT};
    uint32_t more;
    size_t count, place, tries;
    asked = is_spared = 0;
    refused = number;
    for (tries = 0; (status = hot_open_index(asks, 3, &index)) == HOT_NO_MEMORY; tries++)
        CHECK(index == NULL && in_use == 0);
    CHECK(status == HOT_DONE);
    for (place = 0; place < 3; place++) {
        uint8_t name = (uint8_t)('a' + place);
        for (; (status = hot_open(index, &handles[place])) == HOT_NO_MEMORY; tries++)
            CHECK(hot_insert(&handles[place], &name, 1, 1, NULL) == HOT_CLOSED);
        CHECK(status == HOT_DONE && hot_insert(&handles[place], &name, 1, place, NULL) == HOT_INSERTED);
    }
    for (; (status = hot_scan(&handles[0], (const uint8_t *)"", 0, HOT_TO_END, pairs, 3, &count, &more)) == HOT_NO_MEMORY; tries++)
        ;
    CHECK(status == HOT_DONE && count == 3 && pairs[2].value == 2 && !more);
    CHECK(hot_get_many(&handles[1], &lookup, 1) == HOT_DONE && lookup.status == HOT_FOUND && lookup.value == 2);
    CHECK(hot_len(&handles[1], &count) == HOT_DONE && count == 3);
    for (place = 0; place < 3; place++)
        CHECK(hot_close(&handles[place]) == HOT_DONE);
    CHECK(hot_close_index(index) == HOT_DONE && in_use == 0);
    for (index = NULL; (status = load_some(asks, &index)) == HOT_NO_MEMORY; tries++)
        CHECK(index == NULL && in_use == 0);
    for (; (status = hot_open(index, &handles[0])) == HOT_NO_MEMORY; tries++)
        ;
    CHECK(status == HOT_DONE && has_numbers(&handles[0], LOADED));
    CHECK(hot_close(&handles[0]) == HOT_DONE && hot_close_index(index) == HOT_DONE && in_use == 0);
    for (; (status = hot_create_with(asks, handles, 3)) == HOT_NO_MEMORY; tries++)
        CHECK(in_use == 0 && hot_len(&handles[0], &count) == HOT_CLOSED);
    CHECK(status == HOT_DONE);
    for (place = 0; place < 3; place++)
        CHECK(hot_close(&handles[place]) == HOT_DONE);
    CHECK(in_use == 0 && tries <= (size_t)(asked >= number) && (tries > 0 || is_spared || asked < number));
    refused = 0;
    return asked >= number;
}

static long test_each_refused(const hot_stock *asks) {
    long number = 1;
    while (test_refused(asks, number))
        number++;
    return number - 1;
}

/* Opens a handle of an index that grows, again where memory was refused. */
static size_t open_growing_handle(hot_index *index, hot_handle *handle) {
    size_t tries = 0;
    hot_status status;
    while ((status = hot_open(index, handle)) == HOT_NO_MEMORY)
        tries++;
    CHECK(status == HOT_DONE);
    return tries;
}

/* Puts in the next number, again where memory was refused: then the index has what it had. */
static size_t put_next(hot_handle *handle, uint32_t *number) {
    uint8_t key[8];
    size_t tries = 0;
    hot_status status;
    spell(*number, key);
    while ((status = hot_insert(handle, key, 8, *number, NULL)) == HOT_NO_MEMORY) {
        CHECK(has_numbers(handle, *number));
        tries++;
    }
    CHECK(status == HOT_INSERTED);
    ++*number;
    return tries;
}

/* The next pair of a cursor, or the one before, again where memory was refused: a refused call writes nothing. Returns how often it was. */
static size_t go(hot_status move(hot_cursor *, const uint8_t **, size_t *, uint64_t *), hot_cursor *cursor, uint64_t expected) {
    const uint8_t *key = NULL;
    size_t tries = 0, length = 999;
    uint64_t value = 999;
    hot_status status;
    for (; (status = move(cursor, &key, &length, &value)) == HOT_NO_MEMORY; tries++)
        CHECK(key == NULL && length == 999 && value == 999);
    CHECK(status == HOT_FOUND && length == 8 && value == expected);
    return tries;
}

/* A cursor goes up and down where the allocation of this number is refused. Tells whether one was. */
static int test_cursor_refused(long number) {
    enum { KEYS = 1000 };
    static const hot_stock roomy = {500, 1500, 0, 0, 0, 0};
    hot_handle handle = HOT_HANDLE;
    hot_index *index;
    hot_cursor cursor;
    uint32_t place = 0;
    size_t tries = 0;
    CHECK(hot_open_index(&roomy, 1, &index) == HOT_DONE && hot_open(index, &handle) == HOT_DONE);
    while (place < KEYS)
        put_next(&handle, &place);
    asked = 0;
    refused = number;
    CHECK(hot_seek(&cursor, &handle, hot_last_key, 0) == HOT_DONE);
    for (place = 0; place < KEYS; place++)
        tries += go(hot_next, &cursor, place);
    for (place = KEYS - 1; place-- > 0;)
        tries += go(hot_previous, &cursor, place);
    CHECK(tries == (size_t)(asked >= number));
    refused = 0;
    CHECK(hot_close(&handle) == HOT_DONE && hot_close_index(index) == HOT_DONE && in_use == 0);
    return asked >= number;
}

/* What calls return with an index that grows where the allocation of this number is refused: made, filled, made anew, and loaded. */
static int test_growing_refused(long number) {
    hot_handle handles[2] = {HOT_HANDLE, HOT_HANDLE};
    hot_index *index = NULL;
    numbers all = {{0}, 0, 0};
    hot_status status;
    size_t count = 0, tries;
    asked = is_spared = 0;
    refused = number;
    for (tries = 0; (status = hot_open_growing(NULL, SIZE_MAX, 2, &index)) == HOT_NO_MEMORY; tries++)
        CHECK(index == NULL && in_use == 0);
    CHECK(status == HOT_DONE);
    tries += open_growing_handle(index, &handles[0]);
    while (all.end < LOADED)
        tries += put_next(&handles[0], &all.end);
    tries += open_growing_handle(index, &handles[1]);
    CHECK(hot_trim(index) == HOT_OPEN && hot_close(&handles[0]) == HOT_DONE && hot_close(&handles[1]) == HOT_DONE);
    while ((status = hot_trim(index)) == HOT_NO_MEMORY)
        tries++;
    CHECK(hot_open(index, &handles[0]) == HOT_DONE && hot_open(index, &handles[1]) == HOT_DONE);
    CHECK(status == HOT_DONE && has_numbers(&handles[0], all.end) && has_numbers(&handles[1], all.end));
    CHECK(hot_close(&handles[0]) == HOT_DONE && hot_close(&handles[1]) == HOT_DONE && hot_close_index(index) == HOT_DONE && in_use == 0);
    for (index = NULL; (status = hot_load_growing(SIZE_MAX, 1, next_number, &all, &index, &count)) == HOT_NO_MEMORY; tries++) {
        CHECK(index == NULL && in_use == 0);
        all.next = 0;
    }
    CHECK(status == HOT_DONE && count == all.end);
    tries += open_growing_handle(index, &handles[0]);
    CHECK(has_numbers(&handles[0], all.end) && hot_close(&handles[0]) == HOT_DONE && hot_close_index(index) == HOT_DONE && in_use == 0);
    CHECK(tries <= (size_t)(asked >= number) && (tries > 0 || is_spared || asked < number));
    refused = 0;
    return asked >= number;
}

/* An index that has grown takes little more than one that was made for as many keys; once its keys are gone, and it is trimmed, hardly any. */
static void test_growing_resident(void) {
    enum { KEYS = 200000, FEW = 300000 };
    hot_handle handle = HOT_HANDLE;
    hot_index *index = NULL;
    hot_stock roomy;
    long first = resident(), made, grown;
    hot_memory bytes;
    uint32_t number;
    CHECK(prctl(PR_SET_THP_DISABLE, 1, 0, 0, 0) == 0);
    hot_stock_for_keys(KEYS, 8, &roomy);
    CHECK(hot_open_index(&roomy, 1, &index) == HOT_DONE && hot_open(index, &handle) == HOT_DONE);
    for (number = 0; number < KEYS;)
        put_next(&handle, &number);
    made = resident() - first;
    CHECK(hot_close(&handle) == HOT_DONE && hot_close_index(index) == HOT_DONE && in_use == 0);
    first = resident();
    CHECK(hot_open_growing(NULL, SIZE_MAX, 1, &index) == HOT_DONE && hot_open(index, &handle) == HOT_DONE);
    for (number = 0; number < KEYS;)
        put_next(&handle, &number);
    grown = resident() - first;
    hot_bytes(index, &bytes);
    CHECK(grown < made / 10 * 11 + WATCHING && (long)bytes.now + WATCHING >= grown && bytes.now < bytes.most && (long)bytes.now < grown / 4 * 5 + WATCHING);
    CHECK(hot_clear(&handle) == HOT_DONE && hot_close(&handle) == HOT_DONE && hot_trim(index) == HOT_DONE);
    hot_bytes(index, &bytes);
    CHECK(resident() - first < FEW + WATCHING && bytes.now < FEW);
    CHECK(hot_close_index(index) == HOT_DONE && in_use == 0);
    CHECK(prctl(PR_SET_THP_DISABLE, 0, 0, 0, 0) == 0);
    printf("resident: %ld bytes of an index that has grown to %d keys, %ld of one that was made for them\n", grown, KEYS, made);
}

/* A table is made at once, however large it is: nothing is written but in its first page and its last one. */
static void test_made_at_once(void) {
    enum { MOST_RESIDENT = 100000 };
    hot_index *index = NULL;
    hot_stock huge;
    size_t bytes;
    uint32_t keys;
    for (keys = 1000; keys < 100000000; keys *= 10) {
        long first = resident();
        hot_stock_for_keys(keys, 8, &huge);
        if (hot_stock_bytes(&huge, 2, &bytes) != HOT_DONE || hot_open_index_within(&huge, 2, memory_of_machine() / 2, &index) != HOT_DONE)
            break;
        CHECK(keys < 10000 || resident() - first < MOST_RESIDENT + WATCHING);
        CHECK(hot_close_index(index) == HOT_DONE && in_use == 0);
    }
    CHECK(keys > 100000);
}

int main(void) {
    long few, more, growing = 1, cursors = 1;
    test_resident();
    test_load_resident();
    test_light();
    test_small();
    test_kept();
    test_looked_up();
    test_huge();
    test_filled();
    test_addresses();
    test_most();
    test_allowed();
    test_fork();
    test_growing_resident();
    test_made_at_once();
    while (test_growing_refused(growing))
        growing++;
    while (test_cursor_refused(cursors))
        cursors++;
    few = test_each_refused(&stock);
    more = test_each_refused(&large_stock);
    CHECK(few > 15 && more > 15 && growing > 20 && cursors > 1);
    if (!failures)
        printf("passed: each of %ld allocations was refused in turn, and nothing was lost\n", few + more + growing + cursors - 2);
    return failures;
}
