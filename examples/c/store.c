/* A log-structured store, whose key directory is the index. Values lie in a log, which only grows; the index has the place of each key's
 * last record: twice its offset, and one more if the record deletes the key. Several threads may write and read at once.
 *
 *     store LOG THREADS [KEYS]     put KEY VALUE     get KEY     del KEY     list PREFIX     fill COUNT
 *
 * A put is in the log when it returns; a store that must outlive the machine calls fdatasync, too. A record is written before the directory
 * has its place. Where the directory is full, the record is taken back: until then the log is locked, so it is the log's last. */
#define _XOPEN_SOURCE 700
#include <hot.h>
#include <errno.h>
#include <fcntl.h>
#include <pthread.h>
#include <stdatomic.h>
#include <stdio.h>
#include <stdlib.h>
#include <string.h>
#include <sys/stat.h>
#include <unistd.h>

/* No record goes from one block of the log into the next, so that threads can read the blocks of a log side by side. */
enum { BLOCK = 1 << 16, MOST_THREADS = 64 };

struct head {
    uint32_t sum, key, value, is_deletion;
};

struct record {
    struct head head;
    uint8_t bytes[BLOCK - sizeof(struct head)]; /* the key, and then the value */
};

static int file;
static uint64_t end;
static pthread_mutex_t appends = PTHREAD_MUTEX_INITIALIZER;
static hot_index *directory;
static unsigned threads, fill;
static atomic_ulong next_block;

/* What a thread does with its handle; its number tells its part. */
struct worker {
    pthread_t thread;
    unsigned number;
    void (*work)(hot_handle *handle, unsigned number);
};

static void die(const char *why) {
    fprintf(stderr, "store: %s\n", why);
    exit(1);
}

/* FNV-1a over all of a record but its sum. */
static uint32_t sum_of(const struct record *it) {
    const uint8_t *at = (const uint8_t *)&it->head.key, *upto = it->bytes + it->head.key + it->head.value;
    uint32_t sum = 2166136261;
    for (; at < upto; at++)
        sum = (sum ^ *at) * 16777619;
    return sum;
}

static size_t size_of(const struct record *it) {
    return sizeof it->head + it->head.key + it->head.value;
}

/* Whether a whole record lies in these bytes. */
static int is_record(const struct record *it, size_t room) {
    return room > sizeof it->head && it->head.key > 0 && it->head.key <= HOT_MAX_KEY && it->head.value < BLOCK &&
           size_of(it) <= room && it->head.sum == sum_of(it);
}

/* Lets the directory have a key's record at this place, unless it has a later one. So it does not matter in which order threads come
 * here, after their appends or when they read a log again. Returns why the directory has no room for it, or HOT_DONE. */
static hot_status point(hot_handle *handle, const struct record *it, uint64_t offset) {
    uint64_t place = 2 * offset + it->head.is_deletion, had;
    hot_status status = hot_insert(handle, it->bytes, it->head.key, place, &had);
    while ((status == HOT_EXISTS || status == HOT_DIFFERS) && had < place)
        status = hot_exchange(handle, it->bytes, it->head.key, had, place, &had);
    return status == HOT_INSERTED || status == HOT_EXCHANGED || status == HOT_EXISTS || status == HOT_DIFFERS ? HOT_DONE : status;
}

static hot_status change(hot_handle *handle, const char *key, const char *value, uint32_t is_deletion) {
    struct record *it = malloc(sizeof *it);
    size_t key_length = strlen(key), value_length = strlen(value);
    uint64_t offset;
    hot_status status;
    if (!it || key_length == 0 || key_length > HOT_MAX_KEY || key_length + value_length > sizeof it->bytes)
        die("a key or value of this length can't be kept");
    it->head = (struct head){ 0, (uint32_t)key_length, (uint32_t)value_length, is_deletion };
    memcpy(it->bytes, key, key_length), memcpy(it->bytes + key_length, value, value_length);
    it->head.sum = sum_of(it);
    pthread_mutex_lock(&appends);
    offset = end;
    if (offset % BLOCK + size_of(it) > BLOCK)
        offset += BLOCK - offset % BLOCK;
    if (pwrite(file, it, size_of(it), (off_t)offset) != (ssize_t)size_of(it))
        die("the log can't be written");
    status = point(handle, it, offset);
    if (status == HOT_DONE)
        end = offset + size_of(it);
    else if (ftruncate(file, (off_t)end))
        die("the log can't be written");
    pthread_mutex_unlock(&appends);
    free(it);
    return status;
}

static void change_and_tell(hot_handle *handle, const char *key, const char *value, uint32_t is_deletion) {
    hot_status status = change(handle, key, value, is_deletion);
    if (status != HOT_DONE)
        puts(hot_status_text(status));
}

static void get(hot_handle *handle, const char *key) {
    struct record *it = malloc(sizeof *it);
    uint64_t place;
    if (!it)
        die("out of memory");
    if (hot_get(handle, (const uint8_t *)key, strlen(key), &place) != HOT_FOUND || place % 2) {
        puts("absent");
    } else {
        ssize_t got = pread(file, it, sizeof *it, (off_t)(place / 2));
        if (got < 0 || !is_record(it, (size_t)got))
            die("the log is damaged");
        printf("%.*s\n", (int)it->head.value, (const char *)it->bytes + it->head.key);
    }
    free(it);
}

static int print(void *context, const hot_pair *pair) {
    (void)context;
    if (pair->value % 2 == 0)
        printf("%.*s\n", (int)pair->length, (const char *)pair->key);
    return 1;
}

/* Lists the keys with a prefix, in order. */
static void list(hot_handle *handle, const char *prefix) {
    uint8_t last[HOT_MAX_KEY];
    size_t length = strlen(prefix);
    if (length > HOT_MAX_KEY)
        return;
    memset(last, 255, sizeof last);
    memcpy(last, prefix, length);
    if (hot_each(handle, (const uint8_t *)prefix, length, last, sizeof last, print, NULL) != HOT_DONE)
        die("a scan was refused");
}

/* Takes block after block that no other thread has taken, and brings its records into the directory: up to one that was torn. */
static void recover(hot_handle *handle, unsigned number) {
    uint8_t *block = malloc(BLOCK);
    struct record *it = malloc(sizeof *it);
    uint64_t at, start;
    ssize_t length;
    (void)number;
    if (!block || !it)
        die("out of memory");
    for (;;) {
        start = atomic_fetch_add(&next_block, 1) * BLOCK;
        if ((length = pread(file, block, BLOCK, (off_t)start)) <= 0)
            break;
        for (at = 0; at < (uint64_t)length; at += size_of(it)) {
            memcpy(it, block + at, (size_t)length - at);
            if (!is_record(it, (size_t)length - at))
                break;
            if (point(handle, it, start + at) != HOT_DONE)
                die("the log has more keys than there is room for");
        }
        pthread_mutex_lock(&appends);
        if (at > 0 && end < start + at)
            end = start + at;
        pthread_mutex_unlock(&appends);
    }
    free(it), free(block);
}

static void put_many(hot_handle *handle, unsigned number) {
    unsigned i;
    char key[32], value[32];
    for (i = number; i < fill; i += threads) {
        snprintf(key, sizeof key, "fill/%06u", i), snprintf(value, sizeof value, "value %u", i);
        change_and_tell(handle, key, value, 0);
    }
}

static void open_handle(hot_handle *handle) {
    hot_status status = hot_open(directory, handle);
    if (status != HOT_DONE)
        die(hot_status_text(status));
}

static void *run(void *argument) {
    const struct worker *worker = argument;
    hot_handle handle = HOT_HANDLE;
    open_handle(&handle);
    worker->work(&handle, worker->number);
    hot_close(&handle);
    return NULL;
}

static void side_by_side(void (*work)(hot_handle *handle, unsigned number)) {
    struct worker workers[MOST_THREADS];
    unsigned i;
    for (i = 0; i < threads; i++) {
        workers[i].number = i, workers[i].work = work;
        if (pthread_create(&workers[i].thread, NULL, run, &workers[i]))
            die("no thread");
    }
    for (i = 0; i < threads; i++)
        pthread_join(workers[i].thread, NULL);
}

int main(int argc, char **argv) {
    hot_stock stock;
    hot_status status;
    char line[1024], verb[8], key[256], value[512];
    hot_handle handle = HOT_HANDLE;
    if (argc < 3 || argc > 4 || (threads = (unsigned)atoi(argv[2])) == 0 || threads > MOST_THREADS)
        die("usage: store LOG THREADS [KEYS]");
    if ((file = open(argv[1], O_RDWR | O_CREAT, 0666)) < 0)
        die(strerror(errno));
    hot_stock_for_keys(argc == 4 ? (uint32_t)atoi(argv[3]) : 100000, 24, &stock);
    if ((status = hot_open_index(&stock, threads + 1, &directory)) != HOT_DONE)
        die(hot_status_text(status));
    side_by_side(recover);
    open_handle(&handle);
    while (fgets(line, sizeof line, stdin)) {
        key[0] = value[0] = '\0';
        if (sscanf(line, "%7s %255s %511[^\n]", verb, key, value) < 1)
            continue;
        if (strcmp(verb, "put") == 0)
            change_and_tell(&handle, key, value, 0);
        else if (strcmp(verb, "get") == 0)
            get(&handle, key);
        else if (strcmp(verb, "del") == 0)
            change_and_tell(&handle, key, "", 1);
        else if (strcmp(verb, "list") == 0)
            list(&handle, key);
        else if (strcmp(verb, "fill") == 0)
            fill = (unsigned)atoi(key), side_by_side(put_many);
        else
            puts("unknown command");
    }
    hot_close(&handle), hot_close_index(directory);
    return close(file);
}
