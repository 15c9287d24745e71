/* Dumps an index to a file, and makes an index of the file again.
 *
 *     dump FILE [KEYS]
 *
 * It puts KEYS keys in, or 1000000, dumps them, restores them into a second index, and prints what that has. The file has the pairs in the
 * order of their keys: the key's length, in one byte, the key, and the value in eight bytes, the highest first. It ends with a byte 255 and how
 * many pairs there are, so that one that was cut is refused. examples/python/dump.py reads and writes the same. */
#define _POSIX_C_SOURCE 200809L
#include <hot.h>
#include <inttypes.h>
#include <stdio.h>
#include <stdlib.h>
#include <string.h>
#include <unistd.h>

enum { END = 255, VALUE = 8 };

/* A file that is written, or read: how many pairs so far, and whether it is no whole dump. */
typedef struct dump {
    FILE *file;
    uint64_t count;
    int is_wrong;
    uint8_t key[HOT_MAX_KEY];
} dump;

static void die(const char *what, const char *why) {
    fprintf(stderr, "dump: %s: %s\n", what, why);
    exit(1);
}

static void check(const char *what, hot_status status) {
    if (status != HOT_DONE)
        die(what, hot_status_text(status));
}

/* ---- Writing ---- */

static int write_number(FILE *file, uint64_t number) {
    uint8_t bytes[VALUE];
    int place;
    for (place = 0; place < VALUE; place++)
        bytes[place] = (uint8_t)(number >> 8 * (VALUE - 1 - place));
    return fwrite(bytes, VALUE, 1, file) == 1;
}

static int write_pair(void *context, const hot_pair *pair) {
    dump *to = context;
    to->is_wrong = putc((int)pair->length, to->file) == EOF || fwrite(pair->key, 1, pair->length, to->file) < pair->length ||
                   !write_number(to->file, pair->value);
    to->count++;
    return !to->is_wrong;
}

/* Writes all pairs to a new file, which takes the name once it is whole. Other threads may change the index meanwhile. */
static uint64_t write_dump(hot_handle *handle, const char *name) {
    char new_name[4096];
    dump to = {NULL, 0, 0, {0}};
    if (snprintf(new_name, sizeof new_name, "%s.new", name) >= (int)sizeof new_name || !(to.file = fopen(new_name, "wb")))
        die(name, "it can't be opened");
    check(name, hot_each(handle, to.key, 0, HOT_TO_END, write_pair, &to));
    if (to.is_wrong || putc(END, to.file) == EOF || !write_number(to.file, to.count) || fflush(to.file) || fsync(fileno(to.file)))
        die(name, "it can't be written");
    if (fclose(to.file) || rename(new_name, name))
        die(name, "it can't be renamed");
    return to.count;
}

/* ---- Reading ---- */

static int read_number(FILE *file, uint64_t *number) {
    uint8_t bytes[VALUE];
    int place;
    if (fread(bytes, VALUE, 1, file) != 1)
        return 0;
    for (*number = 0, place = 0; place < VALUE; place++)
        *number = *number << 8 | bytes[place];
    return 1;
}

/* What hot_load calls for each pair. Where the file is no whole dump it ends the load there, too. */
static int read_pair(void *context, const uint8_t **key, size_t *length, uint64_t *value) {
    dump *from = context;
    int size = getc(from->file);
    if (size == EOF || size == END) {
        from->is_wrong = size == EOF || !read_number(from->file, value) || *value != from->count;
        return 0;
    }
    *key = from->key;
    *length = (size_t)size;
    from->is_wrong = *length > HOT_MAX_KEY || fread(from->key, 1, *length, from->file) < *length || !read_number(from->file, value);
    from->count++;
    return !from->is_wrong;
}

/* Makes an index of the pairs of a file, which writes how many they are. */
static hot_index *read_dump(const char *name, const hot_stock *stock, size_t handles, size_t *count) {
    hot_index *index;
    dump from = {fopen(name, "rb"), 0, 0, {0}};
    if (!from.file)
        die(name, "it can't be opened");
    check(name, hot_load(stock, handles, read_pair, &from, &index, count));
    if (from.is_wrong)
        die(name, "it is no whole dump");
    fclose(from.file);
    return index;
}

/* ---- The example ---- */

/* A handle, and how many pairs differ from what it finds. */
typedef struct comparison {
    hot_handle *handle;
    uint64_t differ;
} comparison;

static int compare(void *context, const hot_pair *pair) {
    comparison *with = context;
    uint64_t value = 0;
    with->differ += hot_get(with->handle, pair->key, pair->length, &value) != HOT_FOUND || value != pair->value;
    return 1;
}

static void print(hot_status status, const hot_pair *pair) {
    if (status == HOT_FOUND)
        printf("%.*s %" PRIu64 "\n", (int)pair->length, (const char *)pair->key, pair->value);
}

int main(int argc, char **argv) {
    uint32_t keys = argc > 2 ? (uint32_t)strtoul(argv[2], NULL, 10) : 1000000, number;
    hot_handle first = HOT_HANDLE, second = HOT_HANDLE;
    hot_index *index, *restored;
    comparison with = {&first, 0};
    hot_stock stock;
    hot_pair pair;
    uint8_t key[HOT_MAX_KEY];
    size_t count;
    if (argc < 2 || keys < 1)
        die("usage", "dump FILE [KEYS]");
    hot_stock_for_keys(keys, 24, &stock);
    check("an index", hot_open_index(&stock, 1, &index));
    check("a handle", hot_open(index, &first));
    for (number = 0; number < keys; number++) {
        size_t length = (size_t)sprintf((char *)key, "user:%" PRIu32, number);
        if (hot_insert(&first, key, length, number, NULL) != HOT_INSERTED)
            die("an insert", "it was refused");
    }
    printf("%" PRIu64 " keys dumped\n", write_dump(&first, argv[1]));
    restored = read_dump(argv[1], &stock, 1, &count);
    check("a handle", hot_open(restored, &second));
    check("all pairs", hot_each(&second, key, 0, HOT_TO_END, compare, &with));
    printf("%zu keys restored, %" PRIu64 " differ\n", count, with.differ);
    print(hot_first(&second, key, 0, &pair), &pair);
    print(hot_last(&second, HOT_TO_END, &pair), &pair);
    hot_close(&first), hot_close_index(index);
    hot_close(&second), hot_close_index(restored);
    return 0;
}
