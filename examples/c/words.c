/* Counts the words of standard input with several threads, each with a handle of its own, and lists them in order.
 *
 *     words THREADS <TEXT */
#include <hot.h>
#include <ctype.h>
#include <inttypes.h>
#include <pthread.h>
#include <stdio.h>
#include <stdlib.h>

struct part {
    pthread_t thread;
    hot_index *index;
    const unsigned char *from, *end;
};

static void die(const char *why) {
    fprintf(stderr, "words: %s\n", why);
    exit(1);
}

/* Adds one to a word's number. A word that another thread puts in meanwhile is there, and can be added to. */
static void add(hot_handle *handle, const unsigned char *word, size_t length) {
    hot_status status;
    do {
        status = hot_add(handle, word, length, 1, NULL);
        if (status == HOT_ABSENT)
            status = hot_insert(handle, word, length, 1, NULL);
    } while (status == HOT_EXISTS);
    if (status != HOT_WAS && status != HOT_INSERTED)
        die(hot_status_text(status));
}

static void *count(void *argument) {
    const struct part *part = argument;
    const unsigned char *at = part->from, *word;
    hot_handle handle = HOT_HANDLE;
    hot_status status = hot_open(part->index, &handle);
    if (status != HOT_DONE)
        die(hot_status_text(status));
    while (at < part->end) {
        for (word = at; at < part->end && isalpha(*at); at++)
            ;
        if (at > word)
            add(&handle, word, (size_t)(at - word) < HOT_MAX_KEY ? (size_t)(at - word) : HOT_MAX_KEY);
        else
            at++;
    }
    hot_close(&handle);
    return NULL;
}

static unsigned char *read_all(size_t *length) {
    size_t room = 1 << 16, got;
    unsigned char *text = malloc(room);
    for (*length = 0; text && (got = fread(text + *length, 1, room - *length, stdin)) > 0; *length += got)
        if (*length + got == room)
            text = realloc(text, room *= 2);
    return text;
}

static int print(void *context, const hot_pair *pair) {
    (void)context;
    printf("%.*s %" PRIu64 "\n", (int)pair->length, (const char *)pair->key, pair->value);
    return 1;
}

int main(int argc, char **argv) {
    size_t threads = argc > 1 ? strtoul(argv[1], NULL, 10) : 4, length, i;
    unsigned char *text = read_all(&length);
    struct part *parts = calloc(threads, sizeof *parts);
    hot_handle handle = HOT_HANDLE;
    hot_index *index;
    hot_stock stock;
    hot_status status;
    if (!text || !parts)
        die("out of memory");
    hot_stock_for_keys(100000, 24, &stock);
    if ((status = hot_open_index(&stock, threads + 1, &index)) != HOT_DONE || (status = hot_open(index, &handle)) != HOT_DONE)
        die(hot_status_text(status));
    /* A part ends where no word goes on. */
    for (i = 0; i < threads; i++) {
        size_t end = length * (i + 1) / threads;
        while (end < length && isalpha(text[end]))
            end++;
        parts[i].index = index;
        parts[i].from = i > 0 ? parts[i - 1].end : text;
        parts[i].end = text + end;
        if (pthread_create(&parts[i].thread, NULL, count, &parts[i]))
            die("no thread");
    }
    for (i = 0; i < threads; i++)
        pthread_join(parts[i].thread, NULL);
    if ((status = hot_each(&handle, text, 0, HOT_TO_END, print, NULL)) != HOT_DONE)
        die(hot_status_text(status));
    hot_close(&handle), hot_close_index(index);
    free(parts), free(text);
    return 0;
}
