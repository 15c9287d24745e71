/* A key-value loop: reads commands, a line each, and answers them.
 *
 *     put KEY NUMBER     get KEY     del KEY     list
 */
#include "hot.h"
#include <inttypes.h>
#include <stdio.h>
#include <string.h>

enum { PAGE = 64 };

/* Lists all pairs, a page after the other. */
static hot_status list(hot_handle *handle) {
    static hot_pair pairs[PAGE];
    uint8_t from[HOT_MAX_KEY];
    size_t from_length = 0, count, i;
    uint32_t more = 1;
    while (more) {
        hot_status status = hot_scan(handle, from, from_length, HOT_TO_END, pairs, PAGE, &count, &more);
        if (status != HOT_DONE)
            return status;
        for (i = 0; i < count; i++)
            printf("%.*s %" PRIu64 "\n", (int)pairs[i].length, (const char *)pairs[i].key, pairs[i].value);
        if (more)
            hot_after(pairs[count - 1].key, pairs[count - 1].length, from, &from_length);
    }
    return HOT_DONE;
}

/* Answers a command. */
static void answer(hot_handle *handle, const char *command, const char *word, uint64_t number) {
    const uint8_t *key = (const uint8_t *)word;
    size_t length = strlen(word);
    uint64_t value = 0;
    hot_status status = HOT_DONE;
    if (!strcmp(command, "put"))
        status = hot_upsert(handle, key, length, number, &value);
    else if (!strcmp(command, "get"))
        status = hot_get(handle, key, length, &value);
    else if (!strcmp(command, "del"))
        status = hot_remove(handle, key, length, &value);
    else if (!strcmp(command, "list"))
        status = list(handle);
    else
        printf("unknown command\n");
    if (status == HOT_FOUND || status == HOT_WAS || status == HOT_REMOVED)
        printf("%" PRIu64 "\n", value);
    else if (status == HOT_ABSENT)
        printf("absent\n");
    else if (status >= HOT_BUSY)
        printf("refused: %s\n", hot_status_text(status));
}

int main(void) {
    hot_handle handle = HOT_HANDLE;
    char line[512], command[8], key[HOT_MAX_KEY + 1];
    hot_status status = hot_create(4096, 16384, &handle, 1);
    if (status != HOT_DONE) {
        fprintf(stderr, "no index: %s\n", hot_status_text(status));
        return 1;
    }
    while (fgets(line, sizeof line, stdin)) {
        uint64_t number = 0;
        key[0] = 0;
        if (sscanf(line, "%7s %240s %" SCNu64, command, key, &number) >= 1)
            answer(&handle, command, key, number);
    }
    hot_destroy(&handle);
    return 0;
}
