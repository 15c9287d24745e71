/* Pages of a list that changes meanwhile: each ends with a token, the last key that it shows, and the next one begins behind that key, whether it
 * is still there or not. So no page needs a cursor that somebody keeps, and no key is shown twice, or left out that was there all along. */
#include <hot.h>
#include <stdio.h>
#include <string.h>

enum { PAGE = 3 };

/* Prints a page of the keys that begin with a prefix, behind the token, which it then writes. Returns whether there is more. */
static int show(hot_handle *handle, const char *prefix, uint8_t *token, size_t *length) {
    hot_pair pairs[PAGE];
    size_t count, at;
    uint32_t more;
    if (hot_scan_prefix(handle, (const uint8_t *)prefix, strlen(prefix), *length > 0 ? token : NULL, *length, pairs, PAGE, &count, &more) != HOT_DONE)
        return 0;
    for (at = 0; at < count; at++)
        printf("%.*s %lu%s", (int)pairs[at].length, (const char *)pairs[at].key, (unsigned long)pairs[at].value, at + 1 < count ? ", " : "\n");
    if (count > 0)
        memcpy(token, pairs[count - 1].key, *length = pairs[count - 1].length);
    return more != 0;
}

int main(void) {
    static const char *const keys[8] = {"fig/1", "fig/2", "pear/1", "pear/2", "pear/3", "pear/4", "pear/5", "plum/1"};
    hot_index *index;
    hot_handle handle = HOT_HANDLE;
    uint8_t token[HOT_MAX_KEY];
    size_t length = 0, at;
    if (hot_open_growing(NULL, SIZE_MAX, 1, &index) != HOT_DONE || hot_open(index, &handle) != HOT_DONE)
        return 1;
    for (at = 0; at < 8; at++)
        hot_upsert(&handle, (const uint8_t *)keys[at], strlen(keys[at]), at, NULL);
    show(&handle, "pear/", token, &length);
    hot_remove(&handle, token, length, NULL);
    hot_upsert(&handle, (const uint8_t *)"pear/31", 7, 31, NULL);
    while (show(&handle, "pear/", token, &length))
        ;
    return hot_close(&handle) || hot_close_index(index);
}
