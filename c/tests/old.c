/* Tests of the calls with which a program begins, on a processor older than that for which the library was compiled. It is built of c/hot.c
 * alone, for a level that no processor has: so none of them makes a proved call, which might not run there. */
#include "hot.h"
#include <stdio.h>
#include <string.h>

int main(void) {
    static const uint32_t keys[5] = {1, 1, 1, 1, 1};
    static const hot_stock none = {0, 0, 0, 0, 0, 0};
    hot_stock stock = {1, 1, 1, 1, 1, 1};
    hot_handle handle = HOT_HANDLE;
    hot_index *index = NULL;
    size_t bytes = 7;
    int is_right = hot_open_index(&stock, 1, &index) == HOT_OLD_PROCESSOR && index == NULL;
    is_right &= hot_open_index_within(&stock, 1, SIZE_MAX, &index) == HOT_OLD_PROCESSOR && index == NULL;
    is_right &= hot_create(10, 10, &handle, 1) == HOT_OLD_PROCESSOR && hot_create_with(&stock, &handle, 1) == HOT_OLD_PROCESSOR;
    is_right &= handle.tag == 0 && hot_stock_bytes(&stock, 1, &bytes) == HOT_OLD_PROCESSOR && bytes == 7;
    is_right &= hot_open_growing(NULL, SIZE_MAX, 1, &index) == HOT_OLD_PROCESSOR && index == NULL;
    is_right &= hot_load_packed(&stock, 1, NULL, NULL, 0, &index, &bytes) == HOT_OLD_PROCESSOR && index == NULL && bytes == 7;
    hot_stock_for_lengths(keys, &stock);
    is_right &= memcmp(&stock, &none, sizeof none) == 0;
    stock.nodes = 1;
    hot_stock_for_keys(100, 8, &stock);
    is_right &= memcmp(&stock, &none, sizeof none) == 0;
    stock.nodes = 1;
    hot_stock_for_any_keys(100, 8, 1, &stock);
    is_right &= memcmp(&stock, &none, sizeof none) == 0;
    puts(is_right ? "passed: an old processor" : "FAILED: an old processor");
    return !is_right;
}
