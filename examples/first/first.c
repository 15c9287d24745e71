#include "hot.h"
#include <stdio.h>
int main(void) {
    hot_stock stock;
    hot_index *index;
    hot_handle h = HOT_HANDLE; /* each thread has a handle of its own */
    uint64_t value;
    hot_stock_for_keys(100000, 24, &stock); /* room for 100,000 keys of up to 24 bytes */
    if (hot_open_index(&stock, 16, &index) || hot_open(index, &h)) return 1; /* 16 handles */
    hot_upsert(&h, (const uint8_t *)"pear", 4, 3, &value);
    if (hot_get(&h, (const uint8_t *)"pear", 4, &value) == HOT_FOUND) printf("%lu\n", (unsigned long)value);
    return hot_close(&h) || hot_close_index(index);
}
