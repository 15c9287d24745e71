/* Calls for C that hand over the pairs of an index one by one: those of cursors, which keep a page of pairs, and hot_each and the like. All of it is
 * made of scans of the proved library, between which no call is under way. */
#include "hot.h"
#include <string.h>

/* How many pairs a cursor fetches first, and at most at once. */
enum { FIRST_PAIRS = 8, MOST_PAIRS = sizeof((hot_cursor *)0)->heads / sizeof(hot_head), ROOM = sizeof((hot_cursor *)0)->bytes };

/* A cursor's page has a pair at least. That of hot_seek has the key that was given to it, at which the cursor has not been yet. */
hot_status hot_seek(hot_cursor *cursor, hot_handle *handle, const uint8_t *key, size_t length) {
    uint16_t number;
    hot_status status = hot_number(handle, &number);
    if (status != HOT_DONE)
        return status;
    if (length > HOT_MAX_KEY)
        return HOT_KEY_TOO_LONG;
    cursor->handle = handle;
    cursor->at = cursor->place = 0;
    cursor->count = 1;
    cursor->limit = FIRST_PAIRS;
    cursor->is_there = cursor->falls = 0;
    cursor->heads[0].length = (uint8_t)length;
    memmove(cursor->bytes, key, length);
    return HOT_DONE;
}

/* How many pairs are fetched next: twice as many as last time, as far as there is room for keys as long. */
static uint32_t next_limit(const hot_cursor *cursor) {
    size_t place, used = 0, limit = (size_t)2 * cursor->count;
    for (place = 0; place < cursor->count; place++)
        used += cursor->heads[place].length;
    limit = limit * used > (size_t)ROOM * cursor->count ? (size_t)ROOM * cursor->count / used : limit;
    return (uint32_t)(limit < MOST_PAIRS ? limit : MOST_PAIRS);
}

/* Fetches the pairs on from where the cursor is, and goes to the first of them. HOT_FOUND; or HOT_ABSENT if there is none, or what refused the scan,
 * and then the page is as it was, since a scan that lists nothing writes nothing there. */
static hot_status fetch(hot_cursor *cursor, uint32_t falls) {
    uint8_t end[HOT_MAX_KEY];
    const uint8_t *key = cursor->bytes + cursor->place;
    size_t count, limit = falls == cursor->falls ? cursor->limit : FIRST_PAIRS, length = cursor->heads[cursor->at].length;
    uint32_t more;
    hot_status status = HOT_DONE;
    if (cursor->is_there)
        status = (falls ? hot_before : hot_after)(key, length, end, &length);
    else
        memcpy(end, key, length);
    if (status == HOT_DONE && falls)
        status = hot_scan_packed_reverse(cursor->handle, hot_last_key, 0, end, length, cursor->bytes, ROOM, cursor->heads, limit, &count, &more);
    else if (status == HOT_DONE)
        status = hot_scan_packed(cursor->handle, end, length, HOT_TO_END, cursor->bytes, ROOM, cursor->heads, limit, &count, &more);
    if (status != HOT_DONE)
        return status;
    if (count == 0)
        return HOT_ABSENT;
    cursor->at = cursor->place = 0;
    cursor->count = (uint32_t)count;
    cursor->is_there = 1;
    cursor->falls = falls;
    cursor->limit = next_limit(cursor);
    return HOT_FOUND;
}

/* Goes to the next pair of the page, or to the one before. Returns whether there is one. */
static int is_beside(hot_cursor *cursor, int is_onwards) {
    if (!cursor->is_there || cursor->at == (is_onwards ? cursor->count - 1 : 0))
        return 0;
    if (is_onwards)
        cursor->place += cursor->heads[cursor->at++].length;
    else
        cursor->place -= cursor->heads[--cursor->at].length;
    return 1;
}

static hot_status go(hot_cursor *cursor, uint32_t falls, const uint8_t **key, size_t *length, uint64_t *value) {
    uint16_t number;
    hot_status status = hot_number(cursor->handle, &number);
    if (status != HOT_DONE)
        return status;
    status = is_beside(cursor, falls == cursor->falls) ? HOT_FOUND : fetch(cursor, falls);
    if (status != HOT_FOUND)
        return status;
    *key = cursor->bytes + cursor->place;
    *length = cursor->heads[cursor->at].length;
    *value = cursor->heads[cursor->at].value;
    return HOT_FOUND;
}

hot_status hot_next(hot_cursor *cursor, const uint8_t **key, size_t *length, uint64_t *value) {
    return go(cursor, 0, key, length, value);
}

hot_status hot_previous(hot_cursor *cursor, const uint8_t **key, size_t *length, uint64_t *value) {
    return go(cursor, 1, key, length, value);
}

/* What is left of a range, upwards or downwards. */
typedef struct range {
    const uint8_t *from, *upto;
    size_t from_length, upto_length;
    int falls;
    uint8_t end[HOT_MAX_KEY]; /* where it begins, once some pairs have been handed over */
} range;

static range range_of(const uint8_t *from, size_t from_length, const uint8_t *upto, size_t upto_length, int falls) {
    range of;
    of.from = from;
    of.from_length = from_length;
    of.upto = upto;
    of.upto_length = upto_length;
    of.falls = falls;
    return of;
}

/* Takes what comes up to this pair out of a range, of which it was listed last. Returns whether there can be more. */
static int goes_on(range *left, const hot_pair *last) {
    if (left->falls) {
        left->upto = left->end;
        return hot_before(last->key, last->length, left->end, &left->upto_length) == HOT_DONE;
    }
    left->from = left->end;
    return hot_after(last->key, last->length, left->end, &left->from_length) == HOT_DONE;
}

static hot_status hand_over(hot_handle *handle, range left, hot_visitor *visit, void *context) {
    enum { PAGE = 32 };
    hot_pair pairs[PAGE];
    size_t count, place;
    uint32_t more;
    hot_status status;
    do {
        status = (left.falls ? hot_scan_reverse : hot_scan)(handle, left.from, left.from_length, left.upto, left.upto_length, pairs, PAGE, &count, &more);
        if (status != HOT_DONE)
            return status;
        for (place = 0; place < count; place++)
            if (!visit(context, &pairs[place]))
                return HOT_DONE;
    } while (more && goes_on(&left, &pairs[count - 1]));
    return HOT_DONE;
}

hot_status hot_each(hot_handle *handle, const uint8_t *from, size_t from_length, const uint8_t *upto, size_t upto_length,
                    hot_visitor *visit, void *context) {
    return hand_over(handle, range_of(from, from_length, upto, upto_length, 0), visit, context);
}

hot_status hot_each_reverse(hot_handle *handle, const uint8_t *from, size_t from_length, const uint8_t *upto, size_t upto_length,
                            hot_visitor *visit, void *context) {
    return hand_over(handle, range_of(from, from_length, upto, upto_length, 1), visit, context);
}

/* Hands over the pairs whose keys begin with a prefix, up to the greatest key that does. One that is too long is refused as the lower end. */
static hot_status hand_over_prefix(hot_handle *handle, const uint8_t *prefix, size_t length, int falls, hot_visitor *visit, void *context) {
    uint8_t last[HOT_MAX_KEY];
    memset(last, 255, sizeof last);
    memcpy(last, prefix, length <= HOT_MAX_KEY ? length : 0);
    return hand_over(handle, range_of(prefix, length, last, sizeof last, falls), visit, context);
}

hot_status hot_each_prefix(hot_handle *handle, const uint8_t *prefix, size_t length, hot_visitor *visit, void *context) {
    return hand_over_prefix(handle, prefix, length, 0, visit, context);
}

hot_status hot_each_prefix_reverse(hot_handle *handle, const uint8_t *prefix, size_t length, hot_visitor *visit, void *context) {
    return hand_over_prefix(handle, prefix, length, 1, visit, context);
}
