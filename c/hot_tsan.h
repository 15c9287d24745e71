/* For programs in C99 and later that ThreadSanitizer watches (-fsanitize=thread), which sees no step of the library. Included behind hot.h, this
 * tells it that a call that ends comes after what threads did before they began theirs. So it reports no race about what values point to,
 * where the index orders the threads; and of other races it may miss some. A call by a pointer to a function tells it nothing. For any other
 * program, and for C++, where hot.hpp does the same, this is empty. */
#ifndef HOT_TSAN_H
#define HOT_TSAN_H

#include "hot.h"

#if defined(__SANITIZE_THREAD__) && !defined(__cplusplus)
#define HOT_TELL(call) (hot_call_begins(), hot_call_ended(call))
#elif defined(__has_feature) && !defined(__cplusplus)
#if __has_feature(thread_sanitizer)
#define HOT_TELL(call) (hot_call_begins(), hot_call_ended(call))
#endif
#endif

#ifdef HOT_TELL
void __tsan_acquire(void *);
void __tsan_release(void *);

/* All files of a program have this address. */
static inline void *hot_calls(void) {
    return (void *)(uintptr_t)hot_last_key;
}

static inline void hot_call_begins(void) {
    __tsan_release(hot_calls());
}

static inline hot_status hot_call_ended(hot_status status) {
    __tsan_acquire(hot_calls());
    return status;
}

/* What hot_each and its like hand pairs to: some of their calls have ended then. */
typedef struct hot_told_visitor {
    hot_visitor *visit;
    void *context;
} hot_told_visitor;

static inline int hot_told_visit(void *visitor, const hot_pair *pair) {
    const hot_told_visitor *it = (const hot_told_visitor *)visitor;
    __tsan_acquire(hot_calls());
    return it->visit(it->context, pair);
}

typedef hot_status hot_told_range(hot_handle *handle, const uint8_t *from, size_t from_length, const uint8_t *upto, size_t upto_length,
                                  hot_visitor *visit, void *context);
typedef hot_status hot_told_prefix(hot_handle *handle, const uint8_t *prefix, size_t length, hot_visitor *visit, void *context);

static inline hot_status hot_told_each(hot_told_range *each, hot_handle *handle, const uint8_t *from, size_t from_length, const uint8_t *upto,
                                       size_t upto_length, hot_visitor *visit, void *context) {
    hot_told_visitor visitor = {visit, context};
    return HOT_TELL(each(handle, from, from_length, upto, upto_length, hot_told_visit, &visitor));
}

static inline hot_status hot_told_each_prefix(hot_told_prefix *each, hot_handle *handle, const uint8_t *prefix, size_t length, hot_visitor *visit,
                                              void *context) {
    hot_told_visitor visitor = {visit, context};
    return HOT_TELL(each(handle, prefix, length, hot_told_visit, &visitor));
}

/* What hot_update asks for a new value: its look-up has ended then, and the change that it makes is still to begin. */
typedef struct hot_told_changer {
    hot_changer *change;
    void *context;
} hot_told_changer;

static inline int hot_told_change(void *changer, uint64_t *value) {
    const hot_told_changer *it = (const hot_told_changer *)changer;
    int is_changed;
    __tsan_acquire(hot_calls());
    is_changed = it->change(it->context, value);
    hot_call_begins();
    return is_changed;
}

static inline hot_status hot_told_update(hot_handle *handle, const uint8_t *key, size_t length, hot_changer *change, void *context, uint64_t *had) {
    hot_told_changer changer = {change, context};
    return HOT_TELL(hot_update(handle, key, length, hot_told_change, &changer, had));
}

#define hot_each(...) hot_told_each(hot_each, __VA_ARGS__)
#define hot_each_reverse(...) hot_told_each(hot_each_reverse, __VA_ARGS__)
#define hot_each_prefix(...) hot_told_each_prefix(hot_each_prefix, __VA_ARGS__)
#define hot_each_prefix_reverse(...) hot_told_each_prefix(hot_each_prefix_reverse, __VA_ARGS__)
#define hot_update(...) hot_told_update(__VA_ARGS__)
#define hot_create(...) HOT_TELL(hot_create(__VA_ARGS__))
#define hot_create_with(...) HOT_TELL(hot_create_with(__VA_ARGS__))
#define hot_open_index(...) HOT_TELL(hot_open_index(__VA_ARGS__))
#define hot_open_index_within(...) HOT_TELL(hot_open_index_within(__VA_ARGS__))
#define hot_load(...) HOT_TELL(hot_load(__VA_ARGS__))
#define hot_open_growing(...) HOT_TELL(hot_open_growing(__VA_ARGS__))
#define hot_load_growing(...) HOT_TELL(hot_load_growing(__VA_ARGS__))
#define hot_grow(...) HOT_TELL(hot_grow(__VA_ARGS__))
#define hot_trim(...) HOT_TELL(hot_trim(__VA_ARGS__))
#define hot_grow_begin(...) HOT_TELL(hot_grow_begin(__VA_ARGS__))
#define hot_grow_step(...) HOT_TELL(hot_grow_step(__VA_ARGS__))
#define hot_open(...) HOT_TELL(hot_open(__VA_ARGS__))
#define hot_close(...) HOT_TELL(hot_close(__VA_ARGS__))
#define hot_close_index(...) HOT_TELL(hot_close_index(__VA_ARGS__))
#define hot_meet(...) HOT_TELL(hot_meet(__VA_ARGS__))
#define hot_stamp(...) HOT_TELL(hot_stamp(__VA_ARGS__))
#define hot_follow(...) HOT_TELL(hot_follow(__VA_ARGS__))
#define hot_number(...) HOT_TELL(hot_number(__VA_ARGS__))
#define hot_get(...) HOT_TELL(hot_get(__VA_ARGS__))
#define hot_enter(...) HOT_TELL(hot_enter(__VA_ARGS__))
#define hot_leave(...) HOT_TELL(hot_leave(__VA_ARGS__))
#define hot_retired(...) HOT_TELL(hot_retired(__VA_ARGS__))
#define hot_is_past(...) HOT_TELL(hot_is_past(__VA_ARGS__))
#define hot_get_many(...) HOT_TELL(hot_get_many(__VA_ARGS__))
#define hot_get_packed(...) HOT_TELL(hot_get_packed(__VA_ARGS__))
#define hot_try_insert(...) HOT_TELL(hot_try_insert(__VA_ARGS__))
#define hot_try_upsert(...) HOT_TELL(hot_try_upsert(__VA_ARGS__))
#define hot_try_exchange(...) HOT_TELL(hot_try_exchange(__VA_ARGS__))
#define hot_try_add(...) HOT_TELL(hot_try_add(__VA_ARGS__))
#define hot_try_remove(...) HOT_TELL(hot_try_remove(__VA_ARGS__))
#define hot_try_remove_if(...) HOT_TELL(hot_try_remove_if(__VA_ARGS__))
#define hot_insert(...) HOT_TELL(hot_insert(__VA_ARGS__))
#define hot_upsert(...) HOT_TELL(hot_upsert(__VA_ARGS__))
#define hot_remove(...) HOT_TELL(hot_remove(__VA_ARGS__))
#define hot_exchange(...) HOT_TELL(hot_exchange(__VA_ARGS__))
#define hot_add(...) HOT_TELL(hot_add(__VA_ARGS__))
#define hot_add_or_insert(...) HOT_TELL(hot_add_or_insert(__VA_ARGS__))
#define hot_remove_if(...) HOT_TELL(hot_remove_if(__VA_ARGS__))
#define hot_clear(...) HOT_TELL(hot_clear(__VA_ARGS__))
#define hot_clear_range(...) HOT_TELL(hot_clear_range(__VA_ARGS__))
#define hot_copy(...) HOT_TELL(hot_copy(__VA_ARGS__))
#define hot_scan(...) HOT_TELL(hot_scan(__VA_ARGS__))
#define hot_scan_reverse(...) HOT_TELL(hot_scan_reverse(__VA_ARGS__))
#define hot_scan_last(...) HOT_TELL(hot_scan_last(__VA_ARGS__))
#define hot_scan_prefix(...) HOT_TELL(hot_scan_prefix(__VA_ARGS__))
#define hot_scan_prefix_reverse(...) HOT_TELL(hot_scan_prefix_reverse(__VA_ARGS__))
#define hot_scan_packed(...) HOT_TELL(hot_scan_packed(__VA_ARGS__))
#define hot_scan_packed_reverse(...) HOT_TELL(hot_scan_packed_reverse(__VA_ARGS__))
#define hot_load_packed(...) HOT_TELL(hot_load_packed(__VA_ARGS__))
#define hot_seek(...) HOT_TELL(hot_seek(__VA_ARGS__))
#define hot_next(...) HOT_TELL(hot_next(__VA_ARGS__))
#define hot_previous(...) HOT_TELL(hot_previous(__VA_ARGS__))
#define hot_first(...) HOT_TELL(hot_first(__VA_ARGS__))
#define hot_last(...) HOT_TELL(hot_last(__VA_ARGS__))
#define hot_count(...) HOT_TELL(hot_count(__VA_ARGS__))
#define hot_count_prefix(...) HOT_TELL(hot_count_prefix(__VA_ARGS__))
#define hot_scan_values(...) HOT_TELL(hot_scan_values(__VA_ARGS__))
#define hot_pop_first(...) HOT_TELL(hot_pop_first(__VA_ARGS__))
#define hot_pop_last(...) HOT_TELL(hot_pop_last(__VA_ARGS__))
#define hot_collect(...) HOT_TELL(hot_collect(__VA_ARGS__))
#define hot_census(...) HOT_TELL(hot_census(__VA_ARGS__))
#define hot_len(...) HOT_TELL(hot_len(__VA_ARGS__))
#define hot_destroy(...) HOT_TELL(hot_destroy(__VA_ARGS__))
#endif

#endif
