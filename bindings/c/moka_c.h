/* The calls of the static library moka_c: an owned cache, behind a handle that the caller keeps.
 *
 * Link libmoka_c.a and, for its memory, liblibc_c.a of the kit (docs/BINDINGS.md has the command).
 *
 * What every call asks:
 *
 * - A handle is a struct of the caller's, all zeros at first (MOKA_NO_BYTES, MOKA_NO_NUMBERS). The caller reads and writes none of its
 *   fields. It may be moved, but only one copy of it may be used: a second one is a second owner of the cache.
 * - One call at a time has a handle. Another thread may have it next, if a lock or the like orders the two calls.
 * - A pointer that is passed points to a value of its type, which nothing else reads or writes during the call. Two pointers of one
 *   call never overlap.
 * - The functions moka_c_.. ask that no pointer is null, also beside a length of 0, and that no length is greater than PTRDIFF_MAX.
 *   The functions moka_.. below test that, and return MOKA_NULL or MOKA_TOO_LONG.
 * - malloc, realloc and free are those of one allocator. No call is made in a signal handler, or in the child of a process with threads.
 *
 * What every call returns: a number of enum moka_number. A handle without a cache is refused with MOKA_CLOSED. A call that fails leaves
 * the cache as it was, and stores nothing through its pointers. (MOKA_ABSENT and MOKA_SHORT_BUFFER are no failures: the call is done.)
 *
 * Moments are nanoseconds, counted from wherever the caller likes; one before the latest counts as the latest. */
#ifndef MOKA_C_H
#define MOKA_C_H

#include <stdbool.h>
#include <stddef.h>
#include <stdint.h>

#ifdef __cplusplus
extern "C" {
#endif

enum moka_number {
    MOKA_DONE = 0,                     /* the call is done; a lookup has found a live value */
    MOKA_ABSENT = 1,                   /* no value is live for the key, or no notice is queued */
    MOKA_OUT_OF_MEMORY = 2,            /* an allocation failed */
    MOKA_NUMBERS_USED_UP = 3,          /* no sequence number is left */
    MOKA_CLOSED = 4,                   /* the handle has no cache: none was opened, or it is closed again */
    MOKA_OPEN_ALREADY = 5,             /* the handle that is to be opened has a cache */
    MOKA_SHORT_BUFFER = 6,             /* the buffer is shorter than the bytes; how many they are is stored */
    MOKA_ZERO_FLUSH_LIMIT = 7,         /* the flush limit is 0 */
    MOKA_FLUSH_LIMIT_WITH_WEIGHER = 8, /* both a flush limit and a weigher are set */
    MOKA_UNKNOWN_POLICY = 9,           /* the number of the eviction policy names none */
    MOKA_NULL = 10,                    /* a pointer is null */
    MOKA_TOO_LONG = 11                 /* a length is greater than PTRDIFF_MAX */
};

/* The name of a number, as "OutOfMemory". */
static inline const char *moka_name(uint32_t number) {
    static const char *const names[] = {
        "Done", "Absent", "OutOfMemory", "NumbersUsedUp", "Closed", "OpenAlready", "ShortBuffer", "ZeroFlushLimit",
        "FlushLimitWithWeigher", "UnknownPolicy", "Null", "TooLong",
    };
    return number < sizeof names / sizeof names[0] ? names[number] : "Unknown";
}

enum moka_policy { MOKA_TINY_LFU = 0, MOKA_LRU = 1 };

enum moka_cause { MOKA_EXPIRED = 0, MOKA_EXPLICIT = 1, MOKA_REPLACED = 2, MOKA_SIZE = 3 };

/* A number that may be left out. */
typedef struct moka_limit {
    bool is_set;
    uint64_t value;
} moka_limit;

/* The settings of a cache. All zeros is one without bounds, by TinyLFU. */
typedef struct moka_settings {
    moka_limit max_capacity;   /* of the weight of the resident entries; without a weigher, of their number */
    moka_limit time_to_live;   /* nanoseconds since the last write */
    moka_limit time_to_idle;   /* nanoseconds since the last access or write */
    moka_limit flush_limit;    /* how many entries a flush may evict: at least 1, and none beside a weigher */
    size_t initial_capacity;   /* for how many entries room is allocated at once */
    uint64_t first_number;     /* the first sequence number that a write draws */
    uint32_t policy;           /* of enum moka_policy */
    bool weighs_bytes;         /* whether an entry weighs its bytes, key and value; only for byte strings */
} moka_settings;

/* The handle of a cache whose keys and values are numbers. */
typedef struct moka_numbers {
    bool is_open;
    void *at;
} moka_numbers;

#define MOKA_NO_NUMBERS {false, NULL}

/* A removal notice: the stored key, the removed value, and a number of enum moka_cause. */
typedef struct moka_number_notice {
    uint64_t key;
    uint64_t value;
    uint32_t cause;
} moka_number_notice;

uint32_t moka_c_numbers_open(moka_numbers *cache, const moka_settings *settings);
uint32_t moka_c_numbers_close(moka_numbers *cache);
uint32_t moka_c_numbers_get(moka_numbers *cache, uint64_t key, uint64_t now, uint64_t *value);
uint32_t moka_c_numbers_remove(moka_numbers *cache, uint64_t key, uint64_t now, uint64_t *value);
uint32_t moka_c_numbers_insert(moka_numbers *cache, uint64_t key, uint64_t value, uint64_t now);
uint32_t moka_c_numbers_contains_key(moka_numbers *cache, uint64_t key, uint64_t now);
uint32_t moka_c_numbers_invalidate(moka_numbers *cache, uint64_t key, uint64_t now);
uint32_t moka_c_numbers_invalidate_all(moka_numbers *cache);
uint32_t moka_c_numbers_run_pending_tasks(moka_numbers *cache, uint64_t now);
uint32_t moka_c_numbers_run_pending_tasks_up_to(moka_numbers *cache, uint64_t limit, uint64_t now, bool *is_left);
uint32_t moka_c_numbers_entry_count(moka_numbers *cache, uint64_t *count);
uint32_t moka_c_numbers_weighted_size(moka_numbers *cache, uint64_t *weight);
uint32_t moka_c_numbers_take_notice(moka_numbers *cache, moka_number_notice *notice);

/* Creates an empty cache. Fails with MOKA_OPEN_ALREADY, one of the numbers of settings, or MOKA_OUT_OF_MEMORY. */
static inline uint32_t moka_numbers_open(moka_numbers *cache, const moka_settings *settings) {
    if (!cache || !settings) return MOKA_NULL;
    return moka_c_numbers_open(cache, settings);
}

/* Frees the cache. The handle is closed then, and may be opened again. */
static inline uint32_t moka_numbers_close(moka_numbers *cache) {
    if (!cache) return MOKA_NULL;
    return moka_c_numbers_close(cache);
}

/* Stores the live value of a key, which counts as an access. MOKA_ABSENT if there is none; `value` is kept then. */
static inline uint32_t moka_numbers_get(moka_numbers *cache, uint64_t key, uint64_t now, uint64_t *value) {
    if (!cache || !value) return MOKA_NULL;
    return moka_c_numbers_get(cache, key, now, value);
}

/* Removes the entry of a key and queues its notice. Stores the value if it was live; else MOKA_ABSENT. */
static inline uint32_t moka_numbers_remove(moka_numbers *cache, uint64_t key, uint64_t now, uint64_t *value) {
    if (!cache || !value) return MOKA_NULL;
    return moka_c_numbers_remove(cache, key, now, value);
}

/* Inserts an entry, or overwrites it. Fails with MOKA_OUT_OF_MEMORY or MOKA_NUMBERS_USED_UP. */
static inline uint32_t moka_numbers_insert(moka_numbers *cache, uint64_t key, uint64_t value, uint64_t now) {
    if (!cache) return MOKA_NULL;
    return moka_c_numbers_insert(cache, key, value, now);
}

/* MOKA_DONE if the key has a live value, else MOKA_ABSENT. No access. */
static inline uint32_t moka_numbers_contains_key(moka_numbers *cache, uint64_t key, uint64_t now) {
    if (!cache) return MOKA_NULL;
    return moka_c_numbers_contains_key(cache, key, now);
}

/* Removes the entry of a key, live or expired, and queues its notice. */
static inline uint32_t moka_numbers_invalidate(moka_numbers *cache, uint64_t key, uint64_t now) {
    if (!cache) return MOKA_NULL;
    return moka_c_numbers_invalidate(cache, key, now);
}

/* Marks all entries as invalidated. A later maintenance removes them. */
static inline uint32_t moka_numbers_invalidate_all(moka_numbers *cache) {
    if (!cache) return MOKA_NULL;
    return moka_c_numbers_invalidate_all(cache);
}

/* Runs a maintenance: evicts what is expired or invalidated or too much, and admits what is pending. */
static inline uint32_t moka_numbers_run_pending_tasks(moka_numbers *cache, uint64_t now) {
    if (!cache) return MOKA_NULL;
    return moka_c_numbers_run_pending_tasks(cache, now);
}

/* Runs a maintenance that evicts at most `limit` entries. Stores whether a part is left to do. */
static inline uint32_t moka_numbers_run_pending_tasks_up_to(moka_numbers *cache, uint64_t limit, uint64_t now, bool *is_left) {
    if (!cache || !is_left) return MOKA_NULL;
    return moka_c_numbers_run_pending_tasks_up_to(cache, limit, now, is_left);
}

/* Stores how many entries are stored, pending and expired ones included. */
static inline uint32_t moka_numbers_entry_count(moka_numbers *cache, uint64_t *count) {
    if (!cache || !count) return MOKA_NULL;
    return moka_c_numbers_entry_count(cache, count);
}

/* Stores the total weight of the stored entries, pending and expired ones included. */
static inline uint32_t moka_numbers_weighted_size(moka_numbers *cache, uint64_t *weight) {
    if (!cache || !weight) return MOKA_NULL;
    return moka_c_numbers_weighted_size(cache, weight);
}

/* Removes the oldest notice and stores it. MOKA_ABSENT if none is queued. */
static inline uint32_t moka_numbers_take_notice(moka_numbers *cache, moka_number_notice *notice) {
    if (!cache || !notice) return MOKA_NULL;
    return moka_c_numbers_take_notice(cache, notice);
}

/* The handle of a cache whose keys and values are byte strings. */
typedef struct moka_bytes {
    bool is_open;
    void *at;
} moka_bytes;

#define MOKA_NO_BYTES {false, NULL}

/* A removal notice: how long the stored key and the removed value are, and a number of enum moka_cause. */
typedef struct moka_bytes_notice {
    size_t key_len;
    size_t value_len;
    uint32_t cause;
} moka_bytes_notice;

uint32_t moka_c_bytes_open(moka_bytes *cache, const moka_settings *settings);
uint32_t moka_c_bytes_close(moka_bytes *cache);
uint32_t moka_c_bytes_get(moka_bytes *cache, const uint8_t *key, size_t key_len, uint64_t now, uint8_t *out, size_t room, size_t *len);
uint32_t moka_c_bytes_remove(moka_bytes *cache, const uint8_t *key, size_t key_len, uint64_t now, uint8_t *out, size_t room, size_t *len);
uint32_t moka_c_bytes_insert(moka_bytes *cache, const uint8_t *key, size_t key_len, const uint8_t *value, size_t value_len, uint64_t now);
uint32_t moka_c_bytes_contains_key(moka_bytes *cache, const uint8_t *key, size_t key_len, uint64_t now);
uint32_t moka_c_bytes_invalidate(moka_bytes *cache, const uint8_t *key, size_t key_len, uint64_t now);
uint32_t moka_c_bytes_invalidate_all(moka_bytes *cache);
uint32_t moka_c_bytes_run_pending_tasks(moka_bytes *cache, uint64_t now);
uint32_t moka_c_bytes_run_pending_tasks_up_to(moka_bytes *cache, uint64_t limit, uint64_t now, bool *is_left);
uint32_t moka_c_bytes_entry_count(moka_bytes *cache, uint64_t *count);
uint32_t moka_c_bytes_weighted_size(moka_bytes *cache, uint64_t *weight);
uint32_t moka_c_bytes_take_notice(moka_bytes *cache, moka_bytes_notice *notice);
uint32_t moka_c_bytes_copy_key(moka_bytes *cache, uint8_t *out, size_t room, size_t *len);
uint32_t moka_c_bytes_copy_value(moka_bytes *cache, uint8_t *out, size_t room, size_t *len);

/* MOKA_DONE if the bytes may be passed: a null pointer only with no bytes, and no length beyond PTRDIFF_MAX. */
static inline uint32_t moka_test_bytes(const void *at, size_t len) {
    return len > (size_t)PTRDIFF_MAX ? MOKA_TOO_LONG : at || !len ? MOKA_DONE : MOKA_NULL;
}

/* The bytes, or if there are none some pointer that is not null. */
static inline uint8_t *moka_some(const void *at, const void *other) {
    return (uint8_t *)(at ? at : other);
}

/* Creates an empty cache. Fails with MOKA_OPEN_ALREADY, one of the numbers of settings, or MOKA_OUT_OF_MEMORY. */
static inline uint32_t moka_bytes_open(moka_bytes *cache, const moka_settings *settings) {
    if (!cache || !settings) return MOKA_NULL;
    return moka_c_bytes_open(cache, settings);
}

/* Frees the cache. The handle is closed then, and may be opened again. */
static inline uint32_t moka_bytes_close(moka_bytes *cache) {
    if (!cache) return MOKA_NULL;
    return moka_c_bytes_close(cache);
}

/* Copies the live value of a key to `out`, which has room for so many bytes, and stores its length. Counts as an access. MOKA_ABSENT
 * if there is none. MOKA_SHORT_BUFFER if there is no room: moka_bytes_copy_value has it until the next call that may find a value. */
static inline uint32_t moka_bytes_get(moka_bytes *cache, const void *key, size_t key_len, uint64_t now, void *out, size_t room, size_t *len) {
    uint32_t of_key = moka_test_bytes(key, key_len), of_out = moka_test_bytes(out, room);
    if (!cache || !len) return MOKA_NULL;
    if (of_key || of_out) return of_key ? of_key : of_out;
    uint8_t none = 0, nowhere = 0;
    return moka_c_bytes_get(cache, moka_some(key, &none), key_len, now, moka_some(out, &nowhere), room, len);
}

/* Removes the entry of a key and queues its notice. Its value, if it was live, comes as moka_bytes_get gives it. */
static inline uint32_t moka_bytes_remove(moka_bytes *cache, const void *key, size_t key_len, uint64_t now, void *out, size_t room, size_t *len) {
    uint32_t of_key = moka_test_bytes(key, key_len), of_out = moka_test_bytes(out, room);
    if (!cache || !len) return MOKA_NULL;
    if (of_key || of_out) return of_key ? of_key : of_out;
    uint8_t none = 0, nowhere = 0;
    return moka_c_bytes_remove(cache, moka_some(key, &none), key_len, now, moka_some(out, &nowhere), room, len);
}

/* Inserts an entry, or overwrites it. Copies both byte strings. Fails with MOKA_OUT_OF_MEMORY or MOKA_NUMBERS_USED_UP. */
static inline uint32_t moka_bytes_insert(moka_bytes *cache, const void *key, size_t key_len, const void *value, size_t value_len, uint64_t now) {
    uint32_t of_key = moka_test_bytes(key, key_len), of_value = moka_test_bytes(value, value_len);
    if (!cache) return MOKA_NULL;
    if (of_key || of_value) return of_key ? of_key : of_value;
    uint8_t none = 0;
    return moka_c_bytes_insert(cache, moka_some(key, &none), key_len, moka_some(value, &none), value_len, now);
}

/* MOKA_DONE if the key has a live value, else MOKA_ABSENT. No access. Fails with MOKA_OUT_OF_MEMORY. */
static inline uint32_t moka_bytes_contains_key(moka_bytes *cache, const void *key, size_t key_len, uint64_t now) {
    uint32_t of_key = moka_test_bytes(key, key_len);
    if (!cache) return MOKA_NULL;
    if (of_key) return of_key;
    uint8_t none = 0;
    return moka_c_bytes_contains_key(cache, moka_some(key, &none), key_len, now);
}

/* Removes the entry of a key, live or expired, and queues its notice. Fails with MOKA_OUT_OF_MEMORY. */
static inline uint32_t moka_bytes_invalidate(moka_bytes *cache, const void *key, size_t key_len, uint64_t now) {
    uint32_t of_key = moka_test_bytes(key, key_len);
    if (!cache) return MOKA_NULL;
    if (of_key) return of_key;
    uint8_t none = 0;
    return moka_c_bytes_invalidate(cache, moka_some(key, &none), key_len, now);
}

/* Marks all entries as invalidated. A later maintenance removes them. */
static inline uint32_t moka_bytes_invalidate_all(moka_bytes *cache) {
    if (!cache) return MOKA_NULL;
    return moka_c_bytes_invalidate_all(cache);
}

/* Runs a maintenance: evicts what is expired or invalidated or too much, and admits what is pending. */
static inline uint32_t moka_bytes_run_pending_tasks(moka_bytes *cache, uint64_t now) {
    if (!cache) return MOKA_NULL;
    return moka_c_bytes_run_pending_tasks(cache, now);
}

/* Runs a maintenance that evicts at most `limit` entries. Stores whether a part is left to do. */
static inline uint32_t moka_bytes_run_pending_tasks_up_to(moka_bytes *cache, uint64_t limit, uint64_t now, bool *is_left) {
    if (!cache || !is_left) return MOKA_NULL;
    return moka_c_bytes_run_pending_tasks_up_to(cache, limit, now, is_left);
}

/* Stores how many entries are stored, pending and expired ones included. */
static inline uint32_t moka_bytes_entry_count(moka_bytes *cache, uint64_t *count) {
    if (!cache || !count) return MOKA_NULL;
    return moka_c_bytes_entry_count(cache, count);
}

/* Stores the total weight of the stored entries, pending and expired ones included. */
static inline uint32_t moka_bytes_weighted_size(moka_bytes *cache, uint64_t *weight) {
    if (!cache || !weight) return MOKA_NULL;
    return moka_c_bytes_weighted_size(cache, weight);
}

/* Removes the oldest notice. MOKA_ABSENT if none is queued. Its key and its value are then those of the two calls below. */
static inline uint32_t moka_bytes_take_notice(moka_bytes *cache, moka_bytes_notice *notice) {
    if (!cache || !notice) return MOKA_NULL;
    return moka_c_bytes_take_notice(cache, notice);
}

/* Copies the key of the notice that was taken last, and stores its length. MOKA_ABSENT if none was taken. */
static inline uint32_t moka_bytes_copy_key(moka_bytes *cache, void *out, size_t room, size_t *len) {
    uint32_t of_out = moka_test_bytes(out, room);
    if (!cache || !len) return MOKA_NULL;
    if (of_out) return of_out;
    uint8_t nowhere = 0;
    return moka_c_bytes_copy_key(cache, moka_some(out, &nowhere), room, len);
}

/* Copies the value of that notice, or the one for which a later call had no room, and stores its length. MOKA_ABSENT if there is none. */
static inline uint32_t moka_bytes_copy_value(moka_bytes *cache, void *out, size_t room, size_t *len) {
    uint32_t of_out = moka_test_bytes(out, room);
    if (!cache || !len) return MOKA_NULL;
    if (of_out) return of_out;
    uint8_t nowhere = 0;
    return moka_c_bytes_copy_value(cache, moka_some(out, &nowhere), room, len);
}

#ifdef __cplusplus
}
#endif

#endif
