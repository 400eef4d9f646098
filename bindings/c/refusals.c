/* Refuses each request for memory in turn, and sees that a call which fails leaves the cache as it was. Linked with --wrap=malloc and
 * --wrap=realloc. */
#include "moka_c.h"

#include <stdio.h>
#include <stdlib.h>
#include <string.h>

void *__real_malloc(size_t size);
void *__real_realloc(void *at, size_t size);

/* How many requests are granted before one is refused, and whether one was. */
static long granted = -1;
static bool was_refused;

static bool refuses(void) {
    if (granted < 0) return false;
    if (granted > 0) return granted--, false;
    granted = -1;
    return was_refused = true;
}

void *__wrap_malloc(size_t size) {
    return refuses() ? NULL : __real_malloc(size);
}

void *__wrap_realloc(void *at, size_t size) {
    return refuses() ? NULL : __real_realloc(at, size);
}

static int failures;

static void expect(const char *what, bool holds) {
    if (holds) return;
    failures++;
    printf("not so: %s\n", what);
}

static const char long_value[] = "a value that is longer than what a small buffer has room for, and than any key";

/* Stores a key and looks it up, twice, and removes it. Each call either succeeds or fails with MOKA_OUT_OF_MEMORY and changes nothing. */
static void call_bytes(moka_bytes *cache) {
    uint64_t before, after;
    char out[128];
    size_t len;
    for (uint64_t n = 0; n < 40; n++) {
        char key[24];
        size_t key_len = (size_t)snprintf(key, sizeof key, "key %d", (int)(n % 20));
        moka_bytes_entry_count(cache, &before);
        uint32_t number = moka_bytes_insert(cache, key, key_len, long_value, sizeof long_value, n);
        moka_bytes_entry_count(cache, &after);
        expect("an insert is done or refused", number == MOKA_DONE || number == MOKA_OUT_OF_MEMORY);
        expect("a refused insert stores nothing", number == MOKA_DONE || before == after);
        uint32_t found = moka_bytes_get(cache, key, key_len, n, out, sizeof out, &len);
        expect("a lookup is done, absent or refused", found <= MOKA_OUT_OF_MEMORY);
        expect("a stored value is found", found != MOKA_DONE || (len == sizeof long_value && !memcmp(out, long_value, len)));
        expect("a value that was stored is there", number != MOKA_DONE || found != MOKA_ABSENT);
    }
    moka_bytes_entry_count(cache, &before);
    uint32_t number = moka_bytes_remove(cache, "key 3", 5, 40, out, 4, &len);
    moka_bytes_entry_count(cache, &after);
    expect("a removal has no room, finds none, or is refused", number == MOKA_SHORT_BUFFER || number == MOKA_ABSENT || number == MOKA_OUT_OF_MEMORY);
    expect("only a removal that is done removes", before == after + (number == MOKA_SHORT_BUFFER));
}

static void call_numbers(moka_numbers *cache) {
    uint64_t before, after, value;
    for (uint64_t n = 0; n < 100; n++) {
        moka_numbers_entry_count(cache, &before);
        uint32_t number = moka_numbers_insert(cache, n, n * n, n);
        moka_numbers_entry_count(cache, &after);
        expect("an insert is done or refused", number == MOKA_DONE || number == MOKA_OUT_OF_MEMORY);
        expect("a refused insert stores nothing", number == MOKA_DONE || before == after);
        expect("what was stored is found", number != MOKA_DONE || (moka_numbers_get(cache, n, n, &value) == MOKA_DONE && value == n * n));
    }
}

int main(void) {
    moka_settings settings = {.max_capacity = {true, 1000}, .policy = MOKA_LRU};
    long refused = 0;
    do {
        moka_bytes bytes = MOKA_NO_BYTES;
        moka_numbers numbers = MOKA_NO_NUMBERS;
        was_refused = false;
        granted = refused++;
        uint32_t opened = moka_bytes_open(&bytes, &settings);
        expect("opening is done or refused", opened == (was_refused ? MOKA_OUT_OF_MEMORY : MOKA_DONE));
        if (opened == MOKA_DONE) call_bytes(&bytes);
        expect("what could not be opened is closed", moka_bytes_close(&bytes) == (opened == MOKA_DONE ? MOKA_DONE : MOKA_CLOSED));
        opened = moka_numbers_open(&numbers, &settings);
        if (opened == MOKA_DONE) call_numbers(&numbers);
        expect("what could not be opened is closed", moka_numbers_close(&numbers) == (opened == MOKA_DONE ? MOKA_DONE : MOKA_CLOSED));
        granted = -1;
    } while (was_refused);
    fprintf(stderr, "%ld requests for memory, each refused once\n", refused - 1);
    return failures != 0;
}
