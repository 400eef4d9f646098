/* Calls with null pointers, with lengths that are too great, with closed handles and with settings that are refused. Each call returns
 * its number, which has a name, and changes nothing. */
#include "moka_c.h"

#include <stdio.h>
#include <string.h>

static int failures;

static void expect(const char *call, uint32_t number, uint32_t wanted) {
    if (number == wanted) return;
    failures++;
    printf("%s: %s, not %s\n", call, moka_name(number), moka_name(wanted));
}

static void expect_that(const char *what, bool holds) {
    if (holds) return;
    failures++;
    printf("not so: %s\n", what);
}

#define IS(wanted, call) expect(#call, call, wanted)

static const size_t too_long = (size_t)PTRDIFF_MAX + 1;

/* Calls each function for numbers with a null pointer in the place of each of its pointers. */
static void pass_null_numbers(moka_numbers *cache, const moka_settings *settings) {
    IS(MOKA_NULL, moka_numbers_open(NULL, settings));
    IS(MOKA_NULL, moka_numbers_open(cache, NULL));
    IS(MOKA_NULL, moka_numbers_close(NULL));
    uint64_t value = 7;
    IS(MOKA_NULL, moka_numbers_get(NULL, 1, 0, &value));
    IS(MOKA_NULL, moka_numbers_get(cache, 1, 0, NULL));
    IS(MOKA_NULL, moka_numbers_remove(NULL, 1, 0, &value));
    IS(MOKA_NULL, moka_numbers_remove(cache, 1, 0, NULL));
    IS(MOKA_NULL, moka_numbers_insert(NULL, 1, 2, 0));
    IS(MOKA_NULL, moka_numbers_contains_key(NULL, 1, 0));
    IS(MOKA_NULL, moka_numbers_invalidate(NULL, 1, 0));
    IS(MOKA_NULL, moka_numbers_invalidate_all(NULL));
    IS(MOKA_NULL, moka_numbers_run_pending_tasks(NULL, 0));
    bool is_left = true;
    IS(MOKA_NULL, moka_numbers_run_pending_tasks_up_to(NULL, 1, 0, &is_left));
    IS(MOKA_NULL, moka_numbers_run_pending_tasks_up_to(cache, 1, 0, NULL));
    IS(MOKA_NULL, moka_numbers_entry_count(NULL, &value));
    IS(MOKA_NULL, moka_numbers_entry_count(cache, NULL));
    IS(MOKA_NULL, moka_numbers_weighted_size(NULL, &value));
    IS(MOKA_NULL, moka_numbers_weighted_size(cache, NULL));
    moka_number_notice notice;
    IS(MOKA_NULL, moka_numbers_take_notice(NULL, &notice));
    IS(MOKA_NULL, moka_numbers_take_notice(cache, NULL));
    expect_that("a refused call stores nothing", value == 7 && is_left);
}

/* The same for byte strings. */
static void pass_null_bytes(moka_bytes *cache, const moka_settings *settings) {
    IS(MOKA_NULL, moka_bytes_open(NULL, settings));
    IS(MOKA_NULL, moka_bytes_open(cache, NULL));
    IS(MOKA_NULL, moka_bytes_close(NULL));
    char out[4] = "abc";
    size_t len = 7;
    IS(MOKA_NULL, moka_bytes_get(NULL, "k", 1, 0, out, sizeof out, &len));
    IS(MOKA_NULL, moka_bytes_get(cache, NULL, 1, 0, out, sizeof out, &len));
    IS(MOKA_NULL, moka_bytes_get(cache, "k", 1, 0, NULL, 1, &len));
    IS(MOKA_NULL, moka_bytes_get(cache, "k", 1, 0, out, sizeof out, NULL));
    IS(MOKA_NULL, moka_bytes_remove(NULL, "k", 1, 0, out, sizeof out, &len));
    IS(MOKA_NULL, moka_bytes_remove(cache, NULL, 1, 0, out, sizeof out, &len));
    IS(MOKA_NULL, moka_bytes_remove(cache, "k", 1, 0, NULL, 1, &len));
    IS(MOKA_NULL, moka_bytes_remove(cache, "k", 1, 0, out, sizeof out, NULL));
    IS(MOKA_NULL, moka_bytes_insert(NULL, "k", 1, "v", 1, 0));
    IS(MOKA_NULL, moka_bytes_insert(cache, NULL, 1, "v", 1, 0));
    IS(MOKA_NULL, moka_bytes_insert(cache, "k", 1, NULL, 1, 0));
    IS(MOKA_NULL, moka_bytes_contains_key(NULL, "k", 1, 0));
    IS(MOKA_NULL, moka_bytes_contains_key(cache, NULL, 1, 0));
    IS(MOKA_NULL, moka_bytes_invalidate(NULL, "k", 1, 0));
    IS(MOKA_NULL, moka_bytes_invalidate(cache, NULL, 1, 0));
    IS(MOKA_NULL, moka_bytes_invalidate_all(NULL));
    IS(MOKA_NULL, moka_bytes_run_pending_tasks(NULL, 0));
    bool is_left = true;
    IS(MOKA_NULL, moka_bytes_run_pending_tasks_up_to(NULL, 1, 0, &is_left));
    IS(MOKA_NULL, moka_bytes_run_pending_tasks_up_to(cache, 1, 0, NULL));
    uint64_t value = 7;
    IS(MOKA_NULL, moka_bytes_entry_count(NULL, &value));
    IS(MOKA_NULL, moka_bytes_entry_count(cache, NULL));
    IS(MOKA_NULL, moka_bytes_weighted_size(NULL, &value));
    IS(MOKA_NULL, moka_bytes_weighted_size(cache, NULL));
    moka_bytes_notice notice;
    IS(MOKA_NULL, moka_bytes_take_notice(NULL, &notice));
    IS(MOKA_NULL, moka_bytes_take_notice(cache, NULL));
    IS(MOKA_NULL, moka_bytes_copy_key(NULL, out, sizeof out, &len));
    IS(MOKA_NULL, moka_bytes_copy_key(cache, NULL, 1, &len));
    IS(MOKA_NULL, moka_bytes_copy_key(cache, out, sizeof out, NULL));
    IS(MOKA_NULL, moka_bytes_copy_value(NULL, out, sizeof out, &len));
    IS(MOKA_NULL, moka_bytes_copy_value(cache, NULL, 1, &len));
    IS(MOKA_NULL, moka_bytes_copy_value(cache, out, sizeof out, NULL));
    expect_that("a refused call stores nothing", value == 7 && is_left && len == 7 && !strcmp(out, "abc"));
}

/* Calls each function that takes a length with one that no object has. */
static void pass_lengths(moka_bytes *cache) {
    char out[4];
    size_t len;
    IS(MOKA_TOO_LONG, moka_bytes_get(cache, "k", too_long, 0, out, sizeof out, &len));
    IS(MOKA_TOO_LONG, moka_bytes_get(cache, "k", 1, 0, out, too_long, &len));
    IS(MOKA_TOO_LONG, moka_bytes_remove(cache, "k", too_long, 0, out, sizeof out, &len));
    IS(MOKA_TOO_LONG, moka_bytes_remove(cache, "k", 1, 0, out, too_long, &len));
    IS(MOKA_TOO_LONG, moka_bytes_insert(cache, "k", too_long, "v", 1, 0));
    IS(MOKA_TOO_LONG, moka_bytes_insert(cache, "k", 1, "v", SIZE_MAX, 0));
    IS(MOKA_TOO_LONG, moka_bytes_contains_key(cache, "k", too_long, 0));
    IS(MOKA_TOO_LONG, moka_bytes_invalidate(cache, "k", SIZE_MAX, 0));
    IS(MOKA_TOO_LONG, moka_bytes_copy_key(cache, out, too_long, &len));
    IS(MOKA_TOO_LONG, moka_bytes_copy_value(cache, out, too_long, &len));
}

/* Passes null with a length of 0: it stands for no bytes. */
static void pass_no_bytes(moka_bytes *cache) {
    size_t len = 7;
    IS(MOKA_DONE, moka_bytes_insert(cache, NULL, 0, NULL, 0, 0));
    IS(MOKA_DONE, moka_bytes_get(cache, NULL, 0, 0, NULL, 0, &len));
    expect_that("the value has no bytes", len == 0);
    IS(MOKA_DONE, moka_bytes_insert(cache, NULL, 0, "abc", 3, 0));
    IS(MOKA_SHORT_BUFFER, moka_bytes_get(cache, NULL, 0, 0, NULL, 0, &len));
    expect_that("the value has three bytes", len == 3);
    IS(MOKA_DONE, moka_bytes_contains_key(cache, NULL, 0, 0));
    IS(MOKA_DONE, moka_bytes_invalidate(cache, NULL, 0, 0));
    IS(MOKA_ABSENT, moka_bytes_contains_key(cache, NULL, 0, 0));
}

/* Calls each function with a handle that is closed. */
static void call_closed(moka_numbers *numbers, moka_bytes *bytes) {
    uint64_t value;
    bool is_left;
    moka_number_notice number_notice;
    IS(MOKA_CLOSED, moka_numbers_close(numbers));
    IS(MOKA_CLOSED, moka_numbers_get(numbers, 1, 0, &value));
    IS(MOKA_CLOSED, moka_numbers_remove(numbers, 1, 0, &value));
    IS(MOKA_CLOSED, moka_numbers_insert(numbers, 1, 2, 0));
    IS(MOKA_CLOSED, moka_numbers_contains_key(numbers, 1, 0));
    IS(MOKA_CLOSED, moka_numbers_invalidate(numbers, 1, 0));
    IS(MOKA_CLOSED, moka_numbers_invalidate_all(numbers));
    IS(MOKA_CLOSED, moka_numbers_run_pending_tasks(numbers, 0));
    IS(MOKA_CLOSED, moka_numbers_run_pending_tasks_up_to(numbers, 1, 0, &is_left));
    IS(MOKA_CLOSED, moka_numbers_entry_count(numbers, &value));
    IS(MOKA_CLOSED, moka_numbers_weighted_size(numbers, &value));
    IS(MOKA_CLOSED, moka_numbers_take_notice(numbers, &number_notice));
    char out[4];
    size_t len;
    moka_bytes_notice bytes_notice;
    IS(MOKA_CLOSED, moka_bytes_close(bytes));
    IS(MOKA_CLOSED, moka_bytes_get(bytes, "k", 1, 0, out, sizeof out, &len));
    IS(MOKA_CLOSED, moka_bytes_remove(bytes, "k", 1, 0, out, sizeof out, &len));
    IS(MOKA_CLOSED, moka_bytes_insert(bytes, "k", 1, "v", 1, 0));
    IS(MOKA_CLOSED, moka_bytes_contains_key(bytes, "k", 1, 0));
    IS(MOKA_CLOSED, moka_bytes_invalidate(bytes, "k", 1, 0));
    IS(MOKA_CLOSED, moka_bytes_invalidate_all(bytes));
    IS(MOKA_CLOSED, moka_bytes_run_pending_tasks(bytes, 0));
    IS(MOKA_CLOSED, moka_bytes_run_pending_tasks_up_to(bytes, 1, 0, &is_left));
    IS(MOKA_CLOSED, moka_bytes_entry_count(bytes, &value));
    IS(MOKA_CLOSED, moka_bytes_weighted_size(bytes, &value));
    IS(MOKA_CLOSED, moka_bytes_take_notice(bytes, &bytes_notice));
    IS(MOKA_CLOSED, moka_bytes_copy_key(bytes, out, sizeof out, &len));
    IS(MOKA_CLOSED, moka_bytes_copy_value(bytes, out, sizeof out, &len));
}

/* Opens caches with settings that are refused. The handles stay closed. */
static void open_refused(moka_numbers *numbers, moka_bytes *bytes) {
    moka_settings zero = {.flush_limit = {true, 0}};
    IS(MOKA_ZERO_FLUSH_LIMIT, moka_numbers_open(numbers, &zero));
    IS(MOKA_ZERO_FLUSH_LIMIT, moka_bytes_open(bytes, &zero));
    moka_settings both = {.flush_limit = {true, 1}, .weighs_bytes = true};
    IS(MOKA_FLUSH_LIMIT_WITH_WEIGHER, moka_bytes_open(bytes, &both));
    moka_settings unknown = {.policy = 2};
    IS(MOKA_UNKNOWN_POLICY, moka_numbers_open(numbers, &unknown));
    IS(MOKA_UNKNOWN_POLICY, moka_bytes_open(bytes, &unknown));
    moka_settings much = {.initial_capacity = SIZE_MAX};
    IS(MOKA_OUT_OF_MEMORY, moka_numbers_open(numbers, &much));
    IS(MOKA_OUT_OF_MEMORY, moka_bytes_open(bytes, &much));
    call_closed(numbers, bytes);
}

/* Each number has a name of its own, and no other number has one. */
static void name_numbers(void) {
    for (uint32_t n = MOKA_DONE; n <= MOKA_TOO_LONG; n++)
        for (uint32_t m = 0; m < n; m++) expect_that("two numbers have two names", strcmp(moka_name(m), moka_name(n)));
    expect_that("no number is called Unknown", strcmp(moka_name(MOKA_TOO_LONG), "Unknown"));
    expect_that("the next number has no name", !strcmp(moka_name(MOKA_TOO_LONG + 1), "Unknown"));
    expect_that("the greatest number has no name", !strcmp(moka_name(UINT32_MAX), "Unknown"));
}

int main(void) {
    moka_numbers numbers = MOKA_NO_NUMBERS;
    moka_bytes bytes = MOKA_NO_BYTES;
    moka_settings settings = {.first_number = UINT64_MAX - 2};
    name_numbers();
    call_closed(&numbers, &bytes);
    open_refused(&numbers, &bytes);
    IS(MOKA_DONE, moka_numbers_open(&numbers, &settings));
    IS(MOKA_OPEN_ALREADY, moka_numbers_open(&numbers, &settings));
    IS(MOKA_DONE, moka_bytes_open(&bytes, &settings));
    IS(MOKA_OPEN_ALREADY, moka_bytes_open(&bytes, &settings));
    pass_null_numbers(&numbers, &settings);
    pass_null_bytes(&bytes, &settings);
    pass_lengths(&bytes);
    IS(MOKA_DONE, moka_numbers_insert(&numbers, 1, 2, 0));
    IS(MOKA_DONE, moka_numbers_insert(&numbers, 1, 3, 0));
    IS(MOKA_NUMBERS_USED_UP, moka_numbers_insert(&numbers, 1, 4, 0));
    pass_no_bytes(&bytes);
    IS(MOKA_NUMBERS_USED_UP, moka_bytes_insert(&bytes, "k", 1, "v", 1, 0));
    IS(MOKA_DONE, moka_numbers_close(&numbers));
    IS(MOKA_DONE, moka_bytes_close(&bytes));
    call_closed(&numbers, &bytes);
    return failures != 0;
}
