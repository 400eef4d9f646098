/* Sessions that end eight seconds after login, or after four without use; and what ended them. */
#include "moka_c.h"

#include <inttypes.h>
#include <stdio.h>
#include <string.h>

static const uint64_t second = 1000000000;

/* Prints what failed, and counts it. */
static int failures;

static void expect(const char *what, uint32_t number, uint32_t wanted) {
    if (number == wanted) return;
    failures++;
    printf("%s: %s, not %s\n", what, moka_name(number), moka_name(wanted));
}

/* Prints the user of a session. The buffer is short on purpose: a longer name is copied by a second call. */
static void print_user(moka_bytes *sessions, const char *id, uint64_t now) {
    char user[64];
    size_t len;
    uint32_t number = moka_bytes_get(sessions, id, strlen(id), now, user, 4, &len);
    if (number == MOKA_SHORT_BUFFER) number = moka_bytes_copy_value(sessions, user, sizeof user, &len);
    if (number == MOKA_DONE)
        printf("%s at %" PRIu64 " s: %.*s\n", id, now / second, (int)len, user);
    else
        printf("%s at %" PRIu64 " s: %s\n", id, now / second, moka_name(number));
}

static void print_notices(moka_bytes *sessions) {
    static const char *const causes[] = {"expired", "explicit", "replaced", "size"};
    moka_bytes_notice notice;
    while (moka_bytes_take_notice(sessions, &notice) == MOKA_DONE) {
        char id[64], user[64];
        size_t len;
        expect("copy_key", moka_bytes_copy_key(sessions, id, sizeof id, &len), MOKA_DONE);
        expect("copy_value", moka_bytes_copy_value(sessions, user, sizeof user, &len), MOKA_DONE);
        printf("session %.*s of %.*s: %s\n", (int)notice.key_len, id, (int)notice.value_len, user, causes[notice.cause]);
    }
}

static void run_sessions(void) {
    moka_bytes sessions = MOKA_NO_BYTES;
    moka_settings settings = {
        .max_capacity = {true, 100},
        .time_to_live = {true, 8 * second},
        .time_to_idle = {true, 4 * second},
    };
    expect("contains_key of a closed handle", moka_bytes_contains_key(&sessions, "a", 1, 0), MOKA_CLOSED);
    expect("open", moka_bytes_open(&sessions, &settings), MOKA_DONE);
    expect("open again", moka_bytes_open(&sessions, &settings), MOKA_OPEN_ALREADY);
    expect("insert", moka_bytes_insert(&sessions, "s1", 2, "Alice", 5, 0), MOKA_DONE);
    expect("insert", moka_bytes_insert(&sessions, "s2", 2, "Bob", 3, second), MOKA_DONE);
    expect("insert without a value", moka_bytes_insert(&sessions, "s3", 2, NULL, 0, second), MOKA_DONE);
    expect("insert of null", moka_bytes_insert(&sessions, NULL, 2, "", 0, second), MOKA_NULL);
    expect("insert of too much", moka_bytes_insert(&sessions, "s4", SIZE_MAX, "", 0, second), MOKA_TOO_LONG);
    for (uint64_t now = 2; now <= 8; now += 3) {
        print_user(&sessions, "s1", now * second);
        print_user(&sessions, "s2", now * second);
        expect("tasks", moka_bytes_run_pending_tasks(&sessions, now * second), MOKA_DONE);
        print_notices(&sessions);
    }
    expect("close", moka_bytes_close(&sessions), MOKA_DONE);
    expect("close again", moka_bytes_close(&sessions), MOKA_CLOSED);
}

static void run_numbers(void) {
    moka_numbers squares = MOKA_NO_NUMBERS;
    moka_settings settings = {.max_capacity = {true, 3}, .policy = MOKA_LRU};
    expect("open", moka_numbers_open(&squares, &settings), MOKA_DONE);
    for (uint64_t n = 1; n <= 5; n++) expect("insert", moka_numbers_insert(&squares, n, n * n, 0), MOKA_DONE);
    expect("tasks", moka_numbers_run_pending_tasks(&squares, 0), MOKA_DONE);
    uint64_t value = 0, count = 0;
    expect("get", moka_numbers_get(&squares, 5, 0, &value), MOKA_DONE);
    expect("get of none", moka_numbers_get(&squares, 1, 0, &value), MOKA_ABSENT);
    expect("count", moka_numbers_entry_count(&squares, &count), MOKA_DONE);
    printf("5 * 5 = %" PRIu64 ", %" PRIu64 " squares\n", value, count);
    moka_number_notice notice;
    while (moka_numbers_take_notice(&squares, &notice) == MOKA_DONE)
        printf("%" PRIu64 " left: %s\n", notice.key, notice.cause == MOKA_SIZE ? "size" : "another cause");
    expect("close", moka_numbers_close(&squares), MOKA_DONE);
}

int main(void) {
    run_sessions();
    run_numbers();
    return failures != 0;
}
