/* What the headers say of lists of length 0, of the counts, of a line's limit, of the layout and of the structs. Ends with 0, or names
 * the first line that does not hold. */
#include "pollendrift_owned.h"

#include <stdio.h>
#include <string.h>

enum { LINES = 2, HELD = 3, EVENTS = 16, KEYS = 4, PAIRS = 8 };

static uint64_t store[MERGE_STORE_WORDS(LINES, HELD, EVENTS, KEYS, PAIRS)];
static uint64_t before[sizeof store / 8];
static uint64_t out[MERGE_OUTPUT_WORDS(LINES, HELD)];
static uint64_t reports[MERGE_REPORT_WORDS(LINES)];
static uint64_t answers[3];

static const size_t WORDS = sizeof store / 8;
static const size_t ROOM = sizeof out / 8;

/* Written by every call, whatever it answers. */
static uint64_t count, reported, done;

static int line;

/* Forgets the counts, and notes where the next call stands. */
static void next(int at) {
    line = at;
    count = reported = done = 77;
}

static int failed;

static void is(int holds) {
    if (!holds && !failed) {
        printf("empty.c:%d\n", line);
        failed = 1;
    }
}

#define REFUSED(call, number) (next(__LINE__), is((call) == MERGE_REFUSED), is(count == (number)))
#define ANSWERS(call, code, n) (next(__LINE__), is((call) == (code)), is(count == (n)))
#define BATCH(call, code, n) (next(__LINE__), is((call) == (code)), is(done == (n) && count == 0 && reported == 0))

/* A store of no words. */
static void no_store(void) {
    uint64_t list[MERGE_VIEW_WORDS(HELD)];
    REFUSED(merge_setup(NULL, 0, LINES, HELD, EVENTS, KEYS, PAIRS, 0, &count), 1);
    REFUSED(merge_setup(NULL, 0, 0, HELD, EVENTS, KEYS, PAIRS, 0, &count), 2);
    REFUSED(merge_subscribe(NULL, 0, 1, 0, 0, &count), 1);
    REFUSED(merge_snapshot(NULL, 0, out, ROOM, 1, 0, 10, 0, &count), 1);
    REFUSED(merge_book_event(NULL, 0, out, ROOM, 1, 7, 7, 11, 0, &count), 1);
    REFUSED(merge_print(NULL, 0, out, ROOM, 1, 9, 9, 12, 0, &count), 1);
    REFUSED(merge_drop(NULL, 0, out, ROOM, 1, 0, &count), 1);
    REFUSED(merge_promote(NULL, 0, out, ROOM, 0, &count), 1);
    REFUSED(merge_reset(NULL, 0, 0, &count), 1);
    REFUSED(merge_tick(NULL, 0, out, ROOM, reports, 6, NULL, 0, 0, &count, &reported), 1);
    is(reported == 0);
    BATCH(merge_batch(NULL, 0, out, ROOM, reports, 6, answers, 3, NULL, 0, &done, &count, &reported), MERGE_REFUSED, 1);
    REFUSED(merge_in_line(NULL, 0, 1, &count), 1);
    REFUSED(merge_any_in_line(NULL, 0, &count), 1);
    REFUSED(merge_servable(NULL, 0, &count), 1);
    REFUSED(merge_view(NULL, 0, 1, list, MERGE_VIEW_WORDS(HELD), &count), 1);
}

/* Output lists of no words. */
static void no_lists(void) {
    const merge_call subscribe = {.number = MERGE_CALL_SUBSCRIBE, .conn = 1, .token_or_limit = HELD};
    const merge_call print = {.number = MERGE_CALL_PRINT, .conn = 1};
    const merge_call tick = {.number = MERGE_CALL_TICK};
    const uint64_t *list;
    ANSWERS(merge_setup(store, WORDS, LINES, HELD, EVENTS, KEYS, PAIRS, 0, &count), MERGE_DONE, 0);
    ANSWERS(merge_tick(store, WORDS, out, ROOM, reports, 6, NULL, 0, 0, &count, &reported), MERGE_DONE, 0);
    is(reported == 0);
    memcpy(before, store, sizeof store);
    REFUSED(merge_snapshot(store, WORDS, NULL, 0, 1, 0, 10, 0, &count), 3);
    REFUSED(merge_book_event(store, WORDS, NULL, 0, 1, 7, 7, 11, 0, &count), 3);
    REFUSED(merge_print(store, WORDS, NULL, 0, 1, 9, 9, 12, 0, &count), 3);
    REFUSED(merge_drop(store, WORDS, NULL, 0, 1, 0, &count), 3);
    REFUSED(merge_promote(store, WORDS, NULL, 0, 0, &count), 3);
    REFUSED(merge_tick(store, WORDS, NULL, 0, reports, 6, NULL, 0, 0, &count, &reported), 3);
    is(reported == 0);
    REFUSED(merge_tick(store, WORDS, out, ROOM, NULL, 0, NULL, 0, 0, &count, &reported), 3);
    REFUSED(merge_view(store, WORDS, 1, NULL, 0, &count), 3);
    BATCH(merge_batch(store, WORDS, NULL, 0, NULL, 0, NULL, 0, NULL, 0, &done, &count, &reported), MERGE_DONE, 0);
    BATCH(owned_batch(store, WORDS, NULL, 0, NULL, 0, NULL, 0, NULL, 0, &done, &count, &reported), MERGE_DONE, 0);
    list = (const uint64_t *)&subscribe;
    BATCH(merge_batch(store, WORDS, NULL, 0, NULL, 0, NULL, 0, list, 8, &done, &count, &reported), MERGE_NO_ANSWERS, 0);
    BATCH(owned_batch(store, WORDS, NULL, 0, NULL, 0, NULL, 0, list, 8, &done, &count, &reported), MERGE_NO_ANSWERS, 0);
    list = (const uint64_t *)&print;
    BATCH(merge_batch(store, WORDS, NULL, 0, NULL, 0, answers, 3, list, 8, &done, &count, &reported), MERGE_NO_ROOM, 0);
    BATCH(owned_batch(store, WORDS, NULL, 0, NULL, 0, answers, 3, list, 8, &done, &count, &reported), MERGE_NO_ROOM, 0);
    list = (const uint64_t *)&tick;
    BATCH(merge_batch(store, WORDS, out, ROOM, NULL, 0, answers, 3, list, 8, &done, &count, &reported), MERGE_NO_ROOM, 0);
    REFUSED(owned_snapshot(store, WORDS, NULL, 0, 1, 0, 10, 0, &count), 3);
    REFUSED(owned_tick(store, WORDS, out, ROOM, NULL, 0, NULL, 0, 0, &count, &reported), 3);
    is(memcmp(before, store, sizeof store) == 0);
    list = (const uint64_t *)&subscribe;
    BATCH(merge_batch(store, WORDS, NULL, 0, NULL, 0, answers, 3, list, 8, &done, &count, &reported), MERGE_DONE, 1);
    REFUSED(merge_tick(store, WORDS, out, ROOM, reports, 6, NULL, 0, 0, &count, &reported), 11);
}

/* An event of a connection, the n-th. */
static uint64_t event(uint64_t conn, uint64_t n) {
    return merge_book_event(store, WORDS, out, ROOM, conn, 7, n, n, 0, &count);
}

/* Limits of lines: a short one, and those that are refused, before 4 where no line is free. */
static void line_limits(void) {
    merge_call subscribe = {.number = MERGE_CALL_SUBSCRIBE, .conn = 3, .token_or_limit = HELD + 1};
    const uint64_t *list = (const uint64_t *)&subscribe;
    uint64_t *area = store + WORDS - LINES * (7 * HELD + 64); /* of the first line */
    ANSWERS(merge_setup(store, WORDS, LINES, HELD, EVENTS, KEYS, PAIRS, 0, &count), MERGE_DONE, 0);
    ANSWERS(merge_subscribe(store, WORDS, 1, 2, 0, &count), MERGE_DONE, 0);
    ANSWERS(owned_subscribe(store, WORDS, 2, HELD, 0, &count), MERGE_DONE, 0);
    is(area[10] == 2 && area[7 * HELD + 64 + 10] == HELD);
    memcpy(before, store, sizeof store);
    REFUSED(merge_subscribe(store, WORDS, 3, 0, 0, &count), MERGE_LINE_LIMIT);
    REFUSED(merge_subscribe(store, WORDS, 1, HELD + 1, 0, &count), MERGE_LINE_LIMIT);
    REFUSED(merge_subscribe(store, WORDS, 3, 1, 0, &count), MERGE_LINES);
    REFUSED(owned_subscribe(store, WORDS, 1, 0, 0, &count), MERGE_LINE_LIMIT);
    REFUSED(owned_subscribe(store, WORDS, 3, UINT64_MAX, 0, &count), MERGE_LINE_LIMIT);
    BATCH(merge_batch(store, WORDS, NULL, 0, NULL, 0, answers, 3, list, 8, &done, &count, &reported), MERGE_DONE, 1);
    is(answers[0] == MERGE_REFUSED && answers[1] == MERGE_LINE_LIMIT && answers[2] == 0);
    subscribe.token_or_limit = 1;
    BATCH(owned_batch(store, WORDS, NULL, 0, NULL, 0, answers, 3, list, 8, &done, &count, &reported), MERGE_DONE, 1);
    is(answers[0] == MERGE_REFUSED && answers[1] == MERGE_LINES && answers[2] == 0);
    is(memcmp(before, store, sizeof store) == 0);
    for (uint64_t n = 1; n <= HELD; n++) {
        ANSWERS(event(1, n), n <= 2 ? MERGE_HELD : MERGE_FAILED, 0);
        ANSWERS(event(2, n), MERGE_HELD, 0);
    }
    subscribe.conn = 1;
    BATCH(merge_batch(store, WORDS, NULL, 0, NULL, 0, answers, 3, list, 8, &done, &count, &reported), MERGE_DONE, 1);
    is(answers[0] == MERGE_DONE && area[10] == 1);
    area[10] = 0;
    REFUSED(merge_servable(store, WORDS, &count), 1);
    area[10] = HELD + 1;
    REFUSED(merge_servable(store, WORDS, &count), 1);
}

/* A store of another layout. */
static void layout(void) {
    ANSWERS(merge_setup(store, WORDS, LINES, HELD, EVENTS, KEYS, PAIRS, 0, &count), MERGE_DONE, 0);
    is(store[12] == MERGE_LAYOUT);
    store[12] = MERGE_LAYOUT + 1;
    REFUSED(merge_servable(store, WORDS, &count), 1);
}

/* No bytes have a key, by whatever pointer. */
static void no_bytes(void) {
    const uint8_t byte = 1;
    uint64_t a0 = 77, a1 = 77, b0 = 78, b1 = 78;
    next(__LINE__);
    merge_key(NULL, 0, &a0, &a1);
    merge_key(&byte, 0, &b0, &b1);
    is(a0 == b0 && a1 == b1);
    is(a0 == 15130871412783076140u);
}

int main(void) {
    next(__LINE__);
    is(sizeof(merge_record) == 56 && sizeof(merge_report) == 24 && sizeof(merge_call) == 64 && sizeof(merge_answer) == 24);
    no_store();
    no_lists();
    no_bytes();
    line_limits();
    layout();
    return failed;
}
