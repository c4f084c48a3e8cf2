/* Lists that are too short, words that are no call, and a line's limit that is none: the program ends with the reason.
 *
 *     cc -I host/include host/c/short.c target/staticlib/libexports.a -o short
 *     ./short single; ./short records; ./short reports; ./short answers; ./short call; ./short limit
 */
#include "pollendrift.h"

#include <inttypes.h>
#include <stdio.h>
#include <string.h>

enum { LINES = 4, HELD = 32, EVENTS = 128, KEYS = 32, PAIRS = 128 };

static uint64_t store[MERGE_STORE_WORDS(LINES, HELD, EVENTS, KEYS, PAIRS)];
static uint64_t out[MERGE_OUTPUT_WORDS(LINES, HELD)];
static uint64_t reports[MERGE_REPORT_WORDS(LINES)];
static uint64_t answers[3];

/* The length of a list in 64-bit words. */
#define WORDS(list) (sizeof(list) / 8)

/* One call by itself, with so many words for records. */
static int single(size_t room) {
    uint64_t count;
    uint64_t code = merge_snapshot(store, WORDS(store), out, room, 1, 0, 10, 0, &count);
    if (code != MERGE_REFUSED)
        return 0;
    if (count == MERGE_OUTPUT)
        fprintf(stderr, "snapshot: refused 3, %zu words for records and %zu are needed\n", room, WORDS(out));
    else
        fprintf(stderr, "snapshot: refused %" PRIu64 "\n", count);
    return 1;
}

/* Two lines of these limits. */
static int subscribe(uint64_t first, uint64_t second) {
    const uint64_t limits[] = {first, second};
    for (uint64_t conn = 1; conn <= 2; conn++) {
        uint64_t count, limit = limits[conn - 1];
        if (merge_subscribe(store, WORDS(store), conn, limit, 0, &count) == MERGE_DONE)
            continue;
        if (count == MERGE_LINE_LIMIT)
            fprintf(stderr, "subscribe %" PRIu64 ": refused 18, a limit of %" PRIu64 " and 1 to %d are taken\n", conn, limit, HELD);
        else
            fprintf(stderr, "subscribe %" PRIu64 ": refused %" PRIu64 "\n", conn, count);
        return 1;
    }
    return 0;
}

/* A list of one call, with so many words for records, reports and answers. */
static int batch(const merge_call *call, size_t room, size_t report_room, size_t answer_room) {
    uint64_t done, put, reported;
    uint64_t code = merge_batch(store, WORDS(store), out, room, reports, report_room, answers, answer_room, (const uint64_t *)call,
                                WORDS(merge_call), &done, &put, &reported);
    switch (code) {
    case MERGE_DONE:
        return 0;
    case MERGE_NO_ROOM:
        fprintf(stderr, "batch: 11 with %" PRIu64 " done, %zu words for records and %zu for reports; %zu and %zu are enough\n",
                done, room, report_room, WORDS(out), WORDS(reports));
        return 1;
    case MERGE_NO_CALL:
        fprintf(stderr, "batch: 12 with %" PRIu64 " done, %" PRIu64 " is the number of no call\n", done, call->number);
        return 1;
    case MERGE_NO_ANSWERS:
        fprintf(stderr, "batch: 13 with %" PRIu64 " done, %zu words for answers and each takes %zu\n", done, answer_room,
                WORDS(merge_answer));
        return 1;
    default:
        fprintf(stderr, "batch: refused %" PRIu64 "\n", done);
        return 1;
    }
}

int main(int argc, char **argv) {
    static const merge_call snapshot = {.number = MERGE_CALL_SNAPSHOT, .conn = 1, .message = 10};
    static const merge_call tick = {.number = MERGE_CALL_TICK};
    static const merge_call none = {.number = 9};
    const char *what = argc == 2 ? argv[1] : "";
    uint64_t count;
    if (merge_setup(store, WORDS(store), LINES, HELD, EVENTS, KEYS, PAIRS, 0, &count) != MERGE_DONE) {
        fprintf(stderr, "setup: refused %" PRIu64 "\n", count);
        return 1;
    }
    if (strcmp(what, "single") == 0)
        return single(WORDS(out) - 1);
    if (strcmp(what, "records") == 0)
        return batch(&snapshot, WORDS(out) - 1, WORDS(reports), WORDS(answers));
    if (strcmp(what, "reports") == 0)
        return batch(&tick, WORDS(out), WORDS(reports) - 1, WORDS(answers));
    if (strcmp(what, "answers") == 0)
        return batch(&snapshot, WORDS(out), WORDS(reports), 0);
    if (strcmp(what, "call") == 0)
        return batch(&none, WORDS(out), WORDS(reports), WORDS(answers));
    if (strcmp(what, "limit") == 0)
        return subscribe(6, HELD + 1);
    fprintf(stderr, "short single|records|reports|answers|call|limit\n");
    return 2;
}
