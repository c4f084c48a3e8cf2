/* A list of calls by merge_batch. The lists are short on purpose: where one is full, the host takes out what is there and goes on
 * with the rest of its calls.
 *
 *     cc -I host/include host/c/batch.c target/staticlib/libexports.a -o batch
 */
#include "pollendrift.h"
#include "printing.h"

enum { LINES = 4, HELD = 32, EVENTS = 128, KEYS = 32, PAIRS = 128 };

static uint64_t store[MERGE_STORE_WORDS(LINES, HELD, EVENTS, KEYS, PAIRS)];
static merge_record records[MERGE_RECORDS(LINES, HELD) + 1]; /* room for one call behind one record */
static merge_report reports[LINES];
static merge_answer answers[4];

static const merge_call calls[] = {
    {.number = MERGE_CALL_SUBSCRIBE, .conn = 1, .token_or_limit = HELD},
    {.number = MERGE_CALL_SNAPSHOT, .conn = 1, .token_or_limit = 0, .message = 10},
    {.number = MERGE_CALL_BOOK_EVENT, .conn = 1, .key = {7, 7}, .message = 11},
    {.number = MERGE_CALL_PRINT, .conn = 1, .key = {9, 9}, .message = 12},
    {.number = MERGE_CALL_SUBSCRIBE, .conn = 2, .token_or_limit = HELD},
    {.number = MERGE_CALL_TICK, .time = 10000},
    {.number = MERGE_CALL_DROP, .conn = 1, .time = 10000},
    {.number = MERGE_CALL_DROP, .conn = 2, .time = 10000},
    /* no line holds more than HELD; one that holds a single message fails at the second */
    {.number = MERGE_CALL_SUBSCRIBE, .conn = 3, .token_or_limit = HELD + 1, .time = 10000},
    {.number = MERGE_CALL_SUBSCRIBE, .conn = 3, .token_or_limit = 1, .time = 10000},
    {.number = MERGE_CALL_BOOK_EVENT, .conn = 3, .key = {8, 8}, .message = 13, .time = 10000},
    {.number = MERGE_CALL_BOOK_EVENT, .conn = 3, .key = {8, 9}, .message = 14, .time = 10000},
};
enum { CALLS = sizeof calls / sizeof *calls };

/* The length of a list in 64-bit words. */
#define WORDS(list) (sizeof(list) / 8)

static const char *const REPORTS[] = {"aligned", "rebuild", "failed"};

/* Prints the first answers, each with its reports and records. */
static void print_answers(uint64_t done) {
    const merge_record *record = records;
    const merge_report *report = reports;
    for (uint64_t i = 0; i < done; i++) {
        const merge_answer *a = &answers[i];
        if (!print_code(a->code, a->count)) /* pollendrift.h says what a host does */
            continue;
        const merge_record *end = record + a->count;
        for (uint64_t j = 0; j < a->reports; j++, report++) {
            printf("%s %" PRIu64 "\n", REPORTS[report->kind], report->conn);
            for (uint64_t k = 0; k < report->records; k++)
                print_record(record++);
        }
        while (record < end) /* of a call that is no tick */
            print_record(record++);
    }
}

/* Why a batch ended. */
static const char *why(uint64_t code) {
    switch (code) {
    case MERGE_DONE:
        return "all done";
    case MERGE_NO_ROOM:
        return "no room for the next call's records or reports";
    case MERGE_NO_CALL:
        return "the next is no call";
    case MERGE_NO_ANSWERS:
        return "no room for the next answer";
    default:
        return "refused";
    }
}

int main(void) {
    uint64_t count;
    if (merge_setup(store, WORDS(store), LINES, HELD, EVENTS, KEYS, PAIRS, 0, &count) != MERGE_DONE) {
        fprintf(stderr, "setup: refused %" PRIu64 "\n", count);
        return 1;
    }
    size_t at = 0; /* the first call that is not done */
    while (at < CALLS) {
        uint64_t done, put, reported;
        uint64_t code = merge_batch(store, WORDS(store), (uint64_t *)records, WORDS(records), (uint64_t *)reports, WORDS(reports),
                                    (uint64_t *)answers, WORDS(answers), (const uint64_t *)&calls[at],
                                    (CALLS - at) * WORDS(merge_call), &done, &put, &reported);
        if (code == MERGE_REFUSED) {
            fprintf(stderr, "batch: refused %" PRIu64 "\n", done);
            return 1;
        }
        print_answers(done);
        printf("(%" PRIu64 " calls, %" PRIu64 " records, %" PRIu64 " reports: %s)\n", done, put, reported, why(code));
        at += done;
        /* No call, or not even room for one: a fault of the host, and the same list would end here again. */
        if (code == MERGE_NO_CALL || (code != MERGE_DONE && done == 0)) {
            fprintf(stderr, "batch: ended before call %zu: %s\n", at + 1, why(code));
            return 1;
        }
    }
    return 0;
}
