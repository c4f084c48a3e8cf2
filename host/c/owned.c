/* The listing again, by a host that keeps its store to itself: only setup, and then the calls that do not test the store.
 *
 *     cc -I host/include host/c/owned.c target/staticlib/libowned.a target/staticlib/libexports.a -o owned
 */
#include "pollendrift_owned.h"
#include "printing.h"

enum { LINES = 4, HELD = 32, EVENTS = 128, KEYS = 32, PAIRS = 128 };

/* Nothing but the calls below writes the store; that is what owned_ calls ask for. */
static uint64_t store[MERGE_STORE_WORDS(LINES, HELD, EVENTS, KEYS, PAIRS)];
static merge_record records[MERGE_RECORDS(LINES, HELD)];

static const size_t WORDS = sizeof store / sizeof *store;
static const size_t ROOM = MERGE_OUTPUT_WORDS(LINES, HELD);

int main(void) {
    uint64_t *out = (uint64_t *)records;
    uint64_t code, count;
    if (merge_setup(store, WORDS, LINES, HELD, EVENTS, KEYS, PAIRS, 0, &count) != MERGE_DONE) {
        fprintf(stderr, "setup: refused %" PRIu64 "\n", count);
        return 1;
    }
    code = owned_subscribe(store, WORDS, 1, HELD, 0, &count);
    print_answer(code, count, records);
    code = owned_snapshot(store, WORDS, out, ROOM, 1, 0, 10, 0, &count);
    print_answer(code, count, records);
    code = owned_book_event(store, WORDS, out, ROOM, 1, 7, 7, 11, 0, &count);
    print_answer(code, count, records);
    code = owned_print(store, WORDS, out, ROOM, 1, 9, 9, 12, 0, &count);
    print_answer(code, count, records);
    puts(owned_in_line(store, WORDS, 1) ? "in line" : "not in line");
    code = owned_drop(store, WORDS, out, ROOM, 1, 0, &count);
    print_answer(code, count, records);
    puts(owned_in_line(store, WORDS, 1) ? "in line" : "not in line");
    return 0;
}
