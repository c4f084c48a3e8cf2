/* The calls of a market's merge for hosts in C and C++, over libexports.a (`bash support/made archive exports`; x86-64).
 *
 * A store is a list of 64-bit words that the host owns; docs/LAYOUT.md says what each word means. Every call takes any words: a
 * store that is not sound is refused and stays as it was. The words are in the machine's byte order (little-endian on x86-64)
 * and hold no addresses.
 *
 * A call answers a code below, and writes to *count the number of a refusal, or how many records it put out. Records and reports
 * are written from the front of their lists; words past them stay. A refusal changes no store and no list.
 *
 * Lengths   Of the store and of every list in 64-bit words, not in bytes or records. Only merge_key's length is in bytes.
 * Pointers  The lists and pointers of one call may not overlap. Those to words are aligned to 8 bytes. No call keeps a pointer.
 * NULL      A list of length 0 may be NULL; it is as any other list of length 0. So a store of 0 words is refused with 1, an output
 *           list with 3; a tick's view answers may be NULL while there is no line, and a batch's lists where nothing is to be
 *           written; merge_key takes 0 bytes. `count`, `done`, `reported`, `key0` and `key1` are always written: never NULL.
 * Threads   The library keeps nothing between calls. Threads may use different stores at the same time. One store is for one call
 *           at a time; but queries and merge_view only read it, and may run beside each other, each with its own count and list.
 * Room      merge_snapshot, merge_book_event, merge_print, merge_drop, merge_promote and merge_tick need an output list for
 *           MERGE_RECORDS(L, H) records, however few they put out; merge_tick also a list for L reports; merge_view H + 8 words.
 *           merge_subscribe and merge_reset need none.
 * Refusals  A refused message was not taken, and the venue does not send it again on that connection: a host that goes on with the
 *           connection's next book event leaves a gap in its book that nothing will show. The numbers below say what to do.
 * Ticks     Tick regularly, once a second: only a tick lets old log entries and print keys go.
 * Limits    For R book events a second and a tick every T seconds, G is at least R * (10 + T), as the log keeps an event for at
 *           least ten seconds, plus the items that lines hold at the same time (each at most H + 8). C is at least the print keys
 *           that come within 30 + T seconds, and D so many for each connection.
 */
#ifndef POLLENDRIFT_H
#define POLLENDRIFT_H

#include <stddef.h>
#include <stdint.h>

#ifdef __cplusplus
extern "C" {
#endif

/* What a call answers. */
enum {
    MERGE_REFUSED = 0, /* *count (of a batch: *done): the refusal's number; nothing changed */
    MERGE_DONE = 1,
    MERGE_APPLY = 2,     /* *count: the records to apply, in order, each as often as its times say */
    MERGE_DUPLICATE = 3, /* a copy of what was applied already */
    MERGE_HELD = 4,      /* held until the connection is in line, or a snapshot that put it there with nothing to apply */
    MERGE_IGNORED = 5,   /* the connection is not subscribed or failed, or the snapshot is not due */
    MERGE_DIVERGED = 6,  /* two connections disagree: merge_reset and an empty book, and subscribe all connections again */
    MERGE_FAILED = 7,    /* the connection failed just now: subscribe it again */
    MERGE_KEPT = 8,      /* another connection is in line, or the dropped one was not */
    MERGE_GONE = 9,      /* there is no book until a snapshot comes */
    MERGE_REBUILD = 10,  /* *count: the records that the book is rebuilt from */
    /* Only merge_batch answers these: why it ended before the list did. */
    MERGE_NO_ROOM = 11,   /* the next call needs more room for records or reports than is left */
    MERGE_NO_CALL = 12,   /* the next eight words are no call */
    MERGE_NO_ANSWERS = 13 /* there is no room for another answer */
};

/* What a query answers; 0 is refused. */
enum { MERGE_YES = 1, MERGE_NO = 2 };

/* The numbers of refusals, and what a host does. Subscribe a connection again: merge_drop it at once, and merge_promote if that answers
 * MERGE_KEPT; at the next tick a new subscription at the venue; then merge_subscribe, which alone would leave the log as it is. */
enum {
    /* The words are no sound store: somebody else wrote them, or they are of another layout. Setup again, and subscribe all
     * connections again. Of setup: fewer words than MERGE_STORE_WORDS. */
    MERGE_UNSOUND = 1,
    /* A limit is outside its range (setup). Choose limits in range. */
    MERGE_LIMITS = 2,
    /* An output list is too short. Make it longer and call again; nothing was lost. */
    MERGE_OUTPUT = 3,
    /* A new connection, and all lines are taken. Drop a connection that failed or is gone; subscribe the new one again, at the venue
     * too: its snapshots were ignored meanwhile. */
    MERGE_LINES = 4,
    /* The log and the held items are at the event limit. Tick at once (old log entries go), and make the same call again before any
     * other of that connection. If it is refused again, the connection has missed a message: subscribe it again. Going on with its
     * next event instead would hide the gap. */
    MERGE_EVENTS = 5,
    /* The line's item area is full. Subscribe the connection again. */
    MERGE_ITEMS = 6,
    /* A print's key row or count row is needed, and none is free. Tick and call again; keep the print and try again after later
     * ticks, for at most ten seconds; then the volume is short by it. */
    MERGE_PRINTS = 7,
    /* The connection delivered this print 2^32 - 1 times: the keys do not tell messages apart. Nothing is to be done. */
    MERGE_COPIES = 8,
    /* The end and the held items are at 2^64 - 1: the numbers are used up. Setup again, and subscribe all connections again. */
    MERGE_NUMBERS = 9,
    /* A snapshot's token is above 1: a fault of the host. Call again with the right token. */
    MERGE_INDEX = 10,
    /* Not one view answer, 0 or 1, for each line: a fault of the host. Call again with right answers. */
    MERGE_ANSWERS = 11,
    /* The limit of a subscription is zero or above H (tested before 4): a fault of the host. Call again with a limit of 1 to H, before the
     * connection's first message. If messages came meanwhile, subscribe it again; where it had a line before, which took them, merge_reset
     * and subscribe all connections again. (12 to 17 are of the other headers.) */
    MERGE_LINE_LIMIT = 18
};

/* The version of a store's layout. Setup writes it to word 12; a store of another version is refused with 1. */
#define MERGE_LAYOUT 4

/* Words that a store needs, for L lines (1 to 16), held limit H (1 to 5,000), event limit G (1 to 1,048,576), C print keys and D
 * count pairs (1 to 65,536 each). A store may be longer. */
#define MERGE_STORE_WORDS(L, H, G, C, D) (64 + (L) * (7 * (H) + 64) + 3 * (G) + 4 * (C) + 4 * (D))
/* Records that an output list has to take, and a list's words for so many records; a list of reports takes L. */
#define MERGE_RECORDS(L, H) ((L) * (2 * (H) + 8) + 1)
#define MERGE_OUTPUT_WORDS(L, H) (7 * MERGE_RECORDS(L, H))
#define MERGE_REPORT_WORDS(L) (3 * (L))
/* Words of a view's list. */
#define MERGE_VIEW_WORDS(H) ((H) + 8)

/* A put-out record as it lies in an output list: seven words. */
typedef struct {
    uint64_t conn;
    uint64_t kind; /* 0 snapshot, 1 book event, 2 print */
    uint64_t number;
    uint64_t key[2];
    uint64_t message;
    uint64_t times;
} merge_record;

/* A tick report as it lies in a list of reports: three words. */
typedef struct {
    uint64_t kind; /* 0 aligned, 1 rebuild, 2 failed */
    uint64_t conn;
    uint64_t records; /* how many of the tick's records are its */
} merge_report;

/* The numbers of the calls in the list of merge_batch. */
enum {
    MERGE_CALL_SUBSCRIBE = 1,
    MERGE_CALL_SNAPSHOT = 2,
    MERGE_CALL_BOOK_EVENT = 3,
    MERGE_CALL_PRINT = 4,
    MERGE_CALL_DROP = 5,
    MERGE_CALL_PROMOTE = 6,
    MERGE_CALL_RESET = 7,
    MERGE_CALL_TICK = 8
};

/* A call in the list of merge_batch: eight words. A word that the call does not use may be anything. */
typedef struct {
    uint64_t number; /* MERGE_CALL_.. */
    uint64_t conn;
    uint64_t token_or_limit; /* of a snapshot: the token; of a subscription: the line's limit */
    uint64_t key[2];
    uint64_t message;
    uint64_t time;
    uint64_t views; /* of a tick: the view answers as binary digits, the lowest for the first line */
} merge_call;

/* An answer of merge_batch: three words. */
typedef struct {
    uint64_t code;
    uint64_t count; /* the number of a refusal, or how many records it put out */
    uint64_t reports;
} merge_answer;

/* Makes an empty store, whatever the words were. Book events are numbered from start. Times of later calls are in milliseconds. */
uint64_t merge_setup(uint64_t *store, size_t words, uint64_t lines, uint64_t held, uint64_t events, uint64_t keys,
                     uint64_t pairs, uint64_t start, uint64_t *count);

/* The connection subscribed: what it held goes, and so do its counts of prints delivered before. `limit`, 1 to H, is its line's until the
 * next subscription: while it is not in line, and holds so many items or prints, a book event or a print of a key that it does not hold
 * fails it (MERGE_FAILED). Snapshots are held above the limit too. A workstation passes H, a phone less, but 6 at least: to line up by its
 * events a line holds two snapshots and four events. */
uint64_t merge_subscribe(uint64_t *store, size_t words, uint64_t conn, uint64_t limit, uint64_t time, uint64_t *count);

/* The connection's snapshot of token 0 or 1. A message is the host's own number for it. */
uint64_t merge_snapshot(uint64_t *store, size_t words, uint64_t *out, size_t room, uint64_t conn, uint64_t token,
                        uint64_t message, uint64_t time, uint64_t *count);

/* The connection's next book event. */
uint64_t merge_book_event(uint64_t *store, size_t words, uint64_t *out, size_t room, uint64_t conn, uint64_t key0,
                          uint64_t key1, uint64_t message, uint64_t time, uint64_t *count);

/* A print, or any other message that is counted. */
uint64_t merge_print(uint64_t *store, size_t words, uint64_t *out, size_t room, uint64_t conn, uint64_t key0, uint64_t key1,
                     uint64_t message, uint64_t time, uint64_t *count);

/* The connection closed. */
uint64_t merge_drop(uint64_t *store, size_t words, uint64_t *out, size_t room, uint64_t conn, uint64_t time,
                    uint64_t *count);

/* One that holds a snapshot takes over where nobody is in line. */
uint64_t merge_promote(uint64_t *store, size_t words, uint64_t *out, size_t room, uint64_t time, uint64_t *count);

/* The applied history is in doubt. */
uint64_t merge_reset(uint64_t *store, size_t words, uint64_t time, uint64_t *count);

/* Upkeep. One view answer for each line, by rising connection; *count: all records, *reported: the reports (0 if refused). */
uint64_t merge_tick(uint64_t *store, size_t words, uint64_t *out, size_t room, uint64_t *reports, size_t report_room,
                    const uint64_t *answers, size_t answered, uint64_t time, uint64_t *count, uint64_t *reported);

/* Calls one after the other, on a store that is tested once: the words of merge_call in `calls`, those of merge_answer into
 * `answers`, the records and reports one behind the other. Words behind the last whole call are not read.
 *
 * MERGE_DONE: every whole call of the list was done. MERGE_NO_ROOM, MERGE_NO_CALL, MERGE_NO_ANSWERS: the batch ended before a call,
 * and those before it are done. Each comes with how many calls were done, how many records and reports they put out. MERGE_REFUSED:
 * the store is unsound; *done is 1, the number, and the other two are 0.
 *
 * Before each call that may put out, the room that it needs by itself (see Room) must be left behind what earlier calls of the same
 * batch put out; else the batch ends there with MERGE_NO_ROOM. The host takes the records out and goes on with the rest of its
 * list. With room for one call at least one is done; with n * MERGE_RECORDS(L, H) records and n * L reports, n calls never end for
 * want of room. MERGE_NO_ROOM with *done 0: the lists are too short.
 *
 * A call that is refused with any other number than 3 is answered, and the next is done, of the same connection too. If 5 or 6
 * refused a snapshot or a book event, or 18 a subscription, and a later call of that connection stands in the same list, the gap may be
 * hidden already: merge_reset, and subscribe all connections again. If none does, do as for a single call. */
uint64_t merge_batch(uint64_t *store, size_t words, uint64_t *out, size_t room, uint64_t *reports, size_t report_room,
                     uint64_t *answers, size_t answer_room, const uint64_t *calls, size_t call_words, uint64_t *done,
                     uint64_t *count, uint64_t *reported);

/* Queries. *count: the number of a refusal, else 0. */
uint64_t merge_in_line(const uint64_t *store, size_t words, uint64_t conn, uint64_t *count);
uint64_t merge_any_in_line(const uint64_t *store, size_t words, uint64_t *count);
uint64_t merge_servable(const uint64_t *store, size_t words, uint64_t *count);

/* The messages that a pending line holds, in order; none for any other connection. Answers 1 with their count. */
uint64_t merge_view(const uint64_t *store, size_t words, uint64_t conn, uint64_t *list, size_t room, uint64_t *count);

/* The key of a message's bytes, as the host lays them out; length in bytes. */
void merge_key(const uint8_t *bytes, size_t length, uint64_t *key0, uint64_t *key1);

#ifdef __cplusplus
}
#endif

#endif
