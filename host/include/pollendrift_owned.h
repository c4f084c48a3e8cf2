/* The calls of libowned.a, for a host that keeps its store to itself. They do what the merge_ calls of pollendrift.h do, but do not
 * test the store.
 *
 * The host promises at every call: merge_setup made the store and answered MERGE_DONE; nobody but owned_ and merge_ calls has
 * written its words since; and `words` is the length that setup was given. Otherwise the behaviour is undefined. The calls leave a
 * store that they may be used on again.
 *
 * All else is as in pollendrift.h: codes, counts, refusals (but 1), lengths, room, NULL, overlap and threads.
 *
 * merge_setup, merge_view and merge_key are in libexports.a alone, so a program links both archives, in either order (x86-64):
 *
 *     bash support/made archive owned exports
 *     cc -I host/include PROGRAM.c target/staticlib/libowned.a target/staticlib/libexports.a
 */
#ifndef POLLENDRIFT_OWNED_H
#define POLLENDRIFT_OWNED_H

#include "pollendrift.h"

#ifndef __cplusplus
#include <stdbool.h>
#endif

#ifdef __cplusplus
extern "C" {
#endif

/* `limit`, 1 to H: the line's own, as in merge_subscribe. */
uint64_t owned_subscribe(uint64_t *store, size_t words, uint64_t conn, uint64_t limit, uint64_t time, uint64_t *count);

uint64_t owned_snapshot(uint64_t *store, size_t words, uint64_t *out, size_t room, uint64_t conn, uint64_t token,
                        uint64_t message, uint64_t time, uint64_t *count);

uint64_t owned_book_event(uint64_t *store, size_t words, uint64_t *out, size_t room, uint64_t conn, uint64_t key0,
                          uint64_t key1, uint64_t message, uint64_t time, uint64_t *count);

uint64_t owned_print(uint64_t *store, size_t words, uint64_t *out, size_t room, uint64_t conn, uint64_t key0, uint64_t key1,
                     uint64_t message, uint64_t time, uint64_t *count);

uint64_t owned_drop(uint64_t *store, size_t words, uint64_t *out, size_t room, uint64_t conn, uint64_t time,
                    uint64_t *count);

uint64_t owned_promote(uint64_t *store, size_t words, uint64_t *out, size_t room, uint64_t time, uint64_t *count);

uint64_t owned_reset(uint64_t *store, size_t words, uint64_t time, uint64_t *count);

uint64_t owned_tick(uint64_t *store, size_t words, uint64_t *out, size_t room, uint64_t *reports, size_t report_room,
                    const uint64_t *answers, size_t answered, uint64_t time, uint64_t *count, uint64_t *reported);

/* As merge_batch; it is never refused. */
uint64_t owned_batch(uint64_t *store, size_t words, uint64_t *out, size_t room, uint64_t *reports, size_t report_room,
                     uint64_t *answers, size_t answer_room, const uint64_t *calls, size_t call_words, uint64_t *done,
                     uint64_t *count, uint64_t *reported);

/* Queries answer bool itself (C99's or C++'s), no code. */
bool owned_in_line(const uint64_t *store, size_t words, uint64_t conn);
bool owned_any_in_line(const uint64_t *store, size_t words);
bool owned_servable(const uint64_t *store, size_t words);

#ifdef __cplusplus
}
#endif

#endif
