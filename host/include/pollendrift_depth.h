/* The price levels of a token for hosts in C and C++, over libdepth_exports.a (`bash support/made archive depth_exports`; x86-64).
 *
 * A side is an array of 512 prices, an array of 512 sizes and a count, all the host's own. The level farthest out lies first and the
 * best last, at place count - 1: bids rise, asks fall. Places from the count on are free. A side of count 0 is empty, whatever its
 * arrays hold. Prices are in millionths of a dollar, 1 to 999,999; sizes are positive and finite.
 *
 * The depth_ calls take any numbers: a depth that is not sound is refused with 1 and stays as it was. Sound is a depth of which each side
 * is strictly in price order, has at most 512 levels, and has no level of size zero or that 12 or 13 forbids. The owned_depth_ calls do
 * not test that. A host may use them on a side that began empty and that nobody but these calls has written since; otherwise their
 * behaviour is undefined. They leave a side that they may be used on again.
 *
 * A depth_ call answers DEPTH_DONE, or DEPTH_REFUSED with the refusal's number in *count (of depth_trim in *bid_count). A refusal changes
 * no array, price or size, and not *ask_count. The host keeps the counts of its sides by what it is told.
 *
 * Pointers  The arrays and pointers of one call may not overlap, and none is NULL. No call keeps a pointer.
 * Threads   The library keeps nothing between calls. One depth is for one call at a time, or for several that only read it.
 */
#ifndef POLLENDRIFT_DEPTH_H
#define POLLENDRIFT_DEPTH_H

#include <stddef.h>
#include <stdint.h>

#ifdef __cplusplus
extern "C" {
#else
#include <stdbool.h>
#endif

/* The most levels of a side, and the length of its arrays. */
#define DEPTH_LEVELS 512

enum { DEPTH_REFUSED = 0, DEPTH_DONE = 1 };

/* The numbers of refusals, and what a host does. */
enum {
    /* The depth is not sound: somebody else wrote it. Empty it, and take the venue's next full book. */
    DEPTH_UNSOUND = 1,
    /* The price is outside 1 to 999,999. A fault of the host or the venue; nothing is lost but this level. */
    DEPTH_PRICE = 12,
    /* The size is negative or not finite. As for 12. */
    DEPTH_SIZE = 13,
    /* A new level on a side of 512. Trim, or remove the level farthest out, and set it again; or go on without it, and take the depth
     * for not exact until the next full book. */
    DEPTH_FULL = 14
};

/* Sets the size of the level at a price. Size zero, of either sign, removes the level, or does nothing where there is none. Done: *count
 * is the new count of the side that was set. */
uint64_t depth_set(uint32_t *bid_prices, double *bid_sizes, size_t bids, uint32_t *ask_prices, double *ask_sizes, size_t asks,
                   bool bid, uint32_t price, double size, uint64_t *count);

/* Drops every level better than the best that the venue reports for its side, or the whole side where it reports none. A best may be any
 * number; the level at it stays. Done: the counts are those of the sides now; no array changes. */
uint64_t depth_trim(const uint32_t *bid_prices, const double *bid_sizes, size_t bids, const uint32_t *ask_prices,
                    const double *ask_sizes, size_t asks, bool bid_reported, uint32_t best_bid, bool ask_reported, uint32_t best_ask,
                    uint64_t *bid_count, uint64_t *ask_count);

/* Whether the depth is sound. Done: the levels of each side are those in its arrays, and *count is 0. */
uint64_t depth_check(const uint32_t *bid_prices, const double *bid_sizes, size_t bids, const uint32_t *ask_prices,
                     const double *ask_sizes, size_t asks, uint64_t *count);

/* The best level of a side. Done: *count is 1, and *price and *size are the level's; or it is 0, the side is empty, and they stay. */
uint64_t depth_best(const uint32_t *bid_prices, const double *bid_sizes, size_t bids, const uint32_t *ask_prices,
                    const double *ask_sizes, size_t asks, bool bid, uint32_t *price, double *size, uint64_t *count);

/* The size of the bids at a price or above it, and of the asks at a price or below it, added in rising order of price; that of no level
 * is plus zero. Done: *size is the sum, and *count is 0. A sum may be infinite. */
uint64_t depth_bid_from(const uint32_t *bid_prices, const double *bid_sizes, size_t bids, const uint32_t *ask_prices,
                        const double *ask_sizes, size_t asks, uint32_t floor, double *size, uint64_t *count);
uint64_t depth_ask_to(const uint32_t *bid_prices, const double *bid_sizes, size_t bids, const uint32_t *ask_prices,
                      const double *ask_sizes, size_t asks, uint32_t ceiling, double *size, uint64_t *count);

/* The same on one side, which is not tested; the best level is at place count - 1. */

/* As depth_set; *left is the new count, or the refusal's number: 12, 13 or 14. */
uint64_t owned_depth_set(uint32_t *prices, double *sizes, size_t count, bool bid, uint32_t price, double size, uint64_t *left);

/* The new count. */
size_t owned_depth_trim(const uint32_t *prices, size_t count, bool bid, bool reported, uint32_t best);

double owned_depth_bid_from(const uint32_t *prices, const double *sizes, size_t count, uint32_t floor);
double owned_depth_ask_to(const uint32_t *prices, const double *sizes, size_t count, uint32_t ceiling);

#ifdef __cplusplus
}
#endif

#endif
