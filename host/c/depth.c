/* A token's depth in C: a book, two changes with the bests that the venue reports, and both sides printed; then what is refused.
 *
 *     cc -I host/include host/c/depth.c target/staticlib/libdepth_exports.a -o depth
 */
#include "pollendrift_depth.h"

#include <inttypes.h>
#include <stdio.h>

typedef struct {
    uint32_t prices[DEPTH_LEVELS];
    double sizes[DEPTH_LEVELS];
    size_t count;
} side;

static side bids, asks;

static void set(bool bid, uint32_t price, double size) {
    uint64_t count;
    if (depth_set(bids.prices, bids.sizes, bids.count, asks.prices, asks.sizes, asks.count, bid, price, size, &count) == DEPTH_DONE)
        (bid ? &bids : &asks)->count = count;
    else
        printf("set %s %" PRIu32 ": refused %" PRIu64 "\n", bid ? "bid" : "ask", price, count);
}

/* The bests that are reported with a change; 0 for none. */
static void trim(uint32_t best_bid, uint32_t best_ask) {
    uint64_t b, a;
    if (depth_trim(bids.prices, bids.sizes, bids.count, asks.prices, asks.sizes, asks.count, best_bid != 0, best_bid, best_ask != 0,
                   best_ask, &b, &a) == DEPTH_DONE) {
        bids.count = b;
        asks.count = a;
    } else
        printf("trim: refused %" PRIu64 "\n", b);
}

/* From the best outward. */
static void print(const char *name, const side *s) {
    for (size_t i = s->count; i > 0; i--)
        printf("%s 0.%06" PRIu32 " %.2f\n", name, s->prices[i - 1], s->sizes[i - 1]);
}

int main(void) {
    double sum;
    uint64_t count;
    set(true, 450000, 100);
    set(true, 440000, 250.5);
    set(true, 455000, 30);
    set(false, 470000, 80);
    set(false, 465000, 20);
    set(false, 500000, 1000);
    print("ask", &asks);
    print("bid", &bids);
    puts("the asks at 0.465 are gone, the bid at 0.44 is smaller, and the best are 0.45 and 0.47");
    set(false, 465000, 0);
    set(true, 440000, 200);
    trim(450000, 470000);
    print("ask", &asks);
    print("bid", &bids);
    if (depth_bid_from(bids.prices, bids.sizes, bids.count, asks.prices, asks.sizes, asks.count, 440000, &sum, &count) == DEPTH_DONE)
        printf("bids from 0.44: %.2f\n", sum);
    set(true, 1000000, 1);
    set(true, 450000, -1);
    trim(0, 470000);
    printf("%zu bids\n", bids.count);
    asks.prices[0] = asks.prices[1];
    trim(450000, 470000);
    return 0;
}
