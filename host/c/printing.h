/* An answer and its records as lines of text. */
#ifndef PRINTING_H
#define PRINTING_H

#include "pollendrift.h"

#include <inttypes.h>
#include <stdio.h>

static const char *const ANSWERS[] = {"refused",  "done",   "apply", "duplicate", "held",   "ignored",
                                      "diverged", "failed", "kept",  "gone",      "rebuild"};

static inline void print_record(const merge_record *r) {
    printf("put %" PRIu64 " %c %" PRIu64 " %" PRIu64 " %" PRIu64 " %" PRIu64 " %" PRIu64 "\n", r->conn, "sbp"[r->kind], r->number,
           r->key[0], r->key[1], r->message, r->times);
}

/* The answer's word, or the number of a refusal: whether it is none. */
static inline int print_code(uint64_t code, uint64_t count) {
    if (code == MERGE_REFUSED)
        printf("refused %" PRIu64 "\n", count);
    else
        puts(ANSWERS[code]);
    return code != MERGE_REFUSED;
}

/* An answer of a call that is no tick, and its records. */
static inline void print_answer(uint64_t code, uint64_t count, const merge_record *records) {
    if (!print_code(code, count))
        return;
    for (uint64_t i = 0; i < count; i++)
        print_record(&records[i]);
}

#endif
