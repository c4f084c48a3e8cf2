/* JSON messages to canonical bytes and keys, for hosts in C and C++, over libjson_exports.a (`bash support/made archive json_exports`; x86-64).
 *
 * A message is one JSON text (RFC 8259) of up to 32,768 bytes. Its canonical bytes are those that the original's `canonical` writes: two
 * messages have the same bytes exactly when they hold the same content. The order of an object's keys, white space and escapes do not
 * count, and of a repeated key the last item does. Null is byte 0, a bool 1 and its byte, a number 2, its text and FF, a string 3, its text
 * and FF, an array 4, its length in eight bytes, the lowest first, and its items, an object 5, its length and for each key in byte
 * order its text, FF and the item. Its key is the key of these bytes (merge_key of pollendrift.h).
 *
 * A call answers JSON_DONE, or JSON_REFUSED with the refusal's number behind its first pointer to a number. A refusal changes no byte of the
 * output.
 *
 * Pointers  What one call is handed may not overlap, and none is NULL but that of an empty message. No call keeps a pointer.
 * Stack     json_key takes up to 70 kB of it for a message of up to 4,096 bytes, 400 kB for a longer one. Whatever the length, json_long_key
 *           takes up to 460 kB, json_canonical 240 kB, json_refusal 34 kB.
 * Threads   The library keeps nothing between calls.
 */
#ifndef POLLENDRIFT_JSON_H
#define POLLENDRIFT_JSON_H

#include <stddef.h>
#include <stdint.h>

#ifdef __cplusplus
extern "C" {
#endif

/* The longest message, and the least output of json_canonical: five bytes for each of the longest message. */
#define JSON_LONGEST 32768
#define JSON_OUTPUT 163840

enum { JSON_REFUSED = 0, JSON_DONE = 1 };

/* The numbers of refusals. Each but the first is a fault of the venue or of the connection: the message cannot be keyed. */
enum {
    /* The output is under JSON_OUTPUT bytes, whatever the message is. */
    JSON_ROOM = 3,
    /* The message is longer than JSON_LONGEST bytes or is not one JSON text. Bad UTF-8 and a lone surrogate are no JSON text. */
    JSON_TEXT = 15,
    /* A number is not whole, has a fraction or an exponent, is outside -2^63 to 2^64 - 1, or is minus zero. */
    JSON_NUMBER = 16,
    /* Arrays and objects are nested deeper than 16. Of 16 and 17, the first by position in the message. */
    JSON_DEPTH = 17
};

/* 0 for a message that is accepted, else JSON_TEXT, JSON_NUMBER or JSON_DEPTH. */
uint64_t json_refusal(const uint8_t *text, size_t length);

/* The canonical bytes of a message, at the front of out; *count is how many they are. What lies behind them stays. */
uint64_t json_canonical(const uint8_t *text, size_t length, uint8_t *out, size_t room, uint64_t *count);

/* The key of a message. Refused: the number is in *key0, and *key1 is 0. */
uint64_t json_key(const uint8_t *text, size_t length, uint64_t *key0, uint64_t *key1);

/* The same for a message of any length, in room for the longest. json_key calls it for a message of more than 4,096 bytes. */
uint64_t json_long_key(const uint8_t *text, size_t length, uint64_t *key0, uint64_t *key1);

#ifdef __cplusplus
}
#endif

#endif
