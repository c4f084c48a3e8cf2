/* Keys of JSON messages in C: one message a line from standard input, or those below where --sample is named; its key, or why it has none.
 *
 *     cc -I host/include host/c/json.c target/staticlib/libjson_exports.a -o json
 */
#include "pollendrift_json.h"

#include <inttypes.h>
#include <stdio.h>
#include <string.h>

static const char *const samples[] = {
    "{\"event_type\":\"price_change\",\"price\":\"0.52\",\"side\":\"BUY\"}",
    "{ \"side\": \"\\u0042UY\", \"price\": \"0.52\", \"event_type\": \"price_change\" }",
    "{\"price\":\"0.51\",\"price\":\"0.52\",\"side\":\"BUY\",\"event_type\":\"price_change\"}",
    "[18446744073709551615,-9223372036854775808,null,true,false,\"\"]",
    "{\"price\": 0.52}",
    "[-0]",
    "[[[[[[[[[[[[[[[[[]]]]]]]]]]]]]]]]]",
    "{\"price\": \"0.52\"",
};

static void print(const char *message, size_t length) {
    uint64_t key0, key1;
    if (json_key((const uint8_t *)message, length, &key0, &key1) == JSON_DONE)
        printf("%016" PRIx64 "%016" PRIx64 "\n", key0, key1);
    else
        printf("refused %" PRIu64 "\n", key0);
}

/* The canonical bytes of a message, in hexadecimal. */
static void print_bytes(const char *message) {
    static uint8_t out[JSON_OUTPUT];
    uint64_t count;
    if (json_canonical((const uint8_t *)message, strlen(message), out, sizeof out, &count) != JSON_DONE) {
        printf("refused %" PRIu64 "\n", count);
        return;
    }
    for (uint64_t i = 0; i < count; i++)
        printf("%02x%s", (unsigned)out[i], i + 1 < count ? " " : "\n");
}

int main(int argc, char **argv) {
    static char line[JSON_LONGEST + 2];
    if (argc > 1 && strcmp(argv[1], "--sample") == 0) {
        for (size_t i = 0; i < sizeof samples / sizeof samples[0]; i++)
            print(samples[i], strlen(samples[i]));
        print_bytes("{\"b\":[1,\"x\"],\"a\":null}");
        return 0;
    }
    while (fgets(line, sizeof line, stdin))
        print(line, strcspn(line, "\n"));
    return 0;
}
