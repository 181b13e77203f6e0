/* What the test programs share: a check that ends the program, two hubs compared, a file read. */
#ifndef COPPERYARN_TEST_H
#define COPPERYARN_TEST_H

#include "copperyarn.h"
#include "copperyarn_bytes.h"

#include <inttypes.h>
#include <stdio.h>
#include <stdlib.h>
#include <string.h>

#define CHECK(fact)                                                           \
    do {                                                                      \
        if (!(fact)) {                                                        \
            fprintf(stderr, "%s:%d: not so: %s\n", __FILE__, __LINE__, #fact); \
            exit(1);                                                          \
        }                                                                     \
    } while (0)

/* Whether two hubs are equal in every byte but those between the fields, which hold nothing. */
static inline bool same_hub(const copperyarn_hub *a, const copperyarn_hub *b) {
    static const struct {
        size_t from, to;
    } spans[] = {
        {0, offsetof(copperyarn_head, updates) + 1},
        {offsetof(copperyarn_head, counter), offsetof(copperyarn_head, waiting) + 1},
        {sizeof(copperyarn_head), offsetof(copperyarn_hub, values) + sizeof a->values},
        {offsetof(copperyarn_hub, times), offsetof(copperyarn_hub, queuebytes) + sizeof a->queuebytes},
        {offsetof(copperyarn_hub, queuecodes), offsetof(copperyarn_hub, queuecodes) + sizeof a->queuecodes},
    };
    for (size_t i = 0; i < sizeof spans / sizeof *spans; i++)
        if (memcmp((const char *)a + spans[i].from, (const char *)b + spans[i].from, spans[i].to - spans[i].from) != 0) return false;
    return true;
}

#endif
