/* Tells which locks of criticals can be dropped in a region, for teams of any size and of one
 * thread; and shows by a recorded run why one has to be kept. */
#include "bohrali.h"

#include <inttypes.h>
#include <stdio.h>

/* A field of two bytes. */
#define FIELD(number) (number) & 0xFF, (number) >> 8

#define NODE(kind, construct) BOHRALI_NODE_##kind, (construct), 0, 0
#define NONE BOHRALI_CONSTRUCT_NONE

enum { SCORE = 1, LOG = 2 };
static const char *const names[] = {"", "score", "log"};

#define SINGLE BOHRALI_CONSTRUCT_SINGLE, NONE, FIELD(0)
#define CRITICAL(parent, name) BOHRALI_CONSTRUCT_CRITICAL, (parent), FIELD(name)
#define CONSTRUCTS 7

/* Before the barrier 6 one thread scores, in a single, at node 3; behind it all do, at node 8. Then
 * node 10 parts into two ways, on each of which one thread logs, in a single, at node 13 or 19, and
 * all wait at a barrier of their own, 16 or 22. */
static const uint8_t chart[188] = {
    NODE(BARRIER, NONE),
    NODE(BEGIN, 0), NODE(BEGIN, 1), NODE(PLAIN, 1), NODE(END, 1), NODE(END, 0),
    NODE(BARRIER, NONE),
    NODE(BEGIN, 2), NODE(PLAIN, 2), NODE(END, 2),
    NODE(PLAIN, NONE),
    NODE(BEGIN, 3), NODE(BEGIN, 4), NODE(PLAIN, 4), NODE(END, 4), NODE(END, 3),
    NODE(BARRIER, NONE),
    NODE(BEGIN, 5), NODE(BEGIN, 6), NODE(PLAIN, 6), NODE(END, 6), NODE(END, 5),
    NODE(BARRIER, NONE),
    NODE(BARRIER, NONE),
    0, 1,  1, 2,  2, 3,  3, 4,  4, 5,  5, 6,  6, 7,  7, 8,  8, 9,  9, 10,  10, 11,  10, 17,
    11, 12,  12, 13,  13, 14,  14, 15,  15, 16,  16, 23,
    17, 18,  18, 19,  19, 20,  20, 21,  21, 22,  22, 23,
    SINGLE, CRITICAL(0, SCORE), CRITICAL(NONE, SCORE), SINGLE, CRITICAL(3, LOG),
    SINGLE, CRITICAL(5, LOG),
    FIELD(BOHRALI_TRAILER_EDITION), FIELD(24), FIELD(24), FIELD(CONSTRUCTS),
    FIELD(188), FIELD(92), FIELD(44), FIELD(BOHRALI_TRAILER_CLOSING),
};

/* The construct records stand before the trailer. */
#define CONSTRUCT(number)                                                                          \
    (chart + sizeof chart - BOHRALI_BYTES_TRAILER -                                                \
     BOHRALI_BYTES_CONSTRUCT * (CONSTRUCTS - (number)))

/* A run of two threads: both score at node 8 at the same time, and then go one way. */
static const uint8_t trace[] = {
    0, 1,  1, 1,
    0, 2,  1, 5,  1, 6,  0, 3,  0, 4,  0, 5,  0, 6,
    0, 7,  1, 7,
    0, 8,  1, 8,  0, 9,  1, 9,  0, 10,  1, 10,  0, 11,  1, 11,
    0, 12,  1, 15,  1, 16,  0, 13,  0, 14,  0, 15,  0, 16,
    0, 23,  1, 23,
};

static const char *const verdicts[] = {
    "keep the lock",
    "the lock can be dropped where all runs finish",
    "the lock can be dropped",
};

/* Prints a line for each critical, or the refusal. */
static int print_locks(int64_t written, const uint8_t *out)
{
    if (written < 0) {
        printf("refused %" PRId64 "\n", -written);
        return 1;
    }
    for (int critical = 0; critical < written; critical++) {
        if (out[critical] != BOHRALI_LOCK_NO_CRITICAL) {
            printf("critical %d, %s: %s\n", critical, names[CONSTRUCT(critical)[2]],
                   verdicts[out[critical]]);
        }
    }
    return 0;
}

int main(void)
{
    const size_t region = BOHRALI_REGION_OUTERMOST;
    uint8_t out[BOHRALI_MOST_CONSTRUCTS];
    printf("teams of any size\n");
    int refused =
        print_locks(bohrali_locks(chart, sizeof chart, region, out, sizeof out), out);
    printf("teams of one thread\n");
    refused |=
        print_locks(bohrali_locks_sized(chart, sizeof chart, region, 1, out, sizeof out), out);
    int64_t shown =
        bohrali_witnessed(chart, sizeof chart, region, 2, trace, sizeof trace, 8, 8);
    printf("the run %s two threads at node 8\n", shown == 1 ? "has" : "does not have");
    return refused;
}
