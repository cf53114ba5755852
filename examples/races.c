/* Tells which accesses to variables race: a list of accesses in a region, all pairs in one call,
 * and in words each pair of one variable. */
#include "bohrali.h"

#include <inttypes.h>
#include <stdio.h>

/* A field of two bytes. */
#define FIELD(number) (number) & 0xFF, (number) >> 8

#define NODE(kind, construct) BOHRALI_NODE_##kind, (construct), 0, 0
#define NONE BOHRALI_CONSTRUCT_NONE

/* A critical, construct 0, around node 2; node 4 outside all; a single, construct 1, around node 6;
 * edges in a row. No barrier parts them. */
static const uint8_t chart[76] = {
    NODE(BARRIER, NONE),
    NODE(BEGIN, 0), NODE(PLAIN, 0), NODE(END, 0),
    NODE(PLAIN, NONE),
    NODE(BEGIN, 1), NODE(PLAIN, 1), NODE(END, 1),
    NODE(BARRIER, NONE),
    0, 1,  1, 2,  2, 3,  3, 4,  4, 5,  5, 6,  6, 7,  7, 8,
    BOHRALI_CONSTRUCT_CRITICAL, NONE, FIELD(1),
    BOHRALI_CONSTRUCT_SINGLE, NONE, FIELD(0),
    FIELD(BOHRALI_TRAILER_EDITION), FIELD(9), FIELD(8), FIELD(2),
    FIELD(76), FIELD(40), FIELD(24), FIELD(BOHRALI_TRAILER_CLOSING),
};

enum { TOTAL, LIMIT, SEED };
static const char *const variables[] = {"total", "limit", "seed"};

#define READ BOHRALI_ACCESS_READ
#define WRITE BOHRALI_ACCESS_WRITE
#define COUNT 5

static const uint8_t accesses[COUNT * BOHRALI_BYTES_ACCESS] = {
    2, WRITE, FIELD(TOTAL),
    4, READ, FIELD(TOTAL),
    2, READ, FIELD(LIMIT),
    6, WRITE, FIELD(LIMIT),
    6, WRITE, FIELD(SEED),
};

static const char *const races[] = {"no race", "synchronization race", "data race"};

static void print_access(const uint8_t *access)
{
    printf("%s at %d", access[1] == WRITE ? "write" : "read", access[0]);
}

int main(void)
{
    uint8_t out[COUNT * (COUNT + 1) / 2];
    int64_t written = bohrali_races(chart, sizeof chart, BOHRALI_REGION_OUTERMOST, accesses,
                                    sizeof accesses, out, sizeof out);
    if (written < 0) {
        printf("refused %" PRId64 "\n", -written);
        return 1;
    }
    const uint8_t *race = out;
    for (int i = 0; i < COUNT; i++) {
        const uint8_t *one = accesses + BOHRALI_BYTES_ACCESS * i;
        for (int j = i; j < COUNT; j++, race++) {
            const uint8_t *other = accesses + BOHRALI_BYTES_ACCESS * j;
            if (one[2] != other[2]) {
                continue; /* other variables, below 256 all, have no race */
            }
            printf("%s: ", variables[one[2]]);
            print_access(one);
            printf(", ");
            print_access(other);
            printf(": %s\n", races[*race]);
        }
    }
    return 0;
}
