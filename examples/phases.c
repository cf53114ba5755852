/* Admits chart K and prints the starts and ends of its nodes, the answer for two of them, and the
 * verdict on the claim that two threads are never at these two together, in a run that finishes. */
#include "bohrali.h"

#include <inttypes.h>
#include <stdio.h>

/* Records of nodes outside all constructs, with tag 0. */
#define BARRIER BOHRALI_NODE_BARRIER, BOHRALI_CONSTRUCT_NONE, 0, 0
#define PLAIN BOHRALI_NODE_PLAIN, BOHRALI_CONSTRUCT_NONE, 0, 0

/* A field of two bytes. */
#define FIELD(number) (number) & 0xFF, (number) >> 8

/* Nodes 0 to 4, barriers 0, 2 and 4; edges 0-1, 1-2, 2-3, 3-1, 3-4; no constructs. */
static const uint8_t chart_k[46] = {
    BARRIER, PLAIN, BARRIER, PLAIN, BARRIER,
    0, 1,  1, 2,  2, 3,  3, 1,  3, 4,
    FIELD(BOHRALI_TRAILER_EDITION), FIELD(5), FIELD(5), FIELD(0),
    FIELD(46), FIELD(26), FIELD(16), FIELD(BOHRALI_TRAILER_CLOSING),
};

static const uint8_t claims[2] = {1, 3};

static uint64_t mask_at(const uint8_t *bytes)
{
    uint64_t mask = 0;
    for (int k = 7; k >= 0; k--) {
        mask = mask << 8 | bytes[k];
    }
    return mask;
}

int main(void)
{
    uint8_t out[BOHRALI_BYTES_PHASES * BOHRALI_MOST_NODES];
    int64_t counts = bohrali_admit(chart_k, sizeof chart_k);
    int64_t written =
        bohrali_phases(chart_k, sizeof chart_k, BOHRALI_REGION_OUTERMOST, out, sizeof out);
    if (counts < 0 || written < 0) {
        printf("refused %" PRId64 "\n", counts < 0 ? -counts : -written);
        return 1;
    }
    printf("%" PRId64 " nodes %" PRId64 " barriers %" PRId64 " phases\n",
           counts % 256, counts / 256 % 256, counts / 65536);
    for (int64_t node = 0; node < written / BOHRALI_BYTES_PHASES; node++) {
        const uint8_t *record = out + BOHRALI_BYTES_PHASES * node;
        printf("node %" PRId64 " starts %" PRIu64 " ends %" PRIu64 "\n",
               node, mask_at(record), mask_at(record + 8));
    }
    printf("pair 1 3 %" PRId64 "\n",
           bohrali_pair(chart_k, sizeof chart_k, BOHRALI_REGION_OUTERMOST, 1, 3));
    printf("judge %" PRId64 "\n",
           bohrali_judge(chart_k, sizeof chart_k, BOHRALI_REGION_OUTERMOST, claims, sizeof claims));
    return 0;
}
