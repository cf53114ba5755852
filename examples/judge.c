/* Admits a chart, prints a region's sheet and judges a list of claims about the region.
 *
 *     judge CHART [@REGION] [=SIZE] [A B]...
 *
 * CHART is a file, REGION the number of a parallel; without it the outermost region is meant. SIZE
 * is the number of threads of the region's team; without it teams of any size are meant. Each
 * claim A B says that two threads of the region's team are never at nodes A and B together, in a
 * run that finishes. Ends with 0 when all claims hold, 1 when one does not, 2 when something was
 * refused. */
#include "bohrali.h"

#include <inttypes.h>
#include <stdio.h>
#include <stdlib.h>

/* One byte more than the longest chart, so that a longer file is seen to be one. */
static uint8_t chart[BOHRALI_MOST_CHART_BYTES + 1];
static uint8_t sheet[BOHRALI_MOST_NODES * BOHRALI_MOST_NODES];

/* What the claims are about. */
struct asked {
    size_t chart_len;
    size_t region;
    int sized;
    size_t size;
};

static int refused(int64_t number)
{
    printf("refused %" PRId64 "\n", -number);
    return 2;
}

static int64_t write_sheet(const struct asked *asked)
{
    return asked->sized ? bohrali_sheet_sized(chart, asked->chart_len, asked->region, asked->size,
                                              sheet, sizeof sheet)
                        : bohrali_sheet(chart, asked->chart_len, asked->region, sheet,
                                        sizeof sheet);
}

/* Prints the rows of the region's nodes that are no barriers. */
static void print_sheet(int64_t nodes)
{
    for (int64_t a = 0; a < nodes; a++) {
        const uint8_t *row = sheet + a * nodes;
        if (row[a] == BOHRALI_ANSWER_AT_BARRIER) {
            continue;
        }
        printf("node %3" PRId64 ":", a);
        for (int64_t b = 0; b < nodes; b++) {
            if (row[b] == BOHRALI_ANSWER_AT_BARRIER) {
                printf(" -");
            } else {
                printf(" %d", row[b]);
            }
        }
        printf("\n");
    }
}

/* The claims of the command line as bytes; a number that fits no byte names no node, nor does 255. */
static size_t read_claims(int count, char **words, uint8_t *claims)
{
    for (int i = 0; i < count; i++) {
        unsigned long number = strtoul(words[i], NULL, 10);
        claims[i] = number < 255 ? (uint8_t)number : 255;
    }
    return (size_t)count;
}

static int judge(const struct asked *asked, const uint8_t *claims, size_t claims_len)
{
    int64_t verdict = asked->sized
        ? bohrali_judge_sized(chart, asked->chart_len, asked->region, asked->size, claims,
                              claims_len)
        : bohrali_judge(chart, asked->chart_len, asked->region, claims, claims_len);
    if (verdict < 0) {
        return refused(verdict);
    }
    if (verdict == 0) {
        printf("all claims hold\n");
        return 0;
    }
    const uint8_t *claim = claims + 2 * (verdict - 1);
    printf("claim %" PRId64 " fails: threads can be at %d and %d together\n",
           verdict - 1, claim[0], claim[1]);
    return 1;
}

int main(int argc, char **argv)
{
    static uint8_t claims[4096];
    if (argc < 2 || (size_t)argc - 2 > sizeof claims) {
        fprintf(stderr, "usage: judge CHART [@REGION] [=SIZE] [A B]...\n");
        return 2;
    }
    FILE *file = fopen(argv[1], "rb");
    if (file == NULL) {
        perror(argv[1]);
        return 2;
    }
    struct asked asked = {0, BOHRALI_REGION_OUTERMOST, 0, 0};
    asked.chart_len = fread(chart, 1, sizeof chart, file);
    fclose(file);

    int64_t counts = bohrali_admit(chart, asked.chart_len);
    if (counts < 0) {
        return refused(counts);
    }
    int64_t nodes = counts % 256;
    printf("%" PRId64 " nodes, %" PRId64 " barriers, %" PRId64 " phases\n",
           nodes, counts / 256 % 256, counts / 65536);
    int first = 2;
    if (first < argc && argv[first][0] == '@') {
        asked.region = strtoul(argv[first++] + 1, NULL, 10);
    }
    if (first < argc && argv[first][0] == '=') {
        asked.sized = 1;
        asked.size = strtoul(argv[first++] + 1, NULL, 10);
    }
    int64_t written = write_sheet(&asked);
    if (written < 0) {
        return refused(written);
    }
    print_sheet(nodes);
    return judge(&asked, claims, read_claims(argc - first, argv + first, claims));
}
