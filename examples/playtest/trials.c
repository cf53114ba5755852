/* Trial plays by the thousand, each told by its seed: trials FIRST LAST TEAM plays them with a team of that many threads and prints what
 * came of them, which depends on the seeds alone. The processor time of it goes to standard error.
 *
 * The journal is written by a routine of another unit that any thread may call. Here it is one thread at a time that does, and never two
 * together, so that its lock can go: 'make drop' finds that out and builds it so. */
#include "journal.h"

#include <omp.h>
#include <stdio.h>
#include <stdlib.h>
#include <time.h>

enum { CARDS = 52, SEATS = 6 };

static unsigned deck[CARDS];
static unsigned long points[SEATS];

static unsigned mixed(unsigned x)
{
    x = (x ^ x >> 16) * 0x45d9f3bu;
    return x ^ x >> 16;
}

static void shuffle(unsigned seed)
{
    for (unsigned i = 0; i < CARDS; i++)
        deck[i] = i;
    for (unsigned i = CARDS - 1; i > 0; i--) {
        unsigned j = mixed(seed * CARDS + i) % (i + 1), card = deck[i];
        deck[i] = deck[j];
        deck[j] = card;
    }
}

/* All threads of the team call it. */
static void play(unsigned seed)
{
    #pragma omp single
    {
        shuffle(seed);
        note(seed);
    }
    #pragma omp for
    for (unsigned table = 0; table < CARDS / 2; table++) {
        unsigned a = deck[2 * table] % 13, b = deck[2 * table + 1] % 13;
        #pragma omp critical(points)
        points[(a > b ? table : table + 1) % SEATS] += a > b ? a - b : b - a;
    }
    #pragma omp masked
    for (unsigned hand = 0; hand < CARDS; hand++)
        note(deck[hand]);
    #pragma omp barrier
}

int main(int count, char **words)
{
    if (count != 4) {
        fprintf(stderr, "trials FIRST LAST TEAM\n");
        return 2;
    }
    unsigned first = strtoul(words[1], NULL, 10), last = strtoul(words[2], NULL, 10);
    int team = atoi(words[3]);
    omp_set_dynamic(0);
    clock_t start = clock();
    #pragma omp parallel num_threads(team)
    for (unsigned seed = first; seed < last; seed++)
        play(seed);
    fprintf(stderr, "%f\n", (double)(clock() - start) / CLOCKS_PER_SEC);
    printf("journal %08x after %lu notes, points", journal_sum(), journal_notes());
    for (int seat = 0; seat < SEATS; seat++)
        printf(" %lu", points[seat]);
    printf("\n");
    return 0;
}
