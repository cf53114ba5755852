/* A critical for each rule by which its lock can go, one through a routine, and one that is needed. Every sum depends on the order of its
 * steps but the last one, so that a lock that should not have gone shows. */
#include <omp.h>
#include <stdio.h>
#include <stdlib.h>

enum { ROUNDS = 60, STEPS = 40 };

static unsigned phased, masked, single, ordered, sections[2], unnamed, journal, needed;

static void step(unsigned *sum, unsigned by)
{
    *sum = *sum * 31 + by;
}

/* Safe to be called by any thread; here one thread does. */
void log_hand(unsigned hand)
{
    #pragma omp critical(journal)
    step(&journal, hand);
}

static void play(unsigned round)
{
    #pragma omp critical(needed)
    needed += round;
    #pragma omp single nowait
    {
        #pragma omp critical(phased)
        step(&phased, round);
    }
    #pragma omp barrier
    #pragma omp single nowait
    {
        #pragma omp critical(phased)
        step(&phased, round + 1);
        #pragma omp critical
        step(&unnamed, round);
    }
    #pragma omp master
    for (unsigned hand = 0; hand < STEPS; hand++) {
        #pragma omp critical(masked)
        step(&masked, hand);
        log_hand(hand);
    }
    #pragma omp barrier
    #pragma omp for ordered schedule(dynamic)
    for (unsigned table = 0; table < STEPS; table++) {
        #pragma omp ordered
        {
            #pragma omp critical(ordered)
            step(&ordered, table);
        }
    }
    #pragma omp single
    {
        #pragma omp critical(single)
        step(&single, round);
    }
    #pragma omp sections
    {
        #pragma omp section
        {
            #pragma omp critical(section)
            step(&sections[0], round);
        }
        #pragma omp section
        step(&sections[1], round);
    }
}

int main(int count, char **words)
{
    int team = count > 1 ? atoi(words[1]) : 4;
    omp_set_dynamic(0);
    #pragma omp parallel num_threads(team)
    for (unsigned round = 0; round < ROUNDS; round++)
        play(round);
    printf("%08x %08x %08x %08x %08x %08x %08x %08x %08x\n", phased, masked, single, ordered, sections[0], sections[1], unnamed,
           journal, needed);
    return 0;
}
