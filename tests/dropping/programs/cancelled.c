/* Loops and sections that are cancelled, with criticals in and behind them. */
#include <omp.h>
#include <stdio.h>
#include <stdlib.h>

static unsigned found, kept, tried;

int main(int count, char **words)
{
    int team = count > 1 ? atoi(words[1]) : 4;
    omp_set_dynamic(0);
    for (unsigned round = 0; round < 30; round++) {
        #pragma omp parallel num_threads(team)
        {
            #pragma omp for
            for (unsigned try = 0; try < 64; try++) {
                if (try % 8 == round % 8) {
                    #pragma omp critical(tried)
                    tried |= 1u << round;
                    #pragma omp cancel for
                }
                #pragma omp cancellation point for
            }
            #pragma omp master
            {
                #pragma omp critical(found)
                found = found * 31 + round;
            }
            #pragma omp barrier
            #pragma omp single
            {
                #pragma omp critical(kept)
                kept = kept * 31 + found;
            }
        }
    }
    printf("%08x %08x %08x\n", found, kept, tried);
    return 0;
}
