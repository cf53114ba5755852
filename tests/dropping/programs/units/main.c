#include "hands.h"
#include <stdio.h>

unsigned hands, rounds;

int main(void)
{
    #pragma omp parallel num_threads(4)
    for (unsigned round = 0; round < 20; round++) {
        #pragma omp single
        play_hand(round);
#ifdef MORE
        play_hand(1000 + round);
#endif
    }
    printf("%08x %u\n", hands, rounds);
    return 0;
}
