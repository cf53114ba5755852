/* Two ways to two barriers: the team takes one of them, or it hangs. So the two criticals are apart in runs that finish, and not in every one. */
#include <omp.h>
#include <stdio.h>
#include <stdlib.h>

static unsigned sum;

int main(int count, char **words)
{
    int team = count > 1 ? atoi(words[1]) : 4;
    omp_set_dynamic(0);
    #pragma omp parallel num_threads(team)
    for (unsigned round = 0; round < 40; round++) {
        if (round % 3 == 0) {
            #pragma omp single nowait
            {
                #pragma omp critical(sum)
                sum = sum * 31 + round;
            }
            #pragma omp barrier
        } else {
            #pragma omp single nowait
            {
                #pragma omp critical(sum)
                sum = sum * 37 + round;
            }
            #pragma omp barrier
        }
    }
    printf("%08x\n", sum);
    return 0;
}
