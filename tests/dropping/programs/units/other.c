/* A unit that has nothing to do with the hands. */
#include "hands.h"

void count_rounds(void)
{
    rounds++;
}
