#include "hands.h"

void play_hand(unsigned hand)
{
    #pragma omp critical(hands)
    hands = STEP(hand);
}
