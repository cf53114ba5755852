/* What the two units of a program share. */
extern unsigned hands, rounds;
void play_hand(unsigned hand);
#define STEP(hand) (hands * 31 + (hand))
