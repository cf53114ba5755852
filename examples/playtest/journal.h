/* The journal of trial plays. */
void note(unsigned what);
unsigned journal_sum(void);
unsigned long journal_notes(void);
