/* EXPECT c d meet
   EXPECT e f never */
void work (int);
void wait_all (void);
static void pass (void)
{
  work (0);
}
void region_two (void)
{
#pragma omp parallel
  {
    work (3);                   /*@c*/
    pass ();
    work (4);                   /*@d*/
#pragma omp barrier
    work (5);                   /*@e*/
    wait_all ();
    work (6);                   /*@f*/
  }
}
