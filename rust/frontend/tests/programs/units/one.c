/* Two units with a static routine of one name: here it has a barrier.
   EXPECT a b never */
void work (int);
static void pass (void)
{
#pragma omp barrier
}
void region_one (void)
{
#pragma omp parallel
  {
    work (1);                   /*@a*/
    pass ();
    work (2);                   /*@b*/
  }
}
