/* Criticals of regions inside regions: one lock for all teams.
   EXPECT a a never
   EXPECT b b meet
   EXPECT c c meet
   EXPECT d d never
   EXPECT d e never
   EXPECT e e never */
void work (int);
void region (int n)
{
#pragma omp parallel
  {
#pragma omp single
    {
#pragma omp parallel
      {
#pragma omp single
        {
#pragma omp critical (alone)
          work (1); /*@a*/
        }
      }
    }
#pragma omp parallel
    {
#pragma omp single
      {
#pragma omp critical (teams)
        work (2); /*@b*/
      }
    }
#pragma omp barrier
#pragma omp single
    {
#pragma omp parallel for
      for (int i = 0; i < n; i++)
        {
#pragma omp critical (turns)
          work (3); /*@c*/
        }
    }
#pragma omp single
    {
#pragma omp critical (apart)
      work (4); /*@d*/
    }
#pragma omp single
    {
#pragma omp parallel
#pragma omp master
      {
#pragma omp critical (apart)
        work (5); /*@e*/
      }
    }
  }
}
