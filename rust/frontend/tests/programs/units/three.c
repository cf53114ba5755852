/* A routine of another unit, under another name. */
static void wait_here (void)
{
#pragma omp barrier
}
void wait_for_team (void)
{
  wait_here ();
}
void wait_all (void) __attribute__ ((alias ("wait_for_team")));
