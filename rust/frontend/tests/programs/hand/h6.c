/* Regions that several teams run at a time.
   EXPECT a a meet
   EXPECT a b meet
   EXPECT b b meet
   EXPECT c c none
   EXPECT d d never
   EXPECT e e meet
   EXPECT f f never
   EXPECT g g none
   EXPECT h h never */
void work (int);
int n;
static void solve (void)        /* each thread of region opens a team here */
{
#pragma omp parallel
  {
#pragma omp single
    work (1);                   /*@a*/
  }
}
void region (void)
{
#pragma omp parallel
  {
    solve ();                   /*@b*/
  }
}
void league (void)
{
#pragma omp teams
#pragma omp parallel
  {
#pragma omp single
    work (2);                   /*@c*/
  }
}
void alone (void)
{
#pragma omp parallel
  {
#pragma omp single
    work (3);                   /*@d*/
  }
}
static void deeper (int k)      /* it calls itself inside its own region */
{
#pragma omp parallel
  {
#pragma omp single
    work (4);                   /*@e*/
    if (k > 0)
      deeper (k - 1);
  }
}
static void turn (int k)        /* it calls itself outside all regions */
{
  if (k > 0)
    turn (k - 1);
#pragma omp parallel
  {
#pragma omp single
    work (5);                   /*@f*/
  }
}
void offload (void)
{
#pragma omp target
#pragma omp parallel
  {
#pragma omp single
    work (6);                   /*@g*/
  }
}
void cancelled (void)
{
#pragma omp parallel
  {
#pragma omp single nowait
    work (7);                   /*@h*/
#pragma omp cancel parallel if (n)
  }
}
void start (void)
{
  deeper (3);
  turn (3);
}
