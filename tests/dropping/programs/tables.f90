! Criticals of Fortran: in a single, a master, an ordered, and one that is needed.
program tables
  use omp_lib
  implicit none
  integer :: k, round, team, sums(3), needed
  character(len=8) :: word
  team = 4
  if (command_argument_count() > 0) then
     call get_command_argument(1, word)
     read (word, *) team
  end if
  call omp_set_dynamic(.false.)
  sums = 0
  needed = 0
  !$omp parallel num_threads(team) private(k, round)
  do round = 1, 40
     !$omp single
     !$omp critical (deal)
     sums(1) = mod(sums(1) * 31 + round, 65536)
     !$omp end critical (deal)
     !$omp end single
     !$omp master
     do k = 1, 20
        !$omp critical (save)
        sums(2) = mod(sums(2) * 31 + k, 65536)
        !$omp end critical (save)
     end do
     !$omp end master
     !$omp do ordered schedule(dynamic)
     do k = 1, 20
        !$omp critical (points)
        needed = needed + k
        !$omp end critical (points)
        !$omp ordered
        !$omp critical (log)
        sums(3) = mod(sums(3) * 31 + k, 65536)
        !$omp end critical (log)
        !$omp end ordered
     end do
     !$omp end do
  end do
  !$omp end parallel
  print '(4i12)', sums, needed
end program
