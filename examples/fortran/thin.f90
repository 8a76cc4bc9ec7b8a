! A loop as a program has it: the text in its lines, the cells in its own arrays.
!
!     gfortran -J build fortran/lrpd.f90 examples/fortran/thin.f90 build/liblrpd.a -o build/thin
!     build/thin
program thin
  use lrpd
  implicit none

  integer :: a(4) = 0, k(4) = [2, 1, 4, 3], cells(8)
  type(lrpd_run_answer) :: ran

  cells = [a, k]
  ran = lrpd_run(lrpd_text([character(len=132) :: &
    'integer a(4), k(4)', &
    '!$omp parallel do num_threads(2)', &
    'do i = 1, 4', &
    '  a(k(i)) = 10 * i', &
    'end do']), cells)
  if (ran%number == lrpd_done) then
    a = cells(1:4)
    print '(a, *(1x, i0))', trim(merge('rerun: ', 'passed:', ran%rerun == 1)), a
  else
    print '(a, i0, 2a)', 'line ', ran%line, ': ', lrpd_message(ran%number)
  end if

end program
