! Runs a loop text under a schedule that comes from the command line, a digit for each step, and prints the result and the cells.
!
!     gfortran -J build fortran/lrpd.f90 examples/fortran/run.f90 build/liblrpd.a -o build/run
!     build/run examples/texts/permutation.loop 1001
program run
  use, intrinsic :: iso_c_binding, only: c_int8_t, c_int32_t
  use lrpd
  implicit none

  character(len=:), allocatable :: text, digits
  integer(c_int32_t), allocatable :: cells(:)
  type(lrpd_check_answer) :: sizes
  type(lrpd_done_answer) :: loaded
  type(lrpd_run_answer) :: ran
  integer :: i

  text = contents('run FILE [STEPS]')
  digits = argument(2)

  ! Where Check refuses, so do Load and Run, with the same numbers.
  sizes = lrpd_check(text)
  allocate (cells(sizes%cells))
  loaded = lrpd_load(text, cells)
  ran = lrpd_run(text, cells, schedule=[(int(iachar(digits(i:i)) - iachar('0'), c_int8_t), i=1, len(digits))])
  if (ran%number /= lrpd_done) then
    print '(a, *(1x, i0))', 'refused', ran%number, ran%line, ran%v
    stop
  end if
  print '(a, *(1x, i0))', trim(merge('rerun ', 'passed', ran%rerun == 1)), ran%pairs, ran%cells
  print '(i0)', cells

contains

  include 'arguments.inc'

end program
