! Checks a loop text, loads its cells and prints both.
!
!     gfortran -J build fortran/lrpd.f90 examples/fortran/check.f90 build/liblrpd.a -o build/check
!     build/check examples/texts/permutation.loop
program check
  use, intrinsic :: iso_c_binding, only: c_int32_t
  use lrpd
  implicit none

  character(len=:), allocatable :: text
  integer(c_int32_t), allocatable :: cells(:)
  type(lrpd_check_answer) :: sizes
  type(lrpd_done_answer) :: loaded

  text = contents('check FILE')
  sizes = lrpd_check(text)
  if (sizes%number /= lrpd_done) then
    print '(a, *(1x, i0))', 'refused', sizes%number, sizes%line, sizes%v
    stop
  end if
  print '(a, i0, a, i0)', 'cells ', sizes%cells, ', processors ', sizes%processors

  ! Exactly as many cells as Check said, so Load refuses nothing.
  allocate (cells(sizes%cells))
  loaded = lrpd_load(text, cells)
  if (loaded%number /= lrpd_done) error stop 'refused after Check'
  print '(i0)', cells

contains

  include 'arguments.inc'

end program
