! Plans a loop text on the cells of its data and prints its stages in turn, each with the values that the loop's variable has in its
! iterations.
!
!     gfortran -J build fortran/lrpd.f90 examples/fortran/plan.f90 build/liblrpd.a -o build/plan
!     build/plan examples/texts/channels.loop
program plan
  use, intrinsic :: iso_c_binding, only: c_int16_t, c_int32_t
  use lrpd
  implicit none

  character(len=:), allocatable :: text
  integer(c_int32_t), allocatable :: cells(:)
  integer(c_int16_t), allocatable :: list(:)
  type(lrpd_check_answer) :: sizes
  type(lrpd_bounds_answer) :: bounds
  type(lrpd_done_answer) :: loaded
  type(lrpd_plan_answer) :: planned
  integer :: stage, i

  text = contents('plan FILE')

  ! Where Check refuses, so do Bounds, Load and Plan, with the same numbers.
  sizes = lrpd_check(text)
  bounds = lrpd_bounds(text)
  allocate (cells(sizes%cells), list(bounds%iterations))
  loaded = lrpd_load(text, cells)
  planned = lrpd_plan(text, cells, list=list)
  if (planned%number /= lrpd_done) then
    print '(a, *(1x, i0))', 'refused', planned%number, planned%line, planned%v
    stop
  end if
  print '(a, i0)', 'stages ', planned%stages
  do stage = 1, planned%stages
    print '(i0, a, *(1x, i0))', stage, ':', bounds%from - 1 + pack([(i, i=1, size(list))], iand(int(list), 65535) == stage)
  end do

contains

  include 'arguments.inc'

end program
