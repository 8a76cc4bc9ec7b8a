! Runs a loop text and prints one of its grids as a map viewer stores it: by rows, here a row to a line. Then it puts the cells back
! in the loop's order, and checks that they are as they were.
!
!     gfortran -J build fortran/lrpd.f90 examples/fortran/map.f90 build/liblrpd.a -o build/map
!     build/map examples/texts/levels.loop bed
program map
  use, intrinsic :: iso_c_binding, only: c_int32_t
  use lrpd
  implicit none

  character(len=:), allocatable :: text, grid
  integer(c_int32_t), allocatable :: cells(:), before(:)
  type(lrpd_check_answer) :: sizes
  type(lrpd_done_answer) :: loaded, turned
  type(lrpd_run_answer) :: ran
  type(lrpd_name_answer) :: found
  integer :: row, first

  text = contents('map FILE GRID')
  grid = argument(2)

  ! Where Check refuses, so do Load and Run, with the same numbers.
  sizes = lrpd_check(text)
  allocate (cells(sizes%cells))
  loaded = lrpd_load(text, cells)
  ran = lrpd_run(text, cells)
  if (ran%number /= lrpd_done) call refuse(ran%number, ran%line, ran%v)
  before = cells

  turned = lrpd_rows(text, cells, grid)
  if (turned%number /= lrpd_done) call refuse(turned%number, turned%line, turned%v)

  ! The grid's cells stand row after row now, from the same first cell on.
  found = lrpd_name(text, grid)
  print '(2a, i0, a, i0, a)', grid, ': ', found%rows, ' rows, ', found%columns, ' columns'
  do row = 1, found%rows
    first = found%first + (row - 1)*found%columns
    print '(*(i0, :, 1x))', cells(first:first + found%columns - 1)
  end do

  turned = lrpd_columns(text, cells, grid)
  if (any(cells /= before)) error stop 'the cells are not as they were'

contains

  subroutine refuse(number, line, v)
    integer, intent(in) :: number, line, v

    print '(a, 3(1x, i0), 2a)', 'refused', number, line, v, ': ', lrpd_message(number)
    stop
  end subroutine

  include 'arguments.inc'

end program
