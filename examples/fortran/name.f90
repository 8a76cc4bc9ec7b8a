! Runs a loop text and prints the cells of one name: its extents, which cells they are, counted from 1, its clause, and their values
! afterwards, of a grid the first subscript fastest.
!
!     gfortran -J build fortran/lrpd.f90 examples/fortran/name.f90 build/liblrpd.a -o build/name
!     build/name examples/texts/weights.loop peak
program name
  use, intrinsic :: iso_c_binding, only: c_int32_t
  use lrpd
  implicit none

  character(len=*), parameter :: clauses(0:5) = [character(len=25) :: &
    'shared', 'lastprivate', 'reduction(+)', 'firstprivate, lastprivate', 'reduction(*)', 'reduction(max)']
  character(len=:), allocatable :: text
  integer(c_int32_t), allocatable :: cells(:)
  type(lrpd_name_answer) :: found
  type(lrpd_check_answer) :: sizes
  type(lrpd_done_answer) :: loaded
  type(lrpd_run_answer) :: ran
  integer :: last

  text = contents('name FILE NAME')
  found = lrpd_name(text, argument(2))
  if (found%number /= lrpd_done) call refuse(found%number, found%line, found%v)

  ! A text that Name takes Check and Load take too.
  sizes = lrpd_check(text)
  allocate (cells(sizes%cells))
  loaded = lrpd_load(text, cells)
  ran = lrpd_run(text, cells)
  if (ran%number /= lrpd_done) call refuse(ran%number, ran%line, ran%v)

  last = found%first + found%cells - 1
  print '(3a, i0, a, i0, 2a)', argument(2), extents(), ': cells ', found%first, ' to ', last, ', ', trim(clauses(found%clause))
  print '(i0)', cells(found%first:last)

contains

  ! The extents as they are declared: none, one or two.
  function extents() result(words)
    character(len=:), allocatable :: words
    character(len=24) :: buffer

    buffer = ''
    if (found%subscripts == 1) write (buffer, '("(", i0, ")")') found%rows
    if (found%subscripts == 2) write (buffer, '("(", i0, ", ", i0, ")")') found%rows, found%columns
    words = trim(buffer)
  end function

  subroutine refuse(number, line, v)
    integer, intent(in) :: number, line, v

    print '(a, 3(1x, i0), 2a)', 'refused', number, line, v, ': ', lrpd_message(number)
    stop
  end subroutine

  include 'arguments.inc'

end program
