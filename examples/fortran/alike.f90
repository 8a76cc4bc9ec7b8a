! Tells whether two loop texts are alike: whether their printed forms are the same, or else at which line of the forms they begin to
! differ. Of one text alone it prints the form.
!
!     gfortran -J build fortran/lrpd.f90 examples/fortran/alike.f90 build/liblrpd.a -o build/alike
!     build/alike examples/alike/ours.loop examples/alike/theirs.loop
!
! The exit status is 0 for alike, 1 for different, and 2 if a text is refused or can't be read.
program alike
  use lrpd
  implicit none

  character(len=:), allocatable :: one, two
  logical :: refused = .false.
  integer :: line, at

  call take(1, one)
  if (command_argument_count() > 1) call take(2, two)
  if (refused) stop 2, quiet=.true.

  if (.not. allocated(two)) then
    print '(a)', one(:len(one) - 1)
    stop
  end if
  if (one == two) then
    print '(a)', 'alike'
    stop
  end if

  ! Both forms have the line at which they begin to differ: a form ends with its only line end do, so none begins another.
  line = 1
  do at = 1, min(len(one), len(two))
    if (one(at:at) /= two(at:at)) exit
    if (one(at:at) == new_line('a')) line = line + 1
  end do
  print '(a, i0, a)', 'different at line ', line, ' of the forms'
  print '(2x, a)', line_of(one, line), line_of(two, line)
  stop 1, quiet=.true.

contains

  ! Takes the form of the text in the file that this argument names. A refusal is told in words, with its line.
  subroutine take(number, form)
    integer, intent(in) :: number
    character(len=:), allocatable, intent(out) :: form
    character(len=:), allocatable :: text
    type(lrpd_print_answer) :: printed

    text = contents('alike FILE [FILE]', number)
    printed = lrpd_print(text, form)
    if (printed%number == lrpd_done) return
    refused = .true.
    print '(2a, 3(1x, i0), 2a)', argument(number), ': refused', printed%number, printed%line, printed%v, &
      ': ', lrpd_message(printed%number)
    if (printed%line > 0) print '(a, i0, 2a)', '  line ', printed%line, ': ', line_of(text, printed%line)
  end subroutine

  ! A line of a text or a form, by its number, with ? for bytes that no text has.
  function line_of(text, number) result(line)
    character(len=*), intent(in) :: text
    integer, intent(in) :: number
    character(len=:), allocatable :: line
    integer :: first, i

    first = 1
    do i = 2, number
      first = first + index(text(first:), new_line('a'))
    end do
    line = text(first:first + index(text(first:)//new_line('a'), new_line('a')) - 2)
    do i = 1, len(line)
      if (llt(line(i:i), ' ') .or. lgt(line(i:i), '~')) line(i:i) = '?'
    end do
  end function

  include 'arguments.inc'

end program
