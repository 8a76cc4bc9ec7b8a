! Calls each function of fortran/lrpd.f90, with its optional arguments and without, and ends with an error where one does not
! answer, or leave in what it was lent, what it should.
program thin
  use, intrinsic :: iso_c_binding, only: c_int8_t, c_int16_t, c_int32_t
  use, intrinsic :: iso_fortran_env, only: error_unit
  use lrpd
  implicit none

  ! Six cells, a, s and z in this order, and four iterations.
  character(len=*), parameter :: lines(*) = [character(len=80) :: &
    'integer a(4), s', &
    'integer z', &
    'data a /1, 2, 3, 4/', &
    'data s /5/', &
    '!$omp parallel do num_threads(2) reduction(+:s) firstprivate(z) lastprivate(z)', &
    'do i = -1, 2', &
    'z = 10*a(i + 2)', &
    'a(i + 2) = z', &
    's = s + z', &
    'end do']
  character(len=*), parameter :: forms(*) = [character(len=100) :: &
    'integer a ( 4 ) , s', &
    'integer z', &
    'data a / 1 , 2 , 3 , 4 /', &
    'data s / 5 /', &
    '!$omp parallel do num_threads ( 2 ) reduction ( + : s ) firstprivate ( z ) lastprivate ( z )', &
    'do i = - 1 , 2', &
    'z = 10 * a ( i + 2 )', &
    'a ( i + 2 ) = z', &
    's = s + z', &
    'end do']
  integer(c_int32_t), parameter :: loaded(*) = [1, 2, 3, 4, 5, 0], after(*) = [10, 20, 30, 40, 105, 40]
  integer(c_int8_t), parameter :: mixed(*) = [integer(c_int8_t) :: 1, 0, 0, 1, 1, 0]
  character(len=:), allocatable :: text
  integer :: failures = 0

  text = lrpd_text(lines)
  call texts
  call descriptions
  call loads
  call runs
  call looks
  call plans
  call prints
  call grids
  if (failures > 0) error stop 1

contains

  subroutine expect(good, what)
    logical, intent(in) :: good
    character(len=*), intent(in) :: what

    if (good) return
    failures = failures + 1
    write (error_unit, '(2a)') 'not as it should be: ', what
  end subroutine

  ! A loop of one shared cell, which each of two iterations writes.
  function meeting() result(text)
    character(len=:), allocatable :: text

    text = lrpd_text([character(len=40) :: 'integer a(1)', '!$omp parallel do num_threads(2)', 'do i = 1, 2', 'a(1) = i', 'end do'])
  end function

  ! Three iterations of this line, from 7 on, with two cells.
  function with_line(line) result(text)
    character(len=*), intent(in) :: line
    character(len=:), allocatable :: text

    text = lrpd_text([character(len=40) :: 'integer s(2)', '!$omp parallel do num_threads(1)', 'do i = 7, 9', line, 'end do'])
  end function

  ! A single cell, a grid and an array: nine cells.
  function gridded() result(text)
    character(len=:), allocatable :: text

    text = lrpd_text([character(len=40) :: 'integer s, g(2, 3), a(2)', '!$omp parallel do num_threads(2)', 'do i = 1, 3', &
      'g(2, i) = g(1, i) + a(2)', 'end do'])
  end function

  subroutine texts
    character(len=*), parameter :: nl = new_line('a')

    call expect(lrpd_text(['a  ', ' b ', '   ', 'c c']) == 'a'//nl//' b'//nl//nl//'c c'//nl, 'lines')
    call expect(len(lrpd_text(['a  ', ' b '])) == 5, 'no blanks at the ends of lines')
    call expect(len(lrpd_text([character(len=3) ::])) == 0, 'no lines')
  end subroutine

  subroutine descriptions
    call expect(is_check(lrpd_check(text), [0, 0, 0, 6, 2]), 'Check')
    call expect(is_check(lrpd_check(''), [2, 1, 0, 0, 0]), 'Check, no characters')
    call expect(is_check(lrpd_check(repeat(' ', 2049)), [1, 0, 0, 0, 0]), 'Check, 2,049 characters')
    call expect(is_bounds(lrpd_bounds(text), [0, 0, 0, -1, 4, 0]), 'Bounds')
    call expect(is_bounds(lrpd_bounds(with_line('s(1) = u')), [3, 4, 0, 0, 0, 0]), 'Bounds, refused')
    call expect(is_name(lrpd_name(text, 'a'), [0, 0, 0, 1, 4, 1, lrpd_shared, 4, 0]), 'Name, the first')
    call expect(is_name(lrpd_name(text, 'S'), [0, 0, 0, 5, 1, 0, lrpd_sum, 0, 0]), 'Name, the second in upper case')
    call expect(is_name(lrpd_name(text, 'z'), [0, 0, 0, 6, 1, 0, lrpd_copied, 0, 0]), 'Name, the last')
    call expect(is_name(lrpd_name(text, 'z '), [3, 0, 0, 0, 0, 0, 0, 0, 0]), 'Name, with a blank')
    call expect(is_name(lrpd_name(text, trim('z ')), [0, 0, 0, 6, 1, 0, lrpd_copied, 0, 0]), 'Name, trimmed')
    call expect(is_name(lrpd_name(text, 'i'), [3, 0, 0, 0, 0, 0, 0, 0, 0]), 'Name, of the variable')
    call expect(is_name(lrpd_name(text, ''), [3, 0, 0, 0, 0, 0, 0, 0, 0]), 'Name, no characters')
    call expect(is_name(lrpd_name('', 'a'), [2, 1, 0, 0, 0, 0, 0, 0, 0]), 'Name, refused')
    call expect(is_name(lrpd_name(gridded(), 'g'), [0, 0, 0, 2, 6, 2, lrpd_shared, 2, 3]), 'Name, a grid')
    call expect(is_name(lrpd_name(gridded(), 'a'), [0, 0, 0, 8, 2, 1, lrpd_shared, 2, 0]), 'Name, behind a grid')
  end subroutine

  subroutine loads
    integer(c_int32_t) :: cells(6), wide(12)

    call expect(is_done(lrpd_load(text, cells), [0, 0, 0]), 'Load')
    call expect(all(cells == loaded), 'what Load leaves')
    wide = 7
    call expect(is_done(lrpd_load(text, wide(2::2)), [0, 0, 0]), 'Load of every other cell')
    call expect(all(wide(2::2) == loaded) .and. all(wide(1::2) == 7), 'the cells between')
    wide = 7
    call expect(is_done(lrpd_load(text, wide), [5, 0, 0]), 'Load, too many cells')
    call expect(all(wide == 7), 'what a refusal leaves')
  end subroutine

  subroutine runs
    integer(c_int32_t) :: cells(6), one(1), two(2)
    integer(c_int32_t), allocatable :: workspace(:)

    allocate (workspace(lrpd_workspace(lrpd_check(text))))
    workspace = 9
    cells = loaded
    call expect(is_run(lrpd_run(text, cells, workspace, mixed), [0, 0, 0, 0, 12, 6]), 'Run')
    call expect(all(cells == after) .and. all(workspace == 0), 'what Run leaves')
    workspace = 9
    cells = loaded
    call expect(is_run(lrpd_run(text, cells, workspace), [0, 0, 0, 0, 12, 6]), 'Run without a schedule')
    call expect(all(cells == after) .and. all(workspace == 0), 'what Run without a schedule leaves')
    cells = loaded
    call expect(is_run(lrpd_run(text, cells, schedule=mixed), [0, 0, 0, 0, 12, 6]), 'Run without a workspace')
    call expect(all(cells == after), 'what Run without a workspace leaves')
    cells = loaded
    call expect(is_run(lrpd_run(text, cells), [0, 0, 0, 0, 12, 6]), 'Run with neither')
    call expect(all(cells == after), 'what Run with neither leaves')

    one = 5
    call expect(is_run(lrpd_run(meeting(), one), [0, 0, 0, 1, 2, 1]), 'Run, serially')
    call expect(one(1) == 2, 'what Run leaves serially')

    ! Refusals, with what is lent and with what is not.
    cells = loaded
    call expect(is_run(lrpd_run('', cells), [2, 1, 0, 0, 0, 0]), 'Run, refused')
    call expect(is_run(lrpd_run(text, cells(:5)), [5, 0, 0, 0, 0, 0]), 'Run, too few cells')
    call expect(is_run(lrpd_run(text, cells, workspace(2:)), [6, 0, 0, 0, 0, 0]), 'Run, a word too few')
    call expect(is_run(lrpd_run(text, cells, workspace(2:), mixed), [6, 0, 0, 0, 0, 0]), 'Run, a word too few, a schedule')
    call expect(is_run(lrpd_run(text, cells, schedule=[2_c_int8_t]), [7, 0, 0, 0, 0, 0]), 'Run, processor 2')
    call expect(is_run(lrpd_run(text, cells, schedule=[-1_c_int8_t]), [7, 0, 0, 0, 0, 0]), 'Run, processor 255')
    call expect(all(cells == loaded), 'what refusals leave')
    two = 3
    call expect(is_run(lrpd_run(with_line('s(i - 6) = 1'), two), [9, 4, 9, 0, 0, 0]), 'Run, a subscript')
    call expect(is_run(lrpd_run(with_line('s(1) = 1/(i - 8)'), two), [10, 4, 8, 0, 0, 0]), 'Run, a divisor')
    call expect(all(two == 3), 'what faults leave')
  end subroutine

  ! Document 01's example: the last step shows.
  subroutine looks
    integer(c_int32_t) :: one(1), view(2)
    integer(c_int32_t), allocatable :: workspace(:)

    one = 5
    allocate (workspace(lrpd_workspace(lrpd_check(meeting()))))
    workspace = 9
    call expect(is_done(lrpd_look(meeting(), one, workspace, [1_c_int8_t, 0_c_int8_t], view), [0, 0, 0]), 'Look')
    call expect(all(view == [1, 1]) .and. all(workspace == 0) .and. one(1) == 5, 'what Look leaves')
    call expect(is_done(lrpd_look(meeting(), one, schedule=[0_c_int8_t, 1_c_int8_t], view=view), [0, 0, 0]), &
      'Look without a workspace')
    call expect(all(view == [2, 1]) .and. one(1) == 5, 'what Look without a workspace leaves')
    call expect(is_done(lrpd_look(meeting(), one, schedule=[0_c_int8_t], view=view(:1)), [8, 0, 0]), 'Look, a word too few')
    call expect(is_done(lrpd_look(meeting(), one, workspace(:9), [0_c_int8_t], view), [6, 0, 0]), 'Look, too little workspace')
    call expect(is_done(lrpd_look('', one, schedule=[0_c_int8_t], view=view), [2, 1, 0]), 'Look, refused')
    call expect(all(view == [2, 1]), 'what refusals leave in a view')
  end subroutine

  subroutine plans
    integer(c_int32_t) :: two(2)
    integer(c_int16_t) :: list(4)
    integer(c_int16_t), allocatable :: long(:)
    integer(c_int32_t), allocatable :: workspace(:)
    character(len=:), allocatable :: chain

    allocate (workspace(lrpd_workspace(lrpd_check(text))))
    workspace = 9
    list = 9
    call expect(is_plan(lrpd_plan(text, loaded, workspace, list), [0, 0, 0, 4]), 'Plan')
    call expect(all(list == [1, 2, 3, 4]) .and. all(workspace == 0), 'what Plan leaves')
    list = 9
    call expect(is_plan(lrpd_plan(text, loaded, list=list), [0, 0, 0, 4]), 'Plan without a workspace')
    call expect(all(list == [1, 2, 3, 4]), 'what Plan without a workspace leaves')
    list = 9
    call expect(is_plan(lrpd_plan(text, loaded, list=list(:3)), [11, 0, 0, 0]), 'Plan, a number too few')
    call expect(is_plan(lrpd_plan(text, loaded, workspace(:9), list), [6, 0, 0, 0]), 'Plan, too little workspace')
    call expect(is_plan(lrpd_plan('', loaded, list=list), [2, 1, 0, 0]), 'Plan, refused')
    two = 3
    call expect(is_plan(lrpd_plan(with_line('s(i - 6) = 1'), two, list=list(:3)), [9, 4, 9, 0]), 'Plan, a subscript')
    call expect(all(list == 9), 'what refusals leave in a list')

    ! As many stages as there may be: the last ones read negative.
    chain = lrpd_text([character(len=40) :: 'integer s', '!$omp parallel do num_threads(1)', 'do i = 1, 65535', 's = i', 'end do'])
    allocate (long(lrpd_most_iterations))
    call expect(is_plan(lrpd_plan(chain, two(:1), list=long), [0, 0, 0, 65535]), 'Plan, 65,535 stages')
    call expect(iand(int(long(65535)), 65535) == 65535 .and. long(65535) == -1 .and. long(32767) == 32767, 'the last of them')
  end subroutine

  subroutine prints
    character(len=:), allocatable :: form, again, copies

    call expect(is_print(lrpd_print(text, form), [0, 0, 0, len(lrpd_text(forms))]), 'Print')
    call expect(form == lrpd_text(forms) .and. len(form) == len(lrpd_text(forms)), 'the printed form')
    call expect(is_print(lrpd_print(form, again), [0, 0, 0, len(form)]), 'Print of a form')
    call expect(again == form, 'the form of a form')
    call expect(is_print(lrpd_print('', form), [2, 1, 0, 0]), 'Print, refused')
    call expect(len(form) == 0, 'no form after a refusal')
    call expect(is_print(lrpd_print(with_line('s(1) = u'), form), [3, 4, 0, 0]), 'Print, a name')

    ! All cells by one item: far more characters than a text may have.
    copies = lrpd_text([character(len=40) :: 'integer a(4096)', 'data a /4096*-2147483647/', &
      '!$omp parallel do num_threads(1)', 'do i = 1, 1', 'end do'])
    call expect(is_print(lrpd_print(copies, form), [0, 0, 0, 61524]), 'Print, 4,096 copies')
    call expect(len(form) == 61524 .and. form(61518:) == 'end do'//new_line('a'), 'the form of 4,096 copies')
    call expect(is_print(lrpd_print(form, again), [1, 0, 0, 0]), 'Print of a long form')
  end subroutine

  ! Of the grid g(r, c) is 10 r + c.
  subroutine grids
    integer(c_int32_t), parameter :: lent(*) = [7, 11, 21, 12, 22, 13, 23, 8, 9], by_rows(*) = [7, 11, 12, 13, 21, 22, 23, 8, 9]
    integer(c_int32_t) :: cells(9), wide(18)

    cells = lent
    call expect(is_done(lrpd_rows(gridded(), cells, 'g'), [0, 0, 0]), 'Rows')
    call expect(all(cells == by_rows), 'what Rows leaves')
    call expect(is_done(lrpd_columns(gridded(), cells, 'G'), [0, 0, 0]), 'Columns, in upper case')
    call expect(all(cells == lent), 'what Columns leaves')
    call expect(is_done(lrpd_columns(gridded(), cells, 'g'), [0, 0, 0]), 'Columns before Rows')
    call expect(all(cells == [7, 11, 22, 21, 13, 12, 23, 8, 9]), 'what Columns leaves before Rows')
    call expect(is_done(lrpd_rows(gridded(), cells, trim('g ')), [0, 0, 0]), 'Rows after Columns, trimmed')
    call expect(all(cells == lent), 'what Rows leaves after Columns')
    wide = 5
    wide(2::2) = lent
    call expect(is_done(lrpd_rows(gridded(), wide(2::2), 'g'), [0, 0, 0]), 'Rows of every other cell')
    call expect(all(wide(2::2) == by_rows) .and. all(wide(1::2) == 5), 'the cells between, after Rows')

    call expect(is_done(lrpd_rows('', cells, 'g'), [2, 1, 0]), 'Rows, refused')
    call expect(is_done(lrpd_rows(gridded(), cells(:8), 'a'), [5, 0, 0]), 'Rows, too few cells, and no grid')
    call expect(is_done(lrpd_rows(gridded(), cells, 'a'), [13, 0, 0]), 'Rows, of an array')
    call expect(is_done(lrpd_rows(gridded(), cells, 's'), [13, 0, 0]), 'Rows, of a single cell')
    call expect(is_done(lrpd_rows(gridded(), cells, 'g '), [13, 0, 0]), 'Rows, with a blank')
    call expect(is_done(lrpd_columns('', cells, 'g'), [2, 1, 0]), 'Columns, refused')
    call expect(is_done(lrpd_columns(gridded(), cells(:8), 'g'), [5, 0, 0]), 'Columns, too few cells')
    call expect(is_done(lrpd_columns(gridded(), cells, 'i'), [13, 0, 0]), 'Columns, of the variable')
    call expect(is_done(lrpd_columns(gridded(), cells, ''), [13, 0, 0]), 'Columns, no characters')
    call expect(all(cells == lent), 'what refusals leave of a grid')
    call expect(is_run(lrpd_run(gridded(), cells), [0, 0, 0, 0, 3, 3]), 'Run over a grid')
    call expect(all(cells == [7, 11, 20, 12, 21, 13, 22, 8, 9]), 'what Run leaves of a grid')
  end subroutine

  ! Whether an answer is these numbers.

  pure logical function is_check(answer, numbers)
    type(lrpd_check_answer), intent(in) :: answer
    integer, intent(in) :: numbers(5)

    is_check = all([answer%number, answer%line, answer%v, answer%cells, answer%processors] == numbers)
  end function

  pure logical function is_bounds(answer, numbers)
    type(lrpd_bounds_answer), intent(in) :: answer
    integer, intent(in) :: numbers(6)

    is_bounds = all([answer%number, answer%line, answer%v, answer%from, answer%iterations, answer%blocks] == numbers)
  end function

  pure logical function is_name(answer, numbers)
    type(lrpd_name_answer), intent(in) :: answer
    integer, intent(in) :: numbers(9)

    is_name = all([answer%number, answer%line, answer%v, answer%first, answer%cells, answer%subscripts, answer%clause, &
      answer%rows, answer%columns] == numbers)
  end function

  pure logical function is_done(answer, numbers)
    type(lrpd_done_answer), intent(in) :: answer
    integer, intent(in) :: numbers(3)

    is_done = all([answer%number, answer%line, answer%v] == numbers)
  end function

  pure logical function is_run(answer, numbers)
    type(lrpd_run_answer), intent(in) :: answer
    integer, intent(in) :: numbers(6)

    is_run = all([answer%number, answer%line, answer%v, answer%rerun, answer%pairs, answer%cells] == numbers)
  end function

  pure logical function is_plan(answer, numbers)
    type(lrpd_plan_answer), intent(in) :: answer
    integer, intent(in) :: numbers(4)

    is_plan = all([answer%number, answer%line, answer%v, answer%stages] == numbers)
  end function

  pure logical function is_print(answer, numbers)
    type(lrpd_print_answer), intent(in) :: answer
    integer, intent(in) :: numbers(4)

    is_print = all([answer%number, answer%line, answer%v, answer%length] == numbers)
  end function

end program
