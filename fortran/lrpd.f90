! Lapwingboard for Fortran: the functions of include/lrpd.h, which says what they do, for texts and integer arrays as Fortran has
! them. Compile this file with the program and link liblrpd (`make` builds it).
!
! The lines of a text are parted by new_line('a'); lrpd_text makes a text of lines. All of a string is the text, or the name: of a
! padded variable pass trim(text). A workspace may be left out, and one is then allocated for the call; what comes after it goes by
! its keyword.
module lrpd
  use, intrinsic :: iso_c_binding, only: c_char, c_int8_t, c_int16_t, c_int32_t, c_size_t
  implicit none
  private
  public :: lrpd_check_answer, lrpd_bounds_answer, lrpd_name_answer, lrpd_done_answer, lrpd_run_answer, lrpd_plan_answer
  public :: lrpd_print_answer
  public :: lrpd_text, lrpd_message, lrpd_workspace
  public :: lrpd_check, lrpd_bounds, lrpd_name, lrpd_load, lrpd_look, lrpd_run, lrpd_plan, lrpd_print, lrpd_rows, lrpd_columns

  ! The version of this module and its library. What was compiled with the module of another second number has to be compiled again.
  character(len=*), parameter, public :: lrpd_version = '1.9.0'

  ! The most characters of a text, cells, processors and iterations of a loop.
  integer, parameter, public :: lrpd_most_bytes = 2048, lrpd_most_cells = 4096, lrpd_most_processors = 8
  integer, parameter, public :: lrpd_most_iterations = 65535

  ! Characters that are enough for every printed form.
  integer, parameter, public :: lrpd_print_room = 65535

  ! The numbers of an answer; lrpd_message gives each in words.
  integer, parameter, public :: lrpd_done = 0, lrpd_too_long = 1, lrpd_broken = 2, lrpd_bad_name = 3, lrpd_over_limit = 4
  integer, parameter, public :: lrpd_bad_cells = 5, lrpd_bad_workspace = 6, lrpd_bad_schedule = 7, lrpd_bad_view = 8
  integer, parameter, public :: lrpd_bad_subscript = 9, lrpd_zero_divisor = 10, lrpd_bad_list = 11, lrpd_bad_room = 12
  integer, parameter, public :: lrpd_not_a_grid = 13

  ! The clauses of a name.
  integer, parameter, public :: lrpd_shared = 0, lrpd_lastprivate = 1, lrpd_sum = 2, lrpd_copied = 3
  integer, parameter, public :: lrpd_product = 4, lrpd_maximum = 5

  ! A refusal's number, or 0, its line and v; then the numbers of cells and processors.
  type, bind(C) :: lrpd_check_answer
    integer(c_int32_t) :: number, line, v, cells, processors
  end type

  ! A refusal's number, or 0, its line and v; then the first value of the loop's variable, how many iterations there are, and 1 if
  ! marks and obstacles go by blocks.
  type, bind(C) :: lrpd_bounds_answer
    integer(c_int32_t) :: number, line, v, from, iterations, blocks
  end type

  ! A refusal's number, or 0, its line and v; then the name's first cell, counted from 1, how many it has, how many subscripts it
  ! takes, its clause, and its extents: a grid's two, an array's length and 0, of a single cell 0 and 0.
  type, bind(C) :: lrpd_name_answer
    integer(c_int32_t) :: number, line, v, first, cells, subscripts, clause, rows, columns
  end type

  ! A refusal's number, or 0, its line and v.
  type, bind(C) :: lrpd_done_answer
    integer(c_int32_t) :: number, line, v
  end type

  ! A refusal's number, or 0, its line and v; then 1 if the loop was run again serially, and both write counts.
  type, bind(C) :: lrpd_run_answer
    integer(c_int32_t) :: number, line, v, rerun, pairs, cells
  end type

  ! A refusal's number, or 0, its line and v; then the number of stages.
  type, bind(C) :: lrpd_plan_answer
    integer(c_int32_t) :: number, line, v, stages
  end type

  ! A refusal's number, or 0, its line and v; then the number of characters of the printed form.
  type, bind(C) :: lrpd_print_answer
    integer(c_int32_t) :: number, line, v, length
  end type

  interface
    function c_check(text, length) bind(C, name="lrpd_check") result(answer)
      import :: c_char, c_size_t, lrpd_check_answer
      character(kind=c_char), intent(in) :: text(*)
      integer(c_size_t), value :: length
      type(lrpd_check_answer) :: answer
    end function

    function c_bounds(text, length) bind(C, name="lrpd_bounds") result(answer)
      import :: c_char, c_size_t, lrpd_bounds_answer
      character(kind=c_char), intent(in) :: text(*)
      integer(c_size_t), value :: length
      type(lrpd_bounds_answer) :: answer
    end function

    function c_name(text, length, name, name_length) bind(C, name="lrpd_name") result(answer)
      import :: c_char, c_size_t, lrpd_name_answer
      character(kind=c_char), intent(in) :: text(*), name(*)
      integer(c_size_t), value :: length, name_length
      type(lrpd_name_answer) :: answer
    end function

    function c_load(text, length, cells, count) bind(C, name="lrpd_load") result(answer)
      import :: c_char, c_int32_t, c_size_t, lrpd_done_answer
      character(kind=c_char), intent(in) :: text(*)
      integer(c_size_t), value :: length, count
      integer(c_int32_t), intent(inout) :: cells(*)
      type(lrpd_done_answer) :: answer
    end function

    function c_look(text, length, cells, count, workspace, words, schedule, steps, view, shown) &
        bind(C, name="lrpd_look") result(answer)
      import :: c_char, c_int8_t, c_int32_t, c_size_t, lrpd_done_answer
      character(kind=c_char), intent(in) :: text(*)
      integer(c_size_t), value :: length, count, words, steps, shown
      integer(c_int32_t), intent(in) :: cells(*)
      integer(c_int32_t), intent(inout) :: workspace(*), view(*)
      integer(c_int8_t), intent(in) :: schedule(*)
      type(lrpd_done_answer) :: answer
    end function

    function c_run(text, length, cells, count, workspace, words, schedule, steps) bind(C, name="lrpd_run") result(answer)
      import :: c_char, c_int8_t, c_int32_t, c_size_t, lrpd_run_answer
      character(kind=c_char), intent(in) :: text(*)
      integer(c_size_t), value :: length, count, words, steps
      integer(c_int32_t), intent(inout) :: cells(*), workspace(*)
      integer(c_int8_t), intent(in) :: schedule(*)
      type(lrpd_run_answer) :: answer
    end function

    function c_plan(text, length, cells, count, workspace, words, list, room) bind(C, name="lrpd_plan") result(answer)
      import :: c_char, c_int16_t, c_int32_t, c_size_t, lrpd_plan_answer
      character(kind=c_char), intent(in) :: text(*)
      integer(c_size_t), value :: length, count, words, room
      integer(c_int32_t), intent(in) :: cells(*)
      integer(c_int32_t), intent(inout) :: workspace(*)
      integer(c_int16_t), intent(inout) :: list(*)
      type(lrpd_plan_answer) :: answer
    end function

    function c_print(text, length, bytes, room) bind(C, name="lrpd_print") result(answer)
      import :: c_char, c_size_t, lrpd_print_answer
      character(kind=c_char), intent(in) :: text(*)
      integer(c_size_t), value :: length, room
      character(kind=c_char), intent(inout) :: bytes(*)
      type(lrpd_print_answer) :: answer
    end function

    function c_rows(text, length, cells, count, name, name_length) bind(C, name="lrpd_rows") result(answer)
      import :: c_char, c_int32_t, c_size_t, lrpd_done_answer
      character(kind=c_char), intent(in) :: text(*), name(*)
      integer(c_size_t), value :: length, count, name_length
      integer(c_int32_t), intent(inout) :: cells(*)
      type(lrpd_done_answer) :: answer
    end function

    function c_columns(text, length, cells, count, name, name_length) bind(C, name="lrpd_columns") result(answer)
      import :: c_char, c_int32_t, c_size_t, lrpd_done_answer
      character(kind=c_char), intent(in) :: text(*), name(*)
      integer(c_size_t), value :: length, count, name_length
      integer(c_int32_t), intent(inout) :: cells(*)
      type(lrpd_done_answer) :: answer
    end function
  end interface

contains

  ! The text that has these lines, without the blanks that end them.
  pure function lrpd_text(lines) result(text)
    character(len=*), intent(in) :: lines(:)
    character(len=:), allocatable :: text
    integer :: i

    text = ''
    do i = 1, size(lines)
      text = text//trim(lines(i))//new_line('a')
    end do
  end function

  ! A number of an answer in words.
  pure function lrpd_message(number) result(words)
    integer, intent(in) :: number
    character(len=:), allocatable :: words

    select case (number)
    case (lrpd_done)
      words = 'done'
    case (lrpd_too_long)
      words = 'the text has more than 2,048 bytes'
    case (lrpd_broken)
      words = 'the form of the line is broken, or the text ends too early'
    case (lrpd_bad_name)
      words = 'a name is unknown, given twice or used wrongly, or data has the wrong count'
    case (lrpd_over_limit)
      words = 'over a limit'
    case (lrpd_bad_cells)
      words = 'not exactly as many cells as the loop has'
    case (lrpd_bad_workspace)
      words = 'the workspace is too small'
    case (lrpd_bad_schedule)
      words = 'the schedule names a processor that the loop does not have'
    case (lrpd_bad_view)
      words = 'not exactly two words of view for each cell'
    case (lrpd_bad_subscript)
      words = 'a subscript is outside its array'
    case (lrpd_zero_divisor)
      words = 'a division by zero'
    case (lrpd_bad_list)
      words = 'not exactly one number in the list for each iteration'
    case (lrpd_bad_room)
      words = 'fewer bytes lent than the printed form has'
    case (lrpd_not_a_grid)
      words = 'no grid has this name'
    case default
      words = 'not a number of this library'
    end select
  end function

  ! Whether the text is a loop, and how many cells and processors it has.
  function lrpd_check(text) result(answer)
    character(len=*), intent(in) :: text
    type(lrpd_check_answer) :: answer

    answer = c_check(text, len(text, c_size_t))
  end function

  ! Where the loop's variable begins, and how many iterations the loop has.
  function lrpd_bounds(text) result(answer)
    character(len=*), intent(in) :: text
    type(lrpd_bounds_answer) :: answer

    answer = c_bounds(text, len(text, c_size_t))
  end function

  ! The cells of a name: cells(answer%first:answer%first + answer%cells - 1).
  function lrpd_name(text, name) result(answer)
    character(len=*), intent(in) :: text, name
    type(lrpd_name_answer) :: answer

    answer = c_name(text, len(text, c_size_t), name, len(name, c_size_t))
    if (answer%number == lrpd_done) answer%first = answer%first + 1
  end function

  ! Fills the cells from the text's data.
  function lrpd_load(text, cells) result(answer)
    character(len=*), intent(in) :: text
    integer(c_int32_t), contiguous, intent(inout) :: cells(:)
    type(lrpd_done_answer) :: answer

    answer = c_load(text, len(text, c_size_t), cells, size(cells, kind=c_size_t))
  end function

  ! The words of workspace that lrpd_look, lrpd_run and lrpd_plan ask for.
  pure function lrpd_workspace(sizes) result(words)
    type(lrpd_check_answer), intent(in) :: sizes
    integer :: words

    words = 4352 + 64 * sizes%processors + sizes%cells * (4 + 8 * sizes%processors)
  end function

  ! The shared values and marks after the schedule's bytes, two words for each cell.
  recursive function lrpd_look(text, cells, workspace, schedule, view) result(answer)
    character(len=*), intent(in) :: text
    integer(c_int32_t), contiguous, intent(in) :: cells(:)
    integer(c_int32_t), contiguous, optional, intent(inout) :: workspace(:)
    integer(c_int8_t), contiguous, intent(in) :: schedule(:)
    integer(c_int32_t), contiguous, intent(inout) :: view(:)
    type(lrpd_done_answer) :: answer
    integer(c_int32_t), allocatable :: own(:)

    if (.not. present(workspace)) then
      allocate (own(lrpd_workspace(lrpd_check(text))))
      answer = lrpd_look(text, cells, own, schedule, view)
    else
      answer = c_look(text, len(text, c_size_t), cells, size(cells, kind=c_size_t), workspace, size(workspace, kind=c_size_t), &
        schedule, size(schedule, kind=c_size_t), view, size(view, kind=c_size_t))
    end if
  end function

  ! Runs the loop on the cells. Without a schedule the processors run in number order.
  recursive function lrpd_run(text, cells, workspace, schedule) result(answer)
    character(len=*), intent(in) :: text
    integer(c_int32_t), contiguous, intent(inout) :: cells(:)
    integer(c_int32_t), contiguous, optional, intent(inout) :: workspace(:)
    integer(c_int8_t), contiguous, optional, intent(in) :: schedule(:)
    type(lrpd_run_answer) :: answer
    integer(c_int32_t), allocatable :: own(:)
    integer(c_int8_t) :: none(0)

    if (.not. present(workspace)) then
      allocate (own(lrpd_workspace(lrpd_check(text))))
      answer = lrpd_run(text, cells, own, schedule)
    else if (.not. present(schedule)) then
      answer = lrpd_run(text, cells, workspace, none)
    else
      answer = c_run(text, len(text, c_size_t), cells, size(cells, kind=c_size_t), workspace, size(workspace, kind=c_size_t), &
        schedule, size(schedule, kind=c_size_t))
    end if
  end function

  ! Writes each iteration's stage to a list with a number for each. Fortran has no numbers without sign: a stage over 32,767 reads
  ! negative, and iand(int(list(i)), 65535) gives it.
  recursive function lrpd_plan(text, cells, workspace, list) result(answer)
    character(len=*), intent(in) :: text
    integer(c_int32_t), contiguous, intent(in) :: cells(:)
    integer(c_int32_t), contiguous, optional, intent(inout) :: workspace(:)
    integer(c_int16_t), contiguous, intent(inout) :: list(:)
    type(lrpd_plan_answer) :: answer
    integer(c_int32_t), allocatable :: own(:)

    if (.not. present(workspace)) then
      allocate (own(lrpd_workspace(lrpd_check(text))))
      answer = lrpd_plan(text, cells, own, list)
    else
      answer = c_plan(text, len(text, c_size_t), cells, size(cells, kind=c_size_t), workspace, size(workspace, kind=c_size_t), &
        list, size(list, kind=c_size_t))
    end if
  end function

  ! Gives the text's printed form, which has no characters after a refusal. Enough room is allocated for the call.
  function lrpd_print(text, form) result(answer)
    character(len=*), intent(in) :: text
    character(len=:), allocatable, intent(out) :: form
    type(lrpd_print_answer) :: answer
    character(len=:), allocatable :: own

    allocate (character(len=lrpd_print_room) :: own)
    answer = c_print(text, len(text, c_size_t), own, len(own, c_size_t))
    form = own(:answer%length)
  end function

  ! Puts the cells of the grid with this name into row order.
  function lrpd_rows(text, cells, name) result(answer)
    character(len=*), intent(in) :: text, name
    integer(c_int32_t), contiguous, intent(inout) :: cells(:)
    type(lrpd_done_answer) :: answer

    answer = c_rows(text, len(text, c_size_t), cells, size(cells, kind=c_size_t), name, len(name, c_size_t))
  end function

  ! Puts the cells of the grid with this name from row order back into Fortran's.
  function lrpd_columns(text, cells, name) result(answer)
    character(len=*), intent(in) :: text, name
    integer(c_int32_t), contiguous, intent(inout) :: cells(:)
    type(lrpd_done_answer) :: answer

    answer = c_columns(text, len(text, c_size_t), cells, size(cells, kind=c_size_t), name, len(name, c_size_t))
  end function

end module
