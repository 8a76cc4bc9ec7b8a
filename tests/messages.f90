! What fortran/lrpd.f90 names and says. messages.c prints the same of include/lrpd.h, and tests/run compares what they print.
program messages
  use lrpd
  implicit none
  integer :: number

  print '(2a)', 'LRPD_VERSION ', lrpd_version
  call show('LRPD_MOST_BYTES', lrpd_most_bytes)
  call show('LRPD_MOST_CELLS', lrpd_most_cells)
  call show('LRPD_MOST_PROCESSORS', lrpd_most_processors)
  call show('LRPD_MOST_ITERATIONS', lrpd_most_iterations)
  call show('LRPD_PRINT_ROOM', lrpd_print_room)
  call show('LRPD_DONE', lrpd_done)
  call show('LRPD_TOO_LONG', lrpd_too_long)
  call show('LRPD_BROKEN', lrpd_broken)
  call show('LRPD_BAD_NAME', lrpd_bad_name)
  call show('LRPD_OVER_LIMIT', lrpd_over_limit)
  call show('LRPD_BAD_CELLS', lrpd_bad_cells)
  call show('LRPD_BAD_WORKSPACE', lrpd_bad_workspace)
  call show('LRPD_BAD_SCHEDULE', lrpd_bad_schedule)
  call show('LRPD_BAD_VIEW', lrpd_bad_view)
  call show('LRPD_BAD_SUBSCRIPT', lrpd_bad_subscript)
  call show('LRPD_ZERO_DIVISOR', lrpd_zero_divisor)
  call show('LRPD_BAD_LIST', lrpd_bad_list)
  call show('LRPD_BAD_ROOM', lrpd_bad_room)
  call show('LRPD_NOT_A_GRID', lrpd_not_a_grid)
  call show('LRPD_SHARED', lrpd_shared)
  call show('LRPD_LASTPRIVATE', lrpd_lastprivate)
  call show('LRPD_SUM', lrpd_sum)
  call show('LRPD_COPIED', lrpd_copied)
  call show('LRPD_PRODUCT', lrpd_product)
  call show('LRPD_MAXIMUM', lrpd_maximum)
  call show('LRPD_WORKSPACE(0, 0)', lrpd_workspace(lrpd_check_answer(0, 0, 0, 0, 0)))
  call show('LRPD_WORKSPACE(1, 1)', lrpd_workspace(lrpd_check_answer(0, 0, 0, 1, 1)))
  call show('LRPD_WORKSPACE(17, 3)', lrpd_workspace(lrpd_check_answer(0, 0, 0, 17, 3)))
  call show('LRPD_WORKSPACE(4096, 8)', lrpd_workspace(lrpd_check_answer(0, 0, 0, 4096, 8)))
  do number = 0, 14
    print '(i0, 2a)', number, ': ', lrpd_message(number)
  end do
  print '(2a)', 'all bits: ', lrpd_message(-1)

contains

  subroutine show(name, value)
    character(len=*), intent(in) :: name
    integer, intent(in) :: value

    print '(a, 1x, i0)', name, value
  end subroutine

end program
