! A program with a named range, "smooth": rounds N.
program rounds_of_smoothing
  implicit none
  integer, parameter :: cell_count = 4096
  double precision :: cells(cell_count)
  integer :: rounds, round, i, code
  character(len=20) :: word

  rounds = 100
  call get_command_argument(1, word)
  if (len_trim(word) > 0) read (word, *) rounds
  cells = 0
  cells(cell_count / 2) = 1
  call papif_hl_region_begin("smooth", code)
  if (code /= 0) stop 2
  do round = 1, rounds
    do i = 2, cell_count - 1
      cells(i) = (cells(i - 1) + cells(i) + cells(i + 1)) / 3
    end do
  end do
  call papif_hl_region_end("smooth", code)
  if (code /= 0) stop 2
  if (cells(2) > 1) stop 3
end program rounds_of_smoothing
