! The loop that gfortran 12.2 gets wrong (V = K, a pending WRITE with ID=, WAIT), and what else a unit of its own size can show: WRITEs that
! stay pending, formatted ones, READs that are waited for in any order, and the conditions that they tell. The program's argument is the number of records, 150 at least.
program loop
  use lukhtame
  implicit none
  type(lk_unit) :: u
  integer :: v(1000), k, n, ios, id, wrong
  integer, asynchronous :: back(1000)
  integer, allocatable, asynchronous :: all_back(:, :)
  integer, allocatable :: ids(:)
  character(20) :: word
  call get_command_argument(1, word)
  read (word, *) n
  wrong = 0
  call lk_open(u, 'mine.unf', 'UNFORMATTED')
  do k = 1, n / 2
    v = k
    call lk_write(u, v, id=id)
    v = -1
    call lk_wait(u, id)
  end do
  do k = n / 2 + 1, n
    v = k
    call lk_write(u, v)
  end do
  v = -1
  call lk_wait(u)
  call lk_close(u)

  call lk_open(u, 'mine.txt', 'FORMATTED')
  call lk_write(u, v, iostat=ios)
  call expect(ios, 16, 'an unformatted WRITE on a formatted connection')
  do k = 1, 20
    v = k * 1000 + 7
    call lk_write(u, v, '(10I8)')
  end do
  call lk_close(u)

  allocate (all_back(1000, n), ids(n))
  call lk_open(u, 'mine.unf', 'UNFORMATTED')
  do k = 1, n
    call lk_read(u, all_back(:, k), id=ids(k))
  end do
  ! the later half by identifier, the last first, and then all others
  do k = n, n / 2 + 1, -1
    call lk_wait(u, ids(k))
    if (any(all_back(:, k) /= k)) wrong = wrong + 1
  end do
  call lk_wait(u)
  do k = 1, n / 2
    if (any(all_back(:, k) /= k)) wrong = wrong + 1
  end do
  ! the end of the file is told for the first of two, and both are told with it
  call lk_read(u, back)
  call lk_read(u, back, id=id)
  call lk_wait(u, id, iostat=ios)
  call expect(ios, -1, 'a READ at the end of the file')
  call lk_wait(u, id, iostat=ios)
  call expect(ios, 1001, 'an identifier that was told')
  ! nothing is halted after it
  call lk_read(u, back, id=id)
  call lk_wait(u, id, iostat=ios)
  call expect(ios, 20, 'a READ behind the endfile record')
  call lk_close(u)
  deallocate (all_back, ids)
  if (wrong /= 0) then
    print '(I0, A)', wrong, ' records or conditions are wrong'
    error stop 1
  end if
contains
  subroutine expect(ios, due, what)
    integer, intent(in) :: ios, due
    character(*), intent(in) :: what
    if (ios == due) return
    wrong = wrong + 1
    print '(2A, I0, A, I0)', what, ': ', ios, ', due ', due
  end subroutine
end program
