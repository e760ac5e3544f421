! So many WRITEs that are all pending, and as many READs; then WRITEs that are waited for one by one, each by its identifier.
! It prints the microseconds that each took: a WRITE with its share of the WAIT, a READ, and a WRITE with a WAIT of its own.
program many
  use, intrinsic :: iso_fortran_env, only: int64
  use lukhtame
  implicit none
  type(lk_unit) :: u
  integer, allocatable, asynchronous :: back(:, :)
  integer, allocatable :: ids(:)
  integer :: k, n, wrong
  integer(int64) :: at(4), rate
  character(20) :: word
  call get_command_argument(1, word)
  read (word, *) n
  allocate (back(4, n), ids(n))
  call system_clock(at(1), rate)
  call lk_open(u, 'mine.many')
  do k = 1, n
    call lk_write(u, [k, -k, 2 * k, 7])
  end do
  call lk_wait(u)
  call lk_close(u)
  call system_clock(at(2))
  call lk_open(u, 'mine.many')
  do k = 1, n
    call lk_read(u, back(:, k))
  end do
  call lk_wait(u)
  call lk_close(u)
  call system_clock(at(3))
  call lk_open(u, 'mine.each')
  do k = 1, n
    call lk_write(u, [k, -k, 2 * k, 7], id=ids(k))
    call lk_wait(u, ids(k))
  end do
  call lk_close(u)
  call system_clock(at(4))
  wrong = 0
  do k = 1, n
    if (any(back(:, k) /= [k, -k, 2 * k, 7])) wrong = wrong + 1
  end do
  deallocate (back, ids)
  if (wrong /= 0) error stop 'records are wrong'
  print '(3F9.2)', 1e6 * (at(2:4) - at(1:3)) / real(rate) / n
end program
