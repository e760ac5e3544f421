! Four units side by side: their workers carry out what the program has begun on each, and READs of the same files afterwards.
program four
  use lukhtame
  implicit none
  type(lk_unit) :: u(4)
  integer, allocatable, asynchronous :: back(:, :, :)
  integer :: v(1000), k, f, n, wrong, id(4)
  character(20) :: word
  call get_command_argument(1, word)
  read (word, *) n
  do f = 1, 4
    write (word, '(A, I0)') 'mine.', f
    call lk_open(u(f), word)
  end do
  do k = 1, n
    do f = 1, 4
      v = f * 1000000 + k
      call lk_write(u(f), v, id=id(f))
      if (mod(k, 7) == f) call lk_wait(u(f), id(f))
    end do
    v = 0
  end do
  do f = 4, 1, -1
    call lk_close(u(f))
  end do
  allocate (back(1000, n, 4))
  do f = 1, 4
    write (word, '(A, I0)') 'mine.', f
    call lk_open(u(f), word)
  end do
  do k = 1, n
    do f = 1, 4
      call lk_read(u(f), back(:, k, f))
    end do
  end do
  wrong = 0
  do f = 1, 4
    call lk_close(u(f))
    do k = 1, n
      if (any(back(:, k, f) /= f * 1000000 + k)) wrong = wrong + 1
    end do
  end do
  deallocate (back)
  if (wrong /= 0) error stop 'records are wrong'
end program
