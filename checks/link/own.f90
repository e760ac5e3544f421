! The loop of `loop` in statements of the language, for gfortran to carry out: how many of 50 records are wrong.
program own
  implicit none
  integer, asynchronous :: v(1000)
  integer :: id, k, n, w(1000)
  open (10, file='own.unf', form='unformatted', status='replace', asynchronous='yes')
  do k = 1, 50
    v = k
    write (10, asynchronous='yes', id=id) v
    wait (10, id=id)
  end do
  close (10)
  open (10, file='own.unf', form='unformatted', status='old')
  n = 0
  do k = 1, 50
    read (10) w
    if (any(w /= k)) n = n + 1
  end do
  print '(I0)', n
end program
