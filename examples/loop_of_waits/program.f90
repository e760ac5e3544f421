program loop
  implicit none
  integer, asynchronous :: v
  integer :: k, id, found, wrong
  open (10, file='records', status='replace', form='unformatted', asynchronous='yes')
  do k = 1, 50
    v = k
    write (10, asynchronous='yes', id=id) v
    wait (10, id=id)
  end do
  close (10)
  open (10, file='records', status='old', form='unformatted')
  wrong = 0
  do k = 1, 50
    read (10) found
    if (found /= k) wrong = wrong + 1
  end do
  close (10)
  print '(i0,a)', wrong, ' of 50 records are wrong'
end program
