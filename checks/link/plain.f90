! The files of loop, many and four by synchronous statements of gfortran: plain LOOP MANY FOUR, the numbers of records.
program plain
  implicit none
  integer :: v(1000), k, f
  character(8) :: name
  open (10, file='plain.unf', form='unformatted', status='replace')
  do k = 1, number(1)
    v = k
    write (10) v
  end do
  close (10)
  open (10, file='plain.txt', form='formatted', status='replace')
  do k = 1, 20
    v = k * 1000 + 7
    write (10, '(10I8)') v
  end do
  close (10)
  open (10, file='plain.many', form='unformatted', status='replace')
  do k = 1, number(2)
    write (10) k, -k, 2 * k, 7
  end do
  close (10)
  do f = 1, 4
    write (name, '(A, I0)') 'plain.', f
    open (10, file=name, form='unformatted', status='replace')
    do k = 1, number(3)
      v = f * 1000000 + k
      write (10) v
    end do
    close (10)
  end do
contains
  integer function number(at)
    integer, intent(in) :: at
    character(20) :: word
    call get_command_argument(at, word)
    read (word, *) number
  end function
end program
