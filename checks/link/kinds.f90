! Arrays of both kinds, of rank 0 to 2, with gaps and without elements, unformatted and under formats: the statements of `kinds mine` by the library,
! and the same of `kinds plain` by gfortran. Both files have to be the same. Then the library reads what gfortran wrote.
program kinds
  use, intrinsic :: iso_fortran_env, only: int32, int64
  use lukhtame
  implicit none
  type(lk_unit) :: u
  integer(int32) :: i4(3, 4), none(0)
  integer(int64) :: i8(2, 2)
  integer :: k
  character(10) :: mode
  i4 = reshape([(k * 1000 - 3000, k = 1, 12)], [3, 4])
  i8 = reshape([-9223372036854775807_int64, 0_int64, 1_int64, 9223372036854775807_int64], [2, 2])
  call get_command_argument(1, mode)
  if (mode == 'mine') then
    call mine
    call back
  else
    call plain
  end if
contains
  subroutine mine
    call lk_open(u, 'mine.unf')
    call lk_write(u, i4)
    call lk_write(u, i4(1:3:2, 2:))
    call lk_write(u, i4(2, :))
    call lk_write(u, i4(:, 3))
    call lk_write(u, i4(3:1:-1, 4:1:-2))
    call lk_write(u, 7)
    call lk_write(u, none)
    call lk_write(u, i8)
    call lk_write(u, i8(2, 1))
    call lk_close(u)
    call lk_open(u, 'mine.txt', form='FORMATTED')
    call lk_write(u, i4, '(4I8)')
    call lk_write(u, i8, '(2(I20, 1X))')
    call lk_write(u, i4(2, 2), '("one: ", I0)')
    call lk_write(u, i4(1, :), '(Z8.8, B4.1, O6, I6)')
    call lk_close(u)
  end subroutine

  subroutine plain
    open (10, file='plain.unf', form='unformatted', status='replace')
    write (10) i4
    write (10) i4(1:3:2, 2:)
    write (10) i4(2, :)
    write (10) i4(:, 3)
    write (10) i4(3:1:-1, 4:1:-2)
    write (10) 7
    write (10) none
    write (10) i8
    write (10) i8(2, 1)
    close (10)
    open (10, file='plain.txt', form='formatted', status='replace')
    write (10, '(4I8)') i4
    write (10, '(2(I20, 1X))') i8
    write (10, '("one: ", I0)') i4(2, 2)
    write (10, '(Z8.8, B4.1, O6, I6)') i4(1, :)
    close (10)
  end subroutine

  subroutine back
    integer(int32), asynchronous :: j4(3, 4)
    integer(int64), asynchronous :: j8(2, 2), j
    integer :: ios
    call lk_open(u, 'plain.unf')
    call lk_read(u, j4)
    call lk_read(u, j4(1:3:2, :), iostat=ios)       ! gaps: it is refused, and no record is passed
    if (ios /= 1004) error stop 'a READ into an array with gaps'
    do k = 1, 6
      call lk_read(u, none)
    end do
    call lk_read(u, j8)
    call lk_read(u, j)
    call lk_wait(u)
    if (any(j4 /= i4) .or. any(j8 /= i8) .or. j /= i8(2, 1)) error stop 'values'
    call lk_close(u)
    call lk_open(u, 'plain.txt', form='FORMATTED')
    j4 = 0; j8 = 0
    call lk_read(u, j4, '(4I8)')
    call lk_read(u, j8, '(2(I20, 1X))')
    call lk_wait(u)
    if (any(j4 /= i4) .or. any(j8 /= i8)) error stop 'values under formats'
    call lk_close(u)
  end subroutine
end program
