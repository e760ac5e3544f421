! The disk is full at CLOSE: it tells so, and once there is room a second CLOSE writes the file. `full give-up` ends without it.
program full
  use lukhtame
  implicit none
  type(lk_unit) :: u
  integer :: v(1000), k, ios
  logical :: is_there
  character(20) :: word
  call get_command_argument(1, word)
  call lk_open(u, 'mine.unf')
  do k = 1, 300
    v = k
    call lk_write(u, v)
  end do
  call lk_wait(u)
  call lk_close(u, iostat=ios)
  if (ios /= 2028 .or. lk_message(ios) /= 'No space left on device') error stop 'CLOSE on a full disk'
  if (word == 'give-up') stop
  inquire (file='ballast', exist=is_there)
  if (is_there) then
    open (10, file='ballast', status='old')
    close (10, status='delete')
  end if
  call lk_close(u)
end program
