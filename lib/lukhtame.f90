! What a Fortran program uses: units whose transfers are pending until they are waited for. docs/LINK.md says what each call does.
module lukhtame
  use, intrinsic :: iso_c_binding
  use, intrinsic :: iso_fortran_env, only: int32, int64
  implicit none
  private
  public :: lk_unit, lk_open, lk_write, lk_read, lk_wait, lk_close, lk_message

  type :: lk_unit
    private
    integer(c_int32_t) :: number = 0
  end type

  ! as in lukhtame.h
  integer(c_int32_t), parameter :: UNORDERED = 1001

  interface
    function open_c(path, form, number) bind(c, name='lk_open') result(code)
      import; character(kind=c_char), intent(in) :: path(*), form(*)
      integer(c_int32_t), intent(out) :: number
      integer(c_int32_t) :: code
    end function
    function write_c(number, fmt, values, id) bind(c, name='lk_fortran_write') result(code)
      import; integer(c_int32_t), value :: number
      character(kind=c_char), intent(in) :: fmt(*)
      type(*), dimension(..), intent(in) :: values
      integer(c_int32_t), intent(inout) :: id
      integer(c_int32_t) :: code
    end function
    function read_c(number, fmt, values, id) bind(c, name='lk_fortran_read') result(code)
      import; integer(c_int32_t), value :: number
      character(kind=c_char), intent(in) :: fmt(*)
      type(*), dimension(..), asynchronous, target :: values
      integer(c_int32_t), intent(inout) :: id
      integer(c_int32_t) :: code
    end function
    function wait_c(number, id) bind(c, name='lk_wait') result(code)
      import; integer(c_int32_t), value :: number, id
      integer(c_int32_t) :: code
    end function
    function close_c(number) bind(c, name='lk_close') result(code)
      import; integer(c_int32_t), intent(inout) :: number
      integer(c_int32_t) :: code
    end function
    subroutine message_c(code, text, room) bind(c, name='lk_message')
      import; integer(c_int32_t), value :: code
      character(kind=c_char), intent(inout) :: text(*)
      integer(c_size_t), value :: room
    end subroutine
  end interface

  ! WRITE, pending: the array may be changed from here on.
  interface lk_write
    module procedure write_integer_4, write_integer_8
  end interface

  ! READ, pending: the array has no gaps, is undefined until the WAIT that tells the transfer, and stays where it is until then.
  interface lk_read
    module procedure read_integer_4, read_integer_8
  end interface

contains

  ! OPEN with STATUS='UNKNOWN' and ASYNCHRONOUS='YES'; FORM= is 'UNFORMATTED' where it is not given.
  subroutine lk_open(unit, file, form, iostat)
    type(lk_unit), intent(inout) :: unit
    character(*), intent(in) :: file
    character(*), intent(in), optional :: form
    integer, intent(out), optional :: iostat
    character(:), allocatable :: word
    integer(c_int32_t) :: code
    word = 'UNFORMATTED'
    if (present(form)) word = form
    code = UNORDERED
    if (unit%number == 0) code = open_c(text_of(file), text_of(word), unit%number)
    call tell(code, iostat)
  end subroutine

  function text_of(words) result(text)
    character(*), intent(in), optional :: words
    character(:), allocatable :: text
    text = c_null_char
    if (present(words)) text = trim(words) // c_null_char
  end function

  ! IOSTAT=, or the end of the program.
  subroutine tell(code, iostat)
    integer(c_int32_t), intent(in) :: code
    integer, intent(out), optional :: iostat
    character(:), allocatable :: message
    if (present(iostat)) then
      iostat = code
    else if (code /= 0) then
      message = lk_message(int(code))
      error stop message
    end if
  end subroutine

  subroutine write_integer_4(unit, values, fmt, id, iostat)
    type(lk_unit), intent(in) :: unit
    integer(int32), dimension(..), intent(in) :: values
    character(*), intent(in), optional :: fmt
    integer, intent(out), optional :: id, iostat
    integer(c_int32_t) :: code, given
    code = write_c(unit%number, text_of(fmt), values, given)
    if (code == 0 .and. present(id)) id = given
    call tell(code, iostat)
  end subroutine

  subroutine write_integer_8(unit, values, fmt, id, iostat)
    type(lk_unit), intent(in) :: unit
    integer(int64), dimension(..), intent(in) :: values
    character(*), intent(in), optional :: fmt
    integer, intent(out), optional :: id, iostat
    integer(c_int32_t) :: code, given
    code = write_c(unit%number, text_of(fmt), values, given)
    if (code == 0 .and. present(id)) id = given
    call tell(code, iostat)
  end subroutine

  subroutine read_integer_4(unit, values, fmt, id, iostat)
    type(lk_unit), intent(in) :: unit
    integer(int32), dimension(..), intent(inout), asynchronous, target :: values
    character(*), intent(in), optional :: fmt
    integer, intent(out), optional :: id, iostat
    integer(c_int32_t) :: code, given
    code = read_c(unit%number, text_of(fmt), values, given)
    if (code == 0 .and. present(id)) id = given
    call tell(code, iostat)
  end subroutine

  subroutine read_integer_8(unit, values, fmt, id, iostat)
    type(lk_unit), intent(in) :: unit
    integer(int64), dimension(..), intent(inout), asynchronous, target :: values
    character(*), intent(in), optional :: fmt
    integer, intent(out), optional :: id, iostat
    integer(c_int32_t) :: code, given
    code = read_c(unit%number, text_of(fmt), values, given)
    if (code == 0 .and. present(id)) id = given
    call tell(code, iostat)
  end subroutine

  ! WAIT for one transfer, or for all of the unit.
  subroutine lk_wait(unit, id, iostat)
    type(lk_unit), intent(in) :: unit
    integer, intent(in), optional :: id
    integer, intent(out), optional :: iostat
    integer(c_int32_t) :: which
    which = 0
    if (present(id)) which = merge(id, -1, id > 0)
    call tell(wait_c(unit%number, which), iostat)
  end subroutine

  ! CLOSE: the file is written. Where that fails the unit stays as it is, and CLOSE may be tried again.
  subroutine lk_close(unit, iostat)
    type(lk_unit), intent(inout) :: unit
    integer, intent(out), optional :: iostat
    call tell(close_c(unit%number), iostat)
  end subroutine

  ! What a value of IOSTAT= says.
  function lk_message(iostat) result(message)
    integer, intent(in) :: iostat
    character(:), allocatable :: message
    character(kind=c_char, len=200) :: text
    text = ''
    call message_c(int(iostat, c_int32_t), text, int(len(text), c_size_t))
    message = text(:index(text, c_null_char) - 1)
  end function
end module
