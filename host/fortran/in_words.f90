! What the programs that read a list of questions share: files, numbers without a sign, and answers in words.
module in_words
  use, intrinsic :: iso_c_binding, only: c_char, c_int32_t, c_int64_t
  use x4, only: x4_value, x4_part, x4_refused
  implicit none
  private
  public :: bytes_of, list_of, next_line, low, refused_said, value_said, part_said

contains

  ! the bytes of the file that an argument names
  function bytes_of(argument) result(bytes)
    integer, intent(in) :: argument
    character(len=:, kind=c_char), allocatable :: bytes
    character(len=256) :: name
    integer :: unit, length
    call get_command_argument(argument, name)
    open (newunit=unit, file=trim(name), status='old', action='read', access='stream', form='unformatted')
    inquire (unit, size=length)
    allocate (character(len=length) :: bytes)
    if (length > 0) read (unit) bytes
    close (unit)
  end function bytes_of

  ! the file that an argument names, opened to be read line by line
  integer function list_of(argument)
    integer, intent(in) :: argument
    character(len=256) :: name
    call get_command_argument(argument, name)
    open (newunit=list_of, file=trim(name), status='old', action='read')
  end function list_of

  ! whether there is a next line, and that line with the blanks at its end
  logical function next_line(list, line)
    integer, intent(in) :: list
    character(len=:), allocatable, intent(out) :: line
    character(len=256) :: text
    integer :: status, length
    read (list, '(a)', advance='no', size=length, iostat=status) text
    next_line = status <= 0 .and. .not. is_iostat_end(status)
    if (next_line) line = text(:length)
  end function next_line

  ! a number of 32 bits without a sign, as C has it
  pure integer(c_int32_t) function low(n)
    integer(c_int64_t), intent(in) :: n
    low = int(merge(n - 2_c_int64_t**32, n, n >= 2_c_int64_t**31), c_int32_t)
  end function low

  function refused_said(r) result(said)
    type(x4_refused), intent(in) :: r
    character(len=:), allocatable :: said
    character(len=80) :: text
    write (text, '(a,4(1x,i0))') 'refused', r%number, r%refusal, r%place, r%column
    said = trim(text)
  end function refused_said

  function value_said(v) result(said)
    type(x4_value), intent(in) :: v
    character(len=:), allocatable :: said
    character(len=20) :: coefficient, power, digits
    write (digits, '(i0)') v%digits
    if (v%refused%number /= 0) then
      ! no digit is counted beside a refusal
      if (v%digits /= 0) stop 3
      said = refused_said(v%refused)
    else if (v%blank) then
      said = 'blank digits '//trim(digits)
    else
      write (coefficient, '(i0)') v%coefficient
      write (power, '(i0)') v%power
      said = trim(merge('-', ' ', v%negative))//trim(coefficient)//'E'//trim(power)//' digits '//trim(digits)
    end if
  end function value_said

  function part_said(p) result(said)
    type(x4_part), intent(in) :: p
    character(len=:), allocatable :: said
    character(len=80) :: text
    if (p%refused%number /= 0) then
      said = refused_said(p%refused)
    else
      write (text, '(i0,1x,i0,1x,i0)') p%first - 1, p%last - p%first + 1, iachar(p%pointer)
      said = trim(text)
    end if
  end function part_said
end module in_words
