! Asks about the lines in the CINDA2001 layout of a file. The second file has a line each: `check`, `line 1`, `pieces 1`, or
! `back 126`, lines written back to a text of so many characters, of which both sums of Adler-32 are printed, whether it is
! refused or not. Each answered line is asked for alone, too; if it is another, the program ends with 4.
program cinda
  use, intrinsic :: iso_c_binding, only: c_int32_t, c_int64_t
  use x4, only: x4_version, x4_interface, x4_refused, x4_part, x4_cinda_fields, x4_cinda_length, x4_cinda_checked, &
                x4_cinda_taken, x4_cinda_parts, x4_cinda_copied
  use in_words, only: bytes_of, list_of, next_line, low, value_said
  implicit none
  character(len=:), allocatable :: lines, asked
  integer(c_int64_t) :: n
  integer :: list, blank
  if (x4_version() /= x4_interface) stop 2
  lines = bytes_of(1)
  list = list_of(2)
  do while (next_line(list, asked))
    blank = index(asked//' ', ' ')
    n = 0
    if (blank < len(asked)) read (asked(blank:), *) n
    select case (asked(:blank - 1))
    case ('check')
      call say_refused(x4_cinda_checked(lines))
    case ('line')
      call line(low(n))
    case ('pieces')
      call pieces(low(n))
    case ('back')
      call back(int(n))
    case default
      stop 2
    end select
  end do

contains

  subroutine say_refused(r)
    type(x4_refused), intent(in) :: r
    if (r%refusal /= 0 .or. r%ordinal /= 0) stop 3
    write (*, '(a,3(1x,i0))') 'refused', r%number, r%place, r%column
  end subroutine say_refused

  function said(f)
    type(x4_cinda_fields), intent(in) :: f
    character(len=:), allocatable :: said
    character(len=120) :: text
    write (text, '(13(i0,1x),i0)') iachar(f%operation), f%z, f%a, merge(1, 0, f%many), iachar(f%isomer), &
      iachar(f%area), f%block, f%sequence, iachar(f%work), iachar(f%reader), iachar(f%hierarchy), iachar(f%kind), &
      f%year, f%month
    said = trim(text)//' '//value_said(f%least)//' '//value_said(f%greatest)
  end function said

  subroutine line(n)
    integer(c_int32_t), intent(in) :: n
    type(x4_cinda_fields) :: f, alone
    f = x4_cinda_taken(lines, n)
    if (f%refused%number /= 0) then
      if (f%z /= 0 .or. f%comment /= ' ' .or. .not. f%least%blank) stop 3
      call say_refused(f%refused)
      return
    end if
    write (*, '(a)') said(f)
    alone = x4_cinda_taken(lines(x4_cinda_length*(n - 1) + 1:x4_cinda_length*n), 1_c_int32_t)
    if (alone%refused%number /= 0 .or. said(alone) /= said(f)) stop 4
    if (alone%reaction//alone%quantity//alone%institute /= f%reaction//f%quantity//f%institute) stop 4
    if (alone%reference//alone%comment /= f%reference//f%comment) stop 4
  end subroutine line

  subroutine pieces(n)
    integer(c_int32_t), intent(in) :: n
    type(x4_part) :: p(6)
    type(x4_refused) :: r
    type(x4_cinda_fields) :: f
    integer :: i
    r = x4_cinda_parts(lines, n, p)
    if (r%number /= 0) then
      if (any(p%last >= p%first)) stop 3
      call say_refused(r)
      return
    end if
    write (*, '(12(i0,1x))', advance='no') (p(i)%first - 1, p(i)%last - p(i)%first + 1, i=1, 6)
    do i = 2, 6
      write (*, '(3a)', advance='no') '[', lines(p(i)%first:p(i)%last), ']'
    end do
    write (*, '()')
    f = x4_cinda_taken(lines, n)
    if (lines(p(2)%first:p(4)%last) /= f%reaction//f%quantity//f%institute) stop 4
    if (lines(p(5)%first:p(5)%last) /= f%reference .or. lines(p(6)%first:p(6)%last) /= f%comment) stop 4
  end subroutine pieces

  subroutine back(room)
    integer, intent(in) :: room
    character(len=:), allocatable :: copy
    type(x4_refused) :: r
    integer :: i, first, second
    allocate (character(len=room) :: copy)
    copy(:) = repeat('#', room)
    r = x4_cinda_copied(lines, copy)
    if (r%number /= 0) call say_refused(r)
    first = 1
    second = 0
    do i = 1, room
      first = mod(first + iachar(copy(i:i)), 65521)
      second = mod(second + first, 65521)
    end do
    write (*, '(i0,a,i0,1x,i0)') room, ' bytes ', first, second
  end subroutine back
end program cinda
