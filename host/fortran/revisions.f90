! Asks about a held entry and a revision of it, the first two files. The third has a line each: `subentry 2`, a part of whichever of
! the two holds it, or `merge 4212`, the merge in a text of so many characters, whose sums (Adler-32) are printed, refused or not.
program revisions
  use, intrinsic :: iso_c_binding, only: c_int32_t, c_int64_t
  use x4, only: x4_version, x4_interface, x4_refused, x4_subentry, x4_held, x4_revision, x4_subentry_of, x4_merged
  use in_words, only: bytes_of, list_of, next_line, low
  implicit none
  character(len=:), allocatable :: held, revision, asked
  integer(c_int64_t) :: n
  integer :: list, blank
  if (x4_version() /= x4_interface) stop 2
  held = bytes_of(1)
  revision = bytes_of(2)
  list = list_of(3)
  do while (next_line(list, asked))
    blank = index(asked//' ', ' ')
    read (asked(blank:), *) n
    select case (asked(:blank - 1))
    case ('subentry')
      call part(x4_subentry_of(held, revision, low(n)))
    case ('merge')
      call merge_in(int(n))
    case default
      stop 2
    end select
  end do

contains

  subroutine part(s)
    type(x4_subentry), intent(in) :: s
    if (s%refused%number /= 0) then
      if (s%which /= 0 .or. s%last >= s%first) stop 3
      write (*, '(a)') refused_said(s%refused)
    else if (s%which == x4_held) then
      write (*, '(a,2(1x,i0),a)') 'part 1', s%first - 1, s%last - s%first + 1, sums(held(s%first:s%last))
    else if (s%which == x4_revision) then
      write (*, '(a,2(1x,i0),a)') 'part 2', s%first - 1, s%last - s%first + 1, sums(revision(s%first:s%last))
    else
      stop 3
    end if
  end subroutine part

  subroutine merge_in(room)
    integer, intent(in) :: room
    character(len=:), allocatable :: out
    type(x4_refused) :: r
    integer :: length
    out = repeat('#', room)
    r = x4_merged(held, revision, out, length)
    if (verify(out(length + 1:), '#') /= 0) stop 3
    if (r%number == 0) then
      write (*, '(a,i0,a)') 'merged ', length, sums(out)
    else
      if (len_trim(out(:length)) /= 0 .or. (r%number /= 63 .and. length /= 0)) stop 3
      write (*, '(a,1x,i0,a)') refused_said(r), length, sums(out)
    end if
  end subroutine merge_in

  ! the number, why an entry or the merge is refused, and beside 60 which entry
  function refused_said(r) result(text)
    type(x4_refused), intent(in) :: r
    character(len=:), allocatable :: text
    character(len=80) :: line
    write (line, '(a,5(1x,i0))') 'refused', r%number, r%refusal, r%place, r%column, r%ordinal
    text = trim(line)
  end function refused_said

  function sums(text) result(said)
    character(len=*), intent(in) :: text
    character(len=:), allocatable :: said
    character(len=40) :: line
    integer(c_int32_t) :: first, second
    integer :: i
    first = 1
    second = 0
    do i = 1, len(text)
      first = mod(first + iachar(text(i:i)), 65521_c_int32_t)
      second = mod(second + first, 65521_c_int32_t)
    end do
    write (line, '(2(1x,i0))') first, second
    said = trim(line)
  end function sums
end program revisions
