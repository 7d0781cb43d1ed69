! Answers the questions of a file about the entry in another: a line each, `value 2 2 1 3`, `heading 2 2 1`,
! `unit 2 2 1`, `copy 2106`, or `passage 2 49 REACTION  ` (the pointer's byte, then the keyword to the line's end).
program questions
  use, intrinsic :: iso_c_binding, only: c_char, c_int64_t
  use x4, only: x4_refused, x4_ask_value, x4_ask_heading, x4_ask_unit, x4_ask_passage, x4_copied
  use in_words, only: bytes_of, list_of, next_line, low, refused_said, value_said, part_said
  implicit none
  character(len=:), allocatable :: entry, line
  integer :: list
  entry = bytes_of(1)
  list = list_of(2)
  do while (next_line(list, line))
    call answer(line)
  end do

contains

  subroutine answer(line)
    character(len=*), intent(in) :: line
    character(len=:), allocatable :: words, said
    integer(c_int64_t) :: n(4)
    integer :: first, keyword
    first = index(line, ' ')
    words = line(first + 1:)
    n = 0
    select case (line(:first - 1))
    case ('value')
      read (words, *) n
      said = value_said(x4_ask_value(entry, low(n(1)), low(n(2)), low(n(3)), low(n(4))))
    case ('heading')
      read (words, *) n(:3)
      said = part_said(x4_ask_heading(entry, low(n(1)), low(n(2)), low(n(3))))
    case ('unit')
      read (words, *) n(:3)
      said = part_said(x4_ask_unit(entry, low(n(1)), low(n(2)), low(n(3))))
    case ('passage')
      read (words, *) n(:2)
      keyword = index(words, ' ') + 1
      keyword = keyword + index(words(keyword:), ' ')
      said = part_said(x4_ask_passage(entry, low(n(1)), words(keyword:), achar(int(n(2)))))
    case default
      read (words, *) n(:1)
      said = copy_said(int(n(1)))
    end select
    write (*, '(a)') said
  end subroutine answer

  ! a copy into so many characters, by the sum of their bytes afterwards
  function copy_said(room) result(said)
    integer, intent(in) :: room
    character(len=:), allocatable :: said
    character(len=room, kind=c_char) :: copy
    character(len=20) :: text
    type(x4_refused) :: r
    integer(c_int64_t) :: total
    integer :: i
    copy = repeat('#', room)
    r = x4_copied(entry, copy)
    total = 0
    do i = 1, room
      total = modulo(65599_c_int64_t*total + iachar(copy(i:i)), 2_c_int64_t**32)
    end do
    write (text, '(i0)') total
    if (r%number /= 0) then
      said = trim(text)//' '//refused_said(r)
    else
      said = trim(text)//' copied'
    end if
  end function copy_said
end program questions
