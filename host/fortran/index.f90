! Makes indexes of the entry in a file and answers questions by the index in another, a number on each line. The third
! file has a line each: `make 10` (into so many numbers, each 7 before), `row 2`, `value 2 2 1 3`, `heading 2 2 1`,
! `unit 2 2 1`, or `passage 2 49 REACTION  ` (the pointer's byte, then the keyword to the line's end). A question is
! asked by all numbers and, where there is one, by the row alone.
program by_index
  use, intrinsic :: iso_c_binding, only: c_int32_t, c_int64_t
  use x4, only: x4_version, x4_interface, x4_refused, x4_made_index, x4_find_row, x4_index_ask_value, &
    x4_index_ask_heading, x4_index_ask_unit, x4_index_ask_passage
  use in_words, only: bytes_of, list_of, next_line, low, refused_said, value_said, part_said
  implicit none
  character(len=:), allocatable :: entry, line
  integer(c_int32_t), allocatable :: numbers(:)
  integer(c_int64_t) :: number
  integer :: list, status
  if (x4_version() /= x4_interface) stop 2
  entry = bytes_of(1)
  list = list_of(2)
  allocate (numbers(0))
  do
    read (list, *, iostat=status) number
    if (status /= 0) exit
    numbers = [numbers, low(number)]
  end do
  close (list)
  list = list_of(3)
  do while (next_line(list, line))
    call answer(line)
  end do

contains

  subroutine answer(line)
    character(len=*), intent(in) :: line
    character(len=:), allocatable :: words, question, said
    type(x4_refused) :: r
    integer(c_int64_t) :: n(4)
    integer :: first
    question = line(:index(line, ' ') - 1)
    words = line(index(line, ' ') + 1:)
    n = 0
    if (question == 'make') then
      read (words, *) n(:1)
      call make(int(n(1)))
      return
    end if
    read (words, *) n(:1)
    r = x4_find_row(numbers, low(n(1)), first)
    if (question == 'row') then
      if (r%number /= 0) then
        call say_refused(r)
      else
        write (*, '(i0)') first/5
      end if
    else if (r%number == 0) then
      ! by the row alone; where all numbers say otherwise the program ends
      said = asked(numbers(first:first + 4), question, words)
      if (asked(numbers, question, words) /= said) stop 3
      write (*, '(a)') said
    else
      said = asked(numbers, question, words)
      write (*, '(a)') said
    end if
  end subroutine answer

  ! the answer by some numbers, in words
  function asked(by, question, words) result(said)
    integer(c_int32_t), contiguous, intent(in) :: by(:)
    character(len=*), intent(in) :: question, words
    character(len=:), allocatable :: said
    integer(c_int64_t) :: n(4)
    integer :: keyword
    n = 0
    select case (question)
    case ('value')
      read (words, *) n
      said = value_said(x4_index_ask_value(entry, by, low(n(1)), low(n(2)), low(n(3)), low(n(4))))
    case ('heading')
      read (words, *) n(:3)
      said = part_said(x4_index_ask_heading(entry, by, low(n(1)), low(n(2)), low(n(3))))
    case ('unit')
      read (words, *) n(:3)
      said = part_said(x4_index_ask_unit(entry, by, low(n(1)), low(n(2)), low(n(3))))
    case default
      read (words, *) n(:2)
      keyword = index(words, ' ') + 1
      keyword = keyword + index(words(keyword:), ' ')
      said = part_said(x4_index_ask_passage(entry, by, low(n(1)), words(keyword:), achar(int(n(2)))))
    end select
  end function asked

  subroutine say_refused(r)
    type(x4_refused), intent(in) :: r
    character(len=:), allocatable :: said
    said = refused_said(r)
    write (*, '(a)') said
  end subroutine say_refused

  subroutine make(room)
    integer, intent(in) :: room
    integer(c_int32_t) :: made(room)
    type(x4_refused) :: r
    integer(c_int64_t) :: total
    integer :: i, rows
    made = 7
    r = x4_made_index(entry, made, rows)
    total = 0
    do i = 1, room
      total = modulo(65599_c_int64_t*total + made(i), 2_c_int64_t**32)
    end do
    write (*, '(i0,1x,i0,1x)', advance='no') total, rows
    if (r%number /= 0) then
      call say_refused(r)
    else
      write (*, '(a)') 'made'
    end if
  end subroutine make
end program by_index
