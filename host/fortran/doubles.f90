! Asks for the values of the entry in a file as doubles. The second file is an index, a number on each line, and the third
! has a line each: `table 2 2` (a subentry and a section: every value in order), `value 2 2 1 3` (in full), `index 2 2 1 3`
! (by the index and, where there is one, by the row alone), `field      1.45-1` (the field to the line's end), or
! `decimal 1 145 -3` (negative, coefficient, power).
!
! Each value of a table is asked for by the decimal of the walk, by the field, by an index of its own and, in a short entry,
! in full; where two of these differ the program ends with 4. Where the kind of a double does not fit to it, it ends with 3.
program doubles
  use, intrinsic :: iso_c_binding, only: c_double, c_int32_t, c_int64_t
  use x4, only: x4_version, x4_interface, x4_most_numbers, x4_refused, x4_value, x4_kind, x4_is_blank, x4_is_double, &
    x4_is_decimal, x4_ask_double, x4_index_ask_double, x4_read_double, x4_to_double, x4_kind_of, x4_made_index, &
    x4_find_row, x4_walk_place, x4_begun, x4_next
  use in_words, only: bytes_of, list_of, next_line, low, refused_said
  implicit none
  character(len=:), allocatable :: entry, line
  integer(c_int32_t), allocatable :: numbers(:)
  integer(c_int32_t) :: own(x4_most_numbers)
  type(x4_refused) :: r
  integer(c_int64_t) :: number
  integer :: list, status, rows
  if (x4_version() /= x4_interface) stop 2
  entry = bytes_of(1)
  list = list_of(2)
  allocate (numbers(0))
  do
    read (list, *, iostat=status) number
    if (status /= 0) exit
    numbers = [numbers, low(number)]
  end do
  close (list)
  r = x4_made_index(entry, own, rows)
  list = list_of(3)
  do while (next_line(list, line))
    call answer(line)
  end do

contains

  subroutine answer(line)
    character(len=*), intent(in) :: line
    character(len=:), allocatable :: words, question
    type(x4_value) :: v
    type(x4_kind) :: k
    integer(c_int64_t) :: n(4)
    real(c_double) :: x
    integer(c_int32_t) :: place(4)
    integer :: i
    question = line(:index(line, ' ') - 1)
    words = line(index(line, ' ') + 1:)
    n = 0
    select case (question)
    case ('field')
      x = x4_read_double(words, k)
      call say(x, k)
      return
    case ('table')
      read (words, *) n(:2)
      call table(low(n(1)), low(n(2)))
      return
    case ('decimal')
      read (words, *) n(:3)
      v%blank = .false.
      v%negative = n(1) /= 0
      v%coefficient = n(2)
      v%power = int(n(3), c_int32_t)
      k%kind = x4_kind_of(v)
      call say(x4_to_double(v), k)
      return
    end select
    read (words, *) n
    place = [(low(n(i)), i = 1, 4)]
    if (question == 'value') then
      x = x4_ask_double(entry, place(1), place(2), place(3), place(4), k)
      call say(x, k)
    else
      call by_index(place)
    end if
  end subroutine answer

  ! by all numbers and, where there is one, by the row alone
  subroutine by_index(at)
    integer(c_int32_t), intent(in) :: at(4)
    type(x4_kind) :: k, l
    real(c_double) :: x, y
    integer :: first
    x = x4_index_ask_double(entry, numbers, at(1), at(2), at(3), at(4), k)
    r = x4_find_row(numbers, at(1), first)
    if (r%number == 0) then
      y = x4_index_ask_double(entry, numbers(first:first + 4), at(1), at(2), at(3), at(4), l)
      if (.not. same(x, k, y, l)) stop 4
    end if
    call say(x, k)
  end subroutine by_index

  ! every value of a table: the loop of a fitting code
  subroutine table(n, section)
    integer(c_int32_t), intent(in) :: n, section
    character(len=11) :: field
    type(x4_walk_place) :: walk
    type(x4_value) :: v
    type(x4_kind) :: k, l
    real(c_double) :: x, y
    integer(c_int32_t) :: at, column
    integer :: records, first
    k%refused = x4_begun(entry, n, section, walk)
    if (k%refused%number /= 0) call say(0.0_c_double, k)
    do while (x4_next(entry, walk, at, column, v))
      x = x4_to_double(v)
      k = x4_kind(v%refused, x4_kind_of(v), v%digits)
      records = (walk%columns + 5)/6
      first = 81*(walk%section + (at + 1)*records + (column - 1)/6) + 11*mod(column - 1, 6) + 1
      field = entry(first:first + 10)
      y = x4_read_double(field, l)
      if (.not. same(x, k, y, l)) stop 4
      y = x4_index_ask_double(entry, own(:5*rows), n, section, at, column, l)
      if (.not. same(x, k, y, l)) stop 4
      if (len(entry) <= 100*81) then
        y = x4_ask_double(entry, n, section, at, column, l)
        if (.not. same(x, k, y, l)) stop 4
      end if
      write (*, '(i0,1x,i0,1x)', advance='no') at, column
      call say(x, k)
    end do
    write (*, '(a)') 'done'
  end subroutine table

  pure integer(c_int64_t) function bits(x)
    real(c_double), intent(in) :: x
    bits = transfer(x, 0_c_int64_t)
  end function bits

  ! whether two answers are the same
  pure logical function same(x, k, y, l)
    real(c_double), intent(in) :: x, y
    type(x4_kind), intent(in) :: k, l
    same = bits(x) == bits(y) .and. k%kind == l%kind .and. k%digits == l%digits .and. &
           k%refused%number == l%refused%number .and. k%refused%refusal == l%refused%refusal .and. &
           k%refused%place == l%refused%place .and. k%refused%column == l%refused%column .and. &
           k%refused%ordinal == 0 .and. l%refused%ordinal == 0
  end function same

  subroutine say(x, k)
    real(c_double), intent(in) :: x
    type(x4_kind), intent(in) :: k
    character(len=:), allocatable :: said
    if (k%kind /= x4_is_double .and. bits(x) /= 0) stop 3
    if (k%refused%number /= 0) then
      if (k%kind /= x4_is_blank .or. k%digits /= 0) stop 3
      said = refused_said(k%refused)
      write (*, '(a)') said
    else if (k%kind == x4_is_double) then
      write (*, '(a,z16.16,a,i0)') 'double ', bits(x), ' digits ', k%digits
    else if (k%kind == x4_is_decimal) then
      write (*, '(a,i0)') 'decimal digits ', k%digits
    else
      write (*, '(a,i0)') 'blank digits ', k%digits
    end if
  end subroutine say
end program doubles
