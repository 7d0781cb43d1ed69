! Goes through tables of the entry in a file. The second file has a line each: `table 2 2` (a subentry and a section: its
! values in order, each on a line), `from 19 3 2 1 1` (a walk put together by hand, and what it gives, 50 values at the
! most), or `forgotten 2 2` (a table as in the first, by a program that does not look at the refusal, and how many values
! it is given). A walk that is done is asked a hundred times more; if it then says otherwise, the program ends with 3.
! In a short entry each value of a table is also asked for; if it is another, the program ends with 4.
program walked
  use, intrinsic :: iso_c_binding, only: c_int32_t, c_int64_t
  use x4, only: x4_version, x4_interface, x4_value, x4_refused, x4_walk_place, x4_begun, x4_next, x4_ask_value
  implicit none
  character(len=256) :: name, line
  character(len=:), allocatable :: entry
  type(x4_refused) :: r
  type(x4_walk_place) :: walk
  type(x4_value) :: v
  integer(c_int32_t) :: at, column
  integer(c_int64_t) :: n(5)
  integer :: length, status, left
  logical :: table
  if (x4_version() /= x4_interface) stop 2
  call get_command_argument(1, name)
  open (10, file=trim(name), status='old', action='read', access='stream', form='unformatted')
  inquire (10, size=length)
  allocate (character(len=length) :: entry)
  if (length > 0) read (10) entry
  call get_command_argument(2, name)
  open (11, file=trim(name), status='old', action='read')
  do
    read (11, '(a)', iostat=status) line
    if (status /= 0) exit
    if (line(:9) == 'forgotten') then
      read (line(10:), *) n(:2)
      write (*, '(i0,a)') forgotten(low(n(1)), low(n(2))), ' values'
      cycle
    end if
    table = line(:5) == 'table'
    if (table) then
      read (line(6:), *) n(:2)
      left = 1000000
      r = x4_begun(entry, low(n(1)), low(n(2)), walk)
      if (r%number /= 0) write (*, '(a,4(1x,i0))') 'refused', r%number, r%refusal, r%place, r%column
    else
      read (line(5:), *) n
      left = 50
      walk = x4_walk_place(low(n(1)), low(n(2)), low(n(3)), low(n(4)), low(n(5)))
    end if
    do while (left > 0)
      if (.not. x4_next(entry, walk, at, column, v)) exit
      call say(at, column, v)
      if (table .and. length <= 100*81) call ask()
      left = left - 1
    end do
    if (left > 0) then
      write (*, '(a)') 'done'
      call stay()
    end if
  end do

contains

  ! a number of 32 bits without a sign, as C has it
  pure integer(c_int32_t) function low(n)
    integer(c_int64_t), intent(in) :: n
    low = int(merge(n - 2_c_int64_t**32, n, n >= 2_c_int64_t**31), c_int32_t)
  end function low

  ! how many values the loop of a program gives that does not look at the refusal, 1,000 at the most; its walk was in
  ! the middle of another table
  integer function forgotten(subentry, section)
    integer(c_int32_t), intent(in) :: subentry, section
    forgotten = 0
    walk = x4_walk_place(19, 3, 2, 1, 2)
    r = x4_begun(entry, subentry, section, walk)
    do while (forgotten < 1000)
      if (.not. x4_next(entry, walk, at, column, v)) exit
      forgotten = forgotten + 1
    end do
  end function forgotten

  ! the full question gives the same value; each judges, so a long entry is not asked
  subroutine ask()
    type(x4_value) :: asked
    asked = x4_ask_value(entry, low(n(1)), low(n(2)), at, column)
    if (asked%refused%number /= 0 .or. v%refused%number /= 0) stop 4
    if ((asked%blank .neqv. v%blank) .or. (asked%negative .neqv. v%negative)) stop 4
    if (asked%coefficient /= v%coefficient .or. asked%power /= v%power .or. asked%digits /= v%digits) stop 4
  end subroutine ask

  ! done, and staying so
  subroutine stay()
    type(x4_walk_place) :: before
    integer :: i
    before = walk
    do i = 1, 100
      if (x4_next(entry, walk, at, column, v)) stop 3
      if (walk%section /= before%section .or. walk%columns /= before%columns .or. walk%lines /= before%lines) stop 3
      if (walk%line /= before%line .or. walk%column /= before%column .or. at /= 0 .or. column /= 0) stop 3
    end do
  end subroutine stay

  subroutine say(at, column, v)
    integer(c_int32_t), intent(in) :: at, column
    type(x4_value), intent(in) :: v
    write (*, '(i0,1x,i0,1x)', advance='no') at, column
    if (v%refused%number /= 0) then
      write (*, '(a,1x,i0)') 'refused', v%refused%number
    else if (v%blank) then
      write (*, '(a,i0)') 'blank digits ', v%digits
    else
      write (*, '(a,i0,a,i0,a,i0)') trim(merge('-', ' ', v%negative)), v%coefficient, 'E', v%power, ' digits ', v%digits
    end if
  end subroutine say
end program walked
