! Reads the fields of a file, eleven characters to a line, with a formatted read, many times over, and prints the
! nanoseconds of each group of a hundred, run by run.
program time_read
  use, intrinsic :: iso_fortran_env, only: int64
  implicit none
  integer, parameter :: group = 100, runs = 15
  character(len=11), allocatable :: fields(:)
  character(len=256) :: name
  double precision :: x, total
  integer :: n, i, j, run, status
  integer(int64) :: from, past, rate
  call get_command_argument(1, name)
  open (10, file=trim(name), status='old', action='read')
  n = 0
  do
    read (10, '(a)', iostat=status)
    if (status /= 0) exit
    n = n + 1
  end do
  rewind (10)
  allocate (fields(n))
  do i = 1, n
    read (10, '(a11)') fields(i)
  end do
  call system_clock(count_rate=rate)
  total = 0
  do run = 1, runs
    do i = 1, n, group
      call system_clock(from)
      do j = i, min(i + group - 1, n)
        read (fields(j), '(f11.0)', iostat=status) x
        if (status == 0) total = total + x
      end do
      call system_clock(past)
      write (*, '(f0.1)') dble(past - from)*1d9/dble(rate)
    end do
  end do
  ! The sum is used, so that no read is left out.
  if (total < 0) write (*, '(a)') 'below zero'
end program time_read
