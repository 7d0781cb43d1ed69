! Reads each line of standard input as a number field and prints what it says and the count of its digits; a number is
! written again.
program numbers
  use x4, only: x4_value, x4_read, x4_write
  implicit none
  character(len=64) :: line
  character(len=11) :: field
  character(len=20) :: coefficient, power
  type(x4_value) :: v
  integer :: status, length, refusal
  do
    read (*, '(a)', advance='no', size=length, eor=10, iostat=status) line
    if (status > 0 .or. is_iostat_end(status)) exit
10  continue
    v = x4_read(line(:length))
    if (v%refused%number /= 0) then
      ! no digit is counted beside a refusal
      if (v%digits /= 0) stop 3
      write (*, '(a,i0)') 'refused ', v%refused%number
    else if (v%blank) then
      write (*, '(a,i0)') 'blank digits ', v%digits
    else
      field = repeat('#', 11)
      refusal = x4_write(v, field)
      write (coefficient, '(i0)') v%coefficient
      write (power, '(i0)') v%power
      write (*, '(5a,i0,1x,i0,1x,a)') trim(merge('-', ' ', v%negative)), trim(coefficient), 'E', trim(power), &
          ' digits ', v%digits, refusal, "'" // field // "'"
    end if
  end do
end program numbers
