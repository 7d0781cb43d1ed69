! Reads each line of standard input as one field of eleven columns, with an ordinary formatted read, and prints the
! double.
program read_field
  implicit none
  character(len=11) :: field
  double precision :: x
  integer :: status
  do
    read (*, '(a11)', iostat=status) field
    if (status /= 0) exit
    read (field, '(f11.0)', iostat=status) x
    if (status /= 0) then
      write (*, '(a)') 'unreadable'
    else
      write (*, '(es24.16e3)') x
    end if
  end do
end program read_field
