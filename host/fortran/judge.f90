! Judges a file and prints the seven numbers of the verdict.
program judge
  use x4, only: x4_version, x4_interface, x4_verdict, x4_judged
  implicit none
  character(len=256) :: name
  character(len=:), allocatable :: entry
  type(x4_verdict) :: v
  integer :: length
  if (x4_version() /= x4_interface) stop 2
  call get_command_argument(1, name)
  open (10, file=trim(name), status='old', action='read', access='stream', form='unformatted')
  inquire (10, size=length)
  allocate (character(len=length) :: entry)
  if (length > 0) read (10) entry
  v = x4_judged(entry)
  write (*, '(i0,6(1x,i0))') v%refusal, v%place, v%column, v%subentries, v%keywords, v%lines, v%numbers
end program judge
