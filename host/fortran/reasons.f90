! Judges an entry, or a transmission where the first record is TRANS, and prints the seven numbers of the verdict and the
! ordinal; below them the facts of the refusal, and the expected characters between brackets.
program reasons
  use x4, only: x4_version, x4_interface, x4_reason, x4_explained, x4_explained_file
  implicit none
  character(len=256) :: name
  character(len=:), allocatable :: file
  type(x4_reason) :: r
  integer :: length
  if (x4_version() /= x4_interface) stop 2
  call get_command_argument(1, name)
  open (10, file=trim(name), status='old', action='read', access='stream', form='unformatted')
  inquire (10, size=length)
  allocate (character(len=length) :: file)
  if (length > 0) read (10) file
  if (index(file, 'TRANS      ') == 1) then
    r = x4_explained_file(file)
  else
    r = x4_explained(file)
  end if
  write (*, '(i0,7(1x,i0))') r%verdict%refusal, r%verdict%place, r%verdict%column, r%verdict%subentries, &
    r%verdict%keywords, r%verdict%lines, r%verdict%numbers, r%verdict%ordinal
  write (*, '(i0,2(1x,i0),1x,a)') r%kind, r%first, r%second, '['//r%characters//']'
end program reasons
