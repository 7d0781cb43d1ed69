! Judges a transmission and prints the seven numbers of the verdict and the ordinal; then the first byte and the length
! of each entry, the verdict on it, and the sum of the bytes of the copy, or why there is none.
program files
  use, intrinsic :: iso_c_binding, only: c_int64_t
  use x4, only: x4_version, x4_interface, x4_verdict, x4_part, x4_refused, x4_judged, x4_judged_file, x4_entry_at, &
                x4_copied_file
  implicit none
  character(len=256) :: name
  character(len=:), allocatable :: file, copy
  type(x4_part) :: p
  type(x4_refused) :: r
  integer :: length, first
  if (x4_version() /= x4_interface) stop 2
  call get_command_argument(1, name)
  open (10, file=trim(name), status='old', action='read', access='stream', form='unformatted')
  inquire (10, size=length)
  allocate (character(len=length) :: file)
  if (length > 0) read (10) file
  call say(x4_judged_file(file))
  first = 82
  do
    p = x4_entry_at(file, first)
    if (p%last < p%first) exit
    write (*, '(i0,1x,i0,1x)', advance='no') p%first - 1, p%last - p%first + 1
    call say(x4_judged(file(p%first:p%last)))
    first = p%last + 1
  end do
  allocate (character(len=length) :: copy)
  copy = repeat('#', length)
  r = x4_copied_file(file, copy)
  write (*, '(i0,5(1x,i0))') sum_of(copy), r%number, r%refusal, r%place, r%column, r%ordinal

contains

  subroutine say(v)
    type(x4_verdict), intent(in) :: v
    write (*, '(i0,7(1x,i0))') v%refusal, v%place, v%column, v%subentries, v%keywords, v%lines, v%numbers, v%ordinal
  end subroutine say

  ! the bytes of a text in one number
  pure integer(c_int64_t) function sum_of(text)
    character(len=*), intent(in) :: text
    integer :: i
    sum_of = 0
    do i = 1, len(text)
      sum_of = modulo(65599_c_int64_t*sum_of + iachar(text(i:i)), 2_c_int64_t**32)
    end do
  end function sum_of
end program files
