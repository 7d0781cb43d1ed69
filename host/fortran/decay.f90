! Takes codes under DECAY-DATA apart. The first file is an entry, the second has a line each: `code 2 32 1 400`, the code by
! subentry, pointer and number in a slice of so many characters; `passage 1 400`, the same of the whole file as a passage; or
! `apart` and a text. Of a code it prints the run, its places and half-life, and a line for each group, type and energy.
program decay
  use, intrinsic :: iso_c_binding, only: c_int32_t, c_int64_t
  use x4, only: x4_version, x4_interface, x4_code, x4_group, x4_number, x4_code_of, x4_code_in, x4_code_taken, x4_group_of, &
                x4_type_of, x4_energy_of
  use in_words, only: bytes_of, list_of, next_line, low, refused_said, value_said
  implicit none
  character(len=:), allocatable :: entry, asked
  integer(c_int64_t) :: n(4)
  integer :: list, blank
  if (x4_version() /= x4_interface) stop 2
  entry = bytes_of(1)
  list = list_of(2)
  do while (next_line(list, asked))
    blank = index(asked//' ', ' ')
    select case (asked(:blank - 1))
    case ('code')
      read (asked(blank:), *) n
      call say(x4_code_of(entry, low(n(1)), achar(int(n(2))), low(n(3))), int(n(4)))
    case ('passage')
      read (asked(blank:), *) n(:2)
      call say(x4_code_in(entry, low(n(1))), int(n(2)))
    case ('apart')
      call apart(x4_code_taken(asked(blank + 1:)))
    case default
      stop 2
    end select
  end do

contains

  ! The module has room enough always, so that 52 is said here as a shorter slice would have it.
  subroutine say(c, room)
    type(x4_code), intent(in) :: c
    integer, intent(in) :: room
    if (c%refused%number /= 0) then
      if (len(c%run) > 0 .or. c%groups /= 0 .or. .not. c%half_life%blank) stop 3
      write (*, '(a)') refused_said(c%refused)
    else if (len(c%run) > room) then
      write (*, '(a)') 'refused 52 0 0 0'
    else
      write (*, '(a,i0,3a)') 'run ', len(c%run), ' [', c%run, ']'
      call apart(c)
    end if
  end subroutine say

  subroutine apart(c)
    type(x4_code), intent(in) :: c
    integer(c_int32_t) :: k
    integer :: i, first, length
    if (c%refused%number /= 0) then
      if (c%refused%number /= 50 .or. len(c%z) > 0) stop 3
      write (*, '(a,i0)') 'no code ', c%before
      return
    end if
    write (*, '(a)', advance='no') 'head'
    do i = 1, 7
      length = c%last(i) - c%first(i) + 1
      first = merge(c%first(i) - 1, 0, length > 0)
      write (*, '(2(1x,i0))', advance='no') first, length
    end do
    write (*, '(1x,i0,1x,a)') c%groups, value_said(c%half_life)
    if (c%flag//c%z//c%symbol//c%a//c%isomer//c%unit /= texts(c)) stop 4
    do k = 1, c%groups
      call say_group(c, k)
    end do
    if (group_there(c, 0_c_int32_t) .or. group_there(c, c%groups + 1)) stop 4
  end subroutine apart

  function texts(c)
    type(x4_code), intent(in) :: c
    character(len=:), allocatable :: texts
    integer :: i
    texts = ''
    do i = 1, 7
      if (i /= 6) texts = texts//c%run(c%first(i):c%last(i))
    end do
  end function texts

  logical function group_there(c, k)
    type(x4_code), intent(in) :: c
    integer(c_int32_t), intent(in) :: k
    type(x4_group) :: g
    g = x4_group_of(c%run, k)
    group_there = g%there .or. g%types /= 0 .or. g%energies /= 0 .or. .not. g%abundance%value%blank
  end function group_there

  subroutine say_group(c, k)
    type(x4_code), intent(in) :: c
    integer(c_int32_t), intent(in) :: k
    type(x4_group) :: g
    type(x4_number) :: e
    character(len=:), allocatable :: t
    integer(c_int32_t) :: i
    integer :: at
    g = x4_group_of(c%run, k)
    if (.not. g%there) stop 4
    write (*, '(a,4(1x,i0),1x,a)') 'group', g%types, g%energies, place(g%abundance), value_said(g%abundance%value)
    at = 0
    do i = 1, g%types
      t = x4_type_of(c%run, k, i)
      ! the first of a group is found behind the group before, each other behind the one before it
      at = type_at(c, k, i, t)
      write (*, '(a,2(1x,i0),3a)') 'type', at, len(t), ' [', t, ']'
    end do
    if (len(x4_type_of(c%run, k, g%types + 1)) > 0 .or. len(x4_type_of(c%run, k, 0_c_int32_t)) > 0) stop 4
    do i = 1, g%energies
      e = x4_energy_of(c%run, k, i)
      write (*, '(a,2(1x,i0),1x,a)') 'energy', place(e), value_said(e%value)
    end do
    e = x4_energy_of(c%run, k, g%energies + 1)
    if (e%last >= e%first .or. .not. e%value%blank) stop 4
  end subroutine say_group

  ! where a type of a group stands, from 0: the groups begin behind the second comma, and each has three subfields
  integer function type_at(c, k, i, t)
    type(x4_code), intent(in) :: c
    integer(c_int32_t), intent(in) :: k, i
    character(len=*), intent(in) :: t
    integer :: commas, slashes, at
    commas = 0
    slashes = 0
    type_at = -1
    do at = 1, len(c%run)
      if (commas == 3*k - 1 .and. slashes == i - 1 .and. c%run(at:at) /= ' ' .and. type_at < 0) type_at = at - 1
      if (c%run(at:at) == ',') commas = commas + 1
      if (c%run(at:at) == '/' .and. commas == 3*k - 1) slashes = slashes + 1
    end do
    if (c%run(type_at + 1:type_at + len(t)) /= t) stop 4
  end function type_at

  function place(n)
    type(x4_number), intent(in) :: n
    integer :: place(2)
    place(2) = n%last - n%first + 1
    place(1) = merge(n%first - 1, 0, place(2) > 0)
  end function place
end program decay
