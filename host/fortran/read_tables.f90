! Reads the tables of one EXFOR entry as a physicist would, with an ordinary formatted read of each field, and prints
! them in the layout of `x4 tables`. It trusts the entry: judge it first.
!
!   gfortran -O2 -o read_tables read_tables.f90
!   ./read_tables entry.x4 > mine.csv
!   x4 compare entry.x4 mine.csv
program read_tables
  implicit none
  integer, parameter :: most_columns = 18
  character(len=80) :: record
  character(len=1024) :: file
  integer :: unit, status, columns, lines, text_records, i

  if (command_argument_count() /= 1) stop 'usage: read_tables FILE'
  call get_command_argument(1, file)
  open (newunit=unit, file=trim(file), status='old', action='read', iostat=status)
  if (status /= 0) stop 'the file cannot be opened'

  do
    read (unit, '(a80)', iostat=status) record
    if (status /= 0) exit
    select case (record(1:11))
    case ('BIB')
      ! Text is passed over by count, so that none of it is taken for a table.
      read (record(23:33), '(i11)') text_records
      do i = 1, text_records
        read (unit, '(a80)') record
      end do
    case ('COMMON')
      read (record(12:22), '(i11)') columns
      call table('COMMON', columns, 1)
    case ('DATA')
      read (record(12:33), '(2i11)') columns, lines
      call table('DATA', columns, lines)
    end select
  end do

contains

  ! Headings, units and lines; a line takes a record for every six columns.
  subroutine table(section, columns, lines)
    character(len=*), intent(in) :: section
    integer, intent(in) :: columns, lines
    character(len=11) :: fields(most_columns)
    character(len=8) :: subentry
    character(len=12) :: number
    integer :: line, column
    call row(columns, fields, subentry)
    call begin(subentry, section, 'heading')
    do column = 1, columns
      call put(fields(column)(1:10))
    end do
    write (*, *)
    call begin(subentry, section, 'pointer')
    do column = 1, columns
      call put(fields(column)(11:11))
    end do
    write (*, *)
    call row(columns, fields, subentry)
    call begin(subentry, section, 'unit')
    do column = 1, columns
      call put(fields(column)(1:10))
    end do
    write (*, *)
    do line = 1, lines
      call row(columns, fields, subentry)
      write (number, '(i0)') line
      call begin(subentry, section, trim(number))
      do column = 1, columns
        call put(value(fields(column)))
      end do
      write (*, *)
    end do
  end subroutine table

  ! The fields of a row, and the subentry from the identification.
  subroutine row(columns, fields, subentry)
    integer, intent(in) :: columns
    character(len=11), intent(out) :: fields(most_columns)
    character(len=8), intent(out) :: subentry
    integer :: first, column
    fields = ' '
    do first = 1, columns, 6
      read (unit, '(a80)') record
      do column = first, min(first + 5, columns)
        fields(column) = record(11*(column - first) + 1:11*(column - first) + 11)
      end do
    end do
    subentry = record(67:74)
  end subroutine row

  ! The text of a value: nothing for a blank, else the double that a formatted read gives.
  function value(field) result(text)
    character(len=11), intent(in) :: field
    character(len=24) :: text
    double precision :: x
    integer :: status
    text = ' '
    if (field == ' ') return
    read (field, '(f11.0)', iostat=status) x
    if (status /= 0) then
      text = 'unreadable'
    else
      write (text, '(es24.16e3)') x
    end if
  end function value

  subroutine begin(subentry, section, kind)
    character(len=*), intent(in) :: subentry, section, kind
    write (*, '(5a)', advance='no') subentry, ',', section, ',', kind
  end subroutine begin

  subroutine put(text)
    character(len=*), intent(in) :: text
    if (index(text, ',') > 0) then
      write (*, '(3a)', advance='no') ',"', trim(adjustl(text)), '"'
    else
      write (*, '(2a)', advance='no') ',', trim(adjustl(text))
    end if
  end subroutine put

end program read_tables
