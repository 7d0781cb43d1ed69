! The functions of the proved archives (host/archives) for Fortran. The numbers are document 01's; the count of digits is
! that of document 02, M-104, refusal 17, a flag with an exponent or one that equals no code, that of M-105,
! transmissions are those of M-100, reasons those of M-108, the index of subentries is that of M-102, walks are those of
! M-112, doubles those of M-107, lines in the CINDA2001 layout those of M-113, codes under DECAY-DATA those of M-106, and
! revisions those of M-109.
!
! A call returns a word, 0 where it is answered, and then stores what it answers in an array that is lent to it:
! totals(4) are subentries, keywords, DATA lines, numbers; value(8) are kind (0 blank, 1 number), 1 if below zero,
! coefficient, power of ten, count of digits, three zeros; part(3) are the first byte counted from 0, the length, the
! pointer. A refused call stores nothing, with these exceptions: x4_explain and x4_explain_file store the reason that
! they are asked for, of which facts(3) are the kind and two numbers, and beside them stand eight characters;
! x4_walk_next with 15, the refusal of the value alone, stores the value's place and the walk; x4_merge with 63 stores
! blanks, and how many. The word has the number of
! the refusal in bits 0-7, the refusal of the entry or transmission in 8-15, its column in 16-23, its record in 24-47,
! the ordinal of the entry in a transmission in 48-63, and beside 60 which of two entries is refused.
!
! The words of x4_double, x4_index_double and x4_read_double tell in bits 48-55 which of the three it is, blank, a double,
! or a decimal that is outside the simple range, and in 56-63 how many digits are written. The double is stored where there
! is one. The words of the calls about lines have the number in bits 0-7, the column in 16-23 and the line in 24-47.
module x4
  use, intrinsic :: iso_c_binding, only: c_char, c_double, c_int8_t, c_int32_t, c_int64_t, c_size_t
  implicit none
  private
  public :: x4_version, x4_interface, x4_refused, x4_value, x4_part, x4_verdict
  public :: x4_judged, x4_ask_value, x4_ask_heading, x4_ask_unit, x4_ask_passage, x4_copied, x4_read, x4_write
  public :: x4_judged_file, x4_entry_at, x4_copied_file
  public :: x4_reason, x4_explained, x4_explained_file
  public :: x4_most_numbers, x4_made_index, x4_find_row
  public :: x4_index_ask_value, x4_index_ask_heading, x4_index_ask_unit, x4_index_ask_passage
  public :: x4_walk_place, x4_begun, x4_next
  public :: x4_is_blank, x4_is_double, x4_is_decimal, x4_kind
  public :: x4_ask_double, x4_index_ask_double, x4_read_double, x4_to_double, x4_kind_of
  public :: x4_cinda_length, x4_cinda_most, x4_cinda_fields
  public :: x4_cinda_checked, x4_cinda_taken, x4_cinda_parts, x4_cinda_copied
  public :: x4_held, x4_revision, x4_subentry, x4_subentry_of, x4_merged
  public :: x4_code, x4_group, x4_number, x4_code_of, x4_code_in, x4_code_taken, x4_group_of, x4_type_of, x4_energy_of

  ! The interface that this module describes; x4_version() is the same of the archives.
  integer(c_int32_t), parameter :: x4_interface = 4

  ! The most numbers that an index has: five to a subentry, of which there are 998 at the most.
  integer, parameter :: x4_most_numbers = 4990

  ! Which of the three a value is: blank, a double, or a decimal that is outside the simple range.
  integer(c_int32_t), parameter :: x4_is_blank = 0, x4_is_double = 1, x4_is_decimal = 2

  ! How many characters a line in the CINDA2001 layout has, its line feed among them, and how many lines there may be.
  integer, parameter :: x4_cinda_length = 126, x4_cinda_most = 20000

  ! One of two entries: the held one, or the revision.
  integer(c_int32_t), parameter :: x4_held = 1, x4_revision = 2

  ! A refusal by its number, 0 where there is none; beside 31 why the entry or transmission is refused, else zeros. The
  ! ordinal is that of the entry in a transmission, 0 for a single entry and outside entries.
  type :: x4_refused
    integer(c_int32_t) :: number = 0
    integer(c_int32_t) :: refusal = 0, place = 0, column = 0, ordinal = 0
  end type x4_refused

  ! What a number field says: blank, a number, or a refusal beside a blank; and the count of digits written, from the
  ! first that is not zero to the last, none of the exponent: 3 in 0.140, 2 in 0.14, 0 in zero, a blank and a refusal.
  type :: x4_value
    type(x4_refused) :: refused
    logical :: blank = .true.
    logical :: negative = .false.
    integer(c_int64_t) :: coefficient = 0
    integer(c_int32_t) :: power = 0
    integer(c_int32_t) :: digits = 0
  end type x4_value

  ! What stands beside a double: a refusal, which of the three it is, blank where it is refused, and the count of digits.
  type :: x4_kind
    type(x4_refused) :: refused
    integer(c_int32_t) :: kind = x4_is_blank
    integer(c_int32_t) :: digits = 0
  end type x4_kind

  ! Where a walk over a table stands: the section's record, its columns and lines, and line and column of the next value.
  ! One that was not begun, or was refused, is done.
  type, bind(c) :: x4_walk_place
    integer(c_int32_t) :: section = 0, columns = 0, lines = 0, line = 0, column = 0
  end type x4_walk_place

  ! A part of an entry, entry(first:last), and the pointer beside it; a refused one is empty.
  type :: x4_part
    type(x4_refused) :: refused
    integer :: first = 1, last = 0
    character(kind=c_char) :: pointer = ' '
  end type x4_part

  ! A subentry of whichever of two entries holds it, x4_held or x4_revision: held(first:last) or revision(first:last). Refused, it
  ! is empty and `which` is 0: 60, where refused%ordinal is the entry that is refused, 61, 32 neither has it, 62 NOSUBENT.
  type :: x4_subentry
    type(x4_refused) :: refused
    integer(c_int32_t) :: which = 0
    integer :: first = 1, last = 0
  end type x4_subentry

  ! The verdict on an entry: the seven numbers; a refusal is 1 to 17. That on a transmission has the ordinal, too.
  type :: x4_verdict
    integer(c_int32_t) :: refusal = 0, place = 0, column = 0
    integer(c_int32_t) :: subentries = 0, keywords = 0, lines = 0, numbers = 0
    integer(c_int32_t) :: ordinal = 0
  end type x4_verdict

  ! A verdict, and the facts of its refusal by their kind:
  !   0  nothing more is said: accepted, or another refusal than 5, 6, 8, 9, 13 and 14
  !   1  the count that is announced and the true one (8)
  !   2  the least and the greatest, 0 for none (8)
  !   3  the number of the subentry before, 0 for none (9)
  !   4  record and column of the first equal heading (13)
  !   5  the pointer, by its code (14)
  !   6  the expected characters: eight, or five and blanks (5 and 6)
  type :: x4_reason
    type(x4_verdict) :: verdict
    integer(c_int32_t) :: kind = 0
    integer(c_int64_t) :: first = 0, second = 0
    character(len=8, kind=c_char) :: characters = ' '
  end type x4_reason

  ! The fields of a line in the CINDA2001 layout, or a refusal beside blanks and zeros, where refused%place is the line: 70 to
  ! 77, or 34 no such line. Where `many` is true, A is the code MNY, and a is 0.
  type :: x4_cinda_fields
    type(x4_refused) :: refused
    character(kind=c_char) :: operation = ' '
    integer(c_int32_t) :: z = 0, a = 0
    logical :: many = .false.
    character(kind=c_char) :: isomer = ' '
    character(len=15, kind=c_char) :: reaction = ' '
    character(len=4, kind=c_char) :: quantity = ' '
    character(len=6, kind=c_char) :: institute = ' '
    character(kind=c_char) :: area = ' '
    integer(c_int32_t) :: block = 0, sequence = 0
    character(kind=c_char) :: work = ' ', reader = ' '
    type(x4_value) :: least, greatest
    character(kind=c_char) :: hierarchy = ' ', kind = ' '
    character(len=22, kind=c_char) :: reference = ' '
    integer(c_int32_t) :: year = 0, month = 0
    character(len=40, kind=c_char) :: comment = ' '
  end type x4_cinda_fields

  ! A code under DECAY-DATA: its run, and its fields before the groups; what is not given is empty, a half-life then blank. Its
  ! refusal has in `place` the record and in `column` the column: 31, 32, 33, 36, 50, 51. Where a text is no code, the number is 50,
  ! and `before` says how many characters stand before the first that no code has there.
  type :: x4_code
    type(x4_refused) :: refused
    integer(c_int64_t) :: before = 0
    character(len=:, kind=c_char), allocatable :: run
    character(len=:, kind=c_char), allocatable :: flag, z, symbol, a, isomer, unit
    type(x4_value) :: half_life
    integer(c_int32_t) :: groups = 0
    ! where these stand in the run, run(first(i):last(i)): flag, z, symbol, a, isomer, half-life, unit
    integer :: first(7) = 1, last(7) = 0
  end type x4_code

  ! A number of a code, run(first:last), and its value; empty and blank where there is none.
  type :: x4_number
    integer :: first = 1, last = 0
    type(x4_value) :: value
  end type x4_number

  ! A group of a code, if it is there: how many types and energies it has, and its abundance.
  type :: x4_group
    logical :: there = .false.
    integer(c_int32_t) :: types = 0, energies = 0
    type(x4_number) :: abundance
  end type x4_group

  interface
    function x4_version() bind(c, name='x4_version') result(version)
      import :: c_int32_t
      integer(c_int32_t) :: version
    end function x4_version

    function x4_judge(entry, length, totals) bind(c, name='x4_judge') result(word)
      import :: c_char, c_int64_t, c_size_t
      character(kind=c_char), intent(in) :: entry(*)
      integer(c_size_t), value :: length
      integer(c_int64_t), intent(inout) :: totals(4)
      integer(c_int64_t) :: word
    end function x4_judge

    function c_value(entry, length, subentry, section, line, column, value) bind(c, name='x4_value') result(word)
      import :: c_char, c_int32_t, c_int64_t, c_size_t
      character(kind=c_char), intent(in) :: entry(*)
      integer(c_size_t), value :: length
      integer(c_int32_t), value :: subentry, section, line, column
      integer(c_int64_t), intent(inout) :: value(8)
      integer(c_int64_t) :: word
    end function c_value

    function c_heading(entry, length, subentry, section, column, part) bind(c, name='x4_heading') result(word)
      import :: c_char, c_int32_t, c_int64_t, c_size_t
      character(kind=c_char), intent(in) :: entry(*)
      integer(c_size_t), value :: length
      integer(c_int32_t), value :: subentry, section, column
      integer(c_int64_t), intent(inout) :: part(3)
      integer(c_int64_t) :: word
    end function c_heading

    function c_unit(entry, length, subentry, section, column, part) bind(c, name='x4_unit') result(word)
      import :: c_char, c_int32_t, c_int64_t, c_size_t
      character(kind=c_char), intent(in) :: entry(*)
      integer(c_size_t), value :: length
      integer(c_int32_t), value :: subentry, section, column
      integer(c_int64_t), intent(inout) :: part(3)
      integer(c_int64_t) :: word
    end function c_unit

    function c_passage(entry, length, subentry, keyword, keyword_length, pointer, part) &
        bind(c, name='x4_passage') result(word)
      import :: c_char, c_int8_t, c_int32_t, c_int64_t, c_size_t
      character(kind=c_char), intent(in) :: entry(*), keyword(*)
      integer(c_size_t), value :: length, keyword_length
      integer(c_int32_t), value :: subentry
      integer(c_int8_t), value :: pointer
      integer(c_int64_t), intent(inout) :: part(3)
      integer(c_int64_t) :: word
    end function c_passage

    function c_copy(entry, length, out, out_length) bind(c, name='x4_copy') result(word)
      import :: c_char, c_int64_t, c_size_t
      character(kind=c_char), intent(in) :: entry(*)
      character(kind=c_char), intent(inout) :: out(*)
      integer(c_size_t), value :: length, out_length
      integer(c_int64_t) :: word
    end function c_copy

    function x4_read_number(field, length, value) bind(c, name='x4_read_number') result(word)
      import :: c_char, c_int64_t, c_size_t
      character(kind=c_char), intent(in) :: field(*)
      integer(c_size_t), value :: length
      integer(c_int64_t), intent(inout) :: value(8)
      integer(c_int64_t) :: word
    end function x4_read_number

    function x4_write_number(negative, coefficient, power, out, length) bind(c, name='x4_write_number') result(refusal)
      import :: c_char, c_int32_t, c_int64_t, c_size_t
      integer(c_int32_t), value :: negative
      integer(c_int64_t), value :: coefficient
      integer(c_int32_t), value :: power
      character(kind=c_char), intent(inout) :: out(*)
      integer(c_size_t), value :: length
      integer(c_int32_t) :: refusal
    end function x4_write_number

    function x4_judge_file(file, length, totals) bind(c, name='x4_judge_file') result(word)
      import :: c_char, c_int64_t, c_size_t
      character(kind=c_char), intent(in) :: file(*)
      integer(c_size_t), value :: length
      integer(c_int64_t), intent(inout) :: totals(4)
      integer(c_int64_t) :: word
    end function x4_judge_file

    function x4_entry_length(file, length, at) bind(c, name='x4_entry_length') result(bytes)
      import :: c_char, c_size_t
      character(kind=c_char), intent(in) :: file(*)
      integer(c_size_t), value :: length, at
      integer(c_size_t) :: bytes
    end function x4_entry_length

    function x4_copy_file(file, length, out, out_length) bind(c, name='x4_copy_file') result(word)
      import :: c_char, c_int64_t, c_size_t
      character(kind=c_char), intent(in) :: file(*)
      character(kind=c_char), intent(inout) :: out(*)
      integer(c_size_t), value :: length, out_length
      integer(c_int64_t) :: word
    end function x4_copy_file

    function x4_explain(entry, length, totals, facts, characters) bind(c, name='x4_explain') result(word)
      import :: c_char, c_int64_t, c_size_t
      character(kind=c_char), intent(in) :: entry(*)
      integer(c_size_t), value :: length
      integer(c_int64_t), intent(inout) :: totals(4), facts(3)
      character(kind=c_char), intent(inout) :: characters(8)
      integer(c_int64_t) :: word
    end function x4_explain

    function x4_explain_file(file, length, totals, facts, characters) bind(c, name='x4_explain_file') result(word)
      import :: c_char, c_int64_t, c_size_t
      character(kind=c_char), intent(in) :: file(*)
      integer(c_size_t), value :: length
      integer(c_int64_t), intent(inout) :: totals(4), facts(3)
      character(kind=c_char), intent(inout) :: characters(8)
      integer(c_int64_t) :: word
    end function x4_explain_file

    function c_index(entry, length, index, numbers, rows) bind(c, name='x4_index') result(word)
      import :: c_char, c_int32_t, c_int64_t, c_size_t
      character(kind=c_char), intent(in) :: entry(*)
      integer(c_int32_t), intent(inout) :: index(*)
      integer(c_size_t), value :: length, numbers
      integer(c_int64_t), intent(inout) :: rows(1)
      integer(c_int64_t) :: word
    end function c_index

    function c_index_row(index, numbers, subentry, before) bind(c, name='x4_index_row') result(word)
      import :: c_int32_t, c_int64_t, c_size_t
      integer(c_int32_t), intent(in) :: index(*)
      integer(c_size_t), value :: numbers
      integer(c_int32_t), value :: subentry
      integer(c_int64_t), intent(inout) :: before(1)
      integer(c_int64_t) :: word
    end function c_index_row

    function c_index_value(entry, length, index, numbers, subentry, section, line, column, value) &
        bind(c, name='x4_index_value') result(word)
      import :: c_char, c_int32_t, c_int64_t, c_size_t
      character(kind=c_char), intent(in) :: entry(*)
      integer(c_int32_t), intent(in) :: index(*)
      integer(c_size_t), value :: length, numbers
      integer(c_int32_t), value :: subentry, section, line, column
      integer(c_int64_t), intent(inout) :: value(8)
      integer(c_int64_t) :: word
    end function c_index_value

    function c_index_heading(entry, length, index, numbers, subentry, section, column, part) &
        bind(c, name='x4_index_heading') result(word)
      import :: c_char, c_int32_t, c_int64_t, c_size_t
      character(kind=c_char), intent(in) :: entry(*)
      integer(c_int32_t), intent(in) :: index(*)
      integer(c_size_t), value :: length, numbers
      integer(c_int32_t), value :: subentry, section, column
      integer(c_int64_t), intent(inout) :: part(3)
      integer(c_int64_t) :: word
    end function c_index_heading

    function c_index_unit(entry, length, index, numbers, subentry, section, column, part) &
        bind(c, name='x4_index_unit') result(word)
      import :: c_char, c_int32_t, c_int64_t, c_size_t
      character(kind=c_char), intent(in) :: entry(*)
      integer(c_int32_t), intent(in) :: index(*)
      integer(c_size_t), value :: length, numbers
      integer(c_int32_t), value :: subentry, section, column
      integer(c_int64_t), intent(inout) :: part(3)
      integer(c_int64_t) :: word
    end function c_index_unit

    function c_index_passage(entry, length, index, numbers, subentry, keyword, keyword_length, pointer, part) &
        bind(c, name='x4_index_passage') result(word)
      import :: c_char, c_int8_t, c_int32_t, c_int64_t, c_size_t
      character(kind=c_char), intent(in) :: entry(*), keyword(*)
      integer(c_int32_t), intent(in) :: index(*)
      integer(c_size_t), value :: length, numbers, keyword_length
      integer(c_int32_t), value :: subentry
      integer(c_int8_t), value :: pointer
      integer(c_int64_t), intent(inout) :: part(3)
      integer(c_int64_t) :: word
    end function c_index_passage

    function c_walk(entry, length, subentry, section, walk) bind(c, name='x4_walk') result(word)
      import :: c_char, c_int32_t, c_int64_t, c_size_t, x4_walk_place
      character(kind=c_char), intent(in) :: entry(*)
      integer(c_size_t), value :: length
      integer(c_int32_t), value :: subentry, section
      type(x4_walk_place), intent(inout) :: walk
      integer(c_int64_t) :: word
    end function c_walk

    function c_walk_next(entry, length, walk, place, value) bind(c, name='x4_walk_next') result(word)
      import :: c_char, c_int64_t, c_size_t, x4_walk_place
      character(kind=c_char), intent(in) :: entry(*)
      integer(c_size_t), value :: length
      type(x4_walk_place), intent(inout) :: walk
      integer(c_int64_t), intent(inout) :: place(3), value(8)
      integer(c_int64_t) :: word
    end function c_walk_next

    function c_ask_double(entry, length, subentry, section, line, column, value) bind(c, name='x4_double') result(word)
      import :: c_char, c_double, c_int32_t, c_int64_t, c_size_t
      character(kind=c_char), intent(in) :: entry(*)
      integer(c_size_t), value :: length
      integer(c_int32_t), value :: subentry, section, line, column
      real(c_double), intent(inout) :: value(1)
      integer(c_int64_t) :: word
    end function c_ask_double

    function c_index_double(entry, length, index, numbers, subentry, section, line, column, value) &
        bind(c, name='x4_index_double') result(word)
      import :: c_char, c_double, c_int32_t, c_int64_t, c_size_t
      character(kind=c_char), intent(in) :: entry(*)
      integer(c_int32_t), intent(in) :: index(*)
      integer(c_size_t), value :: length, numbers
      integer(c_int32_t), value :: subentry, section, line, column
      real(c_double), intent(inout) :: value(1)
      integer(c_int64_t) :: word
    end function c_index_double

    function c_read_double(field, length, value) bind(c, name='x4_read_double') result(word)
      import :: c_char, c_double, c_int64_t, c_size_t
      character(kind=c_char), intent(in) :: field(*)
      integer(c_size_t), value :: length
      real(c_double), intent(inout) :: value(1)
      integer(c_int64_t) :: word
    end function c_read_double

    function c_as_double(negative, coefficient, power) bind(c, name='x4_as_double') result(x)
      import :: c_double, c_int32_t, c_int64_t
      integer(c_int32_t), value :: negative
      integer(c_int64_t), value :: coefficient
      integer(c_int32_t), value :: power
      real(c_double) :: x
    end function c_as_double

    function c_as_double_kind(negative, coefficient, power) bind(c, name='x4_as_double_kind') result(kind)
      import :: c_int32_t, c_int64_t
      integer(c_int32_t), value :: negative
      integer(c_int64_t), value :: coefficient
      integer(c_int32_t), value :: power
      integer(c_int64_t) :: kind
    end function c_as_double_kind

    function c_cinda_check(lines, length) bind(c, name='x4_cinda_check') result(word)
      import :: c_char, c_int64_t, c_size_t
      character(kind=c_char), intent(in) :: lines(*)
      integer(c_size_t), value :: length
      integer(c_int64_t) :: word
    end function c_cinda_check

    function c_cinda_line(lines, length, line, numbers, least, greatest) bind(c, name='x4_cinda_line') result(word)
      import :: c_char, c_int32_t, c_int64_t, c_size_t
      character(kind=c_char), intent(in) :: lines(*)
      integer(c_size_t), value :: length
      integer(c_int32_t), value :: line
      integer(c_int64_t), intent(inout) :: numbers(14), least(8), greatest(8)
      integer(c_int64_t) :: word
    end function c_cinda_line

    function c_cinda_pieces(lines, length, line, places) bind(c, name='x4_cinda_pieces') result(word)
      import :: c_char, c_int32_t, c_int64_t, c_size_t
      character(kind=c_char), intent(in) :: lines(*)
      integer(c_size_t), value :: length
      integer(c_int32_t), value :: line
      integer(c_int64_t), intent(inout) :: places(12)
      integer(c_int64_t) :: word
    end function c_cinda_pieces

    function c_cinda_back(lines, length, out, room) bind(c, name='x4_cinda_back') result(word)
      import :: c_char, c_int64_t, c_size_t
      character(kind=c_char), intent(in) :: lines(*)
      character(kind=c_char), intent(inout) :: out(*)
      integer(c_size_t), value :: length, room
      integer(c_int64_t) :: word
    end function c_cinda_back

    function c_decay(entry, length, subentry, pointer, code, out, room, run) bind(c, name='x4_decay') result(word)
      import :: c_char, c_int8_t, c_int32_t, c_int64_t, c_size_t
      character(kind=c_char), intent(in) :: entry(*)
      integer(c_size_t), value :: length
      integer(c_int32_t), value :: subentry, code
      integer(c_int8_t), value :: pointer
      character(kind=c_char), intent(inout) :: out(*)
      integer(c_size_t), value :: room
      integer(c_int64_t), intent(inout) :: run(1)
      integer(c_int64_t) :: word
    end function c_decay

    function c_decay_in(passage, length, code, out, room, run) bind(c, name='x4_decay_in') result(word)
      import :: c_char, c_int32_t, c_int64_t, c_size_t
      character(kind=c_char), intent(in) :: passage(*)
      integer(c_size_t), value :: length
      integer(c_int32_t), value :: code
      character(kind=c_char), intent(inout) :: out(*)
      integer(c_size_t), value :: room
      integer(c_int64_t), intent(inout) :: run(1)
      integer(c_int64_t) :: word
    end function c_decay_in

    function c_decay_head(run, length, places, half) bind(c, name='x4_decay_head') result(word)
      import :: c_char, c_int64_t, c_size_t
      character(kind=c_char), intent(in) :: run(*)
      integer(c_size_t), value :: length
      integer(c_int64_t), intent(inout) :: places(15), half(8)
      integer(c_int64_t) :: word
    end function c_decay_head

    function c_decay_group(run, length, group, numbers, abundance) bind(c, name='x4_decay_group') result(there)
      import :: c_char, c_int32_t, c_int64_t, c_size_t
      character(kind=c_char), intent(in) :: run(*)
      integer(c_size_t), value :: length
      integer(c_int32_t), value :: group
      integer(c_int64_t), intent(inout) :: numbers(4), abundance(8)
      integer(c_int64_t) :: there
    end function c_decay_group

    function c_decay_type(run, length, group, at, place) bind(c, name='x4_decay_type') result(there)
      import :: c_char, c_int32_t, c_int64_t, c_size_t
      character(kind=c_char), intent(in) :: run(*)
      integer(c_size_t), value :: length
      integer(c_int32_t), value :: group, at
      integer(c_int64_t), intent(inout) :: place(2)
      integer(c_int64_t) :: there
    end function c_decay_type

    function c_decay_energy(run, length, group, at, place, value) bind(c, name='x4_decay_energy') result(there)
      import :: c_char, c_int32_t, c_int64_t, c_size_t
      character(kind=c_char), intent(in) :: run(*)
      integer(c_size_t), value :: length
      integer(c_int32_t), value :: group, at
      integer(c_int64_t), intent(inout) :: place(2), value(8)
      integer(c_int64_t) :: there
    end function c_decay_energy

    function c_subentry(held, held_length, revision, revision_length, subentry, part) bind(c, name='x4_subentry') result(word)
      import :: c_char, c_int32_t, c_int64_t, c_size_t
      character(kind=c_char), intent(in) :: held(*), revision(*)
      integer(c_size_t), value :: held_length, revision_length
      integer(c_int32_t), value :: subentry
      integer(c_int64_t), intent(inout) :: part(3)
      integer(c_int64_t) :: word
    end function c_subentry

    function c_merge(held, held_length, revision, revision_length, out, room, merged) bind(c, name='x4_merge') result(word)
      import :: c_char, c_int64_t, c_size_t
      character(kind=c_char), intent(in) :: held(*), revision(*)
      integer(c_size_t), value :: held_length, revision_length
      character(kind=c_char), intent(inout) :: out(*)
      integer(c_size_t), value :: room
      integer(c_int64_t), intent(inout) :: merged(1)
      integer(c_int64_t) :: word
    end function c_merge
  end interface

contains

  ! Judges an entry; `place` is the record.
  function x4_judged(entry) result(v)
    character(len=*, kind=c_char), intent(in) :: entry
    type(x4_verdict) :: v
    integer(c_int64_t) :: word, totals(4)
    totals = 0
    word = x4_judge(entry, len(entry, c_size_t), totals)
    v = verdict_in(word, totals)
  end function x4_judged

  ! Judges a transmission; `place` is the record, counted from TRANS.
  function x4_judged_file(file) result(v)
    character(len=*, kind=c_char), intent(in) :: file
    type(x4_verdict) :: v
    integer(c_int64_t) :: word, totals(4)
    totals = 0
    word = x4_judge_file(file, len(file, c_size_t), totals)
    v = verdict_in(word, totals)
  end function x4_judged_file

  ! The entry that begins with the character `first` of a transmission, file(first:last), up to and with ENDENTRY; empty
  ! where none begins there. The first of an accepted one begins with character 82, each other behind the one before it.
  function x4_entry_at(file, first) result(p)
    character(len=*, kind=c_char), intent(in) :: file
    integer, intent(in) :: first
    type(x4_part) :: p
    if (first < 1) return
    p%first = first
    p%last = first - 1 + int(x4_entry_length(file, len(file, c_size_t), int(first - 1, c_size_t)))
  end function x4_entry_at

  ! Stores the canonical copy of a transmission in the front of a text that is as long or longer.
  function x4_copied_file(file, copy) result(r)
    character(len=*, kind=c_char), intent(in) :: file
    character(len=*, kind=c_char), intent(inout) :: copy
    type(x4_refused) :: r
    r = refused_in(x4_copy_file(file, len(file, c_size_t), copy, len(copy, c_size_t)))
  end function x4_copied_file

  ! Judges an entry and says why it is refused.
  function x4_explained(entry) result(r)
    character(len=*, kind=c_char), intent(in) :: entry
    type(x4_reason) :: r
    integer(c_int64_t) :: word, totals(4), facts(3)
    totals = 0
    facts = 0
    word = x4_explain(entry, len(entry, c_size_t), totals, facts, r%characters)
    call put_reason(word, totals, facts, r)
  end function x4_explained

  ! Judges a transmission and says why it is refused; records are counted from TRANS.
  function x4_explained_file(file) result(r)
    character(len=*, kind=c_char), intent(in) :: file
    type(x4_reason) :: r
    integer(c_int64_t) :: word, totals(4), facts(3)
    totals = 0
    facts = 0
    word = x4_explain_file(file, len(file, c_size_t), totals, facts, r%characters)
    call put_reason(word, totals, facts, r)
  end function x4_explained_file

  ! The value in a line and a column of section 1 (COMMON, line 1 only) or 2 (DATA) of a subentry.
  function x4_ask_value(entry, subentry, section, line, column) result(v)
    character(len=*, kind=c_char), intent(in) :: entry
    integer(c_int32_t), intent(in) :: subentry, section, line, column
    type(x4_value) :: v
    integer(c_int64_t) :: word, numbers(8)
    numbers = 0
    word = c_value(entry, len(entry, c_size_t), subentry, section, line, column, numbers)
    v = value_in(word, numbers)
  end function x4_ask_value

  ! The heading of a column, and its unit.
  function x4_ask_heading(entry, subentry, section, column) result(p)
    character(len=*, kind=c_char), intent(in) :: entry
    integer(c_int32_t), intent(in) :: subentry, section, column
    type(x4_part) :: p
    integer(c_int64_t) :: word, numbers(3)
    numbers = 0
    word = c_heading(entry, len(entry, c_size_t), subentry, section, column, numbers)
    p = part_in(word, numbers)
  end function x4_ask_heading

  function x4_ask_unit(entry, subentry, section, column) result(p)
    character(len=*, kind=c_char), intent(in) :: entry
    integer(c_int32_t), intent(in) :: subentry, section, column
    type(x4_part) :: p
    integer(c_int64_t) :: word, numbers(3)
    numbers = 0
    word = c_unit(entry, len(entry, c_size_t), subentry, section, column, numbers)
    p = part_in(word, numbers)
  end function x4_ask_unit

  ! The passage with a keyword, ten characters, and a pointer, blank for none.
  function x4_ask_passage(entry, subentry, keyword, pointer) result(p)
    character(len=*, kind=c_char), intent(in) :: entry, keyword
    integer(c_int32_t), intent(in) :: subentry
    character(kind=c_char), intent(in) :: pointer
    type(x4_part) :: p
    integer(c_int64_t) :: word, numbers(3)
    numbers = 0
    ! as a number: GNU Fortran 12 hands a character's address over where its value is declared
    word = c_passage(entry, len(entry, c_size_t), subentry, keyword, len(keyword, c_size_t), &
                     transfer(pointer, 0_c_int8_t), numbers)
    p = part_in(word, numbers)
  end function x4_ask_passage

  ! Makes the index of an entry in the front of an array: five numbers to a subentry, which are its number, its first
  ! record, and the records BIB, COMMON and DATA, 0 where there is none; numbers past them stay. `rows` is how many
  ! subentries there are, 0 where it is refused: 31, or 38 where the array is too short. Questions take index(:5*rows).
  function x4_made_index(entry, index, rows) result(r)
    character(len=*, kind=c_char), intent(in) :: entry
    integer(c_int32_t), contiguous, intent(inout) :: index(:)
    integer, intent(out) :: rows
    type(x4_refused) :: r
    integer(c_int64_t) :: stored(1)
    stored = 0
    r = refused_in(c_index(entry, len(entry, c_size_t), index, size(index, kind=c_size_t), stored))
    rows = int(stored(1))
  end function x4_made_index

  ! The first row of a subentry is index(first:first+4), which is an index by itself; first is 1 where it is refused: 38
  ! numbers that are not whole rows, 32 no row of it.
  function x4_find_row(index, subentry, first) result(r)
    integer(c_int32_t), contiguous, intent(in) :: index(:)
    integer(c_int32_t), intent(in) :: subentry
    integer, intent(out) :: first
    type(x4_refused) :: r
    integer(c_int64_t) :: before(1)
    before = 0
    r = refused_in(c_index_row(index, size(index, kind=c_size_t), subentry, before))
    first = 5*int(before(1)) + 1
  end function x4_find_row

  ! The questions by an index. For an accepted entry and its own index, cut to its rows, their answers are those of the
  ! full questions. With any other bytes and numbers there is an answer, too, or one of these refusals: 38, numbers that
  ! are not whole rows, 32 to 36, or 39, what is read is not what the index says. The entry is not judged.
  function x4_index_ask_value(entry, index, subentry, section, line, column) result(v)
    character(len=*, kind=c_char), intent(in) :: entry
    integer(c_int32_t), contiguous, intent(in) :: index(:)
    integer(c_int32_t), intent(in) :: subentry, section, line, column
    type(x4_value) :: v
    integer(c_int64_t) :: word, numbers(8)
    numbers = 0
    word = c_index_value(entry, len(entry, c_size_t), index, size(index, kind=c_size_t), subentry, section, line, &
                         column, numbers)
    v = value_in(word, numbers)
  end function x4_index_ask_value

  function x4_index_ask_heading(entry, index, subentry, section, column) result(p)
    character(len=*, kind=c_char), intent(in) :: entry
    integer(c_int32_t), contiguous, intent(in) :: index(:)
    integer(c_int32_t), intent(in) :: subentry, section, column
    type(x4_part) :: p
    integer(c_int64_t) :: word, numbers(3)
    numbers = 0
    word = c_index_heading(entry, len(entry, c_size_t), index, size(index, kind=c_size_t), subentry, section, column, &
                           numbers)
    p = part_in(word, numbers)
  end function x4_index_ask_heading

  function x4_index_ask_unit(entry, index, subentry, section, column) result(p)
    character(len=*, kind=c_char), intent(in) :: entry
    integer(c_int32_t), contiguous, intent(in) :: index(:)
    integer(c_int32_t), intent(in) :: subentry, section, column
    type(x4_part) :: p
    integer(c_int64_t) :: word, numbers(3)
    numbers = 0
    word = c_index_unit(entry, len(entry, c_size_t), index, size(index, kind=c_size_t), subentry, section, column, &
                        numbers)
    p = part_in(word, numbers)
  end function x4_index_ask_unit

  ! A keyword that is not ten characters long is never answered: 36 when all text records were read, 39 where they leave
  ! the entry.
  function x4_index_ask_passage(entry, index, subentry, keyword, pointer) result(p)
    character(len=*, kind=c_char), intent(in) :: entry, keyword
    integer(c_int32_t), contiguous, intent(in) :: index(:)
    integer(c_int32_t), intent(in) :: subentry
    character(kind=c_char), intent(in) :: pointer
    type(x4_part) :: p
    integer(c_int64_t) :: word, numbers(3)
    numbers = 0
    ! as a number, as in x4_ask_passage
    word = c_index_passage(entry, len(entry, c_size_t), index, size(index, kind=c_size_t), subentry, keyword, &
                           len(keyword, c_size_t), transfer(pointer, 0_c_int8_t), numbers)
    p = part_in(word, numbers)
  end function x4_index_ask_passage

  ! Begins a walk over the values of section 1 (COMMON) or 2 (DATA) of a subentry. Refused by 31, 32 or 33 it is done,
  ! whatever it was before.
  function x4_begun(entry, subentry, section, walk) result(r)
    character(len=*, kind=c_char), intent(in) :: entry
    integer(c_int32_t), intent(in) :: subentry, section
    type(x4_walk_place), intent(out) :: walk
    type(x4_refused) :: r
    r = refused_in(c_walk(entry, len(entry, c_size_t), subentry, section, walk))
  end function x4_begun

  ! Whether a value is left: then it is v, in this line and column, and the walk stands behind it. The values come left to
  ! right and line by line. Of an accepted entry each is that of x4_ask_value; over other bytes it may be refused by 15,
  ! and the walk goes on behind it.
  function x4_next(entry, walk, line, column, v) result(left)
    character(len=*, kind=c_char), intent(in) :: entry
    type(x4_walk_place), intent(inout) :: walk
    integer(c_int32_t), intent(out) :: line, column
    type(x4_value), intent(out) :: v
    logical :: left
    integer(c_int64_t) :: word, place(3), numbers(8)
    place = 0
    numbers = 0
    word = c_walk_next(entry, len(entry, c_size_t), walk, place, numbers)
    left = place(1) == 1
    line = int(place(2), c_int32_t)
    column = int(place(3), c_int32_t)
    v = value_in(word, numbers)
  end function x4_next

  ! The value in a line and a column of a section as a double, 0 where it is none; and what stands beside it. Refused as
  ! x4_ask_value is, which has the decimal where it is outside the simple range.
  function x4_ask_double(entry, subentry, section, line, column, k) result(x)
    character(len=*, kind=c_char), intent(in) :: entry
    integer(c_int32_t), intent(in) :: subentry, section, line, column
    type(x4_kind), intent(out) :: k
    real(c_double) :: x, place(1)
    place = 0
    k = kind_in(c_ask_double(entry, len(entry, c_size_t), subentry, section, line, column, place))
    x = place(1)
  end function x4_ask_double

  ! The same by an index, refused as x4_index_ask_value is; nothing is judged.
  function x4_index_ask_double(entry, index, subentry, section, line, column, k) result(x)
    character(len=*, kind=c_char), intent(in) :: entry
    integer(c_int32_t), contiguous, intent(in) :: index(:)
    integer(c_int32_t), intent(in) :: subentry, section, line, column
    type(x4_kind), intent(out) :: k
    real(c_double) :: x, place(1)
    place = 0
    k = kind_in(c_index_double(entry, len(entry, c_size_t), index, size(index, kind=c_size_t), subentry, section, line, &
                               column, place))
    x = place(1)
  end function x4_index_ask_double

  ! What a number field says as a double, 0 where it is none; and what stands beside it.
  function x4_read_double(field, k) result(x)
    character(len=*, kind=c_char), intent(in) :: field
    type(x4_kind), intent(out) :: k
    real(c_double) :: x, place(1)
    place = 0
    k = kind_in(c_read_double(field, len(field, c_size_t), place))
    x = place(1)
  end function x4_read_double

  ! A value in hand as a double, 0 where it is blank, refused or outside the simple range; and which of the three it is.
  ! Its numbers are taken as they stand, and the power is the one in v. Those that this module gives are the value's own.
  function x4_to_double(v) result(x)
    type(x4_value), intent(in) :: v
    real(c_double) :: x
    x = 0
    if (.not. v%blank) x = c_as_double(merge(1_c_int32_t, 0_c_int32_t, v%negative), v%coefficient, v%power)
  end function x4_to_double

  function x4_kind_of(v) result(kind)
    type(x4_value), intent(in) :: v
    integer(c_int32_t) :: kind
    kind = x4_is_blank
    if (.not. v%blank) kind = int(c_as_double_kind(merge(1_c_int32_t, 0_c_int32_t, v%negative), v%coefficient, &
                                                   v%power), c_int32_t)
  end function x4_kind_of

  ! Checks lines in the CINDA2001 layout, 126 characters each with their line feeds: 70 to 77, or 0 where all are good. `place`
  ! is the line.
  function x4_cinda_checked(lines) result(r)
    character(len=*, kind=c_char), intent(in) :: lines
    type(x4_refused) :: r
    r = refused_in(c_cinda_check(lines, len(lines, c_size_t)))
  end function x4_cinda_checked

  ! The fields of one of them, counted from 1. All lines are checked each time: one who goes through many checks them once, and
  ! then asks for line 1 of lines(126*(n-1)+1:126*n).
  function x4_cinda_taken(lines, line) result(f)
    character(len=*, kind=c_char), intent(in) :: lines
    integer(c_int32_t), intent(in) :: line
    type(x4_cinda_fields) :: f
    type(x4_part) :: p(6)
    integer(c_int64_t) :: word, n(14), least(8), greatest(8)
    n = 0
    least = 0
    greatest = 0
    word = c_cinda_line(lines, len(lines, c_size_t), line, n, least, greatest)
    f%refused = refused_in(word)
    if (f%refused%number /= 0) return
    call put_numbers(n, f)
    f%least = value_in(word, least)
    f%greatest = value_in(word, greatest)
    f%refused = x4_cinda_parts(lines, line, p)
    f%reaction = lines(p(2)%first:p(2)%last)
    f%quantity = lines(p(3)%first:p(3)%last)
    f%institute = lines(p(4)%first:p(4)%last)
    f%reference = lines(p(5)%first:p(5)%last)
    f%comment = lines(p(6)%first:p(6)%last)
  end function x4_cinda_taken

  ! A line and its texts as parts of the lines, lines(p(i)%first:p(i)%last): the line with its line feed, reaction, quantity,
  ! institute, reference code, comment; all are empty where it is refused.
  function x4_cinda_parts(lines, line, p) result(r)
    character(len=*, kind=c_char), intent(in) :: lines
    integer(c_int32_t), intent(in) :: line
    type(x4_part), intent(out) :: p(6)
    type(x4_refused) :: r
    integer(c_int64_t) :: places(12)
    integer :: i
    places = 0
    r = refused_in(c_cinda_pieces(lines, len(lines, c_size_t), line, places))
    do i = 1, 6
      p(i)%refused = r
      p(i)%first = int(places(2*i - 1)) + 1
      p(i)%last = p(i)%first + int(places(2*i)) - 1
    end do
  end function x4_cinda_parts

  ! Writes lines to the front of a text that is as long or longer, each energy in its canonical field: 70 to 77, or 37 where it
  ! is shorter.
  function x4_cinda_copied(lines, copy) result(r)
    character(len=*, kind=c_char), intent(in) :: lines
    character(len=*, kind=c_char), intent(inout) :: copy
    type(x4_refused) :: r
    r = refused_in(c_cinda_back(lines, len(lines, c_size_t), copy, len(copy, c_size_t)))
  end function x4_cinda_copied

  ! A code of an entry, by subentry, pointer (blank for none) and its number. The entry is judged each time: for all codes take
  ! the passage, and ask x4_code_in of it.
  function x4_code_of(entry, subentry, pointer, code) result(c)
    character(len=*, kind=c_char), intent(in) :: entry
    integer(c_int32_t), intent(in) :: subentry, code
    character(kind=c_char), intent(in) :: pointer
    type(x4_code) :: c
    character(len=:, kind=c_char), allocatable :: out
    integer(c_int64_t) :: word, length(1)
    ! a run is never longer than what it is of
    allocate (character(len=len(entry)) :: out)
    length = 0
    word = c_decay(entry, len(entry, c_size_t), subentry, transfer(pointer, 0_c_int8_t), code, out, len(out, c_size_t), &
                   length)
    c = code_said(word, out(:int(length(1))))
  end function x4_code_of

  ! A code of a passage in hand, counted from 1; the place of its refusal counts in the passage. 36 where there is none.
  function x4_code_in(passage, code) result(c)
    character(len=*, kind=c_char), intent(in) :: passage
    integer(c_int32_t), intent(in) :: code
    type(x4_code) :: c
    character(len=:, kind=c_char), allocatable :: out
    integer(c_int64_t) :: word, length(1)
    allocate (character(len=len(passage)) :: out)
    length = 0
    word = c_decay_in(passage, len(passage, c_size_t), code, out, len(out, c_size_t), length)
    c = code_said(word, out(:int(length(1))))
  end function x4_code_in

  function code_said(word, run) result(c)
    integer(c_int64_t), intent(in) :: word
    character(len=*, kind=c_char), intent(in) :: run
    type(x4_code) :: c
    type(x4_refused) :: r
    r = refused_in(word)
    if (r%number == 0) then
      c = x4_code_taken(run)
    else
      call no_code(c)
      c%refused = r
    end if
  end function code_said

  subroutine no_code(c)
    type(x4_code), intent(inout) :: c
    c%run = ''
    c%flag = ''
    c%z = ''
    c%symbol = ''
    c%a = ''
    c%isomer = ''
    c%unit = ''
  end subroutine no_code

  ! The code that a text is; 50 where it is none.
  function x4_code_taken(run) result(c)
    character(len=*, kind=c_char), intent(in) :: run
    type(x4_code) :: c
    integer(c_int64_t) :: word, p(15), half(8)
    integer :: i
    p = 0
    half = 0
    word = c_decay_head(run, len(run, c_size_t), p, half)
    if (word /= 0) then
      call no_code(c)
      c%refused%number = int(ibits(word, 0, 8), c_int32_t)
      c%before = ibits(word, 24, 40)
      return
    end if
    do i = 1, 7
      c%first(i) = int(p(2*i - 1)) + 1
      c%last(i) = c%first(i) + int(p(2*i)) - 1
    end do
    c%run = run
    c%flag = run(c%first(1):c%last(1))
    c%z = run(c%first(2):c%last(2))
    c%symbol = run(c%first(3):c%last(3))
    c%a = run(c%first(4):c%last(4))
    c%isomer = run(c%first(5):c%last(5))
    c%unit = run(c%first(7):c%last(7))
    c%half_life = value_in(0_c_int64_t, half)
    c%groups = int(p(15), c_int32_t)
  end function x4_code_taken

  ! A group of a run, counted from 1.
  function x4_group_of(run, group) result(g)
    character(len=*, kind=c_char), intent(in) :: run
    integer(c_int32_t), intent(in) :: group
    type(x4_group) :: g
    integer(c_int64_t) :: numbers(4), abundance(8)
    g%there = c_decay_group(run, len(run, c_size_t), group, numbers, abundance) == 1
    g%types = int(numbers(1), c_int32_t)
    g%energies = int(numbers(2), c_int32_t)
    g%abundance = number_in(numbers(3:4), abundance)
  end function x4_group_of

  ! A type of a group, both counted from 1; empty where there is none.
  function x4_type_of(run, group, at) result(text)
    character(len=*, kind=c_char), intent(in) :: run
    integer(c_int32_t), intent(in) :: group, at
    character(len=:, kind=c_char), allocatable :: text
    integer(c_int64_t) :: place(2)
    text = ''
    if (c_decay_type(run, len(run, c_size_t), group, at, place) == 1) text = run(int(place(1)) + 1:int(place(1) + place(2)))
  end function x4_type_of

  ! An energy of a group, both counted from 1; empty and blank where there is none.
  function x4_energy_of(run, group, at) result(n)
    character(len=*, kind=c_char), intent(in) :: run
    integer(c_int32_t), intent(in) :: group, at
    type(x4_number) :: n
    integer(c_int64_t) :: there, place(2), value(8)
    there = c_decay_energy(run, len(run, c_size_t), group, at, place, value)
    if (there == 1) n = number_in(place, value)
  end function x4_energy_of

  pure function number_in(place, value) result(n)
    integer(c_int64_t), intent(in) :: place(2), value(8)
    type(x4_number) :: n
    n%first = int(place(1)) + 1
    n%last = n%first + int(place(2)) - 1
    n%value = value_in(0_c_int64_t, value)
  end function number_in

  ! Subentry n of a held entry and a revision of it, as a part of whichever of the two holds it: the only one that has it, or,
  ! where both do, the revision unless its date for n is earlier.
  function x4_subentry_of(held, revision, n) result(s)
    character(len=*, kind=c_char), intent(in) :: held, revision
    integer(c_int32_t), intent(in) :: n
    type(x4_subentry) :: s
    integer(c_int64_t) :: part(3)
    part = 0
    s%refused = refused_in(c_subentry(held, len(held, c_size_t), revision, len(revision, c_size_t), n, part))
    s%which = int(part(1), c_int32_t)
    s%first = int(part(2)) + 1
    s%last = s%first + int(part(3)) - 1
  end function x4_subentry_of

  ! Merges both in the front of a text, and says how many characters the merge has: 60, 61, or 37 where the text is shorter than
  ! both entries together, and then nothing is stored; 63 where the merge is refused, and then so many characters are blanks.
  function x4_merged(held, revision, out, length) result(r)
    character(len=*, kind=c_char), intent(in) :: held, revision
    character(len=*, kind=c_char), intent(inout) :: out
    integer, intent(out) :: length
    type(x4_refused) :: r
    integer(c_int64_t) :: merged(1)
    merged = 0
    r = refused_in(c_merge(held, len(held, c_size_t), revision, len(revision, c_size_t), out, len(out, c_size_t), merged))
    length = int(merged(1))
  end function x4_merged

  ! Stores the canonical copy in the front of a text that is as long as the entry or longer. Columns under FLAG and
  ! DECAY-FLAG stay as they were.
  function x4_copied(entry, copy) result(r)
    character(len=*, kind=c_char), intent(in) :: entry
    character(len=*, kind=c_char), intent(inout) :: copy
    type(x4_refused) :: r
    r = refused_in(c_copy(entry, len(entry, c_size_t), copy, len(copy, c_size_t)))
  end function x4_copied

  ! Reads a number field, and counts its digits.
  function x4_read(field) result(v)
    character(len=*, kind=c_char), intent(in) :: field
    type(x4_value) :: v
    integer(c_int64_t) :: word, numbers(8)
    numbers = 0
    word = x4_read_number(field, len(field, c_size_t), numbers)
    v = value_in(word, numbers)
  end function x4_read

  ! Writes the canonical field of a value, whatever the count of its digits: 0 done, 40 not eleven characters, 41 no
  ! field reads to the value.
  function x4_write(v, field) result(refusal)
    type(x4_value), intent(in) :: v
    character(len=*, kind=c_char), intent(inout) :: field
    integer(c_int32_t) :: refusal
    refusal = x4_write_number(merge(1_c_int32_t, 0_c_int32_t, v%negative), v%coefficient, v%power, field, &
                              len(field, c_size_t))
  end function x4_write

  ! ---- words and arrays

  pure function refused_in(word) result(r)
    integer(c_int64_t), intent(in) :: word
    type(x4_refused) :: r
    r%number = int(ibits(word, 0, 8), c_int32_t)
    r%refusal = int(ibits(word, 8, 8), c_int32_t)
    r%column = int(ibits(word, 16, 8), c_int32_t)
    r%place = int(ibits(word, 24, 24), c_int32_t)
    r%ordinal = int(ibits(word, 48, 16), c_int32_t)
  end function refused_in

  pure function verdict_in(word, totals) result(v)
    integer(c_int64_t), intent(in) :: word, totals(4)
    type(x4_verdict) :: v
    type(x4_refused) :: r
    r = refused_in(word)
    v%refusal = r%refusal
    v%place = r%place
    v%column = r%column
    v%ordinal = r%ordinal
    v%subentries = int(totals(1), c_int32_t)
    v%keywords = int(totals(2), c_int32_t)
    v%lines = int(totals(3), c_int32_t)
    v%numbers = int(totals(4), c_int32_t)
  end function verdict_in

  ! all but the characters, which are there
  pure subroutine put_reason(word, totals, facts, r)
    integer(c_int64_t), intent(in) :: word, totals(4), facts(3)
    type(x4_reason), intent(inout) :: r
    r%verdict = verdict_in(word, totals)
    r%kind = int(facts(1), c_int32_t)
    r%first = facts(2)
    r%second = facts(3)
  end subroutine put_reason

  pure function value_in(word, numbers) result(v)
    integer(c_int64_t), intent(in) :: word, numbers(8)
    type(x4_value) :: v
    v%refused = refused_in(word)
    if (v%refused%number /= 0) return
    v%blank = numbers(1) == 0
    v%negative = numbers(2) == 1
    v%coefficient = numbers(3)
    v%power = int(numbers(4), c_int32_t)
    v%digits = int(numbers(5), c_int32_t)
  end function value_in

  ! the numbers and the single characters of a line
  pure subroutine put_numbers(n, f)
    integer(c_int64_t), intent(in) :: n(14)
    type(x4_cinda_fields), intent(inout) :: f
    f%operation = achar(int(n(1)))
    f%z = int(n(2), c_int32_t)
    f%a = int(n(3), c_int32_t)
    f%many = n(4) == 1
    f%isomer = achar(int(n(5)))
    f%area = achar(int(n(6)))
    f%block = int(n(7), c_int32_t)
    f%sequence = int(n(8), c_int32_t)
    f%work = achar(int(n(9)))
    f%reader = achar(int(n(10)))
    f%hierarchy = achar(int(n(11)))
    f%kind = achar(int(n(12)))
    f%year = int(n(13), c_int32_t)
    f%month = int(n(14), c_int32_t)
  end subroutine put_numbers

  ! no ordinal: of a single entry the kind and the digits stand in its place
  pure function kind_in(word) result(k)
    integer(c_int64_t), intent(in) :: word
    type(x4_kind) :: k
    k%refused = refused_in(ibits(word, 0, 48))
    k%kind = int(ibits(word, 48, 8), c_int32_t)
    k%digits = int(ibits(word, 56, 8), c_int32_t)
  end function kind_in

  pure function part_in(word, numbers) result(p)
    integer(c_int64_t), intent(in) :: word, numbers(3)
    type(x4_part) :: p
    p%refused = refused_in(word)
    if (p%refused%number /= 0) return
    p%first = int(numbers(1)) + 1
    p%last = p%first + int(numbers(2)) - 1
    p%pointer = achar(int(numbers(3)))
  end function part_in
end module x4
