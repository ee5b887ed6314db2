! The total of a sheet, or why it is refused: first SHEET.evp. By iso_c_binding, over the pointer forms.
program first
  use, intrinsic :: iso_c_binding, only: c_char, c_int8_t, c_int64_t, c_size_t
  implicit none
  interface ! calls of evaporation.h
    integer(c_int64_t) function evp_report_to(sheet, sheet_bytes, words, words_count, place) bind(c)
      import :: c_int8_t, c_int64_t, c_size_t
      integer(c_int8_t), intent(in) :: sheet(*)
      integer(c_size_t), value :: sheet_bytes, words_count
      integer(c_int64_t), intent(inout) :: words(*)
      integer(c_int64_t), intent(out) :: place
    end function
    integer(c_int64_t) function evp_explain_to(sheet, sheet_bytes, finding) bind(c)
      import :: c_int8_t, c_int64_t, c_size_t
      integer(c_int8_t), intent(in) :: sheet(*)
      integer(c_size_t), value :: sheet_bytes
      integer(c_int64_t), intent(out) :: finding(10)
    end function
    integer(c_size_t) function evp_report_words(sheet, sheet_bytes) bind(c)
      import :: c_int8_t, c_size_t
      integer(c_int8_t), intent(in) :: sheet(*)
      integer(c_size_t), value :: sheet_bytes
    end function
    integer(c_size_t) function evp_number_text_to(number, text, text_bytes) bind(c)
      import :: c_char, c_int64_t, c_size_t
      integer(c_int64_t), value :: number
      character(kind=c_char), intent(out) :: text(*)
      integer(c_size_t), value :: text_bytes
    end function
  end interface
  integer(c_int8_t) :: sheet(25257), byte ! one byte more than the longest: a longer sheet is refused by its length
  integer(c_int64_t) :: words(6026), finding(10), number, place
  integer(c_size_t) :: bytes, count
  integer :: unit, status
  character(len=1, kind=c_char) :: text(128)
  character(len=1000) :: path

  call get_command_argument(1, path)
  open (newunit=unit, file=trim(path), access='stream', form='unformatted', status='old', action='read')
  bytes = 0
  do while (bytes < size(sheet))
    read (unit, iostat=status) byte
    if (status /= 0) exit
    bytes = bytes + 1
    sheet(bytes) = byte
  end do
  count = evp_report_words(sheet, bytes)
  number = evp_report_to(sheet, bytes, words, size(words, kind=c_size_t), place)
  if (number /= 0) then
    count = evp_number_text_to(number, text, size(text, kind=c_size_t))
    print '(a, i0, a, i0, 200a)', 'refused ', number, ' at ', place, ': ', text(:count)
    number = evp_explain_to(sheet, bytes, finding)
    print '(a, i0, a, i0, a, i0)', 'value ', finding(8), ', may be ', finding(9), ' to ', finding(10)
    stop 1, quiet=.true.
  end if
  print '(a, i0, a, i0, a)', 'total ', words(count - 1), ' to ', words(count), ' mg'
end program
