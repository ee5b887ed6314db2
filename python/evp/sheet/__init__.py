"""Makes a sheet from a readable text, from csv files or from a workbook, and back. A text with two lists of parkings
makes a sheet of version 1, one with a grid a sheet of version 2, one with a mileage in some row a sheet of version 3,
and one with more than 32 rows a sheet of version 4. Versions 2 and later have a grid: where a mileage or the rows need
one, two lists are multiplied out, which has the same exact masses.

The writer puts down what the text says and refuses no value that its field can hold, so that faulty sheets can be made
too. It rounds nothing: a number with more places than its field has, or with a point where the field counts whole
things, is an error.

The text, one record to a line, # starts a comment; behind a season or a row it is the name of that record:

  durations C C ...   24 counts for 0.5, 1, .. 12 h (may be spread over lines)
  hours C C ...       24 counts for end hours 1 to 24 (likewise)
  grid T C C ...      in place of these two: for end hour T, 1 to 24, the 24
                      counts of its durations (likewise); all 24 end hours
  season days=92 lowest=20.0 highest=35.0 vp=60.0
  row class=1 technology=0 canister=class carburettor=40 hot=30 fill=35
      tank=class vehicles=1000 trips=2.50 minutes=20 load=30.0 saturation=60.0
                      (all on one line)
  row ... saturation=45.0 mileage=84000   the load is that of the odometer, in
                      km, and load is left out; 0 keeps the load

canister is none, small, medium, large, class (by class) or a number; tank is class or litres. Temperatures are in
degrees C, vp in kPa, shares and fill level in percent, load and saturation (m_sat) in grams. A row's class and
technology must be given; canister and tank left out are by class, any other field left out is 0, the mileage too where
another row has one.

The version in the head is that of the text, above; a line puts another there, and with it the bytes of its count of
rows, one or in version 4 two:

  version 4           version 4 for 32 rows or fewer too, or a faulty sheet

For faulty sheets only:

  letters 455650      the three letters, in hexadecimal
  seasons 3           the count of seasons in the head, whatever follows
  rows 0              the count of rows in the head, whatever follows
  zero 1              byte 7, which in version 4 is one of the count of rows
  row ... spare=00000001   bytes 20 to 23 of a row, in hexadecimal; the mileage
                      stands in them, so one of both at most
  tail 0A0B           bytes added at the end, in hexadecimal
  cut 7               only this many bytes are kept, counted from the start
"""

from evp.sheet.builder import Builder
from evp.sheet.doubts import doubts
from evp.sheet.folders import folder_of, take_folder, templates
from evp.sheet.reader import read
from evp.sheet.words import TextError
from evp.sheet.writer import take_text, write

__all__ = ["Builder", "TextError", "doubts", "folder_of", "read", "take_folder", "take_text", "templates", "write"]
