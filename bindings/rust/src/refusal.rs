//! Why a call refuses: its number, its place, and both in words.
use crate::ffi;
use std::error::Error;
use std::fmt;

/// What the place of a refusal is of.
#[derive(Clone, Copy, Debug, PartialEq, Eq, Hash)]
pub enum Part {
    /// The input as a whole; the place is 0.
    Sheet,
    /// The head of the sheet.
    Head,
    /// Its parking: two lists or a grid.
    Parking,
    /// A season; the place is the first byte of its record.
    Season,
    /// A row; the place is the first byte of its record.
    Row,
    /// The call, not the sheet; the place is 0.
    Call,
}

impl fmt::Display for Part {
    fn fmt(&self, f: &mut fmt::Formatter<'_>) -> fmt::Result {
        f.write_str(match self {
            Part::Sheet => "sheet",
            Part::Head => "head",
            Part::Parking => "parking",
            Part::Season => "season",
            Part::Row => "row",
            Part::Call => "call",
        })
    }
}

/// The numbers of a refusal, by the header's names: what the place is of, and what is wrong.
macro_rules! numbers {
    ($($name:ident = $number:literal, $part:ident, $text:literal;)*) => {
        /// Why a call refuses: the condition that applies first.
        #[derive(Clone, Copy, Debug, PartialEq, Eq, Hash)]
        #[non_exhaustive]
        pub enum Number {
            $(#[doc = $text] $name,)*
            /// A number of a later library, which this crate has no name for.
            Other(u64),
        }

        impl Number {
            /// Every number with a name, in the order of the header.
            pub const ALL: &'static [Number] = &[$(Number::$name),*];

            /// The number that the calls answer for it.
            pub const fn code(self) -> u64 {
                match self {
                    $(Number::$name => $number,)*
                    Number::Other(code) => code,
                }
            }

            /// The number of this code; none for 0, which is an accepted call.
            pub const fn of(code: u64) -> Option<Number> {
                match code {
                    0 => None,
                    $($number => Some(Number::$name),)*
                    _ => Some(Number::Other(code)),
                }
            }

            /// What is wrong, in one sentence.
            pub const fn text(self) -> &'static str {
                match self {
                    $(Number::$name => $text,)*
                    Number::Other(_) => "a number of a later library",
                }
            }

            /// What its place is of, but for a row at the opening of a shared ledger: [`Refusal::part`] has it.
            const fn part(self) -> Part {
                match self {
                    $(Number::$name => Part::$part,)*
                    Number::Other(_) => Part::Call,
                }
            }
        }
    };
}

numbers! {
    HeadShort = 1, Sheet, "there are fewer than the 8 bytes of a head";
    Mark = 2, Head, "the first three bytes are not the letters EVP";
    Version = 3, Head, "the version is not 1 to 4, or of two sheets to pool not 4";
    Seasons = 4, Head, "the number of seasons is not 1 to 12";
    Rows = 5, Head, "the number of rows is not 1 to 32, in version 4 not 1 to 1,000";
    HeadZero = 6, Head, "byte 7 is not 0";
    Length = 7, Sheet, "the length does not fit the seasons and rows that the head tells of";
    Durations = 8, Parking, "the 24 counts of durations do not sum to 1 to 1,000";
    Hours = 9, Parking, "the 24 counts of end hours do not sum to 1 to 1,000";
    Grid = 24, Parking, "the 576 counts of the grid do not sum to 1 to 1,000,000";
    Days = 10, Season, "the days, alone or with those of the seasons before, are not 1 to 366";
    Temperatures = 11, Season, "a temperature is not -30.0 to 50.0 degrees C, or the lowest is above the highest";
    VapourPressure = 12, Season, "the vapour pressure is not 30.0 to 110.0 kPa";
    Class = 13, Row, "class and technology are not in the table";
    Canister = 14, Row, "the canister is none of 0, 1, 2, 3 and 255";
    Percent = 15, Row, "a share or the fill level is above 100 percent";
    Vehicles = 16, Row, "there are more than 10,000,000 vehicles";
    Fleet = 26, Row, "with the rows before there are more than 100,000,000 vehicles";
    Tank = 17, Row, "the tank is above 150.0 l";
    Trips = 18, Row, "there are more than 12.00 trips a day, or more than 1,440 minutes a trip";
    Load = 19, Row, "the load is above m_sat, or one of them is given without a canister";
    Exponent = 20, Row, "m_sat is too large for the canister";
    RowZeros = 21, Row, "the last four bytes of the row are not 0";
    Mileage = 25, Row,
        "the mileage is above 1,000,000 km, or stands without a canister, beside a load or beside a large m_sat";
    Absent = 23, Call, "there is no such season, row or factor";
    Travel = 28, Call, "a mileage or a speed is not 1 to 1,000,000, or town is neither 0 nor 1";
    Cell = 27, Call, "a low is above its high, a mass is above 2^53 mg, or a cell is none";
    Differ = 32, Call, "the seasons or the parking of the two sheets differ";
    Room = 22, Call, "the output buffer is too small";
    Right = 30, Call, "the one who calls has no right to this";
    Count = 29, Call, "there is no such row, it has fewer vehicles, or it would have too many";
    Share = 31, Call, "a row has no owner, or a participant would have more than 100 rows or 10,000,000 vehicles";
}

/// A refused call: the condition that applies first, and where.
#[derive(Clone, Copy, Debug, PartialEq, Eq, Hash)]
pub struct Refusal {
    /// Which condition applies.
    pub number: Number,
    /// The byte of the sheet at which to look: of a season or row its first; 0 where the call itself is at fault.
    pub place: u64,
}

impl Refusal {
    /// The refusal of an answer, or none where it is accepted.
    pub(crate) fn of(number: u64, place: u64) -> Result<(), Refusal> {
        Number::of(number).map_or(Ok(()), |number| Err(Refusal { number, place }))
    }

    /// What is wrong, in one sentence.
    pub const fn text(&self) -> &'static str {
        self.number.text()
    }

    /// What its place is of.
    pub const fn part(&self) -> Part {
        match self.number {
            Number::Share if self.place > 0 => Part::Row,
            number => number.part(),
        }
    }

    /// Which season or row of the refused sheet it is of, counted from 1 as a report's text counts its rows; none
    /// where it is of neither. Of a pooled sheet, hand in the first of the two.
    pub fn record(&self, sheet: &[u8]) -> Option<u64> {
        let (before, size) = match self.part() {
            Part::Season => (0, 8),
            Part::Row => (8 * u64::from(*sheet.get(5)?), 24),
            _ => return None,
        };
        let parking = if sheet.get(3..5)? == [1, 0] { 104 } else { 1160 };
        Some(self.place.checked_sub(parking + before)? / size + 1)
    }
}

impl ffi::Check {
    /// Nothing where the call is accepted.
    pub(crate) fn accepted(self) -> Result<(), Refusal> {
        Refusal::of(self.number, self.place)
    }
}

/// `refused 17 at 136: the tank is above 150.0 l`.
impl fmt::Display for Refusal {
    fn fmt(&self, f: &mut fmt::Formatter<'_>) -> fmt::Result {
        write!(f, "refused {} at {}: {}", self.number.code(), self.place, self.text())
    }
}

impl Error for Refusal {}
