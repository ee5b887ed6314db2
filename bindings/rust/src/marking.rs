//! What a band says of a filed mass; and why a sheet is refused.
use crate::ffi;
use crate::refusal::{Number, Refusal};
use crate::report::Band;

/// The unit of a filed mass.
#[derive(Clone, Copy, Debug, PartialEq, Eq, Hash)]
#[allow(missing_docs)]
#[repr(u64)]
pub enum Unit {
    Milligram = 0,
    Gram = 1,
    Kilogram = 2,
    Tonne = 3,
}

/// A filed mass: 2.834 t has the digits 2834, 3 places and the unit tonne. It stands for what rounds to it.
#[derive(Clone, Copy, Debug, PartialEq, Eq, Hash)]
pub struct Filed {
    /// The figure without its point.
    pub digits: u64,
    /// How many digits stand behind the point.
    pub places: u64,
    /// Its unit.
    pub unit: Unit,
}

/// What a band says of a filed mass.
#[derive(Clone, Copy, Debug, PartialEq, Eq, Hash)]
pub enum Verdict {
    /// Every mass of the band rounds to the figure.
    Agrees,
    /// Some masses of the band do and some do not: the band does not settle it.
    Fits,
    /// Every mass of the band is above all that the figure stands for, by so many milligrams or more.
    Low(u64),
    /// Every mass of the band is below it, by so many milligrams or more.
    High(u64),
    /// Not compared: a last place below 10^-6 mg, more than 18 digits, or 10^18 mg and more.
    Unreadable,
}

/// The verdict on a filed mass. The band is one of a report, so that what is said holds of the exact mass.
pub fn mark(filed: Filed, band: Band) -> Verdict {
    let Filed { digits, places, unit } = filed;
    // SAFETY: the call takes numbers and gives numbers.
    let answer = unsafe { ffi::evp_mark(ffi::Filed { digits, places, unit: unit as u64 }, band.low, band.high) };
    match answer.verdict {
        0 => Verdict::Agrees,
        1 => Verdict::Fits,
        2 => Verdict::Low(answer.off),
        3 => Verdict::High(answer.off),
        _ => Verdict::Unreadable,
    }
}

/// The first thing that is wrong on a sheet, and what may stand there.
#[derive(Clone, Copy, Debug, PartialEq, Eq)]
pub struct Finding {
    /// Which condition applies.
    pub number: Number,
    /// The byte that the report call names.
    pub place: u64,
    /// Which of the reasons of this number, from 1.
    pub reason: u64,
    /// Which season or row, from 0; 0 in the head and the parking.
    pub index: u64,
    /// For a saturating load the first season in which it is too large, from 0; else 0.
    pub season: u64,
    /// The first byte to look at.
    pub at: u64,
    /// How many bytes belong to it; 0 where the value is the length of the sheet.
    pub bytes: u64,
    /// What stands there, outside of least to most; a temperature as tenths of a degree plus 32768.
    pub value: u64,
    /// The least that may stand there.
    pub least: u64,
    /// The most that may stand there.
    pub most: u64,
}

impl Finding {
    /// The refusal of the report call for this sheet.
    pub fn refusal(&self) -> Refusal {
        Refusal { number: self.number, place: self.place }
    }
}

/// Why a sheet is refused; none where it is accepted.
pub fn explain(sheet: &[u8]) -> Option<Finding> {
    // SAFETY: the sheet is handed over with its length, and the call does not keep it.
    let found = unsafe { ffi::evp_explain(sheet.as_ptr(), sheet.len()) };
    let refusal = Refusal::of(found.number, found.place).err()?;
    Some(Finding {
        number: refusal.number,
        place: refusal.place,
        reason: found.reason,
        index: found.index,
        season: found.season,
        at: found.at,
        bytes: found.bytes,
        value: found.value,
        least: found.least,
        most: found.most,
    })
}
