//! The report of a sheet, in words or as a text; one factor; the species of a mass.
use crate::ffi;
use crate::refusal::Refusal;
use crate::{LAST_WORDS, REPORT_WORDS, ROW_WORDS, TEXT_BYTES};
use std::fmt;

/// A low and a high, both included, with the exact value between them: whole milligrams, of a factor micrograms.
#[derive(Clone, Copy, Debug, PartialEq, Eq, Hash)]
pub struct Band {
    /// At most the exact value.
    pub low: u64,
    /// At least the exact value.
    pub high: u64,
}

impl fmt::Display for Band {
    fn fmt(&self, f: &mut fmt::Formatter<'_>) -> fmt::Result {
        write!(f, "{} to {}", self.low, self.high)
    }
}

/// The masses of a row, or of the rows of a subtotal, in a year, in milligrams.
#[derive(Clone, Copy, Debug, PartialEq, Eq, Hash)]
pub struct Masses {
    /// While parked.
    pub diurnal: Band,
    /// After a trip.
    pub soak: Band,
    /// On a trip.
    pub running: Band,
}

impl Masses {
    /// By six words of a report.
    pub(crate) fn of(words: &[u64]) -> Masses {
        let band = |i: usize| Band { low: words[i], high: words[i + 1] };
        Masses { diurnal: band(0), soak: band(2), running: band(4) }
    }
}

/// The words of a report that are behind its rows: the subtotals and the grand total.
#[derive(Clone, Copy, Debug, PartialEq, Eq)]
pub struct Totals {
    /// Classes 1 to 3.
    pub cars: Masses,
    /// Class 4, light-duty vehicles.
    pub light: Masses,
    /// Classes 5 to 9, two-wheelers.
    pub two: Masses,
    /// All rows.
    pub all: Masses,
    /// The three mechanisms of all rows together.
    pub total: Band,
}

impl Totals {
    /// By the last 26 words of a report.
    pub(crate) fn of(words: &[u64]) -> Totals {
        let masses = |i: usize| Masses::of(&words[ROW_WORDS * i..]);
        let total = Band { low: words[24], high: words[25] };
        Totals { cars: masses(0), light: masses(1), two: masses(2), all: masses(3), total }
    }
}

/// The report of an accepted sheet.
#[derive(Clone, Debug, PartialEq, Eq)]
pub struct Report {
    words: Vec<u64>,
}

impl Report {
    /// By the words of a report, and no more.
    pub(crate) fn of(words: &[u64]) -> Report {
        Report { words: words.to_vec() }
    }

    /// Its words as the call writes them: six for each row, then 26.
    pub fn words(&self) -> &[u64] {
        &self.words
    }

    /// How many rows the sheet has.
    pub fn row_count(&self) -> usize {
        (self.words.len() - LAST_WORDS) / ROW_WORDS
    }

    /// The masses of a row, counted from 0; none where the sheet has no such row.
    pub fn row(&self, row: usize) -> Option<Masses> {
        (row < self.row_count()).then(|| Masses::of(&self.words[ROW_WORDS * row..]))
    }

    /// The masses of the rows, in their order.
    pub fn rows(&self) -> impl Iterator<Item = Masses> + '_ {
        self.words[..ROW_WORDS * self.row_count()].chunks_exact(ROW_WORDS).map(Masses::of)
    }

    /// The subtotals and the grand total.
    pub fn totals(&self) -> Totals {
        Totals::of(&self.words[self.words.len() - LAST_WORDS..])
    }

    /// The grand total.
    pub fn total(&self) -> Band {
        self.totals().total
    }
}

/// The words of the report of a sheet with this many rows.
pub const fn words_of(rows: usize) -> usize {
    ROW_WORDS * rows + LAST_WORDS
}

/// How many words the report of a sheet has; 0 where it is refused.
pub fn report_words(sheet: &[u8]) -> usize {
    // SAFETY: the sheet is handed over with its length, and the call does not keep it.
    unsafe { ffi::evp_report_words(sheet.as_ptr(), sheet.len()) }
}

/// Writes the words of a sheet's report to the start of `words`, and answers how many they are. Refused: `words` keeps
/// what it had. Takes no memory.
pub fn report_into(sheet: &[u8], words: &mut [u64]) -> Result<usize, Refusal> {
    // SAFETY: both slices are handed over with their lengths, and the call keeps neither.
    let answer = unsafe { ffi::evp_report(sheet.as_ptr(), sheet.len(), words.as_mut_ptr(), words.len()) };
    answer.accepted()?;
    Ok(report_words(sheet))
}

/// The report of a sheet.
pub fn report(sheet: &[u8]) -> Result<Report, Refusal> {
    check(sheet)?;
    let mut words = vec![0; report_words(sheet)];
    report_into(sheet, &mut words)?;
    Ok(Report { words })
}

/// Where a sheet is refused; nothing where it is accepted. Makes no report.
pub fn check(sheet: &[u8]) -> Result<(), Refusal> {
    // SAFETY: the sheet is handed over with its length, and the call does not keep it.
    unsafe { ffi::evp_check_sheet(sheet.as_ptr(), sheet.len()) }.accepted()
}

/// A text: its length in bytes, and whether it is a report or the line of a refusal.
#[derive(Clone, Copy, Debug, PartialEq, Eq)]
pub struct TextWritten {
    /// The bytes of the text; where the buffer has fewer nothing is written.
    pub bytes: usize,
    /// Nothing for a report; else the refusal that the one line tells.
    pub refused: Option<Refusal>,
}

/// The lines that the program `report` prints, a refusal's `refused N at P` too.
pub fn text(sheet: &[u8]) -> String {
    let (mut words, mut text) = (vec![0; REPORT_WORDS], vec![0; TEXT_BYTES]);
    let written = text_into(sheet, &mut words, &mut text);
    text.truncate(written.bytes);
    String::from_utf8(text).expect("the text is ASCII")
}

/// Writes the text to the start of `text` where it fits; where it does not, `text` keeps what it had. The words are
/// lent for the report: with too few the text is `refused 22 at 0`. Takes no memory.
pub fn text_into(sheet: &[u8], words: &mut [u64], text: &mut [u8]) -> TextWritten {
    // SAFETY: the slices are handed over with their lengths, cannot overlap, and the call keeps none.
    let answer = unsafe {
        ffi::evp_text(sheet.as_ptr(), sheet.len(), words.as_mut_ptr(), words.len(), text.as_mut_ptr(), text.len())
    };
    TextWritten { bytes: answer.bytes as usize, refused: Refusal::of(answer.number, answer.place).err() }
}

/// The seven emission factors.
#[derive(Clone, Copy, Debug, PartialEq, Eq, Hash)]
#[repr(u64)]
pub enum Factor {
    /// Of a day.
    Diurnal = 1,
    /// Hot soak of a parking, injection.
    SoakInjection = 2,
    /// Hot soak of a parking, carburettor, warm.
    SoakWarm = 3,
    /// Hot soak of a parking, carburettor, hot.
    SoakHot = 4,
    /// Of a trip, injection.
    RunningInjection = 5,
    /// Of a trip, carburettor, warm.
    RunningWarm = 6,
    /// Of a trip, carburettor, hot.
    RunningHot = 7,
}

impl Factor {
    /// The seven, in their order.
    pub const ALL: [Factor; 7] = [
        Factor::Diurnal,
        Factor::SoakInjection,
        Factor::SoakWarm,
        Factor::SoakHot,
        Factor::RunningInjection,
        Factor::RunningWarm,
        Factor::RunningHot,
    ];
}

/// A factor of a season and a row, both counted from 0, in micrograms: at most 10 between low and high.
pub fn factor(sheet: &[u8], season: u64, row: u64, factor: Factor) -> Result<Band, Refusal> {
    // SAFETY: the sheet is handed over with its length, and the call does not keep it.
    let answer = unsafe { ffi::evp_factor(sheet.as_ptr(), sheet.len(), season, row, factor as u64) };
    Refusal::of(answer.number, answer.place)?;
    Ok(Band { low: answer.low, high: answer.high })
}

/// The names of the species of Table 3-14, in printed order.
pub const SPECIES: [&str; 29] = [
    "ethane",
    "propane",
    "i-butane",
    "n-butane",
    "i-pentane",
    "n-pentane",
    "2-methylpentane",
    "3-methylpentane",
    "n-hexane",
    "n-heptane",
    "ethene",
    "propene",
    "1-butene",
    "trans-2-butene",
    "isobutene",
    "cis-2-butene",
    "1,3-butadiene",
    "trans-2-pentene",
    "cis-2-pentene",
    "isoprene",
    "propyne",
    "acetylene",
    "benzene",
    "toluene",
    "ethylbenzene",
    "m-xylene",
    "o-xylene",
    "1,2,4-trimethylbenzene",
    "1,3,5-trimethylbenzene",
];

/// The masses of [`SPECIES`] of a mass in milligrams, as of the high of a report's grand total; they add up to it
/// exactly.
pub fn species(total: u64) -> [u64; 29] {
    let mut milligrams = [0; 29];
    // SAFETY: the array is handed over with its length.
    let answer = unsafe { ffi::evp_species(total, milligrams.as_mut_ptr(), milligrams.len()) };
    answer.accepted().expect("29 words are enough");
    milligrams
}

/// The species of a sheet's high total.
#[derive(Clone, Copy, Debug, PartialEq, Eq)]
pub struct Composition {
    /// The high of the report's grand total, in milligrams.
    pub total: u64,
    /// The masses of [`SPECIES`], which add up to it.
    pub milligrams: [u64; 29],
}

/// The species of a sheet's high total.
pub fn species_of(sheet: &[u8]) -> Result<Composition, Refusal> {
    let mut words = vec![0; report_words(sheet)];
    // SAFETY: both slices are handed over with their lengths, and the call keeps neither.
    let answer = unsafe { ffi::evp_species_of(sheet.as_ptr(), sheet.len(), words.as_mut_ptr(), words.len()) };
    Refusal::of(answer.number, answer.place)?;
    Ok(Composition { total: answer.total, milligrams: answer.milligrams })
}
