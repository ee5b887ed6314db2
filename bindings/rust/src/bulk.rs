//! Everything of a kind in one call: the factors of a row or of a sheet, and the report of each season.
use crate::ffi;
use crate::refusal::Refusal;
use crate::report::{report_words, words_of, Band, Factor, Report};
use crate::{LAST_WORDS, ROW_WORDS};

/// The words of a row's factors: a low and a high for each of the seven.
const FACTOR_WORDS: usize = 2 * Factor::ALL.len();

/// The seasons and rows of a sheet; none where it is refused.
fn shape(sheet: &[u8]) -> (usize, usize) {
    match report_words(sheet) {
        0 => (0, 0),
        words => (usize::from(sheet[5]), (words - LAST_WORDS) / ROW_WORDS),
    }
}

/// The seven bands of a row.
fn bands(words: &[u64]) -> [Band; 7] {
    std::array::from_fn(|factor| Band { low: words[2 * factor], high: words[2 * factor + 1] })
}

/// The factors of a season and a row, both counted from 0, in micrograms, in the order of [`Factor::ALL`]. Each is what
/// [`factor`](crate::factor) returns.
pub fn row_factors(sheet: &[u8], season: u64, row: u64) -> Result<[Band; 7], Refusal> {
    // SAFETY: the sheet is handed over with its length, and the call does not keep it.
    let answer = unsafe { ffi::evp_row_factors(sheet.as_ptr(), sheet.len(), season, row) };
    Refusal::of(answer.number, answer.place)?;
    Ok(bands(&answer.bands))
}

/// The factors of all seasons and rows of a sheet.
#[derive(Clone, Debug, PartialEq, Eq)]
pub struct Factors {
    words: Vec<u64>,
    seasons: usize,
    rows: usize,
}

impl Factors {
    /// The words as the call writes them: season by season, in each season row by row, 14 for each row.
    pub fn words(&self) -> &[u64] {
        &self.words
    }

    /// How many seasons the sheet has.
    pub fn season_count(&self) -> usize {
        self.seasons
    }

    /// How many rows the sheet has.
    pub fn row_count(&self) -> usize {
        self.rows
    }

    /// The factors of a season and a row, both counted from 0, as [`row_factors`] returns them; none where the sheet has
    /// no such season or row.
    pub fn row(&self, season: usize, row: usize) -> Option<[Band; 7]> {
        let there = season < self.seasons && row < self.rows;
        there.then(|| bands(&self.words[FACTOR_WORDS * (self.rows * season + row)..]))
    }
}

/// How many words all factors of a sheet with so many seasons and rows have.
pub const fn factor_words_of(seasons: usize, rows: usize) -> usize {
    FACTOR_WORDS * seasons * rows
}

/// Writes the factors of all seasons and rows to the start of `words`, and answers how many words they are. Refused:
/// `words` keeps what it had. Takes no memory.
pub fn factors_into(sheet: &[u8], words: &mut [u64]) -> Result<usize, Refusal> {
    // SAFETY: both slices are handed over with their lengths, and the call keeps neither.
    unsafe { ffi::evp_factors(sheet.as_ptr(), sheet.len(), words.as_mut_ptr(), words.len()) }.accepted()?;
    let (seasons, rows) = shape(sheet);
    Ok(factor_words_of(seasons, rows))
}

/// The factors of all seasons and rows, in about the time of one report.
pub fn factors(sheet: &[u8]) -> Result<Factors, Refusal> {
    let (seasons, rows) = shape(sheet);
    let mut words = vec![0; factor_words_of(seasons, rows)];
    factors_into(sheet, &mut words)?;
    Ok(Factors { words, seasons, rows })
}

/// How many words the reports of all seasons of a sheet with so many seasons and rows have.
pub const fn season_words_of(seasons: usize, rows: usize) -> usize {
    seasons * words_of(rows)
}

/// Writes the report of each season, one after another, to the start of `words`, and answers how many words they are.
/// Refused: `words` keeps what it had. Takes no memory.
pub fn report_seasons_into(sheet: &[u8], words: &mut [u64]) -> Result<usize, Refusal> {
    // SAFETY: both slices are handed over with their lengths, and the call keeps neither.
    unsafe { ffi::evp_report_seasons(sheet.as_ptr(), sheet.len(), words.as_mut_ptr(), words.len()) }.accepted()?;
    let (seasons, rows) = shape(sheet);
    Ok(season_words_of(seasons, rows))
}

/// The report of each season alone, in their order. Their exact masses add up to those of the year; each season's words
/// are rounded by themselves, so that the year's band lies within the sums of the seasons' bands.
pub fn report_seasons(sheet: &[u8]) -> Result<Vec<Report>, Refusal> {
    let (seasons, rows) = shape(sheet);
    let mut words = vec![0; season_words_of(seasons, rows)];
    report_seasons_into(sheet, &mut words)?;
    Ok(words.chunks_exact(words_of(rows)).map(Report::of).collect())
}
