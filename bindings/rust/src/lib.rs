//! The calls of the evaporation workbook: the yearly mass that a vehicle fleet loses by evaporation, each as a low and
//! a high in whole milligrams with a proof that the exact mass lies between them. The library behind them,
//! libevaporation.a, is proved; this crate hands over slices and gives back values, and calculates nothing.
//!
//! ```
//! use evaporation::{report, Refusal};
//!
//! # let path = concat!(env!("CARGO_MANIFEST_DIR"), "/samples/table-3-5-day.evp");
//! let sheet = std::fs::read(path).expect("the sheet is there");
//! match report(&sheet) {
//!     Ok(report) => {
//!         for (i, row) in report.rows().enumerate() {
//!             println!("row {}: diurnal {} mg", i + 1, row.diurnal);
//!         }
//!         println!("total {} mg", report.total());
//!         # assert_eq!((report.total().low, report.total().high), (44_140_776, 44_140_793));
//!     }
//!     Err(Refusal { number, place }) => println!("byte {place}: {}", number.text()),
//! }
//! ```
//!
//! A call that refuses changes nothing of what it was lent. No call keeps a slice, reads a file or holds state, so that
//! threads may call at once; a call takes at most [`STACK_BYTES`] of its thread's stack. Functions whose name ends in
//! `_into` take no memory, the others make vectors for what they answer.
#![forbid(improper_ctypes)]

mod bulk;
mod cells;
mod ffi;
mod ledger;
mod marking;
mod pool;
mod refusal;
mod report;

pub use bulk::{
    factor_words_of, factors, factors_into, report_seasons, report_seasons_into, row_factors, season_words_of, Factors,
};
pub use cells::{add_cells, cells_of_row, Cell, RowCells, Travel, MASS_LIMIT};
pub use ledger::{Ledger, RowRead, SharedLedger, Who};
pub use marking::{explain, mark, Filed, Finding, Unit, Verdict};
pub use pool::{pool, PoolRefusal, PoolSheet};
pub use refusal::{Number, Part, Refusal};
pub use report::{
    check, factor, report, report_into, report_words, species, species_of, text, text_into, words_of, Band,
    Composition, Factor, Masses, Report, TextWritten, Totals, SPECIES,
};

/// The bytes of the longest sheet, of version 4 with 12 seasons and 1,000 rows.
pub const SHEET_BYTES: usize = 25_256;

/// The words of its report.
pub const REPORT_WORDS: usize = 6_026;

/// A thread whose whole stack has so many bytes can make every call.
pub const STACK_BYTES: usize = 163_840;

/// No text is longer, in bytes.
pub const TEXT_BYTES: usize = 151_622;

/// The words of a row, and those behind the rows.
const ROW_WORDS: usize = 6;
const LAST_WORDS: usize = 26;

/// The version of the library that is linked: major, minor, patch.
pub fn library_version() -> (u64, u64, u64) {
    // SAFETY: the call gives a number.
    let version = unsafe { ffi::evp_library_version() };
    (version / 1_000_000, version / 1_000 % 1_000, version % 1_000)
}
