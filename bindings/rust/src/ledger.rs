//! Ledgers: a sheet in which vehicles arrive and depart, its report kept in step; and one that participants share.
use crate::ffi;
use crate::refusal::Refusal;
use crate::report::{report, report_words, Masses, Report, Totals};

/// A sheet whose vehicles arrive and depart, with the words of its report. Rows count from 0.
#[derive(Clone, Debug, PartialEq, Eq)]
pub struct Ledger {
    sheet: Vec<u8>,
    words: Vec<u64>,
}

impl Ledger {
    /// Opens a ledger on a sheet.
    pub fn open(sheet: &[u8]) -> Result<Ledger, Refusal> {
        let words = report(sheet)?.words().to_vec();
        Ok(Ledger { sheet: sheet.to_vec(), words })
    }

    /// The sheet with its present vehicles.
    pub fn sheet(&self) -> &[u8] {
        &self.sheet
    }

    /// The report of this sheet.
    pub fn report(&self) -> Report {
        Report::of(&self.words)
    }

    /// Vehicles arrive at a row. Refused: nothing changes.
    pub fn arrive(&mut self, row: u64, vehicles: u64) -> Result<(), Refusal> {
        let Ledger { sheet, words } = self;
        // SAFETY: both vectors are handed over with their lengths, and the call keeps neither.
        let answer =
            unsafe { ffi::evp_arrive(sheet.as_mut_ptr(), sheet.len(), words.as_mut_ptr(), words.len(), row, vehicles) };
        answer.accepted()
    }

    /// Vehicles depart from a row. Refused: nothing changes.
    pub fn depart(&mut self, row: u64, vehicles: u64) -> Result<(), Refusal> {
        let Ledger { sheet, words } = self;
        // SAFETY: as above.
        let answer =
            unsafe { ffi::evp_depart(sheet.as_mut_ptr(), sheet.len(), words.as_mut_ptr(), words.len(), row, vehicles) };
        answer.accepted()
    }
}

/// Who calls a shared ledger. The library does not know: a host that lets participants call sets this itself.
#[derive(Clone, Copy, Debug, PartialEq, Eq, Hash)]
pub enum Who {
    /// Reads all rows and the totals and changes none.
    Marker,
    /// Changes and reads the rows of their own, 1 to 8; another number has no right to anything.
    Participant(u8),
}

impl Who {
    fn number(self) -> u64 {
        match self {
            Who::Marker => 0,
            // 0 is the marker's number, and no participant's
            Who::Participant(0) => u64::MAX,
            Who::Participant(number) => u64::from(number),
        }
    }
}

/// The arrival at a shared ledger, or the departure from it.
type SharedChange =
    unsafe extern "C" fn(*mut u8, usize, *const u8, usize, *mut u64, usize, u64, u64, u64) -> ffi::Check;

/// A row of a shared ledger.
#[derive(Clone, Copy, Debug, PartialEq, Eq)]
pub struct RowRead {
    /// Its vehicles.
    pub vehicles: u64,
    /// Its masses.
    pub masses: Masses,
}

/// A ledger of eight participants and a marker. Rows count from 0.
#[derive(Clone, Debug, PartialEq, Eq)]
pub struct SharedLedger {
    sheet: Vec<u8>,
    owners: Vec<u8>,
    words: Vec<u64>,
}

impl SharedLedger {
    /// Opens a shared ledger; `owners` has a byte for each row, 1 to 8.
    pub fn open(sheet: &[u8], owners: &[u8]) -> Result<SharedLedger, Refusal> {
        let mut words = vec![0; report_words(sheet)];
        // SAFETY: the slices are handed over with their lengths, cannot overlap, and the call keeps none.
        let answer = unsafe {
            ffi::evp_shared_open(
                sheet.as_ptr(),
                sheet.len(),
                owners.as_ptr(),
                owners.len(),
                words.as_mut_ptr(),
                words.len(),
            )
        };
        answer.accepted()?;
        Ok(SharedLedger { sheet: sheet.to_vec(), owners: owners.to_vec(), words })
    }

    /// The sheet with its present vehicles: for the host, not for a participant.
    pub fn sheet(&self) -> &[u8] {
        &self.sheet
    }

    /// The report of this sheet: for the host, not for a participant.
    pub fn report(&self) -> Report {
        Report::of(&self.words)
    }

    /// Vehicles arrive at a row. Refused: nothing changes.
    pub fn arrive(&mut self, who: Who, row: u64, vehicles: u64) -> Result<(), Refusal> {
        self.change(ffi::evp_shared_arrive, who, row, vehicles)
    }

    /// Vehicles depart from a row. Refused: nothing changes.
    pub fn depart(&mut self, who: Who, row: u64, vehicles: u64) -> Result<(), Refusal> {
        self.change(ffi::evp_shared_depart, who, row, vehicles)
    }

    fn change(&mut self, call: SharedChange, who: Who, row: u64, vehicles: u64) -> Result<(), Refusal> {
        let SharedLedger { sheet, owners, words } = self;
        // SAFETY: the vectors are handed over with their lengths, and the call keeps none.
        let answer = unsafe {
            call(
                sheet.as_mut_ptr(),
                sheet.len(),
                owners.as_ptr(),
                owners.len(),
                words.as_mut_ptr(),
                words.len(),
                who.number(),
                row,
                vehicles,
            )
        };
        answer.accepted()
    }

    /// A row's vehicles and masses.
    pub fn row(&self, who: Who, row: u64) -> Result<RowRead, Refusal> {
        let SharedLedger { sheet, owners, words } = self;
        // SAFETY: as above, and the call writes nothing.
        let answer = unsafe {
            ffi::evp_shared_row(
                sheet.as_ptr(),
                sheet.len(),
                owners.as_ptr(),
                owners.len(),
                words.as_ptr(),
                words.len(),
                who.number(),
                row,
            )
        };
        Refusal::of(answer.number, answer.place)?;
        Ok(RowRead { vehicles: answer.count, masses: Masses::of(&answer.words) })
    }

    /// The subtotals and the grand total.
    pub fn totals(&self, who: Who) -> Result<Totals, Refusal> {
        let SharedLedger { sheet, owners, words } = self;
        // SAFETY: as above, and the call writes nothing.
        let answer = unsafe {
            ffi::evp_shared_totals(
                sheet.as_ptr(),
                sheet.len(),
                owners.as_ptr(),
                owners.len(),
                words.as_ptr(),
                words.len(),
                who.number(),
            )
        };
        Refusal::of(answer.number, answer.place)?;
        Ok(Totals::of(&answer.words))
    }
}
