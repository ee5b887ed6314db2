//! The calls as include/evaporation.h declares them; `python3 -m tools.check bindings` holds them against it.

#[repr(C)]
pub struct Check {
    pub number: u64,
    pub place: u64,
}

#[repr(C)]
pub struct FactorBand {
    pub number: u64,
    pub place: u64,
    pub low: u64,
    pub high: u64,
}

#[repr(C)]
pub struct FactorBands {
    pub number: u64,
    pub place: u64,
    pub bands: [u64; 14],
}

#[repr(C)]
pub struct TextCheck {
    pub number: u64,
    pub place: u64,
    pub bytes: u64,
}

#[repr(C)]
pub struct Composition {
    pub number: u64,
    pub place: u64,
    pub total: u64,
    pub milligrams: [u64; 29],
}

#[repr(C)]
pub struct PoolCheck {
    pub number: u64,
    pub place: u64,
    pub sheet: u64,
    pub bytes: u64,
}

#[repr(C)]
pub struct RowWords {
    pub diurnal_low: u64,
    pub diurnal_high: u64,
    pub soak_low: u64,
    pub soak_high: u64,
    pub running_low: u64,
    pub running_high: u64,
}

#[repr(C)]
pub struct Travel {
    pub town: u64,
    pub urban_mileage: u64,
    pub rural_mileage: u64,
    pub highway_mileage: u64,
    pub rural_speed: u64,
    pub highway_speed: u64,
}

#[repr(C)]
pub struct Cell {
    pub kind: u64,
    pub low: f64,
    pub high: f64,
}

#[repr(C)]
pub struct RowCells {
    pub number: u64,
    pub place: u64,
    pub urban: Cell,
    pub rural: Cell,
    pub highway: Cell,
}

#[repr(C)]
pub struct CellSum {
    pub number: u64,
    pub place: u64,
    pub cell: Cell,
}

#[repr(C)]
pub struct Row {
    pub number: u64,
    pub place: u64,
    pub count: u64,
    pub words: [u64; 6],
}

#[repr(C)]
pub struct Totals {
    pub number: u64,
    pub place: u64,
    pub words: [u64; 26],
}

#[repr(C)]
pub struct Finding {
    pub number: u64,
    pub place: u64,
    pub reason: u64,
    pub index: u64,
    pub season: u64,
    pub at: u64,
    pub bytes: u64,
    pub value: u64,
    pub least: u64,
    pub most: u64,
}

#[repr(C)]
pub struct Filed {
    pub digits: u64,
    pub places: u64,
    pub unit: u64,
}

#[repr(C)]
pub struct Verdict {
    pub verdict: u64,
    pub off: u64,
}

extern "C" {
    pub fn evp_library_version() -> u64;
    pub fn evp_check_sheet(sheet: *const u8, sheet_bytes: usize) -> Check;
    pub fn evp_report_words(sheet: *const u8, sheet_bytes: usize) -> usize;
    pub fn evp_report(sheet: *const u8, sheet_bytes: usize, words: *mut u64, words_count: usize) -> Check;
    pub fn evp_text(
        sheet: *const u8,
        sheet_bytes: usize,
        words: *mut u64,
        words_count: usize,
        text: *mut u8,
        text_bytes: usize,
    ) -> TextCheck;
    pub fn evp_factor(sheet: *const u8, sheet_bytes: usize, season: u64, row: u64, factor: u64) -> FactorBand;
    pub fn evp_row_factors(sheet: *const u8, sheet_bytes: usize, season: u64, row: u64) -> FactorBands;
    pub fn evp_factors(sheet: *const u8, sheet_bytes: usize, words: *mut u64, words_count: usize) -> Check;
    pub fn evp_report_seasons(sheet: *const u8, sheet_bytes: usize, words: *mut u64, words_count: usize) -> Check;
    pub fn evp_species(total: u64, milligrams: *mut u64, count: usize) -> Check;
    pub fn evp_species_of(sheet: *const u8, sheet_bytes: usize, words: *mut u64, words_count: usize) -> Composition;
    pub fn evp_cells_of_row(words: RowWords, travel: Travel) -> RowCells;
    pub fn evp_add_cells(a: Cell, b: Cell) -> CellSum;
    pub fn evp_arrive(
        sheet: *mut u8,
        sheet_bytes: usize,
        words: *mut u64,
        words_count: usize,
        row: u64,
        vehicles: u64,
    ) -> Check;
    pub fn evp_depart(
        sheet: *mut u8,
        sheet_bytes: usize,
        words: *mut u64,
        words_count: usize,
        row: u64,
        vehicles: u64,
    ) -> Check;
    pub fn evp_pool(
        first: *const u8,
        first_bytes: usize,
        second: *const u8,
        second_bytes: usize,
        pool: *mut u8,
        pool_bytes: usize,
    ) -> PoolCheck;
    pub fn evp_shared_open(
        sheet: *const u8,
        sheet_bytes: usize,
        owners: *const u8,
        owners_count: usize,
        words: *mut u64,
        words_count: usize,
    ) -> Check;
    pub fn evp_shared_arrive(
        sheet: *mut u8,
        sheet_bytes: usize,
        owners: *const u8,
        owners_count: usize,
        words: *mut u64,
        words_count: usize,
        who: u64,
        row: u64,
        vehicles: u64,
    ) -> Check;
    pub fn evp_shared_depart(
        sheet: *mut u8,
        sheet_bytes: usize,
        owners: *const u8,
        owners_count: usize,
        words: *mut u64,
        words_count: usize,
        who: u64,
        row: u64,
        vehicles: u64,
    ) -> Check;
    pub fn evp_shared_row(
        sheet: *const u8,
        sheet_bytes: usize,
        owners: *const u8,
        owners_count: usize,
        words: *const u64,
        words_count: usize,
        who: u64,
        row: u64,
    ) -> Row;
    pub fn evp_shared_totals(
        sheet: *const u8,
        sheet_bytes: usize,
        owners: *const u8,
        owners_count: usize,
        words: *const u64,
        words_count: usize,
        who: u64,
    ) -> Totals;
    pub fn evp_explain(sheet: *const u8, sheet_bytes: usize) -> Finding;
    pub fn evp_mark(filed: Filed, low: u64, high: u64) -> Verdict;
}
