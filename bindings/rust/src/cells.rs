//! Cells for a map: milligrams as doubles that are whole numbers.
use crate::ffi;
use crate::refusal::Refusal;
use crate::report::Masses;

/// The largest mass of a cell: 2^53 milligrams. Up to here every whole number is a double.
pub const MASS_LIMIT: u64 = 1 << 53;

/// A cell of the map.
#[derive(Clone, Copy, Debug, PartialEq)]
pub enum Cell {
    /// No mass.
    Empty,
    /// One mass above 0.
    Exact(f64),
    /// A low and a high mass, the low below the high.
    Band(f64, f64),
}

impl Cell {
    /// By its numbers; none where a call has refused.
    fn of(cell: ffi::Cell) -> Option<Cell> {
        match cell.kind {
            0 => Some(Cell::Empty),
            1 => Some(Cell::Exact(cell.low)),
            2 => Some(Cell::Band(cell.low, cell.high)),
            _ => None,
        }
    }

    fn given(cell: ffi::Cell) -> Cell {
        Cell::of(cell).expect("an accepted call gives a cell")
    }

    fn handed(self) -> ffi::Cell {
        match self {
            Cell::Empty => ffi::Cell { kind: 0, low: 0.0, high: 0.0 },
            Cell::Exact(mass) => ffi::Cell { kind: 1, low: mass, high: mass },
            Cell::Band(low, high) => ffi::Cell { kind: 2, low, high },
        }
    }
}

/// Whether the owners of a row live in town, and where its vehicles drive. Mileages are in any unit, alike for all
/// three, and so are the two speeds: only their proportions count. Each of the five is from 1 to 1,000,000.
#[derive(Clone, Copy, Debug, PartialEq, Eq)]
#[allow(missing_docs)]
pub struct Travel {
    pub town: bool,
    pub urban_mileage: u64,
    pub rural_mileage: u64,
    pub highway_mileage: u64,
    pub rural_speed: u64,
    pub highway_speed: u64,
}

/// The three cells of a row.
#[derive(Clone, Copy, Debug, PartialEq)]
#[allow(missing_docs)]
pub struct RowCells {
    pub urban: Cell,
    pub rural: Cell,
    pub highway: Cell,
}

/// The cells of a row: the sum of a cell's exact shares lies in the cell where the exact masses lie in the row's.
pub fn cells_of_row(masses: Masses, travel: Travel) -> Result<RowCells, Refusal> {
    let Masses { diurnal, soak, running } = masses;
    let words = ffi::RowWords {
        diurnal_low: diurnal.low,
        diurnal_high: diurnal.high,
        soak_low: soak.low,
        soak_high: soak.high,
        running_low: running.low,
        running_high: running.high,
    };
    let travel = ffi::Travel {
        town: u64::from(travel.town),
        urban_mileage: travel.urban_mileage,
        rural_mileage: travel.rural_mileage,
        highway_mileage: travel.highway_mileage,
        rural_speed: travel.rural_speed,
        highway_speed: travel.highway_speed,
    };
    // SAFETY: the call takes numbers and gives numbers.
    let answer = unsafe { ffi::evp_cells_of_row(words, travel) };
    Refusal::of(answer.number, answer.place)?;
    Ok(RowCells {
        urban: Cell::given(answer.urban),
        rural: Cell::given(answer.rural),
        highway: Cell::given(answer.highway),
    })
}

/// The exact sum of two cells.
pub fn add_cells(a: Cell, b: Cell) -> Result<Cell, Refusal> {
    // SAFETY: the call takes numbers and gives numbers.
    let answer = unsafe { ffi::evp_add_cells(a.handed(), b.handed()) };
    Refusal::of(answer.number, answer.place)?;
    Ok(Cell::given(answer.cell))
}
