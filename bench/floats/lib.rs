//! The report in f64: the masses of each row in milligrams, with no bound on their error. Three programs with
//! the standard library's `exp`, each with more shared among the rows than the one before: `plain`, as a user
//! would write it; `shared`, with the rises of the parkings once a season; and `all`, with every saving that
//! the whole-number program knows. A fourth is `all` with a short exponential of its own, as that program has.
mod all;
mod exponential;
mod plain;
mod shared;

use common::sheet::{Refusal, Row, Sheet};
use exponential::{Short, Standard};

/// Diurnal, soak and running.
pub type Masses = [f64; 3];

/// A sheet's masses, row by row.
pub type Program = fn(&[u8]) -> Result<Vec<Masses>, Refusal>;

pub const PROGRAMS: [(&str, Program); 4] = [
    ("plain, as a user would write it", plain::report),
    ("the rises of the parkings once a season", shared::report),
    ("list, 25 marks, raises and exponents hoisted", all::report::<Standard>),
    ("list, 25 marks, hoisted, a short exponential", all::report::<Short>),
];

const MARKS: usize = 48;
const CELLS: usize = 576;

/// The mark at which the parking of a cell starts, and that at which it ends.
fn marks_of(cell: usize) -> (usize, usize) {
    let end = 2 * (cell / 24 + 1);
    ((end + MARKS - (cell % 24 + 1)) % MARKS, end % MARKS)
}

/// Permeation in grams an hour.
fn permeation(vp: f64, t: f64) -> f64 {
    let power = if t < 0.0 { 0.0 } else { t * t * t.sqrt() };
    (0.004 * vp).exp() * (6.1656e-6 * power + 0.0206)
}

/// a and b of a canister of size 1.
fn canister(vp: f64, t: f64) -> (f64, f64) {
    (-11.0 - 0.015 * vp + 0.065 * t, 0.115 - 0.00015 * vp + 0.0001 * t)
}

/// A row of the sheet in units, shares as parts of 1.
struct Vehicle {
    two_wheeler: bool,
    /// Of the canister, and 0 without one.
    size: f64,
    load: f64,
    saturation: f64,
    /// 8.13 ln M - 22.92, where the load follows from the mileage.
    kept: Option<f64>,
    /// Litres of vapour in the tank.
    room: f64,
    carburettor: f64,
    hot: f64,
    trips: f64,
    hours: f64,
    count: f64,
}

impl Vehicle {
    fn new(row: &Row) -> Self {
        Vehicle {
            two_wheeler: row.two_wheeler(),
            size: row.halves as f64 / 2.0,
            load: row.load as f64 / 10.0,
            saturation: row.saturation as f64 / 10.0,
            kept: row.driven().then(|| 8.13 * (row.mileage as f64).ln() - 22.92),
            room: (1.0 - row.fill as f64 / 100.0) * row.tank as f64 / 10.0,
            carburettor: row.carburettor as f64 / 100.0,
            hot: row.hot as f64 / 100.0,
            trips: row.trips as f64 / 100.0,
            hours: row.minutes as f64 / 60.0,
            count: row.vehicles as f64,
        }
    }

    /// So many days of the seven factors, in grams, are added in milligrams.
    fn add(&self, masses: &mut Masses, days: f64, factors: [f64; 7]) {
        let [diurnal, soak, warm_soak, hot_soak, run, warm_run, hot_run] = factors;
        let trips = |hot: f64, warm: f64, injection: f64| {
            let carburettor = self.hot * hot + (1.0 - self.hot) * warm;
            self.trips * (self.carburettor * carburettor + (1.0 - self.carburettor) * injection)
        };
        let many = 1000.0 * days * self.count;
        masses[0] += many * diurnal;
        masses[1] += many * trips(hot_soak, warm_soak, soak);
        masses[2] += many * trips(hot_run, warm_run, run);
    }
}

fn read(bytes: &[u8]) -> Result<Sheet, Refusal> {
    Sheet::read(bytes, usize::MAX)
}
