//! What a season gives to all its rows.
use crate::exponential::{exponential, power, TENTH, ZERO};
use crate::parkings::{mark_at, place_of, walk, Grid, Parking, CELLS, MARKS};
use crate::products::Products;
use common::sheet::Season;
use common::tables::WEIGHTS;

/// The raises of temperature in a soak or on a trip, in tenths of a degree.
pub const RAISES: [u64; 7] = [10, 15, 25, 35, 45, 50, 60];

/// Which of them count for a row: the lesser and the greater of a soak, and of a trip.
pub struct RowRaises {
    pub soak: [usize; 2],
    pub trip: [usize; 2],
}

pub const CAR: RowRaises = RowRaises { soak: [4, 6], trip: [0, 5] };
pub const TWO_WHEELER: RowRaises = RowRaises { soak: [1, 3], trip: [0, 2] };

/// How far the exact rise can be below the computed one: in a parking, and under a raise.
const RISE_ERROR: u64 = 582;
const RAISED_ERROR: u64 = 475;

/// Means over the cells, in units of 2^-28, of what no row changes.
pub struct Means {
    pub rise: u64,
    pub permeation: u64,
    pub soak: u64,
    pub run: u64,
    pub starts: [u64; 7],
    pub ends: [u64; 7],
}

/// A season at N places of the day: its marks, or the 25 that differ.
pub struct AtSeason<const N: usize> {
    pub vp: u64,
    /// T at the places, in units of 10^-10 °C above -30 °C.
    pub warmths: [u64; N],
    /// The rise of E(0.0716 T) under each of `RAISES`.
    pub raises: [[u64; N]; 7],
    pub parkings: Vec<Parking>,
    pub means: Means,
}

/// E(0.0716 T).
fn heat<P: Products>(warmth: u64) -> u64 {
    exponential::<P>(716 * warmth + 1_385_200_000_000_000)
}

/// Permeation in an hour, where E(0.004 vp) is `pressure`.
fn rate<P: Products>(pressure: u64, warmth: u64) -> u64 {
    let bracket = P::mul(power::<P>(warmth), 444_278_301_800) + 22_649_939_532;
    P::mul(pressure, bracket)
}

/// Grams of vapour for a rise of 1 in E(0.0716 T), for a litre of room in the tank: E(0.0205 vp).
pub fn vapour<P: Products>(season: &Season) -> u64 {
    exponential::<P>(205_000_000_000 * season.vp + ZERO)
}

/// The values of the places at all marks.
fn by_mark<const N: usize>(values: &[u64; N]) -> [u64; MARKS] {
    std::array::from_fn(|mark| values[place_of::<N>(mark)])
}

impl<const N: usize> AtSeason<N> {
    /// `parkings` gives those that rows look at, of the counts and the rises of the cells.
    pub fn new<P: Products>(
        grid: &Grid<N>,
        season: &Season,
        parkings: fn(&Grid<N>, &[u64; CELLS]) -> Vec<Parking>,
    ) -> Self {
        let span = season.highest - season.lowest;
        let warmths: [u64; N] =
            std::array::from_fn(|place| season.lowest * TENTH + span * WEIGHTS[mark_at::<N>(place)]);
        let heats = warmths.map(heat::<P>);
        let raises = RAISES.map(|raise| {
            std::array::from_fn(|place| {
                let raised = heat::<P>(warmths[place] + raise * TENTH);
                raised.saturating_sub(heats[place] + RAISED_ERROR)
            })
        });
        let marks = by_mark(&heats);
        let steps = std::array::from_fn(|i| marks[(i + 1) % MARKS].saturating_sub(marks[i]));
        let rises = walk(&steps).map(|rise| rise.saturating_sub(RISE_ERROR));

        let pressure = exponential::<P>(40_000_000_000 * season.vp + ZERO);
        let rates = |raise: u64| warmths.map(|w| rate::<P>(pressure, w + raise * TENTH));
        let seeps = walk(&by_mark(&rates(0))).map(|sum| sum / 2);
        let means = Means {
            rise: grid.mean_by_cell(&rises),
            permeation: grid.mean_by_cell(&seeps),
            soak: grid.mean_by_start(&rates(110)),
            run: grid.mean_by_end(&rates(150)),
            starts: std::array::from_fn(|k| grid.mean_by_start(&raises[k])),
            ends: std::array::from_fn(|k| grid.mean_by_end(&raises[k])),
        };
        AtSeason { vp: season.vp, warmths, raises, parkings: parkings(grid, &rises), means }
    }

    /// a of a canister at each place, held as an exponent.
    pub fn bases(&self) -> [u64; N] {
        self.warmths.map(|warmth| 305_000_000_000_000 + 650 * warmth - 150_000_000_000 * self.vp)
    }

    /// b of a canister at each place, in units of 10^-14.
    pub fn growths(&self) -> [u64; N] {
        self.warmths.map(|warmth| 11_200_000_000_000 + warmth - 1_500_000_000 * self.vp)
    }
}
