//! Two sheets pooled into one.
use crate::ffi;
use crate::refusal::Refusal;
use crate::SHEET_BYTES;
use std::error::Error;
use std::fmt;

/// Which sheet a refusal of the pool call is of.
#[derive(Clone, Copy, Debug, PartialEq, Eq, Hash)]
pub enum PoolSheet {
    /// The first.
    First,
    /// The second.
    Second,
    /// The two together.
    Pooled,
}

/// A refused pool.
#[derive(Clone, Copy, Debug, PartialEq, Eq, Hash)]
pub struct PoolRefusal {
    /// The sheet that is refused.
    pub sheet: PoolSheet,
    /// Why, with the place counted from the start of that sheet.
    pub refusal: Refusal,
}

/// `second sheet: refused 3 at 3: the version is not 1 to 4`.
impl fmt::Display for PoolRefusal {
    fn fmt(&self, f: &mut fmt::Formatter<'_>) -> fmt::Result {
        let sheet = match self.sheet {
            PoolSheet::First => "first",
            PoolSheet::Second => "second",
            PoolSheet::Pooled => "pooled",
        };
        write!(f, "{sheet} sheet: {}", self.refusal)
    }
}

impl Error for PoolRefusal {
    fn source(&self) -> Option<&(dyn Error + 'static)> {
        Some(&self.refusal)
    }
}

/// Two sheets of version 4 with the same seasons and parking, pooled: the first's rows, then the second's.
pub fn pool(first: &[u8], second: &[u8]) -> Result<Vec<u8>, PoolRefusal> {
    let mut pooled = vec![0; SHEET_BYTES];
    // SAFETY: the slices are handed over with their lengths, cannot overlap, and the call keeps none.
    let answer = unsafe {
        ffi::evp_pool(first.as_ptr(), first.len(), second.as_ptr(), second.len(), pooled.as_mut_ptr(), pooled.len())
    };
    if let Err(refusal) = Refusal::of(answer.number, answer.place) {
        let sheet = match answer.sheet {
            1 => PoolSheet::First,
            2 => PoolSheet::Second,
            _ => PoolSheet::Pooled,
        };
        return Err(PoolRefusal { sheet, refusal });
    }
    pooled.truncate(answer.bytes as usize);
    Ok(pooled)
}
