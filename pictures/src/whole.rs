//! Zonal sweeps of one substep in whole numbers at any scale, for a row whose cells have the same air and whose faces the same
//! flux eastward: only to draw what the deliveries of the earlier scale gave. At the library's scale it gives what the library does.

/// The scale of the ratio, the mismatch and the piece up to version 0.5.
pub const EARLIER: i64 = 65_536;
/// The library's.
pub const NOW: i64 = puldeho::SCALE as i64;

pub struct Row {
    pub scale: i64,
    pub air: i64,
    pub flux: i64,
}

impl Row {
    /// The mismatch of every cell, with its sign.
    pub fn mismatches(&self, gas: &[i64]) -> Vec<i64> {
        let w = gas.len();
        let ratio = |i: usize| self.scale * gas[i % w] / self.air;
        let mismatch = |i: usize| {
            let (west, own, east) = (ratio(i + w - 1), ratio(i), ratio(i + 1));
            let (least, greatest) = (own.min(west).min(east), own.max(west).max(east));
            let size = ((east - west).abs() / 2)
                .min(2 * (own - least))
                .min(2 * (greatest - own));
            size * (east - west).signum()
        };
        (0..w).map(mismatch).collect()
    }

    /// The units of gas by which each cell's distribution rises from its west end to its east end.
    pub fn slopes(&self, gas: &[i64]) -> Vec<f64> {
        let unit = self.air as f64 / self.scale as f64;
        let mismatches = self.mismatches(gas);
        mismatches.iter().map(|&d| d as f64 * unit).collect()
    }

    fn swept(&self, gas: &[i64]) -> Vec<i64> {
        let (w, rest) = (gas.len(), self.air - self.flux);
        let pieces = (gas.iter().zip(self.mismatches(gas)))
            .map(|(t, d)| 2 * self.scale * self.flux * t + d * self.flux * rest)
            .map(|numerator| numerator / (2 * self.scale * self.air));
        let pieces: Vec<i64> = pieces.collect();
        (0..w)
            .map(|i| gas[i] + pieces[(i + w - 1) % w] - pieces[i])
            .collect()
    }

    /// The row's gas after so many sweeps.
    pub fn carried(&self, gas: &[i64], sweeps: u32) -> Vec<i64> {
        (0..sweeps).fold(gas.to_vec(), |row, _| self.swept(&row))
    }
}

#[cfg(test)]
mod tests {
    use super::*;

    #[test]
    fn slopes_are_four_times_as_fine() {
        let row = |scale| Row {
            scale,
            air: 60_000,
            flux: 30_000,
        };
        let gas = [60, 61, 63, 63];
        assert_eq!(row(EARLIER).mismatches(&gas), [0, 1, 0, 0]);
        assert_eq!(row(NOW).mismatches(&gas), [0, 6, 0, 0]);
    }
}
