//! The tally of card 7: total units, total cents and a remainder.

/// Units, cents and the visits that fill no thousand yet.
#[derive(Debug, Clone, Copy, Default, PartialEq, Eq)]
pub struct Tally {
    pub units: u32,
    pub cents: u32,
    pub remainder: u32,
}

impl Tally {
    /// A query's visits join the remainder; every full 1,000 becomes a unit, charged at that query's price. 15
    /// where a total would pass 32 bits, or where the remainder handed in is over 999.
    pub fn add(self, visits: u32, price: u16) -> Result<Tally, u8> {
        if self.remainder > 999 {
            return Err(15);
        }
        let joined = u128::from(self.remainder) + u128::from(visits);
        let full = joined / 1_000;
        let total = |before: u32, more: u128| u32::try_from(u128::from(before) + more).or(Err(15));
        Ok(Tally {
            units: total(self.units, full)?,
            cents: total(self.cents, full * u128::from(price))?,
            remainder: (joined % 1_000) as u32,
        })
    }
}
