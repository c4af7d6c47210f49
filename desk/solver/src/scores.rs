//! Which columns took part in conflicts, the latest counting most, and numbers that break ties.

/// One conflict's worth; a score is told in these.
const UNIT: u64 = 1000;
/// Where all scores are scaled down.
const TOP: u64 = 1 << 40;

pub struct Scores {
    columns: Vec<u64>,
    step: u64,
    state: u64,
}

impl Scores {
    pub fn new(columns: usize, seed: u64) -> Scores {
        Scores { columns: vec![0; columns], step: UNIT, state: seed }
    }

    /// Counts a conflict over these columns.
    pub fn bump(&mut self, columns: impl Iterator<Item = usize>) {
        columns.for_each(|column| self.columns[column] += self.step);
        self.step += self.step / 50;
        if self.step > TOP {
            self.columns.iter_mut().for_each(|score| *score /= TOP / UNIT);
            self.step = UNIT;
        }
    }

    /// A column's score, in thousandths of a conflict.
    pub fn of(&self, column: usize) -> i64 {
        i64::try_from(self.columns[column].saturating_mul(UNIT) / self.step).unwrap_or(i64::MAX / 4)
    }

    /// A number below another, the same for the same seed (splitmix64).
    pub fn below(&mut self, count: u64) -> i64 {
        self.state = self.state.wrapping_add(0x9e37_79b9_7f4a_7c15);
        let mut word = self.state;
        word = (word ^ (word >> 30)).wrapping_mul(0xbf58_476d_1ce4_e5b9);
        word = (word ^ (word >> 27)).wrapping_mul(0x94d0_49bb_1331_11eb);
        i64::try_from((word ^ (word >> 31)) % count.max(1)).unwrap_or(0)
    }
}
