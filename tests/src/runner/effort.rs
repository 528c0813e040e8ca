//! How much of the comparisons is to be run.

#[derive(Clone, Copy, PartialEq, Eq, Debug)]
pub struct Effort {
    /// The cases that are the same in every run.
    pub fixed: bool,
    /// Random cases, in percent of the usual number.
    pub percent: usize,
}

impl Effort {
    /// The usual run.
    pub const USUAL: Effort = Effort { fixed: true, percent: 100 };
    /// A further round of a long run: new random cases only.
    pub const ROUND: Effort = Effort { fixed: false, percent: 100 };
    /// To find a planted fault.
    pub const HUNT: Effort = Effort { fixed: true, percent: 4 };

    pub fn of(self, usual: usize) -> usize {
        usual * self.percent / 100
    }
}
