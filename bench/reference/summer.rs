//! The three summer rules.
use super::calendar::{date_of, first_sunday, last_sunday};

#[derive(Clone, Copy, PartialEq, Debug)]
pub enum Rule {
    Never,
    Europe,
    America,
}

const DAY: i64 = 86_400;

impl Rule {
    /// What is added to a second to get the time that the rule is written in.
    fn shift(self, offset: i64) -> i64 {
        if self == Rule::America && (-43_200..=43_200).contains(&offset) {
            offset
        } else {
            0
        }
    }

    /// Start and end of a year's summer, in the time that the rule is written in.
    fn summer(self, year: i32) -> (i64, i64) {
        match self {
            Rule::Never => (i64::MAX, i64::MAX),
            Rule::Europe => (
                i64::from(last_sunday(year, 3)) * DAY + 3_600,
                i64::from(last_sunday(year, 10)) * DAY + 3_600,
            ),
            Rule::America => (
                i64::from(first_sunday(year, 3) + 7) * DAY + 7_200,
                i64::from(first_sunday(year, 11)) * DAY + 3_600,
            ),
        }
    }

    pub fn in_force(self, offset: i64, second: u32) -> bool {
        if self == Rule::Never {
            return false;
        }
        let t = i64::from(second) + self.shift(offset);
        let year = year_at(t);
        if year < 1970 {
            return false;
        }
        let (start, end) = self.summer(year);
        start <= t && t < end
    }

    pub fn next_change(self, offset: i64, second: u32) -> Option<u32> {
        if self == Rule::Never {
            return None;
        }
        let shift = self.shift(offset);
        let t = i64::from(second) + shift;
        let year = year_at(t).max(1970);
        let (start, end) = self.summer(year);
        let change = if t < start {
            start
        } else if t < end {
            end
        } else if year < 2106 {
            self.summer(year + 1).0
        } else {
            return None;
        };
        u32::try_from(change - shift).ok()
    }
}

fn year_at(t: i64) -> i32 {
    date_of(t.div_euclid(DAY) as i32).map_or(1969, |date| date.0)
}
