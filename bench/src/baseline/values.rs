//! Truth values of atoms and of aggregates.

use super::table::Aggregate;

pub const FALSE: u8 = 0;
pub const TRUE: u8 = 1;
pub const UNDEFINED: u8 = 2;

/// A value for each atom; place 0 is unused.
pub type Values = [u8; 257];

pub fn opposite(value: u8) -> u8 {
    if value == UNDEFINED {
        UNDEFINED
    } else {
        1 - value
    }
}

pub fn conjunction(a: u8, b: u8) -> u8 {
    if a == FALSE || b == FALSE {
        FALSE
    } else if a == UNDEFINED || b == UNDEFINED {
        UNDEFINED
    } else {
        TRUE
    }
}

impl Aggregate<'_> {
    /// The value it has in every completion of the undefined atoms, or UNDEFINED.
    pub fn value(&self, values: &Values) -> u8 {
        match (self.function, self.is_greater) {
            (0, _) => self.total(values, |_| 1),
            (1, _) => self.total(values, |value| value),
            (2, true) => self.all_beyond(values, |value| value > self.threshold),
            (2, false) => self.some_beyond(values, |value| value < self.threshold),
            (_, true) => self.some_beyond(values, |value| value > self.threshold),
            (_, false) => self.all_beyond(values, |value| value < self.threshold),
        }
    }

    /// Count and sum: they lie between the total of the true elements and that with the undefined ones.
    fn total(&self, values: &Values, part: impl Fn(i64) -> i64) -> u8 {
        let (mut least, mut most) = (0, 0);
        for element in self.elements.chunks_exact(2) {
            let value = values[element[1] as usize];
            let amount = part(element[0] as i64);
            if value == TRUE {
                least += amount;
            }
            if value != FALSE {
                most += amount;
            }
        }
        let (is_sure, is_possible) = if self.is_greater {
            (least > self.threshold, most > self.threshold)
        } else {
            (most < self.threshold, least < self.threshold)
        };
        settled(is_sure, is_possible)
    }

    /// Min below or max above the threshold: some element beyond it.
    fn some_beyond(&self, values: &Values, beyond: impl Fn(i64) -> bool) -> u8 {
        let mut is_possible = false;
        for element in self.elements.chunks_exact(2) {
            let value = values[element[1] as usize];
            if value != FALSE && beyond(element[0] as i64) {
                if value == TRUE {
                    return TRUE;
                }
                is_possible = true;
            }
        }
        settled(false, is_possible)
    }

    /// Min above or max below the threshold: some element, and all beyond it.
    fn all_beyond(&self, values: &Values, beyond: impl Fn(i64) -> bool) -> u8 {
        let (mut has_true, mut has_possible, mut has_hindrance) = (false, false, false);
        for element in self.elements.chunks_exact(2) {
            let value = values[element[1] as usize];
            if value != FALSE {
                let is_beyond = beyond(element[0] as i64);
                if value == TRUE && !is_beyond {
                    return FALSE;
                }
                has_true |= value == TRUE;
                has_possible |= is_beyond;
                has_hindrance |= !is_beyond;
            }
        }
        settled(has_true && !has_hindrance, has_possible)
    }
}

fn settled(is_sure: bool, is_possible: bool) -> u8 {
    if is_sure {
        TRUE
    } else if is_possible {
        UNDEFINED
    } else {
        FALSE
    }
}
