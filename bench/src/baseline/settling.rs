//! Which elements of an aggregate are blamed for its value (02, "Aggregate reasons as in the paper"): a set that settles it.

use super::table::Aggregate;
use super::values::{Values, FALSE, TRUE, UNDEFINED};

impl Aggregate<'_> {
    /// Gives the blamed atoms one by one.
    pub fn blame(&self, values: &Values, mut add: impl FnMut(usize)) {
        if self.function < 2 {
            for wanted in [TRUE, FALSE] {
                if let Some(end) = self.run(values, wanted) {
                    return self.each(values, &self.elements[..end], |value| value == wanted, add);
                }
            }
        } else if let Some(p) = self.single(values) {
            return add(p);
        }
        for wanted in [TRUE, FALSE] {
            if self.settle(values, |value| value == wanted) {
                return self.each(values, self.elements, |value| value == wanted, add);
            }
        }
        self.each(values, self.elements, |value| value != UNDEFINED, add);
    }

    fn each(&self, values: &Values, elements: &[i32], wanted: impl Fn(u8) -> bool, mut add: impl FnMut(usize)) {
        for element in elements.chunks_exact(2).filter(|element| wanted(values[element[1] as usize])) {
            add(element[1] as usize);
        }
    }

    /// Whether the elements with such values settle it by themselves: it has a value where all others are undefined.
    fn settle(&self, values: &Values, wanted: impl Fn(u8) -> bool) -> bool {
        let mut known = [UNDEFINED; 257];
        for element in self.elements.chunks_exact(2) {
            let p = element[1] as usize;
            if wanted(values[p]) {
                known[p] = values[p];
            }
        }
        self.value(&known) != UNDEFINED
    }

    /// Count and sum: how many words of the table it takes until the elements with that value settle it.
    fn run(&self, values: &Values, wanted: u8) -> Option<usize> {
        let amount = |element: &[i32]| if self.function == 0 { 1 } else { element[0] as i64 };
        let (mut least, mut most) = (0, self.elements.chunks_exact(2).map(amount).sum());
        let passes = |total: i64| if self.is_greater { total > self.threshold } else { total < self.threshold };
        for (i, element) in self.elements.chunks_exact(2).enumerate() {
            if passes(least) == passes(most) {
                return Some(2 * i);
            }
            if values[element[1] as usize] == wanted {
                if wanted == TRUE {
                    least += amount(element);
                } else {
                    most -= amount(element);
                }
            }
        }
        (passes(least) == passes(most)).then_some(self.elements.len())
    }

    /// Min and max: the first element that settles it alone.
    fn single(&self, values: &Values) -> Option<usize> {
        let asks_all = (self.function == 2) == self.is_greater;
        let is_beyond = |value: i32| if self.is_greater { value as i64 > self.threshold } else { (value as i64) < self.threshold };
        let beyond = self.elements.chunks_exact(2).filter(|element| is_beyond(element[0])).count();
        let short = self.elements.len() / 2 - beyond;
        let settles = |element: &[i32]| {
            let (value, ok) = (values[element[1] as usize], is_beyond(element[0]));
            let (other_beyond, other_short) = (beyond > ok as usize, short > !ok as usize);
            let is_possible = other_beyond || (value == TRUE && ok);
            let is_refuted = asks_all && value == TRUE && !ok;
            let is_sure = value == TRUE && ok && !(asks_all && other_short);
            value != UNDEFINED && (is_sure || is_refuted || !is_possible)
        };
        self.elements.chunks_exact(2).find(|element| settles(element)).map(|element| element[1] as usize)
    }
}
