//! The table: words read from the left into slices of themselves, with refusals 2 to 7.

use super::values::{conjunction, opposite, Values, FALSE, TRUE};
use super::{refusal, Refusal};

pub struct Aggregate<'a> {
    pub function: i32,
    pub is_greater: bool,
    pub threshold: i64,
    pub elements: &'a [i32], // pairs of value and atom
}

pub struct Rule<'a> {
    pub head: &'a [i32],
    pub positive: &'a [i32],
    pub negated: &'a [i32],
    pub literals: &'a [i32],
}

pub struct Table<'a> {
    pub atoms: usize,
    pub aggregates: Vec<Aggregate<'a>>,
    pub rules: Vec<Rule<'a>>,
    pub by_head: Vec<Vec<u16>>, // for each atom the numbers, from 0, of the rules with it in the head
}

struct Cursor<'a> {
    words: &'a [i32],
    next: usize,
}

impl<'a> Cursor<'a> {
    fn word(&mut self) -> Result<i32, Refusal> {
        let word = *self.words.get(self.next).ok_or(refusal(2, self.next))?;
        self.next += 1;
        Ok(word)
    }

    fn ranged(&mut self, number: u32, low: i32, high: i32) -> Result<i32, Refusal> {
        let place = self.next;
        let word = self.word()?;
        if word < low || word > high {
            Err(refusal(number, place))
        } else {
            Ok(word)
        }
    }

    fn count(&mut self, high: i32) -> Result<usize, Refusal> {
        Ok(self.ranged(4, 0, high)? as usize)
    }

    /// One member of a list whose previous member is `previous` (0 for none), both without sign.
    fn member(&mut self, high: usize, previous: u32, is_signed: bool) -> Result<u32, Refusal> {
        let place = self.next;
        let word = self.word()?;
        let size = if is_signed { word.unsigned_abs() } else { word.max(0) as u32 };
        if size == 0 || size as usize > high {
            return Err(refusal(5, place));
        }
        if size <= previous {
            Err(refusal(6, place))
        } else {
            Ok(size)
        }
    }

    fn list(&mut self, most: i32, high: usize, is_signed: bool) -> Result<&'a [i32], Refusal> {
        let length = self.count(most)?;
        let start = self.next;
        let mut previous = 0;
        for _ in 0..length {
            previous = self.member(high, previous, is_signed)?;
        }
        Ok(&self.words[start..self.next])
    }

    fn aggregate(&mut self, atoms: usize) -> Result<Aggregate<'a>, Refusal> {
        let function = self.ranged(7, 0, 3)?;
        let is_greater = self.ranged(7, 0, 1)? == 1;
        let threshold = self.ranged(7, -1, 4_194_304)? as i64;
        let length = self.count(64)?;
        let start = self.next;
        let mut previous = 0;
        for _ in 0..length {
            self.ranged(7, 0, 65_535)?;
            previous = self.member(atoms, previous, false)?;
        }
        Ok(Aggregate { function, is_greater, threshold, elements: &self.words[start..self.next] })
    }
}

impl<'a> Table<'a> {
    pub fn read(words: &'a [i32]) -> Result<Table<'a>, Refusal> {
        let mut cursor = Cursor { words, next: 0 };
        let atoms = cursor.count(256)?;
        let mut aggregates = Vec::new();
        for _ in 0..cursor.count(64)? {
            aggregates.push(cursor.aggregate(atoms)?);
        }
        let mut rules = Vec::new();
        let mut by_head = vec![Vec::new(); atoms + 1];
        for number in 0..cursor.count(1024)? {
            let head = cursor.list(16, atoms, false)?;
            let positive = cursor.list(64, atoms, false)?;
            let negated = cursor.list(64, atoms, false)?;
            let literals = cursor.list(8, aggregates.len(), true)?;
            rules.push(Rule { head, positive, negated, literals });
            for &p in head {
                by_head[p as usize].push(number as u16);
            }
        }
        if cursor.next < words.len() {
            return Err(refusal(3, cursor.next));
        }
        Ok(Table { atoms, aggregates, rules, by_head })
    }

    pub fn aggregate(&self, literal: i32) -> &Aggregate<'a> {
        &self.aggregates[literal.unsigned_abs() as usize - 1]
    }

    /// The value of an aggregate literal.
    pub fn literal(&self, literal: i32, values: &Values) -> u8 {
        let value = self.aggregate(literal).value(values);
        if literal > 0 {
            value
        } else {
            opposite(value)
        }
    }

    /// TRUE if all body literals are true, FALSE if one is false, else UNDEFINED.
    pub fn body(&self, rule: &Rule, values: &Values) -> u8 {
        let mut body = TRUE;
        for &q in rule.positive {
            body = conjunction(body, values[q as usize]);
        }
        for &q in rule.negated {
            body = conjunction(body, opposite(values[q as usize]));
        }
        for &literal in rule.literals {
            if body == FALSE {
                break;
            }
            body = conjunction(body, self.literal(literal, values));
        }
        body
    }
}
