//! Propagation: passes of steps a to e, with reasons.

use super::reasons::Levels;
use super::search::Search;
use super::table::Rule;
use super::values::{FALSE, TRUE, UNDEFINED};

/// The reason of a conflict.
type Conflict = Levels;

/// What one rule means for a rule step: at most one of its literals is undefined.
enum Unit {
    Nothing,
    Conflict,
    Head(usize),
    Positive(usize),
    Negated(usize),
}

impl<'a> Search<'a> {
    /// Passes until one changes nothing, or a conflict ends it. A pass that has changed nothing stops past the last
    /// change of the pass before: what comes after it has been looked at since.
    pub fn propagate(&mut self) -> Result<(), Conflict> {
        let table = self.table;
        let (mut rules_to, mut atoms_to) = (table.rules.len(), table.atoms);
        loop {
            let defined = self.trail.len();
            let mut quiet = 0;
            for (index, rule) in table.rules.iter().enumerate() {
                if index >= rules_to {
                    break;
                }
                if self.rule_steps(rule)? {
                    (quiet, rules_to, atoms_to) = (index + 1, table.rules.len(), table.atoms);
                }
            }
            rules_to = quiet;
            let mut last = 0;
            for p in 1..=table.atoms {
                if p > atoms_to {
                    break;
                }
                if self.values[p] != FALSE && self.atom_steps(p)? {
                    (last, rules_to, atoms_to) = (p, table.rules.len(), table.atoms);
                }
            }
            atoms_to = last;
            if self.trail.len() == defined {
                return Ok(());
            }
        }
    }

    /// Steps a, b, c; whether an atom was set.
    fn rule_steps(&mut self, rule: &Rule) -> Result<bool, Conflict> {
        let (p, value) = match self.unit(rule) {
            Unit::Nothing => return Ok(false),
            Unit::Conflict => return Err(self.rule_reason(rule)),
            Unit::Head(p) => (p, TRUE),
            Unit::Positive(q) => (q, FALSE),
            Unit::Negated(q) => (q, TRUE),
        };
        // The atom itself is undefined and adds nothing. (In an aggregate it may stand, undefined, too.)
        let reason = self.rule_reason(rule);
        self.set(p, value, reason);
        Ok(true)
    }

    /// Nothing if the rule holds, if more than one literal is undefined, or if that one is an aggregate literal.
    fn unit(&self, rule: &Rule) -> Unit {
        let mut unit = Unit::Conflict;
        let mut undefined = 0;
        for &p in rule.head {
            match self.values[p as usize] {
                TRUE => return Unit::Nothing,
                UNDEFINED => (unit, undefined) = (Unit::Head(p as usize), undefined + 1),
                _ => {}
            }
        }
        for &q in rule.positive {
            match self.values[q as usize] {
                FALSE => return Unit::Nothing,
                UNDEFINED => (unit, undefined) = (Unit::Positive(q as usize), undefined + 1),
                _ => {}
            }
        }
        for &q in rule.negated {
            match self.values[q as usize] {
                TRUE => return Unit::Nothing,
                UNDEFINED => (unit, undefined) = (Unit::Negated(q as usize), undefined + 1),
                _ => {}
            }
        }
        if undefined > 1 || rule.literals.iter().any(|&l| self.table.literal(l, &self.values) != TRUE) {
            return Unit::Nothing;
        }
        unit
    }

    fn rule_reason(&self, rule: &Rule) -> Levels {
        let mut reason = Levels::default();
        for &p in rule.head.iter().chain(rule.positive).chain(rule.negated) {
            self.add_reason(p, &mut reason);
        }
        for &literal in rule.literals {
            self.add_literal_reason(literal, &mut reason);
        }
        reason
    }

    fn add_reason(&self, p: i32, reason: &mut Levels) {
        if self.values[p as usize] != UNDEFINED {
            reason.add(&self.reasons[p as usize]);
        }
    }

    fn add_literal_reason(&self, literal: i32, reason: &mut Levels) {
        let aggregate = self.table.aggregate(literal);
        if self.settings.settling {
            return aggregate.blame(&self.values, |p| reason.add(&self.reasons[p]));
        }
        for element in aggregate.elements.chunks_exact(2) {
            self.add_reason(element[1], reason);
        }
    }

    /// Steps d and e for p, true or undefined; whether an atom was set. A second rule that supports it is looked for
    /// only where that decides.
    fn atom_steps(&mut self, p: usize) -> Result<bool, Conflict> {
        let mut supporting = self.rules_with(p).filter(|rule| self.supports(rule, p));
        match supporting.next() {
            None if self.values[p] == TRUE => {
                let mut reason = self.witnesses(p);
                reason.add(&self.reasons[p]);
                Err(reason)
            }
            None => {
                let reason = self.witnesses(p);
                self.set(p, FALSE, reason);
                Ok(true)
            }
            Some(rule) => {
                let follows = self.values[p] == TRUE && self.is_open(rule) && supporting.next().is_none();
                if follows {
                    self.follow(rule, p);
                }
                Ok(follows)
            }
        }
    }

    fn rules_with(&self, p: usize) -> impl Iterator<Item = &'a Rule<'a>> {
        let table = self.table;
        let (listed, all): (&[u16], &[Rule]) =
            if self.settings.by_head { (&table.by_head[p], &[]) } else { (&[], &table.rules) };
        let listed = listed.iter().map(move |&number| &table.rules[number as usize]);
        listed.chain(all.iter().filter(move |rule| rule.head.contains(&(p as i32))))
    }

    fn supports(&self, rule: &Rule, p: usize) -> bool {
        rule.head.iter().all(|&q| q as usize == p || self.values[q as usize] != TRUE)
            && rule.positive.iter().all(|&q| self.values[q as usize] != FALSE)
            && rule.negated.iter().all(|&q| self.values[q as usize] != TRUE)
            && rule.literals.iter().all(|&l| self.table.literal(l, &self.values) != FALSE)
    }

    /// The union of the witnesses' reasons over the rules with p in the head that do not support it.
    fn witnesses(&self, p: usize) -> Levels {
        let mut reason = Levels::default();
        for rule in self.rules_with(p) {
            self.add_witness(rule, p, &mut reason);
        }
        reason
    }

    /// Adds the reason of the one witness, if the rule fails to support p.
    fn add_witness(&self, rule: &Rule, p: usize, reason: &mut Levels) {
        let is = |q: i32, value: u8| self.values[q as usize] == value;
        let other = rule.head.iter().find(|&&q| q as usize != p && is(q, TRUE));
        let positive = || rule.positive.iter().find(|&&q| is(q, FALSE));
        let negated = || rule.negated.iter().find(|&&q| is(q, TRUE));
        if let Some(&q) = other.or_else(positive).or_else(negated) {
            reason.add(&self.reasons[q as usize]);
        } else if let Some(&l) = rule.literals.iter().find(|&&l| self.table.literal(l, &self.values) == FALSE) {
            self.add_literal_reason(l, reason);
        }
    }

    /// Whether an atom of the rule, in head or body, is undefined.
    fn is_open(&self, rule: &Rule) -> bool {
        [rule.head, rule.positive, rule.negated].iter().any(|list| list.iter().any(|&q| self.values[q as usize] == UNDEFINED))
    }

    /// Step e: the only rule that supports the true atom p.
    fn follow(&mut self, rule: &Rule, p: usize) {
        let mut reason = self.witnesses(p);
        reason.add(&self.reasons[p]);
        for (list, value) in [(rule.head, FALSE), (rule.positive, TRUE), (rule.negated, FALSE)] {
            for &q in list {
                if self.values[q as usize] == UNDEFINED {
                    self.set(q as usize, value, reason);
                }
            }
        }
    }
}
