//! The search: choices, conflicts, jumps, limit.

use super::founded::is_founded;
use super::reasons::Levels;
use super::table::Table;
use super::values::{Values, FALSE, TRUE, UNDEFINED};
use super::{Settings, Solved};

struct Level {
    atom: usize,
    set_before: usize, // how many atoms were set before the level's choice
}

pub struct Search<'a> {
    pub table: &'a Table<'a>,
    pub settings: Settings,
    pub values: Values,
    pub reasons: [Levels; 257],
    pub trail: Vec<u16>, // the defined atoms in the order in which they were set
    levels: Vec<Level>,
}

impl<'a> Search<'a> {
    pub fn new(table: &'a Table<'a>, settings: Settings) -> Search<'a> {
        let (values, reasons) = ([UNDEFINED; 257], [Levels::default(); 257]);
        Search { table, settings, values, reasons, trail: Vec::with_capacity(256), levels: Vec::with_capacity(256) }
    }

    pub fn run(&mut self, limit: u32) -> Solved {
        let (mut choices, mut skips) = (0, 0);
        loop {
            let conflict = match self.propagate() {
                Err(conflict) => conflict,
                Ok(()) if self.trail.len() == self.table.atoms => {
                    if is_founded(self.table, &self.values) {
                        return Solved::Answer { choices, skips };
                    }
                    Levels::up_to(self.levels.len())
                }
                Ok(()) if choices == limit => return Solved::Limit { choices, skips },
                Ok(()) => {
                    choices += 1;
                    self.open();
                    continue;
                }
            };
            let k = self.levels.len();
            let m = if self.settings.jumping { conflict.highest() } else { k };
            skips += (k - m) as u32;
            if m == 0 {
                return Solved::None { choices, skips };
            }
            self.jump(m, conflict);
        }
    }

    fn open(&mut self) {
        let atom = (1..=self.table.atoms).find(|&p| self.values[p] == UNDEFINED).expect("an undefined atom");
        self.levels.push(Level { atom, set_before: self.trail.len() });
        let mut reason = Levels::default();
        reason.insert(self.levels.len());
        self.set(atom, TRUE, reason);
    }

    fn jump(&mut self, m: usize, conflict: Levels) {
        let Level { atom, set_before } = self.levels[m - 1];
        for p in self.trail.drain(set_before..) {
            self.values[p as usize] = UNDEFINED;
        }
        self.levels.truncate(m - 1);
        let mut reason = conflict;
        reason.remove(m);
        self.set(atom, FALSE, reason);
    }

    pub fn set(&mut self, p: usize, value: u8, reason: Levels) {
        self.values[p] = value;
        self.reasons[p] = reason;
        self.trail.push(p as u16);
    }
}
