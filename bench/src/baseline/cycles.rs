//! Refusals 8 and 9, by strongly connected components.

use super::table::Table;
use super::{refusal, Refusal};

pub fn refuse_cycles(table: &Table) -> Result<(), Refusal> {
    if table.rules.iter().any(|rule| rule.head.len() > 1) {
        let component = components(table, false);
        for (number, rule) in table.rules.iter().enumerate() {
            let mut found: Vec<u16> = rule.head.iter().map(|&p| component[p as usize]).collect();
            found.sort_unstable();
            if found.windows(2).any(|pair| pair[0] == pair[1]) {
                return Err(refusal(8, number + 1));
            }
        }
    }
    if table.rules.iter().any(|rule| !rule.head.is_empty() && !rule.literals.is_empty()) {
        let component = components(table, true);
        for (number, rule) in table.rules.iter().enumerate() {
            for &literal in rule.literals {
                for element in table.aggregate(literal).elements.chunks_exact(2) {
                    let inside = component[element[1] as usize];
                    // The rule has an arc from each head atom to the element: a cycle if both share a component.
                    if rule.head.iter().any(|&p| component[p as usize] == inside) {
                        return Err(refusal(9, number + 1));
                    }
                }
            }
        }
    }
    Ok(())
}

/// Tarjan's walk: atoms with the same number reach each other (or are the same).
struct Walk {
    arcs: Vec<Vec<u16>>,
    index: Vec<u16>,
    low: Vec<u16>,
    component: Vec<u16>,
    waiting: Vec<u16>,
    visited: u16,
}

fn components(table: &Table, with_aggregates: bool) -> Vec<u16> {
    let size = table.atoms + 1;
    let mut arcs = vec![Vec::new(); size];
    for rule in &table.rules {
        for &p in rule.head {
            arcs[p as usize].extend(rule.positive.iter().map(|&q| q as u16));
            if with_aggregates {
                for &literal in rule.literals {
                    arcs[p as usize].extend(table.aggregate(literal).elements.chunks_exact(2).map(|e| e[1] as u16));
                }
            }
        }
    }
    let (index, low, component) = (vec![0; size], vec![0; size], vec![0; size]);
    let mut walk = Walk { arcs, index, low, component, waiting: Vec::new(), visited: 0 };
    for p in 1..size {
        if walk.index[p] == 0 {
            walk.visit(p);
        }
    }
    walk.component
}

impl Walk {
    fn visit(&mut self, p: usize) {
        self.visited += 1;
        self.index[p] = self.visited;
        self.low[p] = self.visited;
        self.waiting.push(p as u16);
        for i in 0..self.arcs[p].len() {
            let q = self.arcs[p][i] as usize;
            if self.index[q] == 0 {
                self.visit(q);
                self.low[p] = self.low[p].min(self.low[q]);
            } else if self.component[q] == 0 {
                self.low[p] = self.low[p].min(self.index[q]);
            }
        }
        if self.low[p] == self.index[p] {
            while let Some(q) = self.waiting.pop() {
                self.component[q as usize] = self.index[p];
                if q as usize == p {
                    break;
                }
            }
        }
    }
}
