//! 01's search once more, in plain Rust: the baseline of the benchmark, and a second opinion on the vectors.
//!
//! Written from 01 alone and the way one would write it in Rust: slices of the table, a trail, strongly
//! connected components. Three settings are chosen by the caller. `jumping`: whether a conflict goes back to
//! the highest level of its reason (01's search) or always to the last (the plain search). `by_head`: whether
//! steps d and e find an atom's rules by a list made once for the table, or walk all rules as 01 words it.
//! The results are the same either way. `settling`: whether an aggregate literal's reason is the union over elements
//! that settle it (02, request 4), or over all its defined elements (01); the counts of a jumping search differ.

mod cycles;
mod founded;
mod reasons;
mod search;
mod settling;
mod steps;
mod table;
mod values;

use cycles::refuse_cycles;
use founded::is_founded;
use search::Search;
use table::Table;
use values::{FALSE, TRUE};

/// What solving a table comes to.
#[derive(Clone, Copy, Debug, PartialEq, Eq)]
pub enum Solved {
    Answer { choices: u32, skips: u32 },
    None { choices: u32, skips: u32 },
    Limit { choices: u32, skips: u32 },
    Refused(Refusal),
}

/// What checking a plan comes to.
#[derive(Clone, Copy, Debug, PartialEq, Eq)]
pub enum Approved {
    Yes,
    No,
    Refused(Refusal),
}

/// A refusal of 01's table.
#[derive(Clone, Copy, Debug, PartialEq, Eq)]
pub struct Refusal {
    pub number: u32,
    pub place: u32,
}

fn refusal(number: u32, place: usize) -> Refusal {
    Refusal { number, place: place as u32 }
}

#[derive(Clone, Copy)]
pub struct Settings {
    pub jumping: bool,
    pub by_head: bool,
    pub settling: bool,
}

/// Solves the table; on an answer the plan gets a byte for each atom.
pub fn solve(words: &[i32], limit: u32, plan: &mut [u8], settings: Settings) -> Solved {
    let table = match accepted(words, plan.len()) {
        Ok(table) => table,
        Err(refusal) => return Solved::Refused(refusal),
    };
    let mut search = Search::new(&table, settings);
    let solved = search.run(limit);
    if let Solved::Answer { .. } = solved {
        for (byte, &value) in plan.iter_mut().zip(&search.values[1..=table.atoms]) {
            *byte = (value == TRUE) as u8;
        }
    }
    solved
}

/// Whether the plan's first bytes are an answer set of the table.
pub fn approve(words: &[i32], plan: &[u8]) -> Approved {
    let table = match accepted(words, plan.len()) {
        Ok(table) => table,
        Err(refusal) => return Approved::Refused(refusal),
    };
    if let Some(place) = plan[..table.atoms].iter().position(|&byte| byte > 1) {
        return Approved::Refused(refusal(11, place));
    }
    let mut values = [FALSE; 257];
    for (value, &byte) in values[1..].iter_mut().zip(&plan[..table.atoms]) {
        *value = if byte == 1 { TRUE } else { FALSE };
    }
    let is_model = table
        .rules
        .iter()
        .all(|rule| rule.head.iter().any(|&p| values[p as usize] == TRUE) || table.body(rule, &values) != TRUE);
    if is_model && is_founded(&table, &values) {
        Approved::Yes
    } else {
        Approved::No
    }
}

fn accepted(words: &[i32], plan_length: usize) -> Result<Table<'_>, Refusal> {
    if words.len() > 16_384 {
        return Err(refusal(1, 0));
    }
    if plan_length < 256 {
        return Err(refusal(10, 0));
    }
    let table = Table::read(words)?;
    refuse_cycles(&table)?;
    Ok(table)
}
