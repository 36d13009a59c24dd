//! The foundedness test.

use super::table::{Rule, Table};
use super::values::{Values, TRUE};

/// Starting from none, adds p while some rule has body true, p its only true head atom and all positive
/// body atoms added; whether all true atoms are added in the end. All atoms are defined.
pub fn is_founded(table: &Table, values: &Values) -> bool {
    let mut adding: Vec<(&Rule, usize)> = Vec::new();
    for rule in &table.rules {
        let mut true_heads = rule.head.iter().filter(|&&p| values[p as usize] == TRUE);
        if let (Some(&p), None) = (true_heads.next(), true_heads.next()) {
            if table.body(rule, values) == TRUE {
                adding.push((rule, p as usize));
            }
        }
    }
    let mut is_added = [false; 257];
    loop {
        let waiting = adding.len();
        adding.retain(|&(rule, p)| {
            if is_added[p] {
                return false;
            }
            is_added[p] = rule.positive.iter().all(|&q| is_added[q as usize]);
            !is_added[p]
        });
        if adding.len() == waiting {
            break;
        }
    }
    (1..=table.atoms).all(|p| values[p] != TRUE || is_added[p])
}
