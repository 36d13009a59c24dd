//! Solves a small table, checks the plan, and shows what happens to the buffers. Built and run by examples/test.sh.

mod saucepebbly {
    //! The two entries of include/saucepebbly.h behind safe functions: slices in, an enum out.

    extern "C" {
        fn saucepebbly_solve(
            words: *const i32,
            words_len: usize,
            mode: u32,
            limit: u32,
            plan: *mut u8,
            plan_len: usize,
            report: *mut u32,
            report_len: usize,
            whys: *mut u16,
            whys_len: usize,
            lists: *mut u16,
            candidates: *mut u32,
        ) -> u32;
        fn saucepebbly_approve(
            words: *const i32,
            words_len: usize,
            mode: u32,
            plan: *const u8,
            plan_len: usize,
            report: *mut u32,
            report_len: usize,
            lists: *mut u16,
            candidates: *mut u32,
        ) -> u32;
    }

    /// The mode in which head cycles are refused.
    const OLD: u32 = 0;

    /// The memory that the entries work in. What it holds before a call does not matter.
    pub struct Memory {
        lists: [u16; 17922],
        candidates: [u32; 1024],
    }

    impl Memory {
        pub fn new() -> Box<Memory> {
            Box::new(Memory { lists: [0; 17922], candidates: [0; 1024] })
        }
    }

    #[derive(Debug, PartialEq)]
    pub enum Solved {
        Answer { choices: u32, skips: u32 },
        None { choices: u32, skips: u32 },
        Limit { choices: u32, skips: u32 },
        Refused { number: u32, place: u32 },
    }

    #[derive(Debug, PartialEq)]
    pub enum Approved {
        Yes,
        No,
        Refused { number: u32, place: u32 },
    }

    /// Why an atom is in the plan: its round and its rule, 0 and 0 if it is not.
    #[derive(Clone, Copy, Debug, Default, PartialEq)]
    #[repr(C)]
    pub struct Why {
        pub round: u16,
        pub rule: u16,
    }

    /// The result, and of an answer why each atom is in the plan, atom i at index i - 1.
    pub fn solve(words: &[i32], limit: u32, plan: &mut [u8], memory: &mut Memory) -> (Solved, [Why; 256]) {
        let mut report = [0; 2];
        let mut whys = [Why::default(); 256];
        // Each pointer comes with the length of its own slice, and the entry keeps none of them. A `Why` is two numbers.
        let kind = unsafe {
            let (plan, plan_len) = (plan.as_mut_ptr(), plan.len());
            let (numbers, report) = (whys.as_mut_ptr().cast::<u16>(), report.as_mut_ptr());
            let (lists, candidates) = (memory.lists.as_mut_ptr(), memory.candidates.as_mut_ptr());
            saucepebbly_solve(words.as_ptr(), words.len(), OLD, limit, plan, plan_len, report, 2, numbers, 512, lists, candidates)
        };
        let [first, second] = report;
        let solved = match kind {
            0 => Solved::Answer { choices: first, skips: second },
            1 => Solved::None { choices: first, skips: second },
            2 => Solved::Limit { choices: first, skips: second },
            _ => Solved::Refused { number: first, place: second },
        };
        (solved, whys)
    }

    pub fn approve(words: &[i32], plan: &[u8], memory: &mut Memory) -> Approved {
        let mut report = [0; 2];
        // As above.
        let kind = unsafe {
            saucepebbly_approve(
                words.as_ptr(),
                words.len(),
                OLD,
                plan.as_ptr(),
                plan.len(),
                report.as_mut_ptr(),
                report.len(),
                memory.lists.as_mut_ptr(),
                memory.candidates.as_mut_ptr(),
            )
        };
        match kind {
            0 => Approved::Yes,
            1 => Approved::No,
            _ => Approved::Refused { number: report[0], place: report[1] },
        }
    }
}

use saucepebbly::{approve, solve, Approved, Memory, Solved, Why};

const UNTOUCHED: u8 = 7;

/// 1 | 2.  3 | 4.  5 | 6.  7 | 8.  and four constraints that together rule out atom 1.
#[rustfmt::skip]
const TABLE: [i32; 55] = [
    8, 0, 8,
    2, 1, 2, 0, 0, 0,  2, 3, 4, 0, 0, 0,  2, 5, 6, 0, 0, 0,  2, 7, 8, 0, 0, 0,
    0, 3, 1, 5, 7, 0, 0,  0, 3, 1, 5, 8, 0, 0,  0, 3, 1, 6, 7, 0, 0,  0, 3, 1, 6, 8, 0, 0,
];

/// 1 | 2.  3 :- 1.  4 :- 3, not 2.  5 :- 4.  5 :- 1, 3.
#[rustfmt::skip]
const CHAIN: [i32; 35] = [
    5, 0, 5, 2, 1, 2, 0, 0, 0, 1, 3, 1, 1, 0, 0, 1, 4, 1, 3, 1, 2, 0, 1, 5, 1, 4, 0, 0, 1, 5, 2, 1, 3, 0, 0,
];

/// The positive body atoms of a rule, from 1, of a table without aggregates: each rule is four lists after their counts.
fn positive(words: &[i32], rule: u16) -> &[i32] {
    let mut at = 3;
    for _ in 0..4 * (usize::from(rule) - 1) + 1 {
        at += 1 + words[at] as usize;
    }
    &words[at + 1..][..words[at] as usize]
}

/// Why an atom is in the plan: its rule, and below it the same for each positive body atom of that rule. Rounds get smaller, so this ends.
fn explain(words: &[i32], whys: &[Why; 256], atom: usize, depth: usize) {
    let Why { round, rule } = whys[atom - 1];
    println!("{:1$}{atom}: rule {rule}, round {round}", "", 2 * depth);
    for &part in positive(words, rule) {
        explain(words, whys, part as usize, depth + 1);
    }
}

fn main() {
    let memory = &mut *Memory::new();
    let mut plan = [UNTOUCHED; 300];
    let (Solved::Answer { choices, skips }, _) = solve(&TABLE, 100, &mut plan, memory) else { panic!("an answer") };
    assert!(plan[8..].iter().all(|&byte| byte == UNTOUCHED), "bytes past the atoms are kept");
    let atoms: Vec<String> = (1..=8).filter(|&i| plan[i - 1] == 1).map(|i| i.to_string()).collect();
    println!("answer {choices} {skips}: {}", atoms.join(" "));

    let before = plan;
    assert_eq!(approve(&TABLE, &plan, memory), Approved::Yes);
    plan[3] = 1;
    assert_eq!(approve(&TABLE, &plan, memory), Approved::No);
    plan[3] = 2;
    let Approved::Refused { number, place } = approve(&TABLE, &plan, memory) else { panic!("2 is no truth value") };
    assert!(plan[..3] == before[..3] && plan[4..] == before[4..], "a check never writes");
    println!("yes, no, refused {number} {place}");

    let mut plan = [UNTOUCHED; 300];
    let (Solved::Limit { choices, skips }, whys) = solve(&TABLE, 5, &mut plan, memory) else { panic!("the limit") };
    assert_eq!(whys, [Why::default(); 256], "only an answer has rounds");
    println!("limit {choices} {skips}");
    let (Solved::None { choices, skips }, _) = solve(&[1, 0, 1, 1, 1, 0, 1, 1, 0], 100, &mut plan, memory) else { panic!("none") };
    println!("none {choices} {skips}");
    for (words, length) in [(&TABLE[..4], 300), (&TABLE[..], 255), (&[][..], 300)] {
        let (Solved::Refused { number, place }, _) = solve(words, 100, &mut plan[..length], memory) else { panic!("a refusal") };
        println!("refused {number} {place}");
    }
    assert_eq!(plan, [UNTOUCHED; 300], "only an answer writes the plan");

    let (Solved::Answer { .. }, whys) = solve(&CHAIN, 100, &mut plan, memory) else { panic!("an answer") };
    assert_eq!(whys[1], Why::default(), "atom 2 is false and has no round");
    explain(&CHAIN, &whys, 5, 0);
}
