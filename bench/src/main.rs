//! Times the library against the baseline on the same tables, in one run, and compares every result.
//!
//! Built by bench/run.sh: with `--cfg dock` it is linked with crates/dock/out/libdock.a; without, only the
//! baseline is timed. Three columns of time, each the least of several rounds that take the three in turn:
//! the library, the baseline with 01's walk over all rules in steps d and e, the baseline with a list of
//! rules for each head atom. It ends with status 1 if two results differ.
mod baseline;
#[cfg(dock)]
mod dock;
#[cfg(dock)]
mod stack;
mod tables;

use baseline::{Approved, Refusal, Settings, Solved};
#[cfg(dock)]
use std::cell::RefCell;
use std::hint::black_box;
use std::time::{Duration, Instant};

/// A result as the C interface has it: kind, report and plan bytes.
#[derive(Clone, PartialEq, Debug)]
struct Outcome {
    kind: u32,
    report: [u32; 2],
    plan: Vec<u8>,
}

type Call<'a> = Box<dyn Fn(&[i32], &mut [u8]) -> (u32, [u32; 2]) + 'a>;

fn report(solved: Solved) -> (u32, [u32; 2]) {
    match solved {
        Solved::Answer { choices, skips } => (0, [choices, skips]),
        Solved::None { choices, skips } => (1, [choices, skips]),
        Solved::Limit { choices, skips } => (2, [choices, skips]),
        Solved::Refused(Refusal { number, place }) => (3, [number, place]),
    }
}

fn baseline_call<'a>(by_head: bool) -> Call<'a> {
    Box::new(move |words, plan| report(baseline::solve(words, u32::MAX, plan, Settings { jumping: true, by_head, settling: true })))
}

fn approve_report(approved: Approved) -> (u32, [u32; 2]) {
    match approved {
        Approved::Yes => (0, [0, 0]),
        Approved::No => (1, [0, 0]),
        Approved::Refused(Refusal { number, place }) => (3, [number, place]),
    }
}

/// The columns that are timed: a name and a call for each.
fn solvers<'a>() -> Vec<(&'static str, Call<'a>)> {
    let mut calls: Vec<(&'static str, Call)> = Vec::new();
    #[cfg(dock)]
    {
        let memory = RefCell::new(dock::Memory::new());
        let call = move |words: &[i32], plan: &mut [u8]| dock::solve(words, u32::MAX, plan, &mut memory.borrow_mut());
        calls.push(("library", Box::new(call)));
    }
    calls.push(("Rust, walk", baseline_call(false)));
    calls.push(("Rust, lists", baseline_call(true)));
    calls
}

fn approvers<'a>() -> Vec<(&'static str, Call<'a>)> {
    let mut calls: Vec<(&'static str, Call)> = Vec::new();
    #[cfg(dock)]
    {
        let memory = RefCell::new(dock::Memory::new());
        let call = move |words: &[i32], plan: &mut [u8]| dock::approve(words, plan, &mut memory.borrow_mut());
        calls.push(("library", Box::new(call)));
    }
    calls.push(("Rust", Box::new(|words, plan| approve_report(baseline::approve(words, plan)))));
    calls
}

fn outcome(call: &Call, words: &[i32], plan: &[u8]) -> Outcome {
    let mut plan = plan.to_vec();
    let (kind, report) = call(words, &mut plan);
    Outcome { kind, report, plan }
}

/// The least time of one call for each column, over rounds that take the columns in turn for about a second.
fn least_times(calls: &[(&str, Call)], words: &[i32], plan: &[u8]) -> Vec<Duration> {
    let mut least = vec![Duration::MAX; calls.len()];
    let start = Instant::now();
    let mut rounds = 0;
    while rounds < 3 || (start.elapsed() < Duration::from_millis(1000) && rounds < 200) {
        for (column, (_, call)) in calls.iter().enumerate() {
            let mut plan = plan.to_vec();
            let begin = Instant::now();
            black_box(call(black_box(words), &mut plan));
            least[column] = least[column].min(begin.elapsed());
        }
        rounds += 1;
    }
    least
}

fn micros(time: Duration) -> f64 {
    time.as_nanos() as f64 / 1000.0
}

/// Times one kind of call on every table; the plans given come from `plans`. Gives the outcomes and whether all agreed.
fn compare(title: &str, calls: &[(&str, Call)], tables: &[tables::Named], plans: &[Vec<u8>]) -> (Vec<Outcome>, bool) {
    println!("\n{title}: microseconds, least of several rounds");
    print!("{:36} {:>6} {:>22}", "table", "words", "kind and report");
    calls.iter().for_each(|(name, _)| print!(" {name:>12}"));
    println!("   first column to each other");
    let (mut outcomes, mut all_agree) = (Vec::new(), true);
    for (table, plan) in tables.iter().zip(plans) {
        let found: Vec<Outcome> = calls.iter().map(|(_, call)| outcome(call, &table.words, plan)).collect();
        let agrees = found.iter().all(|outcome| *outcome == found[0]);
        let times = least_times(calls, &table.words, plan);
        let kind = ["yes", "no", "limit", "refused"][found[0].kind as usize];
        let text = format!("{kind} {} {}", found[0].report[0], found[0].report[1]);
        print!("{:36} {:>6} {text:>22}", table.name, table.words.len());
        times.iter().for_each(|&time| print!(" {:>12.1}", micros(time)));
        times[1..].iter().for_each(|&time| print!(" {:>8.2}", micros(times[0]) / micros(time)));
        println!("{}", if agrees { "" } else { "   RESULTS DIFFER" });
        all_agree &= agrees;
        outcomes.push(found[found.len() - 1].clone());
    }
    (outcomes, all_agree)
}

/// The choices and skips of tables with aggregates over early and late atoms, by 01's reasons and by those of 02's request 4.
fn print_saved() {
    println!("\nchoices and skips, all defined elements blamed (01) and those that settle an aggregate (02, request 4)");
    for late in [2, 4, 8, 12, 16] {
        let table = tables::early_and_late(late);
        let [whole, settling] = [false, true].map(|settling| {
            let mut plan = [0; 256];
            report(baseline::solve(&table.words, u32::MAX, &mut plan, Settings { jumping: true, by_head: true, settling })).1
        });
        println!("{:36} {:>10} {:>6} {:>10} {:>6}", table.name, whole[0], whole[1], settling[0], settling[1]);
    }
}

fn main() {
    let tables = tables::all();
    let empty = vec![vec![0u8; 256]; tables.len()];
    let (outcomes, solved_alike) = compare("solve (yes: answer, no: none)", &solvers(), &tables, &empty);
    let plans: Vec<Vec<u8>> = outcomes.into_iter().map(|outcome| outcome.plan).collect();
    let (_, approved_alike) = compare("approve of the plan found", &approvers(), &tables, &plans);
    let judged = tables::judged();
    let no_plans = vec![[vec![2u8], vec![0; 255]].concat(); judged.len()];
    let (_, judged_alike) = compare("judging alone (a check whose first byte is 2)", &approvers(), &judged, &no_plans);
    print_saved();
    #[cfg(dock)]
    stack::print_peaks(&tables, u32::MAX);
    #[cfg(dock)]
    stack::print_peaks(&judged, 100);
    #[cfg(dock)]
    stack::print_judging(&judged);
    #[cfg(not(dock))]
    println!("\nno library: only the baseline was timed");
    if !(solved_alike && approved_alike && judged_alike) {
        println!("RESULTS DIFFER");
        std::process::exit(1);
    }
    println!("all results agree");
}
