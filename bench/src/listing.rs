//! Lists the first 10,000 plans of the benchmark's night plans, and writes each table as aspif to the directory that is named, for another solver. Built and
//! run by bench/list.sh.
#[allow(dead_code)]
mod tables;

use std::time::Instant;

const ROWS: usize = 10_000;

unsafe extern "C" {
    fn saucepebbly_list(
        words: *const i32,
        words_len: usize,
        mode: u32,
        limit: u32,
        rows: *mut u8,
        rows_len: usize,
        report: *mut u32,
        report_len: usize,
        lists: *mut u16,
        candidates: *mut u32,
    ) -> u32;
    fn saucepebbly_write_aspif(
        words: *const i32,
        words_len: usize,
        text: *mut u8,
        text_len: usize,
        report: *mut u32,
        report_len: usize,
        lists: *mut u16,
    ) -> u32;
}

/// Kind and numbers of a listing.
fn list(words: &[i32], rows: &mut [u8]) -> (u32, [u32; 4]) {
    let mut report = [0; 4];
    let (mut lists, mut candidates) = ([0; 17922], [0; 1024]);
    // SAFETY: pointers and lengths are those of slices that do not overlap.
    let kind = unsafe {
        let (rows, rows_len) = (rows.as_mut_ptr(), rows.len());
        let (lists, candidates) = (lists.as_mut_ptr(), candidates.as_mut_ptr());
        saucepebbly_list(words.as_ptr(), words.len(), 0, u32::MAX, rows, rows_len, report.as_mut_ptr(), 4, lists, candidates)
    };
    (kind, report)
}

fn aspif(words: &[i32]) -> Vec<u8> {
    let mut text = vec![0; 1 << 20];
    let mut report = [0; 2];
    let mut lists = [0; 17922];
    // SAFETY: as above.
    let kind = unsafe {
        let (text, text_len) = (text.as_mut_ptr(), text.len());
        saucepebbly_write_aspif(words.as_ptr(), words.len(), text, text_len, report.as_mut_ptr(), 2, lists.as_mut_ptr())
    };
    assert_eq!(kind, 0, "the table is written");
    text.truncate(report[0] as usize);
    text
}

fn main() {
    let out = std::env::args().nth(1).expect("a directory for the aspif files");
    let mut rows = vec![7; 256 * ROWS];
    for (i, table) in tables::all().into_iter().filter(|table| table.name.starts_with("night")).enumerate() {
        std::fs::write(format!("{out}/night-{i}.aspif"), aspif(&table.words)).expect("the file is written");
        let mut best = f64::MAX;
        let mut said = (0, [0; 4]);
        for _ in 0..3 {
            let start = Instant::now();
            said = list(&table.words, &mut rows);
            best = best.min(start.elapsed().as_secs_f64());
        }
        let (kind, [listed, choices, skips, passes]) = said;
        println!(
            "{}: {} {listed} listed, {choices} choices, {skips} skips, {passes} passes, {best:.3} s, {:.0} plans a second",
            table.name,
            ["complete", "full", "limit", "refused"][kind as usize],
            f64::from(listed) / best
        );
    }
}
