//! The library's two entries, as include/saucepebbly.h declares them, in the old mode, and the memory that is lent to them.

/// What a caller lends besides its buffers; what it holds does not matter.
pub struct Memory {
    lists: [u16; 17922],
    candidates: [u32; 1024],
}

impl Memory {
    pub fn new() -> Box<Memory> {
        Box::new(Memory { lists: [0xa5a5; 17922], candidates: [0xa5a5_a5a5; 1024] })
    }
}

extern "C" {
    fn saucepebbly_solve(
        words: *const i32,
        words_len: usize,
        mode: u32,
        limit: u32,
        plan: *mut u8,
        plan_len: usize,
        report: *mut u32,
        report_len: usize,
        whys: *mut u16,
        whys_len: usize,
        lists: *mut u16,
        candidates: *mut u32,
    ) -> u32;
    fn saucepebbly_approve(
        words: *const i32,
        words_len: usize,
        mode: u32,
        plan: *const u8,
        plan_len: usize,
        report: *mut u32,
        report_len: usize,
        lists: *mut u16,
        candidates: *mut u32,
    ) -> u32;
}

pub fn solve(words: &[i32], limit: u32, plan: &mut [u8], memory: &mut Memory) -> (u32, [u32; 2]) {
    let mut report = [0; 2];
    let mut whys = [0; 512];
    // The slices are lent for the call only, with their own lengths.
    let kind = unsafe {
        let (plan, plan_len) = (plan.as_mut_ptr(), plan.len());
        let (lists, candidates) = (memory.lists.as_mut_ptr(), memory.candidates.as_mut_ptr());
        let (report, whys) = (report.as_mut_ptr(), whys.as_mut_ptr());
        saucepebbly_solve(words.as_ptr(), words.len(), 0, limit, plan, plan_len, report, 2, whys, 512, lists, candidates)
    };
    (kind, report)
}

pub fn approve(words: &[i32], plan: &[u8], memory: &mut Memory) -> (u32, [u32; 2]) {
    let mut report = [0; 2];
    // As above.
    let kind = unsafe {
        let (lists, candidates) = (memory.lists.as_mut_ptr(), memory.candidates.as_mut_ptr());
        let (plan, plan_len) = (plan.as_ptr(), plan.len());
        saucepebbly_approve(words.as_ptr(), words.len(), 0, plan, plan_len, report.as_mut_ptr(), 2, lists, candidates)
    };
    (kind, if kind == 3 { report } else { [0, 0] })
}
