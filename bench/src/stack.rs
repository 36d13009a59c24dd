//! How much stack a call takes: it runs on a thread whose stack was painted, and the paint that is left is counted.

use crate::{dock, tables};
use std::ffi::{c_int, c_void};

const SIZE: usize = 1 << 21;
const PAINT: u64 = 0xa5c3_96d2_5ae1_781f;

// Linux's pthread_attr_t has 56 bytes on x86-64 and 64 on Arm.
#[repr(C, align(16))]
struct Attributes([u64; 16]);

extern "C" {
    fn pthread_attr_init(attributes: *mut Attributes) -> c_int;
    fn pthread_attr_setstack(attributes: *mut Attributes, stack: *mut c_void, size: usize) -> c_int;
    fn pthread_create(
        thread: *mut usize,
        attributes: *const Attributes,
        run: extern "C" fn(*mut c_void) -> *mut c_void,
        argument: *mut c_void,
    ) -> c_int;
    fn pthread_join(thread: usize, result: *mut *mut c_void) -> c_int;
}

#[repr(align(4096))]
#[derive(Clone, Copy)]
struct Page(#[allow(dead_code)] [u64; 512]);

enum Call<'a> {
    Nothing,
    Solve(&'a [i32], u32),
    Approve(&'a [i32]),
    Judge(&'a [i32]),
}

/// A call, and where the lent memory is, which is not on the painted stack.
struct Task<'a> {
    call: Call<'a>,
    memory: *mut dock::Memory,
}

extern "C" fn run(argument: *mut c_void) -> *mut c_void {
    // The pointers are to the caller's Task and to its memory, which outlive the thread.
    let task = unsafe { &*(argument as *const Task) };
    let memory = unsafe { &mut *task.memory };
    let mut plan = [0; 256];
    match task.call {
        Call::Nothing => {}
        Call::Solve(words, limit) => drop(dock::solve(words, limit, &mut plan, memory)),
        Call::Approve(words) => drop(dock::approve(words, &plan, memory)),
        Call::Judge(words) => {
            plan[0] = 2;
            dock::approve(words, &plan, memory);
        }
    }
    std::ptr::null_mut()
}

/// The bytes of the thread's stack that a call overwrote.
fn overwritten(call: Call) -> usize {
    let mut stack = vec![Page([PAINT; 512]); SIZE / 4096];
    let start = stack.as_mut_ptr();
    let mut memory = dock::Memory::new();
    let task = Task { call, memory: &mut *memory };
    // The stack outlives the thread, which is joined here; only after that is it read.
    unsafe {
        let mut attributes = Attributes([0; 16]);
        let mut thread = 0;
        assert_eq!(pthread_attr_init(&mut attributes), 0);
        assert_eq!(pthread_attr_setstack(&mut attributes, start as *mut c_void, SIZE), 0);
        let argument = &task as *const Task as *mut c_void;
        assert_eq!(pthread_create(&mut thread, &attributes, run, argument), 0);
        assert_eq!(pthread_join(thread, std::ptr::null_mut()), 0);
        let words = std::slice::from_raw_parts(start as *const u64, SIZE / 8);
        SIZE - 8 * words.iter().take_while(|&&word| word == PAINT).count()
    }
}

/// `limit`: of the choices, so that no search takes long; the stack does not grow with them.
pub fn print_peaks(tables: &[tables::Named], limit: u32) {
    println!("\npeak stack of a call, bytes (the thread's own part taken off)");
    let own = overwritten(Call::Nothing);
    for table in tables {
        let solve = overwritten(Call::Solve(&table.words, limit)) - own;
        let approve = overwritten(Call::Approve(&table.words)) - own;
        println!("{:36} solve {solve:>7}  approve {approve:>7}", table.name);
    }
}

pub fn print_judging(tables: &[tables::Named]) {
    println!("\npeak stack of judging alone, bytes, beside the lent lists");
    let own = overwritten(Call::Nothing);
    for table in tables {
        println!("{:36} {:>7}", table.name, overwritten(Call::Judge(&table.words)) - own);
    }
}
