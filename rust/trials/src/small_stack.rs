//! Running something with only so much stack left.
//!
//! A thread can't simply be given 64 KiB: the system's least may be more (128
//! KiB with glibc on aarch64), and the standard library rounds up without a
//! word. So the thread gets ample stack and uses up all but the wanted rest.

use std::hint::black_box;

const AMPLE: usize = 1 << 20;

/// Runs `task` in a thread with at most `left` bytes of stack. An overflow
/// ends the process.
pub fn with_stack<T: Send + 'static>(
    left: usize,
    task: impl FnOnce() -> T + Send + 'static,
) -> Result<T, String> {
    let thread = std::thread::Builder::new().stack_size(AMPLE).spawn(move || {
        let here = 0u8;
        let lowest = lowest_address(&raw const here as usize)?;
        let mut task = Some(task);
        let mut answer = None;
        descend(lowest + left, &mut || answer = task.take().map(|task| task()));
        answer.ok_or("the task did not run".to_string())
    });
    let handle = thread.map_err(|error| error.to_string())?;
    handle.join().map_err(|_| "the thread panicked".to_string())?
}

/// Where the mapping of memory begins that an address lies in. The guard
/// below a stack is a mapping of its own.
fn lowest_address(here: usize) -> Result<usize, String> {
    let maps = std::fs::read_to_string("/proc/self/maps").map_err(|error| error.to_string())?;
    let range = |line: &str| {
        let (low, high) = line.split_once(' ')?.0.split_once('-')?;
        let number = |hex| usize::from_str_radix(hex, 16).ok();
        Some((number(low)?, number(high)?))
    };
    let mut ranges = maps.lines().filter_map(range);
    let found = ranges.find(|(low, high)| (*low..*high).contains(&here));
    found.map(|(low, _)| low).ok_or("the stack is in no mapping".to_string())
}

/// Calls itself until the stack has come down to this address, then the task.
#[inline(never)]
fn descend(address: usize, task: &mut dyn FnMut()) {
    let frame = black_box([0u8; 512]);
    if &raw const frame as usize > address {
        descend(address, task);
    } else {
        task();
    }
    black_box(&frame); // so that no frame is given up before the call
}
