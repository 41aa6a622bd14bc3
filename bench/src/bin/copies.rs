//! What an event copies on each side: every `memcpy` and `memmove` that it calls is counted. The linker hands those calls to the
//! functions below (build.rs), in this program alone: the one that times has none of it. Copies of some words are no calls, and
//! are not counted.

use bench::cases::{self, Case, Session};
use bench::sides::{table_bytes, ALL, SIDES, SIDE_NAMES};
use std::ffi::c_void;
use std::sync::atomic::{AtomicU64, Ordering::Relaxed};

static COPIES: AtomicU64 = AtomicU64::new(0);
static BYTES: AtomicU64 = AtomicU64::new(0);

extern "C" {
    fn __real_memcpy(to: *mut c_void, from: *const c_void, bytes: usize) -> *mut c_void;
    fn __real_memmove(to: *mut c_void, from: *const c_void, bytes: usize) -> *mut c_void;
}

/// # Safety
/// As memcpy's.
#[no_mangle]
pub unsafe extern "C" fn __wrap_memcpy(
    to: *mut c_void,
    from: *const c_void,
    bytes: usize,
) -> *mut c_void {
    count(bytes);
    __real_memcpy(to, from, bytes)
}

/// # Safety
/// As memmove's.
#[no_mangle]
pub unsafe extern "C" fn __wrap_memmove(
    to: *mut c_void,
    from: *const c_void,
    bytes: usize,
) -> *mut c_void {
    count(bytes);
    __real_memmove(to, from, bytes)
}

fn count(bytes: usize) {
    COPIES.fetch_add(1, Relaxed);
    BYTES.fetch_add(bytes as u64, Relaxed);
}

fn main() {
    println!("copies an event, their bytes, and these in tables: every call of memcpy and memmove");
    print!("{:<32} {:>7}", "case", "events");
    for name in SIDE_NAMES {
        print!("  {name:>8} {:>8} {:>6}", "bytes", "tables");
    }
    println!();
    for case in cases::all() {
        line(&case);
    }
}

fn line(case: &Case) {
    let events = case.events() as f64;
    print!("{:<32} {:>7}", case.name, case.events());
    for side in 0..SIDES {
        let [copies, bytes] = copied(case, side).map(|count| count as f64 / events);
        let tables = bytes / table_bytes() as f64;
        print!("  {copies:>8.1} {bytes:>8.0} {tables:>6.2}");
    }
    println!();
}

/// By a case's events, what goes before them taken off.
fn copied(case: &Case, side: usize) -> [u64; 2] {
    let by = |session: &Session, numbers: &[u64]| {
        let before = [&COPIES, &BYTES].map(|count| count.load(Relaxed));
        std::hint::black_box(ALL[side](session, numbers));
        let after = [&COPIES, &BYTES].map(|count| count.load(Relaxed));
        [after[0] - before[0], after[1] - before[1]]
    };
    let mut sums = [0; 2];
    for session in &case.sessions {
        let whole = by(session, &session.numbers);
        let before = by(session, &session.numbers[..session.before]);
        (0..2).for_each(|i| sums[i] += whole[i] - before[i]);
    }
    sums
}
