//! How much stack the proved engine takes: it runs on a thread whose stack was painted, and what is
//! no longer paint was used.

use crate::cases::Session;
use crate::sides::{replayed, Replay};
use std::ffi::c_void;
use std::ptr::{null, null_mut};

const WORDS: usize = 1 << 18;
const PAINT: u64 = 0x5AA5_C33C_0FF0_9669;
/// No more code than this belongs to a function that replays.
const CODE: u64 = 1 << 14;

/// Bytes of stack.
#[derive(Clone, Copy, Default)]
pub struct Depth {
    /// From where the engine was called, down.
    pub step: usize,
    /// From where the replay was called, down.
    pub replay: usize,
}

impl Depth {
    pub fn deeper(self, other: Depth) -> Depth {
        Depth {
            step: self.step.max(other.step),
            replay: self.replay.max(other.replay),
        }
    }
}

/// Of a whole session.
pub fn depth_of(replay: Replay, session: &Session) -> Result<Depth, String> {
    let stack = run_on_painted(Some(&(replay, session)))?;
    let idle = run_on_painted(None)?;
    let touched = |stack: &[u64]| {
        stack
            .iter()
            .position(|&word| word != PAINT)
            .unwrap_or(WORDS)
    };
    let (deepest, floor) = (touched(&stack), touched(&idle));
    // The last call that the replay made is that of the engine: the address that it returned to still stands there.
    let code = replay as *const () as u64;
    let called = stack
        .iter()
        .position(|word| (code..code + CODE).contains(word));
    Ok(Depth {
        step: 8 * (called.ok_or("no trace of a call")? + 1 - deepest),
        replay: 8 * (floor - deepest),
    })
}

/// What to replay by, and what.
type Task<'a> = (Replay, &'a Session);

/// The stack of a thread that replayed the session, or did nothing. Its last word is the first that was used.
fn run_on_painted(task: Option<&Task>) -> Result<Vec<u64>, String> {
    let mut stack = vec![PAINT; WORDS];
    let argument = task.map_or(null(), |t| t as *const Task);
    // The thread ends before the stack and the task go.
    let failed = unsafe {
        let mut attributes = [0u64; 16];
        let attributes = attributes.as_mut_ptr().cast::<c_void>();
        let mut thread = 0usize;
        pthread_attr_init(attributes)
            + pthread_attr_setstack(attributes, stack.as_mut_ptr().cast(), 8 * WORDS)
            + pthread_create(&mut thread, attributes, replay, argument.cast())
            + pthread_join(thread, null_mut())
    };
    match failed {
        0 => Ok(stack),
        _ => Err("no thread on a stack of our own".to_string()),
    }
}

extern "C" fn replay(task: *const c_void) -> *const c_void {
    if let Some((replay, session)) = unsafe { task.cast::<Task>().as_ref() } {
        std::hint::black_box(replayed(*replay, session, &session.numbers));
    }
    null()
}

extern "C" {
    fn pthread_attr_init(attributes: *mut c_void) -> i32;
    fn pthread_attr_setstack(attributes: *mut c_void, stack: *mut c_void, bytes: usize) -> i32;
    fn pthread_create(
        thread: *mut usize,
        attributes: *const c_void,
        run: extern "C" fn(*const c_void) -> *const c_void,
        argument: *const c_void,
    ) -> i32;
    fn pthread_join(thread: usize, result: *mut *mut c_void) -> i32;
}
