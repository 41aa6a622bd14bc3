//! How long a copy takes.

use crate::clock::processor_time;
use std::hint::black_box;

const COPIES: u32 = 100_000;

/// Nanoseconds that a copy of so many bytes takes.
pub fn copy_time(bytes: usize) -> f64 {
    let (mut from, mut to) = (vec![1u8; bytes], vec![0u8; bytes]);
    let began = processor_time();
    for _ in 0..COPIES {
        black_box(&mut to).copy_from_slice(black_box(&from));
        std::mem::swap(&mut from, &mut to);
    }
    (processor_time() - began).as_nanos() as f64 / f64::from(COPIES)
}
