//! The proved engine and the second program on the same events: what is shared by the program that times them (`main.rs`) and the
//! one that counts their copies (`bin/copies.rs`).

pub mod cases;
pub mod clock;
pub mod copying;
pub mod drivers;
pub mod sides;
pub mod stack;
