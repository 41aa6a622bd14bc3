//! The independent second program: the access engine of the mirrored block store, written
//! from document 01 (the exact rules) and document 000 (the Palladio access protocol).
//!
//! The store itself: [`table`], [`answer`], [`well_formed`], [`host`], [`chunk`], [`settle`],
//! [`event`].
//! Around it: [`driver`] (one session), [`guide`] and [`generate`] (seeded sequences), [`scatter`]
//! (tables handed in), [`count`] (what came up), [`compare`] (another driver against this one),
//! [`begun`] and [`one_copy`] (demand 3 checked over a run).

pub mod answer;
pub mod begun;
pub mod chunk;
pub mod compare;
pub mod count;
pub mod driver;
pub mod event;
pub mod generate;
pub mod guide;
pub mod host;
pub mod one_copy;
pub mod queue;
pub mod random;
pub mod scatter;
pub mod settle;
pub mod table;
pub mod well_formed;
