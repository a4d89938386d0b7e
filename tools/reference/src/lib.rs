//! The frame of document 01 computed from kept lists: each head has the list of what was done to it, and a row of earlier lists. A list's
//! filter is what the source's Rust makes of its items, one after the other, on an empty head. After a restore (02 k) a list begins with the
//! filter that was restored.

pub mod closing;
pub mod counts;
pub mod filters;
pub mod histories;
pub mod lists;
pub mod numbers;
pub mod planes;
pub mod rota;
pub mod sheets;
pub mod text;
pub mod trials;
