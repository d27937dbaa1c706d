//! What the tests and the benchmarks share.

// Every test program has this module for itself and uses a part of it.
#![allow(dead_code)]

pub mod calls;
pub mod cuts;
pub mod draw;
pub mod forged;
pub mod group;
pub mod hand;
pub mod independent;
pub mod kinds;
pub mod lent;
pub mod mosaic;
pub mod notation;
pub mod records;
pub mod sheets;
pub mod text;
pub mod tile;
