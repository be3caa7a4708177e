//! The walk written for speed, in Rust, to measure the proved library by.

pub mod clock;
pub mod contexts;
pub mod fast;
pub mod periods;
pub mod reader;
pub mod rule;
pub mod stems;
