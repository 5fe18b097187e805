//! What the benchmarks share: how often they are to run, how far apart the runs lie, and on what machine.

#![forbid(unsafe_code)]

mod arguments;
mod machine;
mod spread;

pub use arguments::runs;
pub use machine::machine;
pub use spread::Spread;
