//! The port beside the Rust: the proved index, linked as a library, answers the same scripts.

mod drive;
mod dump;
mod query;
mod rows;
pub mod run;

pub use drive::Port;
