//! The name that lib.rs exports.

pub struct Engine;
