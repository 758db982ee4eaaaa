//! Named by lib.rs and used by none of the files.
