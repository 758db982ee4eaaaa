//! The in-memory index of raft-engine 0.4.2 as proved code: which file of a replicated log holds which entry and which key of a
//! Raft group.
//!
//! A [`Context`] gathers the batches of one queue during recovery. All calls work in an [`Area`] of a fixed size, which only the
//! calls write; so what they require of it holds by construction. A refused call changes nothing and gives a [`Refusal`].
//!
//! ```
//! use galdnyrr::{Batch, Cause, Context, Entry, Queue};
//!
//! let mut run = Context::new(Queue::Append);
//! let mut batch = Batch::new(Queue::Append, 1);
//! batch.entries(7, &[Entry::at(1, batch.file()), Entry::at(2, batch.file())]);
//! batch.put(7, b"key", b"value");
//! run.replay(&batch)?;
//!
//! batch.clear();
//! batch.entries(7, &[Entry::at(9, batch.file())]);
//! let refusal = run.replay(&batch).unwrap_err();
//! assert_eq!(refusal.cause(), Some(Cause::AboveLast));
//! assert_eq!((refusal.number(), refusal.place()), (14, Some(0)));
//! # Ok::<(), galdnyrr::Refusal>(())
//! ```

mod area;
mod batch;
mod context;
mod entry;
mod ffi;
mod lists;
mod refusal;

pub use area::{Area, BYTES, NUMBERS};
pub use batch::{Batch, Mark, Rows};
pub use context::{Context, Index};
pub use entry::{Compression, Entry, FileId, Queue};
pub use lists::{Columns, Pairs, Records};
pub use refusal::{Cause, Refusal};
