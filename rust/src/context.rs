//! Contexts and the index: the calls of one kind.

use crate::{Area, Batch, Queue, Refusal};
use std::ops::Deref;

/// A context: it gathers the batches of one queue during recovery. Its queries are those of [`Area`].
#[derive(Clone)]
pub struct Context {
    area: Area,
    queue: Queue,
}

impl Context {
    /// A fresh context of a queue.
    pub fn new(queue: Queue) -> Context {
        Context { area: Area::fresh(queue), queue }
    }

    pub fn queue(&self) -> Queue {
        self.queue
    }

    #[inline]
    pub fn area(&self) -> &Area {
        &self.area
    }

    /// Makes the context a fresh one again.
    pub fn reset(&mut self) {
        self.area.reset(self.queue);
    }

    /// Replays a batch, whose file must be of the context's queue. Refused: 1 to 5, 7, 8, 14 and 18.
    #[inline]
    pub fn replay(&mut self, batch: &Batch) -> Result<(), Refusal> {
        self.area.replay(batch.file(), batch.rows())
    }

    /// Merges the context of the run behind this one's, of the same queue. Refused: 1, 8, 14 and 18.
    pub fn merge(&mut self, newer: &Context) -> Result<(), Refusal> {
        self.area.merge(&newer.area)
    }

    /// The index of this Rewrite context and an Append context. Refused, with this context as it was: 1 and 18.
    pub fn join(mut self, append: &Context) -> Result<Index, (Context, Refusal)> {
        match self.area.join(&append.area) {
            Ok(()) => Ok(Index { area: self.area }),
            Err(refusal) => Err((self, refusal)),
        }
    }
}

impl Deref for Context {
    type Target = Area;

    #[inline]
    fn deref(&self) -> &Area {
        &self.area
    }
}

/// The index: it takes live writes. Its queries are those of [`Area`].
#[derive(Clone)]
pub struct Index {
    area: Area,
}

impl Index {
    /// An index without groups: the join of two fresh contexts.
    pub fn new() -> Index {
        let rewrite = Context::new(Queue::Rewrite);
        match rewrite.join(&Context::new(Queue::Append)) {
            Ok(index) => index,
            Err((_, refusal)) => unreachable!("two fresh contexts: {refusal}"),
        }
    }

    #[inline]
    pub fn area(&self) -> &Area {
        &self.area
    }

    /// Appends a batch of an Append file. Refused: 1 to 5, 13, 14 and 18.
    #[inline]
    pub fn append(&mut self, batch: &Batch) -> Result<(), Refusal> {
        self.area.append(batch.file(), batch.rows())
    }

    /// Rewrites a batch of a Rewrite file, gated or not. Refused: 1 to 6 and 15 to 18.
    #[inline]
    pub fn rewrite(&mut self, gate: Option<u64>, batch: &Batch) -> Result<(), Refusal> {
        self.area.rewrite(gate, batch.file(), batch.rows())
    }

    /// Hands out the cleaned numbers in order, and empties their list.
    pub fn take_cleaned_region_logs(&mut self) -> Vec<u64> {
        let mut list = [0; 64];
        self.area.take_cleaned_region_logs(&mut list).map(<[u64]>::to_vec).unwrap_or_default()
    }
}

impl Default for Index {
    fn default() -> Index {
        Index::new()
    }
}

impl Deref for Index {
    type Target = Area;

    #[inline]
    fn deref(&self) -> &Area {
        &self.area
    }
}
