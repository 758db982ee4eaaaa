//! Recovers two runs of the Append queue as a maker's program would: batches are replayed, what is refused is reported, the newer run is
//! merged into the older one and that joined to a Rewrite context; a live batch is appended, and a group's records are read back.

use galdnyrr::{Batch, Context, Entry, FileId, Pairs, Queue, Records, Refusal};

/// Entries of one block of a file: each of `len` bytes, one behind the other.
fn block(file: FileId, first: u64, count: u32, block_offset: u64, len: u32) -> Vec<Entry> {
    (0..count)
        .map(|i| Entry {
            block_offset,
            block_len: u64::from(count * len),
            offset: i * len,
            len,
            ..Entry::at(first + u64::from(i), file)
        })
        .collect()
}

fn main() -> Result<(), Refusal> {
    let mut older = Context::new(Queue::Append);
    let mut batch = Batch::new(Queue::Append, 1);
    batch.entries(7, &block(batch.file(), 1, 10, 0, 100)).put(7, b"term", b"3");
    older.replay(&batch)?;

    // A run may be recovered beside the one before it, in a thread of its own.
    let mut newer = Context::new(Queue::Append);
    batch.restart(Queue::Append, 2);
    batch.entries(7, &block(batch.file(), 8, 4, 4096, 50)).put(9, b"term", b"1");
    newer.replay(&batch)?;

    batch.clear();
    batch.entries(7, &block(batch.file(), 20, 1, 8192, 50));
    if let Err(refusal) = newer.replay(&batch) {
        println!("{refusal}");
    }

    older.merge(&newer)?;
    let mut index = Context::new(Queue::Rewrite).join(&older).map_err(|(_, refusal)| refusal)?;

    batch.restart(Queue::Append, 3);
    batch.entries(7, &block(batch.file(), 12, 1, 0, 50)).compact(7, 6);
    index.append(&batch)?;

    let mut records = Records::with_room(64);
    index.fetch_entries_to(7, 6, 13, None, &mut records)?;
    for entry in records.iter() {
        println!("{}: file {}, {} bytes at {}", entry.index, entry.file.seq, entry.len, entry.block_offset);
    }
    let mut keys = Pairs::with_room(16);
    index.scan(7, None, None, false, 16, &mut keys)?;
    for (key, value) in keys.iter() {
        println!("{} = {}", String::from_utf8_lossy(key), String::from_utf8_lossy(value));
    }
    Ok(())
}
