//! A panic of the Rust as an answer: where it fell and 01's number for it.

use std::cell::{Cell, RefCell};
use std::panic::{catch_unwind, set_hook, AssertUnwindSafe};

#[derive(Clone, Debug)]
pub struct Panic {
    /// File and line of the Rust, as memtable.rs:610.
    pub place: String,
    pub message: String,
}

thread_local! {
    static LAST: RefCell<Option<Panic>> = RefCell::new(None);
    static INSIDE: Cell<bool> = Cell::new(false);
}

/// Keeps a panic of a call instead of printing it.
pub fn keep_panics() {
    set_hook(Box::new(|info| {
        let place = info.location().map_or(String::new(), |l| {
            let file = l.file().rsplit('/').next().unwrap_or("");
            format!("{}:{}", file, l.line())
        });
        let message = match info.payload().downcast_ref::<&str>() {
            Some(s) => s.to_string(),
            None => info.payload().downcast_ref::<String>().cloned().unwrap_or_default(),
        };
        if !INSIDE.with(Cell::get) {
            eprintln!("{}: {}", place, message);
        }
        LAST.with(|p| *p.borrow_mut() = Some(Panic { place, message }));
    }));
}

/// Runs a call of the Rust.
pub fn catch<T>(call: impl FnOnce() -> T) -> Result<T, Panic> {
    INSIDE.with(|i| i.set(true));
    let run = catch_unwind(AssertUnwindSafe(call));
    INSIDE.with(|i| i.set(false));
    run.map_err(|_| {
        let panic = LAST.with(|p| p.borrow_mut().take());
        let panic = panic.expect("the hook keeps every panic");
        assert!(!panic.message.starts_with("stand-in"), "{:?}", panic);
        panic
    })
}

/// 01's number for each place where the Rust stops, with a name for figures.
/// The lines are those of the unchanged files.
const PLACES: [(&str, u8, &str); 24] = [
    ("memtable.rs:218", 3, "entry without a file"),
    ("memtable.rs:231", 8, "merged spans go back"),
    ("memtable.rs:260", 3, "entry without a file"),
    ("memtable.rs:349", 17, "key rewrite to a lower number"),
    ("memtable.rs:455", 15, "Append entry before a rewrite"),
    ("memtable.rs:456", 15, "Append entry before a rewrite"),
    ("memtable.rs:460", 3, "indexes not consecutive"),
    ("memtable.rs:466", 16, "gated rewrite meets a Rewrite entry"),
    ("memtable.rs:548", 8, "spans go back"),
    ("memtable.rs:600", 13, "append below the first entry"),
    ("memtable.rs:610", 14, "append above last + 1"),
    ("memtable.rs:763", 10, "count 0"),
    ("memtable.rs:1075", 3, "Put without value"),
    ("memtable.rs:1076", 3, "Put without file"),
    ("memtable.rs:1110", 3, "Put without value"),
    ("memtable.rs:1111", 3, "Put without file"),
    ("memtable.rs:1144", 6, "Del in a live rewrite"),
    ("memtable.rs:1147", 6, "Compact in a live rewrite"),
    ("memtable.rs:1176", 3, "Put without value"),
    ("memtable.rs:1177", 3, "Put without file"),
    ("memtable.rs:1296", 8, "joined parts go back"),
    ("memtable.rs:1303", 8, "joined parts go back"),
    ("memtable.rs:1324", 8, "joined parts go back"),
    ("memtable.rs:1370", 7, "two marks"),
];

/// Where parts of an atomic group are joined; they are judged before items.
pub const JOINED: [&str; 3] = ["memtable.rs:1296", "memtable.rs:1303", "memtable.rs:1324"];

/// 01's number, if one fits, and a name.
pub fn kind(p: &Panic) -> (Option<u8>, String) {
    let absent = p.message.contains("on a `None` value");
    let known = PLACES.iter().find(|(place, _, _)| *place == p.place);
    match (p.place.as_str(), known) {
        (_, Some((_, 3, name))) => (Some(3), name.to_string()),
        (place, _) if absent && place.starts_with("memtable.rs") => {
            (Some(3), "entry without a file".into())
        }
        (_, Some((_, n, name))) => (Some(*n), name.to_string()),
        (place, None) => other_kind(place, p),
    }
}

fn other_kind(place: &str, p: &Panic) -> (Option<u8>, String) {
    match place {
        "memtable.rs:413" => (Some(5), "file of the other queue".into()),
        "log_batch.rs:1021" => (Some(3), "reserved Put without value".into()),
        "log_batch.rs:1026" => (Some(7), "status above 2".into()),
        _ if p.message.starts_with("range start is greater") => {
            (Some(10), "scan start above end".into())
        }
        _ if p.message.contains("with overflow") => {
            (Some(4), format!("overflow at {}", p.place))
        }
        _ => (None, format!("{} at {}", first_line(&p.message), p.place)),
    }
}

fn first_line(s: &str) -> &str {
    s.lines().next().unwrap_or("")
}
