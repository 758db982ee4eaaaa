//! Gauges and timers that keep nothing.

pub struct Gauge;

impl Gauge {
    pub fn set(&self, _: i64) {}
}

pub struct EntryCount {
    pub append: Gauge,
    pub rewrite: Gauge,
}

pub static MEMORY_USAGE: Gauge = Gauge;
pub static LOG_ENTRY_COUNT: EntryCount = EntryCount { append: Gauge, rewrite: Gauge };

pub struct StopWatch;

impl StopWatch {
    pub fn new(_: ()) -> StopWatch {
        StopWatch
    }
}

#[macro_export]
macro_rules! perf_context {
    ($field:ident) => {
        ()
    };
}

pub struct PerfContext;

pub fn get_perf_context() -> PerfContext {
    PerfContext
}

pub fn set_perf_context(_: PerfContext) {}

pub fn take_perf_context() -> PerfContext {
    PerfContext
}
