//! lazy_static! over std's LazyLock, for the one static of log_batch.rs.

#[macro_export]
macro_rules! lazy_static {
    ($(static ref $name:ident : $ty:ty = $e:expr;)*) => {
        $(static $name: std::sync::LazyLock<$ty> = std::sync::LazyLock::new(|| $e);)*
    };
}
