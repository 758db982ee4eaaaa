//! fail_point! without its feature: nothing, as in the crate itself.

#[macro_export]
macro_rules! fail_point {
    ($($t:tt)*) => {{}};
}
