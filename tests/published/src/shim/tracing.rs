//! Stands in for the crate `tracing`: a span that does nothing, and macros that forget their
//! arguments.

pub struct Span;

impl Span {
    pub fn enter(&self) {}
}

macro_rules! span {
    ($($anything:tt)*) => {
        $crate::shim::tracing::Span
    };
}

macro_rules! info {
    ($($anything:tt)*) => {};
}
