//! How well a row count is known.

#[derive(Clone, Copy, Debug, PartialEq)]
pub enum Precision<T> {
    Exact(T),
    Inexact(T),
    Absent,
}

#[derive(Clone, Debug)]
pub struct Statistics {
    pub num_rows: Precision<usize>,
}
