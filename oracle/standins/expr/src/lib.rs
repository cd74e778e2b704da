//! Stand-in for what the rule about windows uses of `datafusion-expr`.

use datafusion_common::ScalarValue;

/// Which rows a window function needs beside those of its frame.
#[derive(Clone, Copy, Debug, PartialEq, Eq)]
pub enum LimitEffect {
    None,
    Unknown,
    Relative(usize),
    Absolute(usize),
}

/// What a frame counts in.
#[derive(Clone, Copy, Debug, PartialEq, Eq)]
pub enum WindowFrameUnits {
    Rows,
    Range,
    Groups,
}

#[derive(Clone, Debug, PartialEq)]
pub enum WindowFrameBound {
    Preceding(ScalarValue),
    CurrentRow,
    Following(ScalarValue),
}

#[derive(Clone, Debug)]
pub struct WindowFrame {
    pub units: WindowFrameUnits,
    pub end_bound: WindowFrameBound,
}
