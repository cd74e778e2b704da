//! Stand-in for what the rule about windows uses of `datafusion-physical-expr`.

pub mod window;
