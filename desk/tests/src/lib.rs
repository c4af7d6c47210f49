//! What the desk's test programs share.

pub mod common;
pub mod runs;
pub mod valid;
