//! Fixtures that tests of several subjects share: comparisons that print both sides; files, messages and calls, byte by byte; books of no
//! calls; rasters and names; nodes that behave badly; listeners of one service.

pub use self::check::{
    has_end, has_start, is_missing, is_same, is_same_text, is_unwanted, is_written, note,
};

pub mod books;
pub mod calls;
pub mod check;
pub mod files;
pub mod listeners;
pub mod messages;
pub mod names;
pub mod peers;
pub mod rasters;
