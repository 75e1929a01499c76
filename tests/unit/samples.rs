//! Keys and entries for tests and measurements: a value is the number of bytes that it takes, and any number is a value of any
//! key.

pub use self::keeping::kept;
pub use self::lax::Lax;
pub use self::sample::Sample;

pub mod keeping;
pub mod lax;
pub mod sample;
