//! The exported functions beside a register written separately.
pub mod beside;
pub mod families;
pub mod random;
pub mod shorten;
