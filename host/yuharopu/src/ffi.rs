//! The C functions, called with slices. All that is `unsafe` is in here.

pub mod calls;
mod declared;
pub mod parts;
