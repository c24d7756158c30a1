//! The two texts of document 01: how they are read or refused, the parts shown of
//! them, and the requests about them.

pub mod calls;
mod lending;
pub mod parts;
pub mod reading;
pub mod requests;
mod spelling;
