//! Second implementation of the checks of documents 01 and 02, written apart from the
//! library, with generators of cases and the comparison of the two.
//!
//! One module per check; `ffi` calls the library, `compare` sets both side by side.

pub mod batch;
pub mod chunks;
pub mod compare;
pub mod ffi;
pub mod generate;
pub mod guard;
pub mod listing;
pub mod masks;
pub mod order;
pub mod random;
pub mod replay;
