//! A second deadline judge, written from document 01 and wishes 1 and 3 to 7 of document 02 alone.
//!
//! It is compared with the proved program and shares nothing with it.

#![forbid(unsafe_code)]
#![warn(missing_docs)]

pub mod area;
pub mod bounds;
pub mod case;
pub mod desk;
pub mod judge;
pub mod latest;
pub mod list;
pub mod paths;
pub mod record;
pub mod refusal;
mod rules;
pub mod sequence;
pub mod table;
pub mod text;
mod vendor;
mod walk;
pub mod words;
pub mod write;
