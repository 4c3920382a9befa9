//! The proved engine as a Rust program calls it, with what the tests and the
//! benchmarks need beside it: buffers before an unreadable page, a stack that can be
//! looked at, the public outlines, jobs as people write them, the proved programs as
//! they are run, and plain programs to measure against.

#![deny(unsafe_code)]

#[allow(unsafe_code)]
mod calls;
pub mod data;
#[allow(unsafe_code)]
pub mod guard;
#[allow(unsafe_code)]
mod inner;
pub mod job;
pub mod plain;
pub mod plain_path;
pub mod plain_place;
pub mod plain_sheet;
pub mod plain_strip;
pub mod programs;
#[allow(unsafe_code)]
pub mod stack;

pub use calls::{ask, commit, cover, lay, open, place, read, retrace, write};
pub use calls::{ask_bytes, commit_bytes, lay_bytes, open_bytes, place_bytes};
pub use calls::{read_path, write_path};
pub use inner::{decoded, rewrite, vertex, well_formed};
