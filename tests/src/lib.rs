//! A reference program for document 01, the box-board nesting engine, as change
//! requests S-1 to S-7 have changed it.
//!
//! It is written straight from the sentences of the two papers, which are quoted
//! above the functions that state them, and it prefers the plain way to the
//! quick one. All arithmetic is exact: whole numbers and products of whole
//! numbers. Three places have a quicker form beside the plain one, the cells an
//! outline covers ([`cells`]), the search for a position and the walk whose tries
//! are counted ([`placing`]); the tests compare the two forms.
//!
//! Modules [`text`], [`picture`] and [`retrace`] are not of the papers: they say
//! what programs `sheet`, `show` and `draw` print, and what an outline draws twice.
//! Module [`distance`] judges placed pieces without cells.
//!
//! Module [`generate`] makes inputs of every kind, good and bad, from a seed.

pub mod asking;
pub mod bytes;
pub mod cells;
pub mod distance;
pub mod figures;
pub mod generate;
pub mod laying;
pub mod outline;
pub mod path;
pub mod picture;
pub mod placing;
pub mod questions;
pub mod retrace;
pub mod sheet;
pub mod strip;
pub mod text;

pub use asking::{ask, commit};
pub use cells::{cover, runs};
pub use figures::{Figures, Piece, Position, Refusal, Totals, Tried};
pub use laying::{lay, lay_text};
pub use path::{read_path, write_path};
pub use placing::place;
pub use retrace::retrace;
pub use sheet::{read, write};
pub use strip::{open, same_strip, strip_runs, well_formed};
