//! PROforma guidelines, run by Schotterei's proved engine.
//!
//! The engine is the archive libschotterei.a, which `./schotterei library` makes: every function of it is proved. This
//! crate lends it its tables and turns numbers into Rust's values; it decides nothing of its own. [`Guideline`] has the
//! public calls.

mod cells;
mod guideline;
mod raw;
mod refusal;
mod row;
mod rows;
mod tables;
mod value;

pub use guideline::{Ending, Guideline, Run};
pub use refusal::{Reason, Refusal};
pub use row::{kind, property, Class, Component, Row, State, Type};
pub use rows::Rows;
pub use tables::Change;
pub use value::{Scalar, Value};
