//! An ordinary engine for PROforma guidelines, by document 01 and the paper, as
//! one writes it without proofs: to measure the proved engine's speed against.
//!
//! `load` goes through `lexer` (1, 2, 6), `parser` (3, 10, 6), `names` (4) and
//! `typing` (5); what it keeps are `definitions`, in which every name is a
//! number. `guideline` has the public calls, `cycle` and `conditions` a run.
//! `session` adds that nothing may be loaded, `replay` answers scripts of
//! calls, and `season` drives any engine for timing.

pub mod batch;
mod conditions;
mod cycle;
mod definitions;
mod directory;
mod formula;
pub mod given;
pub mod guideline;
mod lexer;
mod limits;
mod loading;
mod names;
pub mod number;
mod operators;
mod parser;
mod properties;
mod random;
pub mod refusal;
pub mod replay;
pub mod rows;
mod script;
pub mod season;
pub mod session;
mod syntax;
pub mod terms;
mod token;
mod types;
mod typing;
pub mod value;
mod words;

pub use given::Given;
pub use guideline::{load, Ending, Guideline, Run};
pub use refusal::{Reason, Refusal};
pub use rows::Row;
pub use session::Session;
