//! The second program: PROforma guidelines read and expressions worked out,
//! from document 01, the rulings and the paper alone, to be compared with the
//! proved engine. Plain and clear rather than fast, and by other means.
//!
//! Reading goes through `load`: `lexer` (1, 2, 6), `earley` over `grammar` (3),
//! `left_out` (10), `tree` and `written` with `grouping`, `measure` (6), `names`
//! (4), `types` (5), `resolve`. What is loaded is a `guideline`, plain data;
//! `evaluate` works out its expressions.
//!
//! Running: `loading` puts the guideline into the `tables`, `engine` has the
//! public operations, `operations` and `conditions` what they are made of.
//! `calls` judges the refusals of a call, `replay` answers a `script` of calls,
//! `transcript` tells it for people.

pub mod batch;
pub mod calls;
pub mod component;
mod conditions;
pub mod earley;
pub mod engine;
pub mod evaluate;
pub mod examine;
pub mod expression;
pub mod generate;
pub mod given;
pub mod grammar;
pub mod grouping;
pub mod guideline;
pub mod left_out;
pub mod lexer;
pub mod limits;
pub mod load;
pub mod loading;
pub mod measure;
pub mod names;
pub mod number;
mod operations;
pub mod refusal;
pub mod replay;
pub mod resolve;
mod rows;
pub mod scope;
pub mod script;
pub mod sheet;
pub mod tables;
pub mod token;
pub mod transcript;
pub mod tree;
pub mod types;
pub mod value;
pub mod written;
