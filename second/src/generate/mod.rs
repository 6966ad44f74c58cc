//! Generators of texts to compare programs on. Each is settled by its seed
//! alone, on every machine.

mod damage;
mod expressions;
mod faults;
pub mod figures;
mod givens;
pub mod guidelines;
mod limits;
pub mod lines;
mod random;
mod running;
pub mod scripts;
mod sketch;
pub mod texts;
mod words;
