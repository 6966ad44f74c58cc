//! What load keeps of a guideline: tasks, data items and sources, numbered in
//! the order of the text, with every name resolved. No call changes it.

use std::ops::Range;
use std::rc::Rc;

use crate::formula::Formula;
use crate::terms::{Class, DeclaredType};

/// A loaded guideline's definitions; task 0 is the root.
#[derive(Clone, Debug)]
pub struct Definitions {
    pub tasks: Vec<Task>,
    pub data_items: Vec<DataItem>,
    pub sources: Vec<Source>,
    /// The tasks, each plan before its components.
    pub from_the_root: Vec<usize>,
}

#[derive(Clone, Debug)]
pub struct Task {
    pub class: Class,
    pub name: Rc<[u8]>,
    pub parent_plan: Option<usize>,
    pub components: Vec<usize>,
    pub antecedent_tasks: Vec<usize>,
    pub terminal: Option<bool>,
    pub precondition: Option<Formula>,
    pub wait_condition: Option<Formula>,
    pub terminate_condition: Option<Formula>,
    pub trigger: Option<Rc<[u8]>>,
    /// Each assignment is an item's number and what it gets.
    pub postcondition: Option<Vec<(usize, Formula)>>,
    pub sources: Range<usize>,
}

#[derive(Clone, Debug)]
pub struct DataItem {
    pub name: Rc<[u8]>,
    pub declared: DeclaredType,
}

#[derive(Clone, Debug)]
pub struct Source {
    pub data_item: usize,
    pub mandatory: Option<bool>,
}
