//! The data items that names in expressions find, and their types.

use std::collections::HashMap;

use crate::guideline::DeclaredType;
use crate::types::{Scope, Type};
use crate::value::folded;
use crate::written::{Body, Owner, Written};

/// The types of the data items by folded name.
pub struct ItemTypes(HashMap<String, Type>);

impl ItemTypes {
    /// The scope of a lone expression: no data items at all.
    pub fn none() -> ItemTypes {
        ItemTypes(HashMap::new())
    }

    pub fn of(written: &Written) -> ItemTypes {
        let typed = |item: &Owner| (folded(&item.name.text), declared(item).inferred());
        ItemTypes(written.data_items.iter().map(typed).collect())
    }
}

impl Scope for ItemTypes {
    fn item_type(&self, name: &str) -> Option<Type> {
        self.0.get(&folded(name)).copied()
    }
}

/// The declared type of a data item; the grammar gives it one.
pub fn declared(item: &Owner) -> DeclaredType {
    match item.attribute("type") {
        Some(Body::Name(name)) => DeclaredType::named(&name.text),
        _ => unreachable!("a data item has a type"),
    }
}
