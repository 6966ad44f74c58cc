//! 8.4: rows replace rows; two different values collide.

use crate::hand::family;
use second::component::{Component, Property};
use second::engine::Engine;
use second::number::Number;
use second::tables::{Changes, RowValue};
use second::value::Value;

fn integer(value: i64) -> Value {
    Value::Number(Number::Integer(value))
}

fn real(thousandths: i64) -> Value {
    Value::Number(Number::Real(thousandths))
}

fn text(text: &str) -> Value {
    Value::Text(text.to_string())
}

/// The value of item 1 after these were asked for, and the flag.
fn after(values: &[Value]) -> (Option<RowValue>, bool) {
    let item = Component::data_item(1);
    let mut engine: Engine = family("", "", "", "").0;
    let row = |value: &Value| (item, Property::Value, RowValue::Value(value.clone()));
    let changes: Changes = values.iter().map(row).collect();
    engine.enact_changes(&changes);
    (engine.properties.get(item, Property::Value).cloned(), engine.exception)
}

/// Checks that the value is taken.
fn taken(values: &[Value]) {
    assert_eq!(after(values), (Some(RowValue::Value(values[0].clone())), false));
}

/// Checks that the values collide.
fn collide(values: &[Value]) {
    assert_eq!(after(values), (Some(RowValue::UNKNOWN), true), "for {values:?}");
}

#[test]
fn equal_values_do_not_collide() {
    taken(&[integer(2)]);
    taken(&[integer(2), integer(2)]);
    taken(&[real(2_000), real(2_000)]);
    taken(&[text("a"), text("a")]);
    taken(&[Value::Unknown, Value::Unknown]);
    taken(&[Value::List(vec![integer(1), Value::Unknown]), Value::List(vec![integer(1), Value::Unknown])]);
}

#[test]
fn values_of_two_kinds_collide() {
    collide(&[integer(2), real(2_000)]);
    collide(&[integer(0), real(0)]);
    collide(&[Value::Unknown, integer(2)]);
    collide(&[Value::List(vec![integer(1)]), Value::List(vec![real(1_000)])]);
}

#[test]
fn values_with_other_digits_or_bytes_collide() {
    collide(&[integer(2), integer(3)]);
    collide(&[integer(2), integer(-2)]);
    collide(&[real(1), real(2)]);
    collide(&[text("a"), text("A")]);
    collide(&[text(""), text(" ")]);
    collide(&[Value::List(vec![]), Value::List(vec![Value::Unknown])]);
    collide(&[Value::List(vec![integer(1), integer(2)]), Value::List(vec![integer(2), integer(1)])]);
    collide(&[integer(1), integer(2), integer(3)]);
}

#[test]
fn other_rows_stay_as_they_are() {
    let mut engine = family("", "", "", "").0;
    let before: Vec<_> = engine.properties.rows().map(|row| (row.0, row.1, row.2.clone())).collect();
    engine.enact_changes(&Changes::new());
    assert!(!engine.exception);
    let item = Component::data_item(0);
    engine.enact_changes(&Changes::from([(item, Property::Value, RowValue::integer(1))]));
    let mut rows: Vec<_> = engine.properties.rows().map(|row| (row.0, row.1, row.2.clone())).collect();
    rows.retain(|row| (row.0, row.1) != (item, Property::Value));
    assert_eq!(rows, before);
}

/// What one property is asked for does not collide with another's.
#[test]
fn only_rows_of_one_component_and_property_collide() {
    let mut engine = family("", "", "", "").0;
    let (x, y) = (Component::data_item(0), Component::data_item(1));
    engine.enact_changes(&Changes::from([
        (x, Property::Value, RowValue::integer(1)),
        (y, Property::Value, RowValue::integer(2)),
        (x, Property::Requested, RowValue::TRUE),
    ]));
    assert!(!engine.exception);
}
