//! Section 12: the rows that load sets, and no others.

use crate::replayed;

/// Checks every row of a guideline that was just loaded.
fn rows(text: &str, expected: &[&str]) {
    let answers = replayed(text, "rows\n");
    let all: Vec<&str> = answers.lines().collect();
    assert_eq!(all, [expected, &["time 0", "flag 0", "."]].concat(), "for the text {text}");
}

#[test]
fn the_root() {
    rows("plan::root;end plan.", &["0 0 0 plan", "0 0 6 dormant"]);
    rows(
        "plan::root;caption::a;description::b;precondition::1=1;wait_condition::1=1;trigger::go;\
         postcondition::x=1;terminate::1=1;end plan.data::x;type::integer;end data.",
        &[
            "0 0 0 plan", "0 0 6 dormant", "0 0 9 *", "0 0 10 *", "0 0 11 t676f", "0 0 13 *", "0 0 32 *",
            "1 0 0 data_item", "1 0 1 t78", "1 0 41 integer",
        ],
    );
}

#[test]
fn a_component_plan() {
    rows(
        "plan::root;component::p;component::a;terminal::yes;schedule_constraint::completed(p);end plan.\
         plan::a;precondition::1=1;wait_condition::1=1;trigger::'';terminate::1=1;end plan.\
         plan::p;end plan.",
        &[
            "0 0 0 plan", "0 0 6 dormant", "0 1 0 plan", "0 1 1 t61", "0 1 6 dormant", "0 1 7 *", "0 1 9 *",
            "0 1 10 *", "0 1 11 t", "0 1 15 #0.0", "0 1 16 b0", "0 1 26 b1", "0 1 32 *", "0 2 0 plan",
            "0 2 1 t70", "0 2 6 dormant", "0 2 15 #0.0", "0 2 16 b0",
        ],
    );
}

#[test]
fn an_action_needs_confirming() {
    rows(
        "plan::root;component::a;terminal::no;end plan.action::a;caption::c;description::d;end action.",
        &[
            "0 0 0 plan", "0 0 6 dormant", "0 1 0 action", "0 1 1 t61", "0 1 6 dormant", "0 1 15 #0.0",
            "0 1 16 b1", "0 1 26 b0",
        ],
    );
}

#[test]
fn an_enquiry_and_its_sources() {
    rows(
        "plan::root;component::q;component::r;end plan.data::'';type::date;caption::c;end data.\
         enquiry::r;end enquiry.\
         enquiry::q;source::y;mandatory::no;caption::c;source::'';source::y;mandatory::yes;end enquiry.\
         data::y;type::setof_text;end data.",
        &[
            "0 0 0 plan", "0 0 6 dormant", "0 1 0 enquiry", "0 1 1 t72", "0 1 6 dormant", "0 1 15 #0.0",
            "0 1 16 b0", "0 2 0 enquiry", "0 2 1 t71", "0 2 6 dormant", "0 2 15 #0.0", "0 2 16 b0",
            "0 2 35 *", "1 0 0 data_item", "1 0 1 t", "1 0 41 date", "1 1 0 data_item", "1 1 1 t79",
            "1 1 41 setof_text", "5 0 0 source", "5 0 1 t79", "5 0 56 #1.1", "5 0 57 b0", "5 1 0 source",
            "5 1 1 t", "5 1 56 #1.0", "5 2 0 source", "5 2 1 t79", "5 2 56 #1.1", "5 2 57 b1",
        ],
    );
}

/// Tasks are numbered by their definitions, wherever their plan is defined.
#[test]
fn a_plan_defined_after_its_components() {
    rows(
        "plan::root;component::p;end plan.action::'';end action.plan::p;component::'';end plan.",
        &[
            "0 0 0 plan", "0 0 6 dormant", "0 1 0 action", "0 1 1 t", "0 1 6 dormant", "0 1 15 #0.2",
            "0 1 16 b1", "0 2 0 plan", "0 2 1 t70", "0 2 6 dormant", "0 2 15 #0.0", "0 2 16 b0",
        ],
    );
}

#[test]
fn every_declared_type() {
    let types = [
        "text", "integer", "boolean", "datetime", "date", "time", "real", "setof_text", "setof_integer",
        "setof_real",
    ];
    for name in types {
        let text = format!("plan::a;end plan.data::d;type::{name};end data.");
        assert_eq!(replayed(&text, "row 1 0 41\n"), format!("{name}\n"));
    }
}

/// Numbers of properties and kinds that have no row, among them captions.
#[test]
fn rows_that_are_not_there() {
    let text = "plan::a;caption::c;component::b;end plan.action::b;end action.\
                data::d;type::text;caption::c;end data.";
    for row in [
        "0 0 1", "0 0 2", "0 0 3", "0 0 15", "0 0 16", "0 2 0", "0 1 7", "0 1 29", "0 1 40", "1 0 42",
        "1 0 50", "1 1 0", "2 0 0", "3 0 0", "4 0 0", "5 0 0", "6 0 0", "7 0 0", "0 0 58", "0 0 59",
        "0 0 4294967295", "0 4294967295 0", "4294967295 0 0",
    ] {
        assert_eq!(replayed(text, &format!("row {row}\n")), "none\n", "row {row}");
    }
}
