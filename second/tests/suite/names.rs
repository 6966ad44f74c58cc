//! Refusal 4: section 6, document 01's rules on names and rulings 6.

use crate::{loads, refused, with_action, with_enquiry, with_root};

#[test]
fn a_task_is_defined_once() {
    refused(4, "plan::a;component::b;end plan.action::b;end action.action::@b;end action.");
    refused(4, "plan::a;component::b;end plan.action::b;end action.enquiry::@'B';end enquiry.");
    refused(4, "plan::a;end plan.plan::@a;end plan.");
    refused(4, "plan::a;end plan.action::@A;end action.");
}

#[test]
fn a_task_defined_twice_is_told_at_the_later_definition_alone() {
    // x is reached by the name b, whichever definition has the component.
    refused(
        4,
        "plan::a;component::b;end plan.action::x;end action.plan::b;end plan.plan::@b;component::x;end plan.",
    );
}

#[test]
fn a_second_definition_of_the_roots_name_is_not_the_root() {
    // So x, a component of that plan alone, is not reached.
    refused(4, "plan::a;end plan.action::@x;end action.plan::a;component::x;end plan.");
    refused(4, "plan::a;end plan.plan::@a;component::x;end plan.action::x;end action.");
}

#[test]
fn a_data_item_is_defined_once() {
    let items = |second: &str| {
        format!("plan::a;end plan.data::d;type::text;end data.data::{second};type::real;end data.")
    };
    refused(4, &items("@d"));
    refused(4, &items("@D"));
    refused(4, &items("@'d'"));
    refused(4, "plan::a;end plan.data::D;type::text;end data.data::@d;type::text;end data.");
    loads(&items("e"));
}

#[test]
fn a_task_and_an_item_may_share_a_name() {
    loads(
        "plan::a;component::b;end plan.action::b;end action.\
           data::b;type::text;end data.data::a;type::text;end data.",
    );
}

#[test]
fn no_attribute_twice_in_a_task() {
    refused(4, &with_root("caption::a;@caption::b;"));
    refused(4, &with_root("description::a;caption::a;@description::b;"));
    refused(4, &with_root("precondition::1=1;@precondition::1=1;"));
    refused(4, &with_root("wait_condition::1=1;@wait_condition::1=1;"));
    refused(4, &with_root("postcondition::i=1;@postcondition::i=1;"));
    refused(4, &with_root("trigger::x;@trigger::x;"));
    refused(4, &with_root("terminate::1=1;precondition::1=1;@terminate::1=1;"));
    refused(4, &with_root("trigger::x;@trigger::x;trigger::x;"));
}

#[test]
fn no_attribute_twice_in_a_component_source_or_item() {
    refused(4, "plan::a;component::b;terminal::yes;@terminal::no;end plan.action::b;end action.");
    refused(4, &with_enquiry("source::i;mandatory::yes;@mandatory::yes;"));
    refused(4, &with_enquiry("source::i;caption::a;@caption::b;"));
    refused(4, &with_enquiry("source::i;description::a;@description::b;"));
    refused(4, "plan::a;end plan.data::d;type::text;caption::x;@caption::x;end data.");
}

#[test]
fn attributes_are_counted_for_each_owner() {
    loads(&with_enquiry(
        "caption::e;source::i;caption::a;mandatory::yes;source::r;caption::b;mandatory::no;",
    ));
    loads(
        "plan::a;component::b;terminal::yes;component::c;terminal::yes;end plan.\
           action::b;end action.action::c;end action.",
    );
}

#[test]
fn component_schedule_constraint_and_source_may_repeat() {
    loads(
        "plan::a;component::b;component::c;\
           schedule_constraint::completed(b);schedule_constraint::completed(b);end plan.\
           action::b;end action.action::c;end action.",
    );
    loads(&with_enquiry("source::i;source::i;"));
}

#[test]
fn a_component_names_a_task() {
    refused(4, "plan::a;component::@b;end plan.");
    refused(4, "plan::a;component::@B;end plan.action::b;end action.");
    refused(4, "plan::a;component::@d;end plan.data::d;type::text;end data.");
    loads("plan::a;component::'b';end plan.action::b;end action.");
}

#[test]
fn two_components_that_name_nothing() {
    refused(4, "plan::a;component::@x;component::x;end plan.");
}

#[test]
fn a_component_in_another_case_and_its_task_are_both_at_fault() {
    refused(4, "plan::a;component::p;end plan.action::@b;end action.plan::p;component::B;end plan.");
    refused(4, "plan::a;component::p;end plan.plan::p;component::@B;end plan.action::b;end action.");
}

#[test]
fn a_constraint_on_a_component_that_is_at_fault_is_right() {
    refused(
        4,
        "plan::a;component::b;schedule_constraint::completed(x);component::@x;end plan.action::b;end action.",
    );
}

#[test]
fn the_root_is_a_component_of_none() {
    refused(4, "plan::a;component::@a;end plan.");
    refused(4, "plan::a;component::b;end plan.plan::b;component::@a;end plan.");
    refused(4, "plan::a;component::@a;end plan.action::a;end action.");
}

#[test]
fn every_task_is_a_component_exactly_once() {
    refused(4, "plan::a;component::b;component::@b;end plan.action::b;end action.");
    refused(
        4,
        "plan::a;component::b;component::c;end plan.plan::b;component::@c;end plan.action::c;end action.",
    );
    refused(4, "plan::a;end plan.action::@b;end action.");
    refused(4, "plan::a;component::c;end plan.action::@b;end action.enquiry::c;end enquiry.");
}

#[test]
fn every_task_is_reached_from_the_root() {
    refused(4, "plan::a;end plan.plan::@b;component::c;end plan.plan::c;component::b;end plan.");
    refused(4, "plan::a;end plan.plan::@b;component::b;end plan.");
    // A plan may be defined after its components.
    loads("plan::a;component::b;end plan.action::c;end action.plan::b;component::c;end plan.");
}

#[test]
fn a_schedule_constraint_names_another_component_of_its_plan() {
    let plan = |constraint: &str| {
        format!(
            "plan::a;component::b;schedule_constraint::completed({constraint});component::c;end plan.\
             plan::b;component::d;end plan.action::c;end action.action::d;end action."
        )
    };
    loads(&plan("c"));
    loads(&plan("'c'"));
    refused(4, &plan("@b"));
    refused(4, &plan("@C"));
    refused(4, &plan("@a"));
    refused(4, &plan("@d"));
    refused(4, &plan("@nothing"));
}

#[test]
fn circular_constraints_are_no_breach() {
    loads(
        "plan::a;component::b;schedule_constraint::completed(c);\
           component::c;schedule_constraint::completed(b);end plan.\
           action::b;end action.action::c;end action.",
    );
}

#[test]
fn a_postcondition_assigns_to_data_items() {
    loads(&with_action("postcondition::i=1 and I=2 and 'i'=3;"));
    refused(4, &with_action("postcondition::@b=1;"));
    refused(4, &with_action("postcondition::i=1 and (@x=1);"));
}

#[test]
fn a_source_names_a_data_item() {
    loads(&with_enquiry("source::'i';"));
    refused(4, &with_enquiry("source::@I;"));
    refused(4, &with_enquiry("source::@b;"));
    refused(4, &with_enquiry("source::i;source::@x;"));
}

#[test]
fn quoted_and_bare_are_one_name() {
    loads("plan::a;component::'the task';end plan.action::'the task';end action.");
    loads("plan::a;component::'plan';end plan.action::'plan';end action.");
    loads("plan::'';component::' ';end plan.action::' ';end action.");
    loads("plan::a;component::'b\\'';end plan.action::'b\\'';end action.");
    refused(4, "plan::a;component::@'b\\c';end plan.action::bc;end action.");
}

#[test]
fn the_smallest_place_counts() {
    refused(4, &with_root("trigger::x;@trigger::x;component::zzz;").replace("data::t;", "data::i;"));
    refused(4, "plan::a;component::@zzz;end plan.action::b;end action.action::b;end action.");
}

#[test]
fn names_in_expressions_are_not_judged() {
    loads(&with_root("precondition::is_completed(nothing) and zzz = yyy;"));
}
