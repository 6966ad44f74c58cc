//! Refusal 10: each thing left out, at its place.

use crate::{line, loads, refused, with_action, with_enquiry, with_root};

#[test]
fn attributes_of_tasks() {
    refused(10, &with_action("@procedure::a;"));
    refused(10, &with_action("@context::a;"));
    refused(10, &with_action("@goal::1=1;"));
    refused(10, &with_enquiry("@parameters::p;"));
    refused(10, &with_root("@abort::1=1;"));
}

#[test]
fn attributes_of_components() {
    for attribute in [
        "@autonomous::yes;",
        "@optional::no;",
        "@ltwh::1,2,3,4;",
        "@number_of_cycles::2;",
        "@cycle_until::1=1;",
        "@cycle_repeat::1 weeks;",
        "@param_value::p=1;",
    ] {
        refused(10, &format!("plan::a;component::b;{attribute}end plan.action::b;end action."));
    }
}

#[test]
fn attributes_of_data_items() {
    for attribute in [
        "@range::1,2;",
        "@default_value::1;",
        "@true_value::yes;",
        "@false_value::\"no\";",
        "@mandatory_validation::1=1;",
        "@derivation::1;",
        "@unit::kg;",
    ] {
        refused(10, &format!("plan::a;end plan.data::i;type::text;{attribute}end data."));
    }
}

#[test]
fn classes_and_directives() {
    refused(10, "plan::a;end plan.@task::t;end task.");
    refused(10, "plan::a;end plan.@decision::t;end decision.");
    refused(10, "@directives::end directives.plan::a;end plan.");
}

#[test]
fn expressions() {
    refused(10, &with_root("precondition::@result_of(a)=b;"));
    refused(10, &with_root("precondition::@netsupport(a,b)=1;"));
    refused(10, &with_root("precondition::@Netsupport(a,b)=1;"));
    refused(10, &with_root("caption::a @# b;"));
    refused(10, &with_root("caption::a @++ b;"));
    refused(10, &with_root("precondition::1=@1.5e3;"));
    refused(10, &with_root("caption::a@:b;"));
    refused(10, &with_root("caption::a @: b;"));
}

#[test]
fn names_with_a_colon() {
    refused(10, "plan::a;end plan.data::i@:j;type::text;end data.");
    refused(10, &with_enquiry("source::i @: j;"));
}

#[test]
fn functors_of_section_11() {
    for functor in [
        "in_progress_time", "discarded_time", "completed_time", "union", "diff", "intersect", "abs", "exp",
        "ln", "sin", "cos", "tan", "asin", "acos", "atan", "random",
    ] {
        refused(10, &with_root(&format!("precondition::1=@{functor}(1);")));
        line(&format!("{functor}()"), "refused 10");
        line(&format!("'{functor}' (1, 2, 3)"), "refused 10");
        line(&format!("{functor} = 'a'"), "truth_value false");
    }
}

#[test]
fn other_names_have_no_type() {
    for functor in
        ["Abs", "Min", "IF", "f", "median", "Netsupport1", "'result_of'", "'+'", "'and'", "'includes'"]
    {
        line(&format!("{functor}(1, 2)"), "refused 5");
    }
}

#[test]
fn what_is_in_the_edition() {
    loads(&with_enquiry("source::i;caption::\"c\";description::\"d\";"));
    line("'-'(5)", "integer -5");
    line("1 = 1 AND 2 = 2 OR 3 = 4", "truth_value true");
}

#[test]
fn a_float_with_exponent_is_a_float_first() {
    refused(10, &with_root("precondition::1=@1.55555e9;"));
    refused(3, &with_root("trigger::@1.5e3;"));
    refused(3, "plan::a;component::b;ltwh::1,2,3,@4.e0;end plan.");
}

#[test]
fn the_smallest_place_counts() {
    refused(10, &with_root("caption::a @# abs(b);precondition::random()=1.5e3;"));
    refused(10, &with_root("caption::@abs(a # b);"));
}
