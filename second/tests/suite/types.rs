//! Section 4 and the type lists of section 11; rulings 7.

use crate::{line, loads, refused, tree, with_action, with_enquiry, with_root};
use second::types::{infer, Scope, Type};

/// An item of each type, named by its type's first letters.
struct Items;

impl Scope for Items {
    fn item_type(&self, name: &str) -> Option<Type> {
        Some(match name {
            "t" => Type::Text,
            "i" => Type::Integer,
            "r" => Type::Real,
            "st" => Type::SetofText,
            "si" => Type::SetofInteger,
            "sr" => Type::SetofReal,
            _ => return None,
        })
    }
}

/// The type of an expression over these items, as it is written; `none` for
/// an expression without one.
fn typed(text: &str, expected: &str) {
    let found = infer(&tree(text), &Items);
    let found = found.map_or("none".to_string(), |found| found.to_string());
    assert_eq!(found, expected, "for {text}");
}

#[test]
fn atoms_and_constants() {
    typed("t", "text");
    typed("i", "integer");
    typed("r", "real");
    typed("st", "setof_text");
    typed("si", "setof_integer");
    typed("sr", "setof_real");
    typed("nothing", "text");
    typed("'i'", "integer");
    typed("\"i\"", "text");
    typed("5", "integer");
    typed("5.", "real");
    typed("(((i)))", "integer");
}

#[test]
fn lists() {
    typed("[]", "setof_anything");
    typed("[t, \"x\", y]", "setof_text");
    typed("[i, 2]", "setof_integer");
    typed("[i, r]", "setof_real");
    typed("[r]", "setof_real");
    typed("[1, 2.0, 3]", "setof_real");
    typed("[1, x]", "none");
    typed("[1.5, x]", "none");
    typed("[1 = 1]", "none");
    typed("[[1]]", "none");
    typed("[[]]", "none");
    typed("[si]", "none");
    typed("[1, f(2)]", "none");
}

#[test]
fn plus_minus_times() {
    for operator in ["+", "-", "*"] {
        typed(&format!("i {operator} i"), "integer");
        typed(&format!("i {operator} r"), "real");
        typed(&format!("r {operator} i"), "real");
        typed(&format!("r {operator} r"), "real");
        for wrong in ["t", "st", "si", "sr", "[]", "(1 = 1)"] {
            typed(&format!("i {operator} {wrong}"), "none");
            typed(&format!("{wrong} {operator} r"), "none");
        }
    }
}

#[test]
fn division() {
    for (left, right) in [("i", "i"), ("i", "r"), ("r", "i"), ("r", "r")] {
        typed(&format!("{left} / {right}"), "real");
    }
    typed("t / i", "none");
    typed("i / si", "none");
}

#[test]
fn comparisons() {
    for operator in ["<", "<=", "=<", ">", ">=", "=>", "=", "!="] {
        let fits = |left: &str, right: &str| typed(&format!("{left} {operator} {right}"), "truth_value");
        let fails = |left: &str, right: &str| typed(&format!("{left} {operator} {right}"), "none");
        for left in ["i", "r"] {
            fits(left, "i");
            fits(left, "r");
        }
        fits("t", "t");
        for left in ["si", "sr", "[]"] {
            fits(left, "si");
            fits(left, "sr");
            fits(left, "[]");
        }
        fits("st", "st");
        fits("st", "[]");
        fits("[]", "st");
        fails("i", "t");
        fails("t", "r");
        fails("i", "si");
        fails("st", "si");
        fails("sr", "st");
        fails("t", "[]");
        fails("(1 = 1)", "(1 = 1)");
        fails("i < i", "i");
    }
}

#[test]
fn and_or() {
    for operator in ["and", "AND", "or", "OR"] {
        typed(&format!("i = 1 {operator} t = x"), "truth_value");
        for wrong in ["i", "r", "t", "st", "si", "sr", "[]"] {
            typed(&format!("1 = 1 {operator} {wrong}"), "none");
            typed(&format!("{wrong} {operator} 1 = 1"), "none");
        }
    }
}

#[test]
fn membership() {
    let rows = [
        ("st", "t", true),
        ("sr", "r", true),
        ("sr", "i", true),
        ("si", "r", true),
        ("si", "i", true),
        ("[]", "t", true),
        ("[]", "i", true),
        ("[]", "r", true),
        ("st", "i", false),
        ("si", "t", false),
        ("sr", "t", false),
        ("t", "t", false),
        ("si", "si", false),
        ("si", "1 = 1", false),
    ];
    for (set, element, fits) in rows {
        let expected = if fits { "truth_value" } else { "none" };
        typed(&format!("{set} includes ({element})"), expected);
        typed(&format!("{set} include ({element})"), expected);
        typed(&format!("({element}) oneof {set}"), expected);
    }
    typed("t includes st", "none");
    typed("st oneof t", "none");
}

#[test]
fn conditional() {
    let then = |second: &str, third: &str, expected: &str| {
        typed(&format!("if(i = 1, {second}, {third})"), expected);
    };
    then("1 = 1", "1 = 2", "truth_value");
    then("i", "i", "integer");
    then("i", "r", "real");
    then("r", "i", "real");
    then("r", "r", "real");
    then("t", "t", "text");
    then("si", "si", "setof_integer");
    then("si", "[]", "setof_integer");
    then("[]", "[]", "setof_integer");
    then("si", "sr", "setof_real");
    then("[]", "sr", "setof_real");
    then("sr", "sr", "setof_real");
    then("st", "st", "setof_text");
    then("[]", "st", "setof_text");
    then("i", "t", "none");
    then("st", "si", "none");
    then("1 = 1", "i", "none");
    typed("if(i, 1, 2)", "none");
    typed("if(t, 1, 2)", "none");
    typed("if(1 = 1, 2)", "none");
    typed("if(1 = 1, 2, 3, 4)", "none");
    typed("if()", "none");
}

#[test]
fn unary_minus() {
    typed("- i", "integer");
    typed("- r", "real");
    typed("- - i", "integer");
    typed("'-'(i)", "integer");
    typed("'-'(r)", "real");
    for wrong in ["t", "si", "[]", "(1 = 1)"] {
        typed(&format!("- {wrong}"), "none");
    }
    typed("'-'(i, i)", "none");
    typed("'-'()", "none");
}

#[test]
fn isknown_and_not() {
    for any in ["t", "i", "r", "st", "si", "sr", "[]", "1 = 1"] {
        typed(&format!("isknown({any})"), "truth_value");
    }
    typed("isknown()", "none");
    typed("isknown(i, i)", "none");
    typed("isknown([[]])", "none");
    typed("not(i = 1)", "truth_value");
    for wrong in ["t", "i", "si", "[]"] {
        typed(&format!("not({wrong})"), "none");
    }
    typed("not(1 = 1, 1 = 1)", "none");
}

#[test]
fn count_sum_max_min() {
    let rows = [
        ("si", ["integer", "integer", "integer"]),
        ("sr", ["integer", "real", "real"]),
        ("st", ["integer", "none", "text"]),
        ("[]", ["integer", "integer", "integer"]),
        ("i", ["none", "none", "none"]),
        ("t", ["none", "none", "none"]),
    ];
    for (argument, [count, sum, max]) in rows {
        typed(&format!("count({argument})"), count);
        typed(&format!("sum({argument})"), sum);
        typed(&format!("max({argument})"), max);
        typed(&format!("min({argument})"), max);
    }
    for functor in ["count", "sum", "max", "min"] {
        typed(&format!("{functor}()"), "none");
        typed(&format!("{functor}(si, si)"), "none");
    }
}

#[test]
fn nth() {
    typed("nth(i, si)", "integer");
    typed("nth(i, sr)", "real");
    typed("nth(i, st)", "text");
    typed("nth(1, [])", "integer");
    typed("nth(r, si)", "none");
    typed("nth(si, i)", "none");
    typed("nth(t, st)", "none");
    typed("nth(si)", "none");
    typed("nth(1, i)", "none");
}

#[test]
fn states_of_tasks() {
    for functor in ["is_dormant", "is_in_progress", "is_discarded", "is_completed"] {
        typed(&format!("{functor}(anything)"), "truth_value");
        typed(&format!("{functor}(t)"), "truth_value");
        typed(&format!("{functor}(\"x\")"), "truth_value");
        typed(&format!("{functor}(i)"), "none");
        typed(&format!("{functor}(st)"), "none");
        typed(&format!("{functor}()"), "none");
        typed(&format!("{functor}(t, t)"), "none");
    }
}

#[test]
fn names_that_are_no_functors() {
    for functor in
        ["Min", "MAX", "IF", "'+'", "'*'", "'<'", "'and'", "'or'", "'includes'", "'oneof'", "'result_of'"]
    {
        typed(&format!("{functor}(1, 2)"), "none");
        typed(&format!("{functor}(i = 1, i = 2)"), "none");
    }
}

#[test]
fn conditions_are_truth_valued() {
    for word in ["precondition", "wait_condition", "terminate"] {
        loads(&with_root(&format!("{word}::i=1;")));
        for wrong in ["i", "t", "yes", "true", "[]", "1", "si", "1+1", "a and b"] {
            refused(5, &with_root(&format!("{word}::@{wrong};")));
        }
    }
    refused(5, &with_action("precondition::@(i);"));
    refused(5, &with_enquiry("wait_condition::@i+1;"));
}

#[test]
fn captions_are_texts() {
    for word in ["caption", "description"] {
        for right in ["t", "\"x\"", "x", "if(i=1,a,b)", "max(st)", "(t)"] {
            loads(&with_root(&format!("{word}::{right};")));
        }
        for wrong in ["i", "1.5", "[]", "st", "1=1", "-x"] {
            refused(5, &with_root(&format!("{word}::@{wrong};")));
            refused(5, &with_enquiry(&format!("source::i;{word}::@{wrong};")));
        }
        for wrong in ["i", "1.5", "[]", "[x]", "1=1", "-x"] {
            refused(5, &format!("plan::a;end plan.data::i;type::integer;{word}::@{wrong};end data."));
        }
    }
}

#[test]
fn assigned_expressions_have_the_items_type_or_promote_to_it() {
    let rows = [
        ("i", "1", true),
        ("i", "i+1", true),
        ("i", "1.0", false),
        ("i", "x", false),
        ("i", "[]", false),
        ("i", "1=1", false),
        ("r", "1", true),
        ("r", "1.5", true),
        ("r", "t", false),
        ("t", "x", true),
        ("t", "1", false),
        ("si", "[1]", true),
        ("si", "[]", true),
        ("si", "[1.0]", false),
        ("si", "1", false),
        ("sr", "[1]", true),
        ("sr", "[1, 2.5]", true),
        ("sr", "[]", true),
        ("sr", "[x]", false),
        ("st", "[x]", true),
        ("st", "[]", true),
        ("st", "[1]", false),
        ("st", "x", false),
    ];
    for (item, expression, fits) in rows {
        match fits {
            true => loads(&with_action(&format!("postcondition::{item}={expression};"))),
            false => refused(5, &with_action(&format!("postcondition::{item}=@{expression};"))),
        }
    }
    refused(5, &with_action("postcondition::i=1 and (I=@x);"));
}

#[test]
fn declared_types() {
    let rows = [
        ("text", "x", "1"),
        ("boolean", "yes", "1=1"),
        ("integer", "1", "1.5"),
        ("real", "1.5", "x"),
        ("datetime", "1", "x"),
        ("date", "1.5", "x"),
        ("time", "1.5", "[]"),
        ("setof_text", "[x]", "[1]"),
        ("setof_integer", "[1]", "[1.5]"),
        ("setof_real", "[1.5]", "[x]"),
    ];
    for (name, right, wrong) in rows {
        let guideline =
            |value: &str| format!("plan::a;postcondition::d={value};end plan.data::d;type::{name};end data.");
        loads(&guideline(right));
        refused(5, &guideline(&format!("@{wrong}")));
        loads(&guideline("d"));
    }
}

#[test]
fn names_are_found_with_case_ignored() {
    loads(&with_root("precondition::I=1 and 'R'=2.5;"));
    refused(5, &with_root("caption::@I;"));
    let capital = |root: &str| format!("plan::a;{root}end plan.data::Egg;type::integer;end data.");
    loads(&capital("precondition::egg=1;postcondition::eGG=EGG+1;"));
    refused(5, &capital("caption::@egg;"));
    refused(5, &capital("postcondition::egg=@x;"));
}

#[test]
fn the_smallest_place_counts() {
    refused(5, &with_root("caption::@1;precondition::1;"));
    refused(5, &with_root("caption::a;precondition::@a;postcondition::i=x;"));
    refused(5, &with_action("postcondition::i=1 and i=@x and i=y;"));
}

#[test]
fn typed_by_document_01_alone() {
    line("true and true", "refused 5");
    line("isknown([])", "truth_value false");
    line("if(1 = 1, [], [])", "setof_integer []");
}
