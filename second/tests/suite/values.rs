//! Sections 9 and 11 with document 01's departures; rulings 10.

use crate::{line, tree};
use second::evaluate::{evaluate, State};
use second::guideline::TaskState;
use second::number::Number;
use second::types::{infer, Scope, Type};
use second::value::Value;

/// Items: d integer, e real, u text and s a set of integers, all unknown;
/// k is the integer 2, w the text Wait, l the list 1, unknown, 3.
/// Tasks: `one` is dormant, `two` completed, `three` in no state at all.
struct Sample;

impl Scope for Sample {
    fn item_type(&self, name: &str) -> Option<Type> {
        Some(match name.to_ascii_lowercase().as_str() {
            "d" | "k" => Type::Integer,
            "e" => Type::Real,
            "u" | "w" => Type::Text,
            "s" | "l" => Type::SetofInteger,
            _ => return None,
        })
    }
}

impl State for Sample {
    fn item_value(&self, name: &str) -> Option<Value> {
        let integer = |value: i64| Value::Number(Number::Integer(value));
        Some(match name.to_ascii_lowercase().as_str() {
            "d" | "e" | "u" | "s" => Value::Unknown,
            "k" => integer(2),
            "w" => Value::Text("Wait".to_string()),
            "l" => Value::List(vec![integer(1), Value::Unknown, integer(3)]),
            _ => return None,
        })
    }

    fn task_is(&self, name: &str, state: TaskState) -> Option<bool> {
        match name.to_ascii_lowercase().as_str() {
            "one" => Some(state == TaskState::Dormant),
            "two" => Some(state == TaskState::Completed),
            "three" => Some(false),
            _ => None,
        }
    }
}

/// The type and value of an expression over these items and tasks.
fn comes_to(text: &str, expected: &str) {
    let expression = tree(text);
    let its_type = infer(&expression, &Sample).unwrap_or_else(|| panic!("{text} has a type"));
    let found = format!("{its_type} {}", evaluate(&expression, &Sample));
    assert_eq!(found, expected, "for {text}");
}

#[test]
fn the_worked_sheet() {
    comes_to("min([12, 3, 15])", "integer 3");
    comes_to("min([d, 7])", "integer 7");
    comes_to("sum([d, 7])", "integer unknown");
    comes_to("min([])", "integer unknown");
    comes_to("d != d", "truth_value false");
    comes_to("[d, 1] < [5, 2]", "truth_value true");
    comes_to("if(d = 1, 2, 3)", "integer 3");
    comes_to("max([\"b\", \"B\"])", "text b");
    comes_to("-1 / 3", "real -0.333");
    comes_to("2000000 + 1", "integer unknown");
    comes_to("isknown(d)", "truth_value true");
}

#[test]
fn atoms() {
    comes_to("k", "integer 2");
    comes_to("K", "integer 2");
    comes_to("'k'", "integer 2");
    comes_to("\"k\"", "text k");
    comes_to("w", "text Wait");
    comes_to("nothing", "text nothing");
    comes_to("l", "setof_integer [1, unknown, 3]");
    comes_to("d", "integer unknown");
}

#[test]
fn arithmetic_on_integers() {
    line("2 + 3", "integer 5");
    line("2 - 3", "integer -1");
    line("2 * -3", "integer -6");
    line("2000000 + 0", "integer 2000000");
    line("-2000000 - 1", "integer unknown");
    line("1414 * 1414", "integer 1999396");
    line("1415 * 1415", "integer unknown");
    line("2000000 * 2000000", "integer unknown");
    line("2000000 + 1 - 1", "integer unknown");
}

#[test]
fn arithmetic_on_reals() {
    line("2 + 3.", "real 5.000");
    line("0.5 - 1", "real -0.500");
    line("0.5 * 3", "real 1.500");
    line("0.001 * 0.999", "real 0.000");
    line("-0.001 * 0.999", "real 0.000");
    line("1.999 * 0.001", "real 0.001");
    line("-1.999 * 0.001", "real -0.001");
    line("2000000.0 + 0.001", "real unknown");
    line("1999999.999 + 0.001", "real 2000000.000");
    line("2000000.0 * 1.0", "real 2000000.000");
    line("2000000.0 * 1.001", "real unknown");
    line("2000000.0 * 2000000.0", "real unknown");
    line("-2000000.0 * 2000000.0", "real unknown");
}

#[test]
fn division() {
    line("6 / 3", "real 2.000");
    line("2 / 3", "real 0.666");
    line("-2 / 3", "real -0.666");
    line("2 / -3", "real -0.666");
    line("1 / 2000", "real 0.000");
    line("-1 / 2000", "real 0.000");
    line("1 / 0", "real unknown");
    line("0 / 0", "real unknown");
    line("1 / 0.000", "real unknown");
    line("2000000 / 0.5", "real unknown");
    line("2000000 / 1", "real 2000000.000");
    line("1.5 / 0.5", "real 3.000");
    // 2000000.000 / 0.999 is 2002002.002..., past the limit.
    line("2000000 / 0.999", "real unknown");
}

#[test]
fn arithmetic_with_unknown() {
    for operator in ["+", "-", "*"] {
        comes_to(&format!("d {operator} 1"), "integer unknown");
        comes_to(&format!("1 {operator} d"), "integer unknown");
        comes_to(&format!("e {operator} 1"), "real unknown");
        comes_to(&format!("1.5 {operator} d"), "real unknown");
    }
    comes_to("d / 1", "real unknown");
    comes_to("1 / d", "real unknown");
    comes_to("0 * d", "integer unknown");
    comes_to("- d", "integer unknown");
    comes_to("- e", "real unknown");
}

#[test]
fn unary_minus() {
    line("- 5", "integer -5");
    line("- -5", "integer 5");
    line("- - 5", "integer 5");
    line("- 2.5", "real -2.500");
    line("'-'(2000000)", "integer -2000000");
    line("- 2 * 3", "integer -6");
    line("2 - - 3", "integer 5");
    line("2 - -3", "integer 5");
}

#[test]
fn comparing_numbers() {
    let rows = [
        ("<", "tff"),
        ("<=", "tft"),
        ("=<", "tft"),
        (">", "ftf"),
        (">=", "ftt"),
        ("=>", "ftt"),
        ("=", "fft"),
        ("!=", "ttf"),
    ];
    let truth = |letter: u8| if letter == b't' { "truth_value true" } else { "truth_value false" };
    for (operator, expected) in rows {
        let expected = expected.as_bytes();
        for (less, more, same) in
            [("1", "2", "1"), ("1.5", "2", "1.500"), ("'a'", "b", "A"), ("[1]", "[2]", "[1.0]")]
        {
            line(&format!("{less} {operator} {more}"), truth(expected[0]));
            line(&format!("{more} {operator} {less}"), truth(expected[1]));
            line(&format!("{less} {operator} {same}"), truth(expected[2]));
        }
        comes_to(&format!("d {operator} 1"), "truth_value false");
        comes_to(&format!("1 {operator} d"), "truth_value false");
        comes_to(&format!("d {operator} d"), "truth_value false");
        comes_to(&format!("u {operator} x"), "truth_value false");
        comes_to(&format!("s {operator} [1]"), "truth_value false");
        comes_to(&format!("[] {operator} s"), "truth_value false");
    }
    line("2 = 2.000", "truth_value true");
    line("-0.0 = 0", "truth_value true");
}

#[test]
fn comparing_texts() {
    line("\"abc\" < \"abcd\"", "truth_value true");
    line("\"\" < a", "truth_value true");
    line("\"\" = ''", "truth_value true");
    line("'AbC' = aBc", "truth_value true");
    line("Z > a", "truth_value true");
    // The underscore, 95, lies between Z, 90, and a, 97: folding decides.
    line("'_' < 'A'", "truth_value true");
    line("'[' < 'Z'", "truth_value true");
    line("\"a b\" < \"a_b\"", "truth_value true");
}

#[test]
fn comparing_lists() {
    comes_to("[d] = [5]", "truth_value true");
    comes_to("[d, 1] < [5, 2]", "truth_value true");
    comes_to("[d, 3] < [5, 2]", "truth_value false");
    comes_to("[1, d] = [1, 2]", "truth_value true");
    comes_to("[1, d, 3] > [1, 9, 2]", "truth_value true");
    comes_to("[2, d] > [1, d]", "truth_value true");
    comes_to("[d] < [5, 1]", "truth_value true");
    comes_to("[d, 1] > [d]", "truth_value true");
    line("[] = []", "truth_value true");
    line("[] < [1]", "truth_value true");
    line("[1] > []", "truth_value true");
    line("[] != [a]", "truth_value true");
    line("[1, 2] < [1, 2, 0]", "truth_value true");
    line("[1, 3] > [1, 2, 9]", "truth_value true");
    line("[1, 2.5] > [1.0, 2]", "truth_value true");
    line("[a, B] = [A, b]", "truth_value true");
}

#[test]
fn and_or_not() {
    let truth = "1 = 1";
    let falsehood = "1 = 2";
    let unknown = "is_dormant(nothing)";
    let rows = [
        (truth, truth, "true", "true"),
        (truth, falsehood, "false", "true"),
        (falsehood, truth, "false", "true"),
        (falsehood, falsehood, "false", "false"),
        (truth, unknown, "false", "true"),
        (unknown, truth, "false", "true"),
        (falsehood, unknown, "false", "false"),
        (unknown, falsehood, "false", "false"),
        (unknown, unknown, "false", "false"),
    ];
    for (left, right, and, or) in rows {
        for (operator, expected) in [("and", and), ("AND", and), ("or", or), ("OR", or)] {
            line(&format!("{left} {operator} {right}"), &format!("truth_value {expected}"));
        }
    }
    line("not(1 = 1)", "truth_value false");
    line("not(1 = 2)", "truth_value true");
    line(&format!("not({unknown})"), "truth_value false");
}

#[test]
fn membership() {
    line("[1, 2] includes 2", "truth_value true");
    line("[1, 2] include 2.000", "truth_value true");
    line("2 oneof [1, 2]", "truth_value true");
    line("3 oneof [1, 2]", "truth_value false");
    line("[a, b] includes B", "truth_value true");
    line("[] includes 1", "truth_value false");
    line("a oneof []", "truth_value false");
    comes_to("[d, 1] includes 1", "truth_value true");
    comes_to("[d] includes d", "truth_value false");
    comes_to("[1] includes d", "truth_value false");
    comes_to("s includes 1", "truth_value false");
    comes_to("l includes 3", "truth_value true");
    comes_to("d oneof l", "truth_value false");
}

#[test]
fn conditional() {
    line("if(1 = 1, 2, 3)", "integer 2");
    line("if(1 = 2, 2, 3)", "integer 3");
    line("if(is_dormant(x), 2, 3)", "integer unknown");
    line("if(1 = 1, is_dormant(x), 1 = 1)", "truth_value unknown");
    line("if(1 = 2, [1], [2.5])", "setof_real [2.500]");
    line("if(1 = 1, [1], [2.5])", "setof_real [1]");
    line("if(1 = 1, a, b)", "text a");
    comes_to("if(d = d, d, 3)", "integer 3");
    comes_to("if(1 = 1, d, 3)", "integer unknown");
}

#[test]
fn isknown_is_as_printed() {
    comes_to("isknown(d)", "truth_value true");
    comes_to("isknown(k)", "truth_value false");
    comes_to("isknown(s)", "truth_value true");
    comes_to("isknown([d])", "truth_value false");
    comes_to("isknown(u)", "truth_value true");
    comes_to("isknown(is_dormant(x))", "truth_value true");
    comes_to("isknown(1 = d)", "truth_value false");
    line("isknown([])", "truth_value false");
}

#[test]
fn count() {
    line("count([])", "integer 0");
    line("count([a, a])", "integer 2");
    line("count([1.5])", "integer 1");
    comes_to("count([d, d, d])", "integer 3");
    comes_to("count(s)", "integer unknown");
}

#[test]
fn sum() {
    line("sum([])", "integer 0");
    line("sum([1, 2, 3])", "integer 6");
    line("sum([1, 2.5])", "real 3.500");
    line("sum([2.5])", "real 2.500");
    line("sum([1.0, 2.0])", "real 3.000");
    line("sum([2000000, 2000000, -2000000])", "integer 2000000");
    line("sum([2000000, 1])", "integer unknown");
    line("sum([2000000.0, 0.001])", "real unknown");
    line("sum([2000000, 0.5, -1])", "real 1999999.500");
    comes_to("sum([d, 7])", "integer unknown");
    comes_to("sum([1.5, d])", "real unknown");
    comes_to("sum(s)", "integer unknown");
    comes_to("sum(l)", "integer unknown");
    // Typed real, but every operand is an integer.
    line("if(1 = 1, 1, 1.5) + 1", "real 2");
    line("if(1 = 1, 1, 1.5) * 1.0", "real 1.000");
    line("sum(if(1 = 1, [1, 2], [1.5]))", "real 3");
}

#[test]
fn max_and_min_take_the_first_that_qualifies() {
    line("max([1, 3, 2])", "integer 3");
    line("min([2, 1, 3])", "integer 1");
    line("max([1, 1.000])", "real 1");
    line("max([1.000, 1])", "real 1.000");
    line("min([2.0, 2])", "real 2.000");
    line("max([b, B])", "text b");
    line("max([B, b])", "text B");
    line("min([b, B, a, A])", "text a");
    line("max([])", "integer unknown");
    comes_to("max([d])", "integer unknown");
    comes_to("max([d, 4, d])", "integer 4");
    comes_to("min([d, d])", "integer unknown");
    comes_to("min([9, d, 8])", "integer 8");
    comes_to("max(s)", "integer unknown");
    comes_to("max(l)", "integer 3");
}

#[test]
fn nth() {
    line("nth(1, [7, 8])", "integer 7");
    line("nth(2, [7, 8.5])", "real 8.500");
    line("nth(1, [7, 8.5])", "real 7");
    line("nth(0, [7])", "integer unknown");
    line("nth(2, [7])", "integer unknown");
    line("nth(-1, [7])", "integer unknown");
    line("nth(1, [])", "integer unknown");
    line("nth(2, [a, b])", "text b");
    comes_to("nth(d, [7])", "integer unknown");
    comes_to("nth(1, [d])", "integer unknown");
    comes_to("nth(1, s)", "integer unknown");
    comes_to("nth(k + 1, l)", "integer 3");
}

#[test]
fn states_of_tasks() {
    comes_to("is_dormant(one)", "truth_value true");
    comes_to("is_dormant(ONE)", "truth_value true");
    comes_to("is_in_progress(one)", "truth_value false");
    comes_to("is_completed(\"two\")", "truth_value true");
    comes_to("is_discarded(two)", "truth_value false");
    for functor in ["is_dormant", "is_in_progress", "is_discarded", "is_completed"] {
        comes_to(&format!("{functor}(three)"), "truth_value false");
        comes_to(&format!("{functor}(four)"), "truth_value unknown");
        comes_to(&format!("{functor}(u)"), "truth_value unknown");
        comes_to(&format!("{functor}(w)"), "truth_value unknown");
    }
}
