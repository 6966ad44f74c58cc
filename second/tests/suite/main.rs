//! Tests of the second program. Every expected answer is worked out by hand
//! from document 01, the rulings and the paper.

mod command;
mod conditions;
mod enacting;
mod generators;
mod grammar;
mod hand;
mod left_out;
mod lexing;
mod limits;
mod loaded;
mod loading;
mod names;
mod operations;
mod refusals;
mod replaying;
mod runs;
mod sheet;
mod stages;
mod types;
mod values;

use second::examine::examine;
use second::expression::Expression;
use second::grouping::group;
use second::lexer;

/// What the small program writes for a line, after the line's number.
fn answer(line: &str) -> String {
    second::sheet::answer(line.as_bytes())
}

/// Checks what the small program writes for a line.
fn line(line: &str, expected: &str) {
    assert_eq!(answer(line), expected, "for the line {line}");
}

/// Checks that the text is refused at the place of the `@` in it.
fn refused(number: u8, marked: &str) {
    let place = marked.find('@').expect("the place is marked");
    let text = marked.replacen('@', "", 1);
    assert_eq!(examine(text.as_bytes()), format!("refused {number} {place}"), "for the text {marked}");
}

/// Checks that the text loads.
fn loads(text: &str) {
    assert_eq!(examine(text.as_bytes()), "loads", "for the text {text}");
}

/// The tree of an expression that the grammar is known to take.
fn tree(text: &str) -> Expression {
    group(&lexer::tokens(text).expect("the text has tokens")).expression
}

/// The answers to calls that follow the load of a guideline.
fn replayed(text: &str, calls: &str) -> String {
    let script = format!("load {}\n{text}\n{calls}", text.len());
    let answers = second::replay::answers(script.as_bytes()).expect("the script has the form");
    let rest = answers.strip_prefix("loaded\n").and_then(|rest| rest.strip_suffix("--\n"));
    rest.unwrap_or_else(|| panic!("{text} loads")).to_string()
}

/// A guideline whose root has these attributes, beside an action `b`, an
/// enquiry `q`, and the items i (integer), r (real), t (text) and the sets
/// si, sr, st. An `@` for `refused` may stand in the attributes.
fn with_root(attributes: &str) -> String {
    format!("plan::root;{attributes}component::b;component::q;end plan.{REST}")
}

/// As `with_root`, with the attributes in the action `b`.
fn with_action(attributes: &str) -> String {
    let rest = REST.replace("action::b;", &format!("action::b;{attributes}"));
    format!("plan::root;component::b;component::q;end plan.{rest}")
}

/// As `with_root`, with the attributes in the enquiry `q`.
fn with_enquiry(attributes: &str) -> String {
    let rest = REST.replace("enquiry::q;", &format!("enquiry::q;{attributes}"));
    format!("plan::root;component::b;component::q;end plan.{rest}")
}

const REST: &str = "action::b;end action.enquiry::q;end enquiry.\
    data::i;type::integer;end data.data::r;type::real;end data.data::t;type::text;end data.\
    data::si;type::setof_integer;end data.data::sr;type::setof_real;end data.\
    data::st;type::setof_text;end data.";

#[test]
fn the_frame_of_the_tests_loads() {
    loads(&with_root(""));
    loads(&with_action(""));
    loads(&with_enquiry(""));
}
