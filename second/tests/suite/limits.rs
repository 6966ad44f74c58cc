//! Every limit at its edge and one past it, with the place of its refusal.

use crate::{answer, line, loads, refused, tree, with_action, with_enquiry, with_root};
use second::examine::{examine, tokens};

fn repeated(text: &str, times: usize) -> String {
    text.repeat(times)
}

/// `times` texts made from their numbers.
fn numbered(times: usize, make: impl Fn(usize) -> String) -> String {
    (0..times).map(make).collect()
}

#[test]
fn bytes() {
    let guideline = "plan::a;end plan.";
    let padded = |length: usize| guideline.to_string() + &repeated(" ", length - guideline.len());
    loads(&padded(16_384));
    refused(1, &(padded(16_385) + "@"));
}

#[test]
fn tokens_in_a_text() {
    assert!(tokens(repeated("a ", 4_096).as_bytes()).starts_with("tokens"));
    refused(6, &(repeated("a ", 4_097) + "@"));
    line(&repeated("a ", 4_096), "refused 3");
    line(&repeated("a ", 4_097), "refused 6");
}

#[test]
fn tokens_in_a_guideline() {
    let bracketed = |times: usize| repeated("(", times) + "x" + &repeated(")", times);
    // An item: 4 + 4 + (4 + 22) + (4 + 22) + 3 = 63 tokens; 64 items: 4,032.
    let items = numbered(64, |n| {
        let text = bracketed(11);
        format!("data::d{n};type::text;caption::{text};description::{text};end data.")
    });
    // The root: 4 + (4 + 40) + (4 + 2) + (6 + minuses) + 3 = 63 + minuses.
    let guideline = |minuses: usize| {
        let (caption, description) = (bracketed(20), bracketed(1));
        let condition = repeated("- ", minuses) + "1=1";
        let generic = format!("caption::{caption};description::{description};");
        format!("plan::a;{generic}precondition::{condition};end plan.{items}")
    };
    loads(&guideline(1));
    refused(6, &(guideline(2) + "@"));
}

#[test]
fn comments_and_blanks_are_not_counted_as_tokens() {
    let text = repeated("/****/ ", 2_000);
    assert_eq!(tokens(text.as_bytes()), "tokens");
}

#[test]
fn brackets_open_at_once() {
    refused(3, &format!("@{}", repeated("(", 24)));
    refused(6, &format!("{}@(", repeated("(", 24)));
    refused(6, &format!("{}@[((", repeated("[(", 12)));
    refused(6, &format!("){}@(", repeated("(", 24)));
    refused(6, &format!("{}))((@(", repeated("(", 24)));
    refused(3, &format!("@{}", repeated("()", 100)));
    refused(6, &format!("{}][@[", repeated("([", 12)));
}

#[test]
fn brackets_come_before_too_many_tokens() {
    refused(6, &format!("{}@({}", repeated("(", 24), repeated("a ", 4_100)));
}

#[test]
fn tasks() {
    let guideline = |tasks: usize| {
        let components = numbered(tasks - 1, |n| format!("component::a{n};"));
        let actions = numbered(tasks - 1, |n| format!("action::a{n};end action."));
        format!("plan::root;{components}end plan.{actions}")
    };
    loads(&guideline(32));
    refused(6, &(guideline(33) + "@"));
    refused(6, &(guideline(33) + "  /** blanks count **/ @"));
}

#[test]
fn data_items() {
    let items = |count: usize| numbered(count, |n| format!("data::d{n};type::text;end data."));
    loads(&format!("plan::a;end plan.{}", items(64)));
    refused(6, &format!("plan::a;end plan.{}@", items(65)));
}

#[test]
fn expression_parts() {
    let list = "[1,2,3,4,5,6,7,8,9,10,11,12,13,14,15]";
    let action = |n: usize, more: &str| {
        format!("action::a{n};precondition::count({list})=1 or count({list})={more};end action.")
    };
    // Each such condition: two calls, two lists of 16 parts, two numbers, two
    // comparisons and an `or`: 2 + 32 + 2 + 2 + 1 = 39. 26 of them are 1,014.
    let guideline = |last: &str| {
        let components = numbered(27, |n| format!("component::a{n};"));
        let actions = numbered(26, |n| action(n, "2"));
        format!("plan::r;{components}end plan.{actions}action::a26;precondition::{last};end action.")
    };
    // 1 + 1 + 1 + 1 + 1 = 1 is 11 parts, 1 + 1 + 1 + 1 = (- 1) is 10.
    loads(&guideline("1 + 1 + 1 + 1 = (- 1)"));
    refused(6, &(guideline("1 + 1 + 1 + 1 + 1 = 1") + "@"));
    refused(6, &(guideline("1 + 1 + 1 + 1 = ((- (- 1)))") + "@"));
}

#[test]
fn parts_of_captions_and_assignments_count_too() {
    // Each item: a caption of 16 parts; 64 of them are 1,024.
    let caption = "nth(1,[a,b,c,d,e,f,g,h,i,j,k,l,m])";
    let items = numbered(64, |n| format!("data::d{n};type::text;caption::{caption};end data."));
    loads(&format!("plan::a;end plan.{items}"));
    refused(6, &format!("plan::a;postcondition::d1=x;end plan.{items}@"));
    refused(6, &format!("plan::a;caption::x;end plan.{items}@"));
}

#[test]
fn parts_of_a_line() {
    // A count of 15 numbers is 17 parts, a sum of 15 counts 2 + 15 * 17 = 257;
    // three sums and two `+` are 773. With one `+` more, 250 parts are left:
    // 2 + 14 * 17 + 10, the last a count of 8 numbers.
    let count = "count([1,2,3,4,5,6,7,8,9,10,11,12,13,14,15])";
    let of_15 = format!("sum([{}])", [count; 15].join(","));
    let calls = [count; 14].join(",");
    let of_250 = format!("sum([{calls},count([1,2,3,4,5,6,7,8])])");
    let of_251 = format!("sum([{calls},count([1,2,3,4,5,6,7,8,9])])");
    line(&format!("{of_15} + {of_15} + {of_15} + {of_250}"), "integer 893");
    line(&format!("{of_15} + {of_15} + {of_15} + {of_251}"), "refused 6");
}

#[test]
fn depth_by_parentheses() {
    let nested = |times: usize| repeated("(", times) + "1" + &repeated(")", times);
    line(&nested(23), "integer 1");
    line(&nested(24), "refused 6");
    refused(6, &with_root(&format!("precondition::@1={};", nested(23))));
    loads(&with_root(&format!("precondition::1={};", nested(22))));
}

#[test]
fn depth_by_operators() {
    line(&("1".to_string() + &repeated(" + 1", 23)), "integer 24");
    line(&("1".to_string() + &repeated(" + 1", 24)), "refused 6");
    line(&(repeated("- ", 23) + "1"), "integer -1");
    line(&(repeated("- ", 24) + "1"), "refused 6");
    line(&(repeated("- ", 22) + "-1"), "integer -1");
    line(&(repeated("-", 4_094) + " 1"), "refused 6");
    line(&(repeated("-", 4_096) + " 1"), "refused 6");
    line(&repeated("-", 4_096), "refused 3");
    line(&("1".to_string() + &repeated(" + 1", 2_000)), "refused 6");
}

#[test]
fn depth_by_calls_and_lists() {
    let calls = |times: usize| repeated("min([", times) + "1" + &repeated("])", times);
    line(&calls(11), "integer 1");
    line(&calls(12), "refused 6");
    line(&format!("- {}", calls(11)), "integer -1");
    line(&format!("- - {}", calls(11)), "refused 6");
    // An empty list or call is 1.
    line(&(repeated("- ", 22) + "sum([])"), "integer 0");
    line(&(repeated("- ", 23) + "sum([])"), "refused 6");
    line(&(repeated("- ", 23) + "f()"), "refused 5");
    line(&(repeated("- ", 24) + "f()"), "refused 6");
}

#[test]
fn depth_in_an_assignment() {
    let deep = |times: usize| "1".to_string() + &repeated(" + 1", times);
    loads(&with_action(&format!("postcondition::(((i={})));", deep(23))));
    refused(6, &with_action(&format!("postcondition::(((i=@{})));", deep(24))));
    refused(6, &with_action(&format!("postcondition::i=1 and i=@({});", deep(23))));
}

#[test]
fn list_elements() {
    let list = |count: usize| format!("[{}]", vec!["1"; count].join(","));
    line(&format!("count({})", list(16)), "integer 16");
    line(&format!("count({})", list(17)), "refused 6");
    refused(6, &with_root(&format!("precondition::@(1)=1 or 1=count({});", list(17))));
    refused(6, &with_action(&format!("postcondition::i=1 and i=@2+count({});", list(17))));
    // Arguments of a call are no list elements.
    line(&format!("f({})", vec!["1"; 17].join(",")), "refused 5");
    line(&format!("f({})", vec!["1"; 1_000].join(",")), "refused 5");
}

#[test]
fn names_and_texts() {
    let (fits, long) = (repeated("x", 48), repeated("x", 49));
    line(&fits, &format!("text {fits}"));
    line(&long, "refused 6");
    line(&format!("'{fits}'"), &format!("text {fits}"));
    line(&format!("'{long}'"), "refused 6");
    line(&format!("\"{fits}\""), &format!("text {fits}"));
    line(&format!("\"{long}\""), "refused 6");
    line(&format!("'{}\\''", repeated("x", 46)), &format!("text {}\\'", repeated("x", 46)));
    line(&format!("'{}\\''", repeated("x", 47)), "refused 6");
    line(&format!("{fits}(1)"), "refused 5");
    line(&format!("{long}(1)"), "refused 6");
    refused(6, &with_root(&format!("caption::a;trigger::@{long};")));
    loads(&with_root(&format!("caption::a;trigger::{fits};")));
    refused(6, &format!("plan::@{long};end plan."));
    refused(6, &format!("plan::a;component::@{long};end plan."));
    refused(6, &with_enquiry(&format!("source::@{long};")));
    refused(6, &with_action(&format!("postcondition::@{long}=1;")));
}

#[test]
fn integers() {
    for literal in ["2000000", "-2000000", "0002000000", "-0002000000"] {
        assert!(answer(literal).starts_with("integer"), "for {literal}");
    }
    for literal in ["2000001", "-2000001", "3000000", "20000000", "99999999999999999999999999"] {
        line(literal, "refused 6");
    }
    line(&repeated("0", 200), "integer 0");
    line(&repeated("9", 16_000), "refused 6");
    refused(6, &with_root("precondition::1=@2000001;"));
}

#[test]
fn reals() {
    line("2000000.000", "real 2000000.000");
    line("-2000000.", "real -2000000.000");
    line("00002000000.0", "real 2000000.000");
    for literal in ["2000000.001", "-2000000.001", "2000001.", "0.0001", ".0000", "1.1230", "-0.0000"] {
        line(literal, "refused 6");
    }
    line(&format!("{}.0", repeated("9", 400)), "refused 6");
    line("1999999.999", "real 1999999.999");
    refused(6, &with_root("precondition::1=@0.1250;"));
}

#[test]
fn assignments() {
    let assertion = |count: usize| vec!["i=1"; count].join(" and ");
    loads(&with_action(&format!("postcondition::{};", assertion(256))));
    refused(6, &(with_action(&format!("postcondition::{};", assertion(257))) + "@"));
    let two = with_root(&format!("postcondition::{};", assertion(200)));
    let both =
        |more: usize| two.replace("action::b;", &format!("action::b;postcondition::{};", assertion(more)));
    loads(&both(56));
    refused(6, &(both(57) + "@"));
}

#[test]
fn sources() {
    let sources = |count: usize| repeated("source::i;", count);
    loads(&with_enquiry(&sources(128)));
    refused(6, &(with_enquiry(&sources(129)) + "@"));
}

#[test]
fn the_smallest_place_counts() {
    // A token inside an expression that is too deep: the expression's start.
    let deep = repeated("- ", 24) + "2000001";
    refused(6, &with_root("precondition::1=1 or @2000001=1;"));
    refused(6, &with_root(&format!("precondition::@1={deep};")));
    refused(6, &format!("plan::@{};precondition::1={deep};end plan.", repeated("x", 49)));
}

#[test]
fn assertion_brackets_count_as_open_brackets_only() {
    let nested = |times: usize| repeated("(", times) + "i=1" + &repeated(")", times);
    loads(&with_action(&format!("postcondition::{};", nested(24))));
    let marked = with_action(&format!("postcondition::{}", repeated("(", 24)));
    let place = marked.find("((").expect("there are brackets") + 24;
    let text = with_action(&format!("postcondition::{};", nested(25)));
    assert_eq!(examine(text.as_bytes()), format!("refused 6 {place}"));
}

#[test]
fn measures_of_a_tree() {
    let measures = |text: &str| {
        let found = second::grouping::group(&second::lexer::tokens(text).expect("the text has tokens"));
        (found.depth, found.parts, found.longest_list)
    };
    assert_eq!(measures("a"), (1, 1, 0));
    assert_eq!(measures("(a)"), (2, 1, 0));
    assert_eq!(measures("[]"), (1, 1, 0));
    assert_eq!(measures("f()"), (1, 1, 0));
    assert_eq!(measures("f(a, (b))"), (3, 3, 0));
    assert_eq!(measures("[a, b, c]"), (2, 4, 3));
    assert_eq!(measures("- a + b * c"), (3, 6, 0));
    assert_eq!(measures("[[1], [1, 2], []] = (f([1]))"), (5, 11, 3));
    assert_eq!(tree("(a)"), tree(" ( a ) "));
}
