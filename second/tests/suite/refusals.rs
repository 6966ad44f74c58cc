//! The refusals of calls: 7, 8, 9, 6 in that order, and what they leave.

use crate::replayed;
use second::replay::answers;

const TEXT: &str = "plan::root;component::a;end plan.action::a;trigger::rain;end action.\
    data::i;type::integer;end data.data::r;type::real;end data.data::t;type::text;end data.\
    data::b;type::boolean;end data.data::d;type::date;end data.data::st;type::setof_text;end data.\
    data::si;type::setof_integer;end data.data::sr;type::setof_real;end data.";

/// Items of TEXT by their numbers.
const I: usize = 0;
const R: usize = 1;
const T: usize = 2;
const B: usize = 3;
const D: usize = 4;
const ST: usize = 5;
const SI: usize = 6;
const SR: usize = 7;

/// Checks the answer to one call.
fn call(line: &str, expected: &str) {
    assert_eq!(replayed(TEXT, &format!("{line}\n")), format!("{expected}\n"), "for the call {line}");
}

/// Checks the answer to an added value.
fn add(item: usize, value: &str, expected: &str) {
    call(&format!("add {item} {value}"), expected);
}

const SIX: &str = "refused 6 0";
const EIGHT: &str = "refused 8 0";
const NINE: &str = "refused 9 0";

#[test]
fn nothing_is_loaded() {
    let calls = "run 0 1024\nrun 257 0\ntime 0\ntime 4294967296\nconfirm 0\nconfirm 99\nadd 0 u\nadd 99 b1\n\
                 trigger -\ntrigger ff\nrow 0 0 0\nrow 9 9 9\nrows\n";
    let expected = "refused 7 0\n".repeat(13) + "--\n";
    assert_eq!(answers(calls.as_bytes()), Ok(expected));
}

#[test]
fn a_refused_load_leaves_nothing() {
    let calls = "load 5\nplan \nrows\nrow 0 0 0\nrun 256 1024\nload 0\n\nrows\n";
    let expected = "refused 3 5\nrefused 7 0\nrefused 7 0\nrefused 7 0\nrefused 3 0\nrefused 7 0\n";
    assert_eq!(replayed(TEXT, calls), expected);
}

#[test]
fn seven_before_all_others() {
    let text = "plan::root;postcondition::x=1 and x=2;end plan.data::x;type::integer;end data.";
    let calls = "run 256 1024\nrun 257 0\ntime 4294967296\nconfirm 9\nadd 9 b1\nadd 0 b1\nadd 0 i2000001\n\
                 trigger ff\nrow 9 9 9\nrow 0 0 0\n";
    let expected = "exception 2\n".to_string() + &"refused 7 0\n".repeat(7) + "none\nplan\n";
    assert_eq!(replayed(text, calls), expected);
}

#[test]
fn eight() {
    call("confirm 0", "done");
    call("confirm 1", "done");
    call("confirm 2", EIGHT);
    call("confirm 4294967295", EIGHT);
    add(8, "u", EIGHT);
    add(8, "b1", EIGHT);
    add(8, "i2000001", EIGHT);
    add(4294967295, "t", EIGHT);
}

#[test]
fn nine_by_kind() {
    for item in [I, R, T, B, D, ST, SI, SR] {
        add(item, "u", "done");
        add(item, "b0", NINE);
        add(item, "b1", NINE);
    }
    for (item, taken) in [(I, "i1"), (R, "i1"), (R, "r1"), (D, "i1"), (D, "r1"), (T, "t61"), (B, "t61")] {
        add(item, taken, "done");
    }
    for (item, wrong) in
        [(I, "r1000"), (I, "t31"), (I, "l(i1)"), (R, "t31"), (R, "l()"), (T, "i1"), (B, "r1")]
    {
        add(item, wrong, NINE);
    }
    for (item, taken) in [(ST, "l(t61,u)"), (SI, "l(i1,u)"), (SR, "l(i1,r1,u)")] {
        add(item, "l()", "done");
        add(item, "l(u)", "done");
        add(item, taken, "done");
    }
    for (item, wrong) in
        [(ST, "l(i1)"), (SI, "l(i1,r1)"), (SR, "l(t61)"), (ST, "t61"), (SI, "i1"), (SR, "r1")]
    {
        add(item, wrong, NINE);
    }
    add(SI, "l(b1)", NINE);
}

#[test]
fn six_by_limit() {
    for (item, taken, passed) in [
        (I, "i2000000", "i2000001"),
        (I, "i-2000000", "i-2000001"),
        (I, "i0", "i2147483647"),
        (R, "i2000000", "i2000001"),
        (R, "r2000000000", "r2000000001"),
        (R, "r-2000000000", "r-2000000001"),
        (D, "r0", "r4611686018427387903"),
        (T, "t7f", "t80"),
        (B, "t00", "tff"),
        (SI, "l(i2000000)", "l(u,i-2000001)"),
        (SR, "l(r-2000000000)", "l(r2000000001)"),
        (ST, "l(t)", "l(t61,t80)"),
    ] {
        add(item, taken, "done");
        add(item, passed, SIX);
    }
}

#[test]
fn six_by_length() {
    let text = |length: usize| "61".repeat(length);
    add(T, &format!("t{}", text(48)), "done");
    add(T, &format!("t{}", text(49)), SIX);
    add(ST, &format!("l(t{})", text(48)), "done");
    add(ST, &format!("l(u,t{})", text(49)), SIX);
    let list = |element: &str, length: usize| format!("l({})", vec![element; length].join(","));
    for (item, element) in [(SI, "i1"), (SR, "r1"), (ST, "t61"), (SI, "u")] {
        add(item, &list(element, 16), "done");
        add(item, &list(element, 17), SIX);
        add(item, &list(element, 20), SIX);
    }
}

/// 9 judges all kinds before 6 judges limits.
#[test]
fn nine_before_six() {
    add(I, "r2000000001", NINE);
    add(T, "i2000001", NINE);
    add(I, &format!("t{}", "61".repeat(64)), NINE);
    add(SI, "l(i2000001,t61)", NINE);
    add(SI, "l(t61,i2000001)", NINE);
    add(ST, &format!("l({},b0)", vec!["t61"; 19].join(",")), NINE);
    add(I, &format!("l({})", vec!["i1"; 17].join(",")), NINE);
}

#[test]
fn six_of_other_calls() {
    call("run 256 1024", "quiet 1");
    call("run 256 8192", "quiet 1");
    call("run 257 1024", SIX);
    call("run 9223372036854775807 1024", SIX);
    call("run 0 1023", SIX);
    call("run 256 0", SIX);
    call("time 4294967295", "done");
    call("time 4294967296", SIX);
    call("time 9223372036854775807", SIX);
    call(&format!("trigger {}", "61".repeat(48)), "done");
    call(&format!("trigger {}", "61".repeat(49)), SIX);
    call("trigger 7f", "done");
    call("trigger 80", SIX);
}

/// A refused call changes no row, no time and no flag.
#[test]
fn refused_calls_change_nothing() {
    let setup = "run 1 1024\nadd 0 i7\nadd 2 t61\ntime 9\nconfirm 0\n";
    let before = replayed(TEXT, &format!("{setup}rows\n"));
    let refused = "run 257 1024\nrun 1 1023\ntime 4294967296\nconfirm 2\nadd 0 t61\nadd 0 i2000001\n\
                   add 2 i1\nadd 5 l(t61,t80)\nadd 8 u\ntrigger ff\n";
    let after = replayed(TEXT, &format!("{setup}{refused}rows\n"));
    let rows = |answers: &str| answers.lines().filter(|line| !line.contains("refused")).count();
    assert_eq!(rows(&before), rows(&after));
    let of = |answers: &str| answers.split_once("0 0 0 plan").expect("there are rows").1.to_string();
    assert_eq!(of(&before), of(&after));
}

#[test]
fn an_added_value_replaces_value_and_requested() {
    let calls =
        "add 1 i2\nrow 1 1 42\nrow 1 1 50\nadd 1 r2000\nrow 1 1 42\nadd 1 u\nrow 1 1 42\nrow 1 1 50\n";
    assert_eq!(replayed(TEXT, calls), "done\ni2\nb0\ndone\nr2000\ndone\nu\nb0\n");
}
