//! Load's order of refusals: 1, 2, 6 (tokens, brackets), 3, 10, 6, 4, 5, each
//! over the whole text before the next.

use crate::refused;
use second::examine::examine;

/// One breach of each kind, later stages earlier in the text.
#[test]
fn a_later_stage_yields_to_an_earlier_one() {
    let brackets = "(".repeat(24);
    refused(5, "plan::a;precondition::@1;end plan.");
    refused(4, "plan::a;precondition::1;component::@b;end plan.");
    refused(
        6,
        "plan::a;precondition::1;component::b;end plan.action::c;precondition::1=@2000001;end action.",
    );
    refused(10, "plan::a;precondition::2000001;component::b;@abort::1;end plan.");
    refused(3, "plan::a;abort::2000001;component::b;end plan@;");
    refused(6, &format!("plan::a;abort::2000001;end plan;{brackets}@("));
    refused(2, &format!("plan::a;abort::2000001;end plan;{brackets}( @?"));
    let text = format!("plan::a;abort::2000001;end plan;{brackets}( ? ").into_bytes();
    let place = text.len();
    assert_eq!(examine(&[&text[..], &[128]].concat()), format!("refused 1 {place}"));
}

#[test]
fn the_sheet_has_the_same_order() {
    let answer = |line: &str| crate::answer(line);
    assert_eq!(answer("[a, 1]"), "refused 5");
    assert_eq!(answer("[a, 2000001]"), "refused 6");
    assert_eq!(answer("[a, 2000001, abs(1)]"), "refused 10");
    assert_eq!(answer("[a, 2000001, abs(1)"), "refused 3");
    assert_eq!(answer(&format!("[a, 2000001, abs(1) {}", "(".repeat(25))), "refused 6");
    assert_eq!(answer(&format!("[a, 2000001, abs(1) {} ?", "(".repeat(25))), "refused 2");
    assert_eq!(second::sheet::answer(b"[a, ? \x80"), "refused 1");
}
