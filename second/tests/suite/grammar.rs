//! Section 3.2 and rulings 1 and 2: what is a guideline, and where it is not.

use crate::{line, loads, refused, tree, with_action, with_enquiry, with_root};
use second::earley::recognise;
use second::expression::{Expression, Infix};
use second::generate::guidelines::guidelines;
use second::grammar::{grammar, Grammar};
use second::lexer;

const WORDS: &str = "abort action against and AND argument argument_name attributes autonomous candidate \
    caption choice_mode completed component confirming context cycle_repeat cycle_until data days decision \
    default_value derivation description directives end enquiry excluding false_value for goal hours include \
    includes ltwh mandatory mandatory_validation minutes multiple netsupport Netsupport number_of_cycles \
    numeric oneof optional or OR param_value parameters plan postcondition precondition priority procedure \
    range recommendation result_of schedule_constraint seconds single source support_mode symbolic task \
    terminal terminate trigger true_value type unit wait_condition weeks";

const SYMBOLS: &str = ":: ; . , ( ) [ ] : = # ++ < <= =< > >= => != + - * /";

#[test]
fn the_reserved_strings_are_those_in_quotes() {
    let mut expected: Vec<&str> = WORDS.split_whitespace().chain(SYMBOLS.split_whitespace()).collect();
    let mut found = grammar().reserved().to_vec();
    expected.sort_unstable();
    found.sort_unstable();
    assert_eq!(found, expected);
    assert_eq!((WORDS.split_whitespace().count(), SYMBOLS.split_whitespace().count()), (72, 23));
}

#[test]
fn every_nonterminal_but_one_derives_something() {
    assert_eq!(Grammar::as_printed().unproductive(), ["warning_condition"]);
    assert_eq!(grammar().unproductive(), ["warning_condition"]);
}

/// Where a recogniser stops, for each sequence of at most `length` words.
fn same_answers(start: &str, words: &[&str], length: u32) {
    let printed = Grammar::as_printed();
    let choices = words.len();
    for number in 0..choices.pow(length) {
        let chosen = (0..length).map(|at| words[number / choices.pow(at) % choices]);
        let text = chosen.collect::<Vec<&str>>().join(" ");
        let tokens = lexer::tokens(&text).expect("these words are tokens");
        let as_printed = recognise(&printed, printed.find(start), &tokens).err();
        let regrouped = recognise(grammar(), grammar().find(start), &tokens).err();
        assert_eq!(as_printed, regrouped, "for {start}: {text}");
    }
}

#[test]
fn regrouping_the_operators_changes_no_answer() {
    same_answers("expression", &["a", "-", "(", ")", "and", ",", "["], 5);
    same_answers("expression", &["1", "+", "-"], 8);
    same_answers("assertion", &["a", "=", "and", "(", ")", "AND"], 5);
    same_answers("assertion", &["a", "=", "and"], 9);
}

/// Where each of the two grammars stops in a text that has tokens.
fn stops(deterministic: &Grammar, text: &[u8]) -> Option<[Option<usize>; 2]> {
    let tokens = second::load::tokens(text).ok()?;
    let printed = recognise(grammar(), grammar().find("process"), &tokens).err();
    Some([printed, recognise(deterministic, deterministic.find("process"), &tokens).err()])
}

#[test]
fn the_deterministic_form_of_ruling_2_has_the_same_sentences() {
    let deterministic = Grammar::read(include_str!("ruling_2.bnf"), grammar().reserved());
    assert_eq!(deterministic.reserved(), grammar().reserved());
    assert!(deterministic.unproductive().is_empty());
    for text in guidelines(2, 400).filter(|text| text.len() < 2_500) {
        if let Some([printed, other]) = stops(&deterministic, &text) {
            assert_eq!(printed, other, "for {}", String::from_utf8_lossy(&text));
        }
    }
}

/// Each token of a guideline in turn left out, doubled, or put in the place of
/// the one before it.
#[test]
fn both_grammars_stop_at_the_same_token() {
    let deterministic = Grammar::read(include_str!("ruling_2.bnf"), grammar().reserved());
    let words: Vec<&str> = EVERYTHING.split_whitespace().collect();
    assert_eq!(stops(&deterministic, EVERYTHING.as_bytes()), Some([None, None]));
    for at in 0..words.len() {
        let (before, after) = (words[..at].join(" "), words[at + 1..].join(" "));
        let word = words[at];
        let last = before.rsplit_once(' ').map_or("", |(most, _)| most);
        for text in [
            format!("{before} {after}"),
            format!("{before} {word} {word} {after}"),
            format!("{last} {word} {after}"),
        ] {
            let [printed, other] = stops(&deterministic, text.as_bytes()).expect("the text has tokens");
            assert_eq!(printed, other, "without token {at}, {word}");
        }
    }
}

/// Every construct of the grammar, its tokens with blanks between them.
const EVERYTHING: &str = include_str!("everything.txt");

#[test]
fn tokens_run_out() {
    refused(3, "@");
    refused(3, "  /** blanks and comments count **/ \n@");
    refused(3, "plan :: a; end plan @");
    refused(3, "plan@");
    loads("plan :: a; end plan.");
    loads("plan::a;end plan. ");
}

#[test]
fn the_first_token_that_no_guideline_can_have() {
    refused(3, "@a");
    refused(3, "@action :: a; end action.");
    refused(3, "@. plan :: a; end plan.");
    refused(3, "plan @; a; end plan.");
    refused(3, "plan :: @plan; end plan.");
    refused(3, "plan :: @\"a\"; end plan.");
    refused(3, "plan :: a@: b; end plan.");
    refused(3, "plan :: a; end @action.");
    refused(3, "plan :: a; end plan@.5");
    refused(3, "plan :: a; end plan. @x");
    refused(3, "plan :: a; end plan. @directives :: end directives.");
    refused(3, "plan :: a; @;end plan.");
    refused(3, "@/** never closed plan :: a; end plan.");
    refused(3, "@/**/plan :: a; end plan.");
}

#[test]
fn captions_and_descriptions_stand_first() {
    loads(&with_root("caption::\"c\";description::\"d\";precondition::1=1;"));
    loads(&with_root("description::\"d\";caption::\"c\";"));
    refused(3, &with_root("precondition::1=1;@caption::\"c\";"));
    refused(3, &with_root("component::z;@description::\"c\";"));
    refused(3, "plan::a;end plan.data::i;@caption::\"c\";type::text;end data.");
    refused(3, "plan::a;end plan.data::i;type::text;caption::\"c\";@type::text;end data.");
    refused(3, "plan::a;end plan.data::i;@end data.");
}

#[test]
fn after_source_a_caption_is_the_sources() {
    loads(&with_enquiry("source::i;caption::\"c\";mandatory::yes;description::\"d\";"));
    loads(&with_enquiry("source::i;source::r;caption::\"c\";"));
    refused(3, &with_enquiry("precondition::1=1;@caption::\"c\";"));
    refused(3, &with_enquiry("@mandatory::yes;"));
    refused(3, &with_enquiry("source::i;precondition::1=1;@mandatory::yes;"));
}

#[test]
fn a_word_of_the_wrong_class() {
    refused(3, &with_root("@source::i;"));
    refused(3, &with_root("@procedure::a;"));
    refused(3, &with_root("@context::a;"));
    refused(3, &with_root("@mandatory::yes;"));
    refused(3, &with_root("@terminal::yes;"));
    refused(3, &with_action("@component::b;"));
    refused(3, &with_action("@source::i;"));
    refused(3, &with_action("@terminate::1=1;"));
    refused(3, &with_action("@type::text;"));
    refused(3, &with_enquiry("@candidate::a;"));
    refused(3, &with_enquiry("@context::a;"));
    refused(3, "plan::a;end plan.task::t;@context::a;end task.");
    refused(3, "plan::a;end plan.data::i;type::text;@precondition::1=1;end data.");
    refused(3, "plan::a;end plan.data::i;type::text;@warning_condition::1=1;end data.");
}

#[test]
fn component_attributes_follow_their_component() {
    loads(
        "plan::a;component::b;terminal::yes;component::c;schedule_constraint::completed(b);end plan.\
           action::b;end action.action::c;end action.",
    );
    refused(3, "plan::a;component::b;precondition::1=1;@terminal::yes;end plan.");
    refused(3, "plan::a;component::b;schedule_constraint::@b;end plan.");
    refused(3, "plan::a;component::b;schedule_constraint::@'completed'(b);end plan.");
    refused(3, "plan::a;component::b;schedule_constraint::completed(b@,c);end plan.");
}

#[test]
fn side_conditions() {
    refused(3, &with_enquiry("source::i;mandatory::@maybe;"));
    refused(3, &with_enquiry("source::i;mandatory::@Yes;"));
    refused(3, &with_enquiry("source::i;mandatory::@\"yes\";"));
    loads(&with_enquiry("source::i;mandatory::'yes';"));
    loads(&with_enquiry("source::i;mandatory::no;"));
    refused(3, "plan::a;end plan.data::i;type::@Integer;end data.");
    refused(3, "plan::a;end plan.data::i;type::@truth_value;end data.");
    refused(3, "plan::a;end plan.data::i;type::@setof_anything;end data.");
    loads("plan::a;end plan.data::i;type::'integer';end data.");
    for name in [
        "text", "integer", "boolean", "datetime", "date", "time", "real", "setof_text", "setof_integer",
        "setof_real",
    ] {
        loads(&format!("plan::a;end plan.data::i;type::{name};end data."));
    }
    loads("plan::yes;component::integer;end plan.action::integer;end action.data::no;type::text;end data.");
}

#[test]
fn postconditions() {
    loads(&with_action("postcondition::i=1;"));
    loads(&with_action("postcondition::i=1 and r=2 and t=x;"));
    loads(&with_action("postcondition::(i=1 and (i=2));"));
    loads(&with_action("postcondition::((i=1) and i=2) and (i=3);"));
    loads(&with_action("postcondition::i=if(1=1 and 2=2,1,2) and i=2;"));
    refused(3, &with_action("postcondition::i=1 and r@;"));
    refused(3, &with_action("postcondition::(i@)=1;"));
    refused(3, &with_action("postcondition::i=1 and @1=2;"));
    refused(3, &with_action("postcondition::i=1 and i@<2;"));
    refused(3, &with_action("postcondition::@1=i;"));
    refused(3, &with_action("postcondition::i@;"));
    refused(3, &with_action("postcondition::(i=1@;"));
    refused(3, &with_action("postcondition::i=1 and (r@+1)=2;"));
}

#[test]
fn an_assigned_expression_may_hold_any_operator_but_and() {
    refused(5, &with_action("postcondition::i=@1=1;"));
    refused(5, &with_action("postcondition::i=@1 or 2;"));
    refused(5, &with_action("postcondition::i=@1=1 AND r=2;"));
    refused(5, &with_action("postcondition::i=@(1=1 and 2=2) and i=3;"));
    loads(&with_action("postcondition::i=count([1]) and i=2+3*4;"));
}

#[test]
fn calls_and_operators() {
    line("min ( [ 1 ] )", "integer 1");
    line("min /** a **/ ([1])", "integer 1");
    line("1<2<3", "refused 5");
    line("+1", "refused 3");
    line("1 + + 2", "refused 3");
    line("1 +- 2", "integer -1");
    line("a:b(1)", "refused 3");
    line("a:b", "refused 10");
    line("(1", "refused 3");
    line("1)", "refused 3");
    line("[1,]", "refused 3");
    line("[,1]", "refused 3");
    line("(1, 2)", "refused 3");
    line("()", "refused 3");
    line("min([1]", "refused 3");
    line("(min)([1])", "refused 3");
    line("\"min\"([1])", "refused 3");
    line("a b", "refused 3");
    line("1 <> 2", "refused 3");
    line("1 ! 2", "refused 2");
    line("1 =", "refused 3");
    line("completed(a)", "refused 3");
    line("result_of(1)", "refused 3");
    line("result_of(a)", "refused 10");
    line("netsupport(a)", "refused 3");
}

#[test]
fn places_inside_expressions() {
    refused(3, &with_root("precondition::a:b@(1)=1;"));
    refused(3, &with_root("precondition::1=1 @2;"));
    refused(3, &with_root("precondition::3@-2=1;"));
    refused(3, &with_root("precondition::[1,2@)=1;"));
    refused(3, &with_root("precondition::f(@;"));
    refused(3, &with_root("precondition::@;"));
    refused(3, &with_root("precondition::1=@=1;"));
    refused(3, &with_root("precondition::not @plan;"));
}

/// Both are typed alike, so the trees are what is compared.
#[test]
fn grouping() {
    let same = |written: &str, grouped: &str| {
        assert_eq!(tree(written), without_parentheses(tree(grouped)), "for {written}");
    };
    same("a or b and c", "a or (b and c)");
    same("a and b or c", "(a and b) or c");
    same("a OR b AND c", "a or (b and c)");
    same("a or b or c", "(a or b) or c");
    same("a and b = c", "a and (b = c)");
    same("a = b = c", "(a = b) = c");
    same("a includes b < c oneof d", "((a includes b) < c) oneof d");
    same("a = b + c", "a = (b + c)");
    same("a + b - c", "(a + b) - c");
    same("a - b + c", "(a - b) + c");
    same("a + b * c", "a + (b * c)");
    same("a * b + c", "(a * b) + c");
    same("a / b / c", "(a / b) / c");
    same("a * b / c * d", "((a * b) / c) * d");
    same("- a * b", "(- a) * b");
    same("a * - b", "a * (- b)");
    same("- - a + b", "(- (- a)) + b");
    same("a - - b", "a - (- b)");
    same("a < b and c > d or e", "((a < b) and (c > d)) or e");
    same("f(a + b, c)", "f((a + b), c)");
    same("[a + b * c, - d]", "[(a + (b * c)), (- d)]");
}

fn without_parentheses(expression: Expression) -> Expression {
    let all = |parts: Vec<Expression>| parts.into_iter().map(without_parentheses).collect();
    match expression {
        Expression::Parenthesis(inner) => without_parentheses(*inner),
        Expression::Infix(operator, left, right) => {
            let [left, right] = [*left, *right].map(without_parentheses).map(Box::new);
            Expression::Infix(operator, left, right)
        }
        Expression::Call(functor, arguments) => Expression::Call(functor, all(arguments)),
        Expression::List(elements) => Expression::List(all(elements)),
        leaf => leaf,
    }
}

#[test]
fn parts_of_a_tree() {
    let atom = |name: &str| Expression::Atom(name.to_string());
    let sum = Expression::Infix(Infix::Plus, Box::new(atom("a")), Box::new(atom("b c")));
    assert_eq!(tree("a + 'b c'"), sum);
    assert_eq!(tree("f()"), Expression::Call("f".to_string(), Vec::new()));
    assert_eq!(tree("'f'(a)"), Expression::Call("f".to_string(), vec![atom("a")]));
    assert_eq!(tree("- a"), tree("'-'(a)"));
    assert_eq!(tree("[f(a)]"), Expression::List(vec![tree("f(a)")]));
    let in_call = Expression::Call("f".to_string(), vec![Expression::Parenthesis(Box::new(atom("a")))]);
    assert_eq!(tree("f((a))"), in_call);
}

#[test]
fn the_parts_left_out_are_read_all_the_same() {
    refused(10, "@directives :: a; b; end directives. plan :: a; end plan.");
    refused(
        10,
        "plan::a;end plan.@decision::d;candidate::c;caption::\"x\";argument::for,1=1 attributes \
                 argument_name::n;caption::\"x\";end attributes;argument::- - 1.5,a;recommendation::1=1;\
                 priority::3;source::s;mandatory::yes;choice_mode::single;support_mode::numeric;\
                 end decision.",
    );
    refused(3, "plan::a;end plan.decision::d;candidate::c;argument::for,1=1;@caption::\"x\";end decision.");
    refused(3, "plan::a;end plan.decision::d;candidate::c;priority::@1.5;end decision.");
    refused(3, "plan::a;end plan.decision::d;choice_mode::@numeric;end decision.");
    refused(3, "plan::a;end plan.decision::d;candidate::c;argument::for@;end decision.");
    refused(10, "plan::a;@parameters::p,q attributes type::text;caption::\"x\";end attributes,r;end plan.");
    refused(3, "plan::a;parameters::p attributes caption::\"x\";@type::text;end attributes;end plan.");
    refused(10, "plan::a;component::b;@ltwh::1,-2,3,4;end plan.");
    refused(3, "plan::a;component::b;ltwh::1,@- 2,3,4;end plan.");
    refused(3, "plan::a;component::b;ltwh::1,2,3@;end plan.");
    refused(10, "plan::a;component::b;@cycle_repeat::1+2 days;end plan.");
    refused(3, "plan::a;component::b;cycle_repeat::1+2@;end plan.");
    refused(10, "plan::a;component::b;@param_value::p=1=1 and 2=2;end plan.");
    refused(10, "plan::a;end plan.data::i;type::text;@range::1,2,a+b;end data.");
    refused(3, "plan::a;end plan.data::i;type::text;unit::@1;end data.");
}
