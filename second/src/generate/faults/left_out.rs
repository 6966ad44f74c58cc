//! Things that the grammar has and the first edition leaves out.

use super::{an_inner, owner, put_first, replace};
use crate::generate::random::Random;
use crate::generate::sketch::{Attribute, Sketch};
use crate::generate::words::words;

/// Uses something left out.
pub fn left_out(sketch: &mut Sketch, random: &mut Random) {
    let number = random.below(sketch.tasks.len() + sketch.items.len());
    let expression = words(random.pick(&LEFT_OUT_EXPRESSIONS));
    match random.below(12) {
        0 => sketch.before = words("directives :: a ; 'b' ; end directives ."),
        1 => sketch.others.push(words(GENERIC_TASK)),
        2 => sketch.others.push(words(DECISION)),
        3 => sketch.others.push(words("data :: a : b ; type :: text ; end data .")),
        4 | 5 => put_first(owner(sketch, number), Attribute::new("caption", expression)),
        6 => {
            let task = random.below(sketch.tasks.len());
            replace(&mut sketch.tasks[task], Attribute::new("wait_condition", expression));
        }
        7 => left_out_of_component(sketch, random),
        8 if !sketch.items.is_empty() => {
            let (word, value) = random.pick(&DATA_ATTRIBUTES);
            sketch.items[0].attributes.push(Attribute::new(word, words(value)));
        }
        _ => {
            let owner = owner(sketch, number);
            let (word, value) = left_out_of(owner.word, random);
            owner.attributes.push(Attribute::new(word, words(value)));
        }
    }
}

/// An attribute that a task of this class, or a data item, has in the grammar.
fn left_out_of(class: &str, random: &mut Random) -> (&'static str, &'static str) {
    match class {
        "plan" => random.pick(&PLAN_ATTRIBUTES),
        "action" => random.pick(&ACTION_ATTRIBUTES),
        "enquiry" => random.pick(&ENQUIRY_ATTRIBUTES),
        _ => random.pick(&DATA_ATTRIBUTES),
    }
}

const PLAN_ATTRIBUTES: [(&str, &str); 3] =
    [("abort", "1 = 1"), ("goal", "a = b"), ("parameters", "p , q attributes type :: text ; end attributes")];

const ACTION_ATTRIBUTES: [(&str, &str); 4] =
    [("procedure", "\"do\""), ("context", "here"), ("goal", "1"), ("parameters", "p")];

const ENQUIRY_ATTRIBUTES: [(&str, &str); 3] = [("goal", "1 = 1"), ("parameters", "p"), ("source", "a : b")];

const GENERIC_TASK: &str = "task :: t ; caption :: \"x\" ; precondition :: 1 = 1 ; end task .";

const DECISION: &str = "decision :: dec ; candidate :: c ; caption :: \"x\" ; \
    argument :: for , 1 = 1 attributes argument_name :: n ; end attributes ; argument :: - 2 , a ; \
    recommendation :: netsupport ( dec , c ) > 1 ; \
    priority :: 1 ; choice_mode :: single ; support_mode :: symbolic ; end decision .";

const LEFT_OUT_EXPRESSIONS: [&str; 14] = [
    "a # b",
    "1 ++ 2",
    "x : y",
    "result_of ( a ) = b",
    "netsupport ( a , b ) > 1",
    "Netsupport ( a , b ) = 0",
    "1.5e3 = 2",
    "1 = 2.D1",
    "abs ( - 1 ) = 1",
    "'random' ( ) < 0.5",
    "union ( [ ] , [ 1 ] ) = [ ]",
    "ln ( 1 ) = 0",
    "completed_time ( a ) > 1",
    "sin ( 1 , 2 )",
];

const DATA_ATTRIBUTES: [(&str, &str); 7] = [
    ("range", "1 , 2 , a"),
    ("default_value", "1 + 1"),
    ("true_value", "yes"),
    ("false_value", "\"no\""),
    ("mandatory_validation", "1 = 1"),
    ("derivation", "1"),
    ("unit", "kg"),
];

/// An attribute that components have in the grammar.
fn left_out_of_component(sketch: &mut Sketch, random: &mut Random) {
    let (word, value) = random.pick(&[
        ("autonomous", "yes"),
        ("optional", "no"),
        ("ltwh", "1 , 2 , -3 , 4"),
        ("number_of_cycles", "2"),
        ("cycle_until", "1 = 1"),
        ("cycle_repeat", "1 + 1 minutes"),
        ("param_value", "p = 1 and 2"),
    ]);
    if let Some((task, at)) = an_inner(sketch, "component", random) {
        sketch.tasks[task].attributes[at].inner.push(Attribute::new(word, words(value)));
    }
}
