//! Refusal 10: what the grammar or section 11 has and this edition leaves out.

use crate::token::{Kind, Token};

/// Reserved strings that name something left out. Each stands in productions
/// of that thing alone, so the token by itself tells.
const WORDS: [&str; 27] = [
    "directives", "task", "decision", "procedure", "context", "goal", "abort", "parameters", "autonomous",
    "optional", "ltwh", "number_of_cycles", "cycle_until", "cycle_repeat", "param_value", "range",
    "default_value", "true_value", "false_value", "mandatory_validation", "derivation", "unit", "result_of",
    "netsupport", "Netsupport", "#", "++",
];

/// Functors of section 11 that are left out, with any number of arguments.
const FUNCTORS: [&str; 16] = [
    "in_progress_time", "discarded_time", "completed_time", "union", "diff", "intersect", "abs", "exp", "ln",
    "sin", "cos", "tan", "asin", "acos", "atan", "random",
];

/// The places of the tokens that name something left out. The tokens are known
/// to be a guideline or an expression, so an atom before `(` is a functor, and
/// a colon stands in a colon name.
pub fn places<'all>(tokens: &'all [Token]) -> impl Iterator<Item = usize> + 'all {
    let left_out = |index: usize| {
        let token = &tokens[index];
        let is_call = tokens.get(index + 1).is_some_and(|next| next.is("("));
        match token.reserved() {
            Some(word) => word == ":" || WORDS.contains(&word),
            None if token.is_atom() => is_call && FUNCTORS.contains(&token.inner()),
            None => token.kind == Kind::ExponentFloat,
        }
    };
    (0..tokens.len()).filter(move |index| left_out(*index)).map(|index| tokens[index].place)
}
