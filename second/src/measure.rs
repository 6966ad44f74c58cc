//! Refusal 6 after 3 and 10: every limit but those on bytes, tokens and open
//! brackets.

use crate::expression::Outermost;
use crate::limits;
use crate::number::Number;
use crate::token::{Kind, Token};
use crate::written::Written;

/// The tokens that pass a limit by themselves: long names and texts, numbers
/// out of range or with too many digits after the point.
pub fn token_places<'all>(tokens: &'all [Token]) -> impl Iterator<Item = usize> + 'all {
    tokens.iter().filter(|token| !token_fits(token)).map(|token| token.place)
}

fn token_fits(token: &Token) -> bool {
    let written = token.written;
    match token.kind {
        Kind::BareAtom | Kind::QuotedAtom | Kind::DoubleQuotedString => {
            token.inner().len() <= limits::NAME_BYTES
        }
        Kind::Integer => Number::read_integer(written).within_limit().is_some(),
        Kind::Float => {
            let after = written.split_once('.').map_or(0, |(_, digits)| digits.len());
            after <= limits::DIGITS_AFTER_POINT && Number::read_float(written).within_limit().is_some()
        }
        _ => true,
    }
}

/// The place of an expression that is too deep or has too long a list in it.
pub fn shape_place(outermost: &Outermost) -> Option<usize> {
    let fits = outermost.depth <= limits::DEPTH && outermost.longest_list <= limits::LIST_ELEMENTS;
    (!fits).then_some(outermost.place)
}

/// Whether all expressions together have too many parts.
pub fn too_many_parts<'all>(expressions: impl Iterator<Item = &'all Outermost>) -> bool {
    expressions.map(|outermost| outermost.parts).sum::<usize>() > limits::EXPRESSION_PARTS
}

/// Whether some count over the whole guideline passes its limit.
pub fn too_many(written: &Written) -> bool {
    let assignments = written.tasks.iter().flat_map(|task| task.assignments());
    let sources = written.tasks.iter().flat_map(|task| task.inner("source"));
    written.tasks.len() > limits::TASKS
        || written.data_items.len() > limits::DATA_ITEMS
        || assignments.count() > limits::ASSIGNMENTS
        || sources.count() > limits::SOURCES
        || too_many_parts(written.expressions().map(|(_, outermost)| outermost))
}
