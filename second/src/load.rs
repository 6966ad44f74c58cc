//! Load, stage by stage: 1, 2, 6 (tokens and open brackets), 3, 10, 6 (all
//! else), 4, 5; each over the whole text before the next.

use crate::earley::{recognise, Chart};
use crate::expression::Outermost;
use crate::grammar::grammar;
use crate::grouping::group;
use crate::guideline::Guideline;
use crate::refusal::{Reason, Refusal};
use crate::resolve::resolved;
use crate::scope::ItemTypes;
use crate::token::Token;
use crate::types::{infer, Scope, Type};
use crate::written::{Wanted, Written};
use crate::{left_out, lexer, measure, names, tree};

/// The guideline that a text stands for, or why it is refused.
pub fn load(bytes: &[u8]) -> Result<Guideline, Refusal> {
    let tokens = tokens(bytes)?;
    let process = grammar().find("process");
    let chart = sentence(process, &tokens, bytes.len())?;
    Reason::LeftOut.at_smallest(left_out::places(&tokens))?;
    let derivation = tree::derivation(&chart, process, 0, tokens.len());
    let written = Written::from_tree(&derivation, &tokens);
    check_limits(&written, &tokens, bytes.len())?;
    Reason::Names.at_smallest(names::places(&written))?;
    check_types(&written)?;
    Ok(resolved(&written))
}

/// A lone expression with no data items, and its type.
pub fn expression(bytes: &[u8]) -> Result<(Outermost, Type), Refusal> {
    let tokens = tokens(bytes)?;
    sentence(grammar().find("expression"), &tokens, bytes.len())?;
    Reason::LeftOut.at_smallest(left_out::places(&tokens))?;
    let outermost = group(&tokens);
    let count = measure::too_many_parts([&outermost].into_iter()).then_some(bytes.len());
    let shape = measure::shape_place(&outermost);
    Reason::Limit.at_smallest(measure::token_places(&tokens).chain(shape).chain(count))?;
    match infer(&outermost.expression, &ItemTypes::none()) {
        Some(its_type) => Ok((outermost, its_type)),
        None => Err(Refusal { reason: Reason::Types, place: outermost.place }),
    }
}

/// Stages 1, 2 and the first 6: the tokens of a text.
pub fn tokens(bytes: &[u8]) -> Result<Vec<Token<'_>>, Refusal> {
    let text = lexer::check_bytes(bytes)?;
    let tokens = lexer::tokens(text)?;
    lexer::check_tokens(&tokens, text.len())?;
    Ok(tokens)
}

/// Stage 3: the tokens are a sentence of this nonterminal.
fn sentence(nonterminal: usize, tokens: &[Token], length: usize) -> Result<Chart<'static>, Refusal> {
    recognise(grammar(), nonterminal, tokens).map_err(|index| {
        let place = tokens.get(index).map_or(length, |token| token.place);
        Refusal { reason: Reason::Grammar, place }
    })
}

/// The second 6.
fn check_limits(written: &Written, tokens: &[Token], length: usize) -> Result<(), Refusal> {
    let shapes = written.expressions().filter_map(|(_, outermost)| measure::shape_place(outermost));
    let count = measure::too_many(written).then_some(length);
    Reason::Limit.at_smallest(measure::token_places(tokens).chain(shapes).chain(count))
}

/// Stage 5: section 4, and document 01's three added rules.
fn check_types(written: &Written) -> Result<(), Refusal> {
    let items = ItemTypes::of(written);
    let fits = |wanted: &Wanted, its_type: Type| match wanted {
        Wanted::Truth => its_type == Type::TruthValue,
        Wanted::Text => its_type == Type::Text,
        Wanted::Item(name) => items.item_type(&name.text).is_some_and(|item| its_type.serves_as(item)),
    };
    let wrong = written.expressions().filter(|(wanted, outermost)| {
        !infer(&outermost.expression, &items).is_some_and(|its_type| fits(wanted, its_type))
    });
    Reason::Types.at_smallest(wrong.map(|(_, outermost)| outermost.place))
}
