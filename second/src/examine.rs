//! The one-line answers of `examine` and `tokens-many`.

use std::fmt::Write;

use crate::load;

/// `loads`, or the refusal's number and place.
pub fn examine(text: &[u8]) -> String {
    match load::load(text) {
        Ok(_) => "loads".to_string(),
        Err(refusal) => refusal.to_string(),
    }
}

/// `tokens` and each token's kind, place and length; or the refusal.
pub fn tokens(text: &[u8]) -> String {
    let tokens = match load::tokens(text) {
        Ok(tokens) => tokens,
        Err(refusal) => return refusal.to_string(),
    };
    let mut line = String::from("tokens");
    for token in tokens {
        let (letter, place, length) = (token.letter(), token.place, token.written.len());
        write!(line, " {letter}:{place}:{length}").expect("writing to a string succeeds");
    }
    line
}
