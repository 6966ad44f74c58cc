//! Section 2: text into tokens. At each place every rule is tried; the longest
//! match wins, and on a tie the rule that the paper prints first.

use crate::grammar::grammar;
use crate::limits;
use crate::refusal::{Reason, Refusal};
use crate::token::{Kind, Token};

/// What one rule found at a place: how many bytes, and what they are
/// (`None` for white space and comments, which are no tokens).
struct Match {
    length: usize,
    kind: Option<Kind>,
}

/// A rule looks at the rest of the text and says what it matches there.
type Rule = fn(&[u8]) -> Option<Match>;

/// The rules in the order of section 2.
const RULES: [Rule; 8] =
    [reserved_word, bare_atom, quoted_atom, integer, float, double_quoted_string, white_space, comment];

/// Refusal 1: the first byte over 127, else the length of too long a text.
pub fn check_bytes(bytes: &[u8]) -> Result<&str, Refusal> {
    let odd = bytes.iter().position(|byte| *byte > limits::LARGEST_BYTE);
    let too_long = (bytes.len() > limits::TEXT_BYTES).then_some(bytes.len());
    Reason::Bytes.at_smallest(odd.into_iter().chain(too_long))?;
    Ok(std::str::from_utf8(bytes).expect("bytes up to 127 are characters"))
}

/// Refusal 2, or all the tokens of the text.
pub fn tokens(text: &str) -> Result<Vec<Token<'_>>, Refusal> {
    let mut tokens = Vec::new();
    let mut place = 0;
    while place < text.len() {
        let Some(found) = longest(&text.as_bytes()[place..]) else {
            return Err(Refusal { reason: Reason::Lexical, place });
        };
        let end = place + found.length;
        if let Some(kind) = found.kind {
            tokens.push(Token { kind, place, written: &text[place..end] });
        }
        place = end;
    }
    Ok(tokens)
}

/// The longest match at the start of `rest`; the first rule wins a tie.
fn longest(rest: &[u8]) -> Option<Match> {
    let mut best: Option<Match> = None;
    for rule in RULES {
        if let Some(found) = rule(rest) {
            if best.as_ref().is_none_or(|best| found.length > best.length) {
                best = Some(found);
            }
        }
    }
    best
}

/// Refusal 6 before the grammar: too many tokens, or too many open brackets.
pub fn check_tokens(tokens: &[Token], text_length: usize) -> Result<(), Refusal> {
    let too_many = (tokens.len() > limits::TOKENS).then_some(text_length);
    Reason::Limit.at_smallest(bracket_too_many(tokens).into_iter().chain(too_many))
}

/// The place of the first bracket that opens one more than may be open.
fn bracket_too_many(tokens: &[Token]) -> Option<usize> {
    let mut open = 0;
    for token in tokens {
        match token.reserved() {
            Some("(" | "[") if open == limits::OPEN_BRACKETS => return Some(token.place),
            Some("(" | "[") => open += 1,
            Some(")" | "]") => open = usize::saturating_sub(open, 1),
            _ => {}
        }
    }
    None
}

/// The longest reserved string that the text goes on with.
fn reserved_word(rest: &[u8]) -> Option<Match> {
    let fits = |word: &&str| rest.starts_with(word.as_bytes());
    let numbered = grammar().reserved().iter().enumerate();
    let (number, word) = numbered.filter(|(_, word)| fits(word)).max_by_key(|(_, word)| word.len())?;
    Some(Match { length: word.len(), kind: Some(Kind::Reserved(number)) })
}

/// Underscores, letters and digits, the first no digit.
fn bare_atom(rest: &[u8]) -> Option<Match> {
    if rest[0].is_ascii_digit() {
        return None;
    }
    let length = run(rest, |byte| byte.is_ascii_alphanumeric() || byte == b'_');
    (length > 0).then_some(Match { length, kind: Some(Kind::BareAtom) })
}

fn quoted_atom(rest: &[u8]) -> Option<Match> {
    Some(Match { length: quoted(rest, b'\'')?, kind: Some(Kind::QuotedAtom) })
}

fn double_quoted_string(rest: &[u8]) -> Option<Match> {
    Some(Match { length: quoted(rest, b'"')?, kind: Some(Kind::DoubleQuotedString) })
}

/// From a quote to the next one that no backslash stands right before.
fn quoted(rest: &[u8], quote: u8) -> Option<usize> {
    if rest[0] != quote {
        return None;
    }
    let closes = |at: &usize| rest[*at] == quote && rest[at - 1] != b'\\';
    (1..rest.len()).find(closes).map(|at| at + 1)
}

/// An optional minus sign and one or more digits.
fn integer(rest: &[u8]) -> Option<Match> {
    let sign = usize::from(rest[0] == b'-');
    let digits = run(&rest[sign..], |byte| byte.is_ascii_digit());
    (digits > 0).then_some(Match { length: sign + digits, kind: Some(Kind::Integer) })
}

/// An optional minus sign, digits around a point, one at least on one side,
/// and perhaps a letter of "eEdD" with one or more digits.
fn float(rest: &[u8]) -> Option<Match> {
    let is_digit = |byte: u8| byte.is_ascii_digit();
    let sign = usize::from(rest[0] == b'-');
    let before = run(&rest[sign..], is_digit);
    let point = sign + before;
    if rest.get(point) != Some(&b'.') {
        return None;
    }
    let after = run(&rest[point + 1..], is_digit);
    if before + after == 0 {
        return None;
    }
    let length = point + 1 + after;
    if matches!(rest.get(length), Some(b'e' | b'E' | b'd' | b'D')) {
        let exponent = run(&rest[length + 1..], is_digit);
        if exponent > 0 {
            return Some(Match { length: length + 1 + exponent, kind: Some(Kind::ExponentFloat) });
        }
    }
    Some(Match { length, kind: Some(Kind::Float) })
}

/// Spaces, newlines, carriage returns and tabs.
fn white_space(rest: &[u8]) -> Option<Match> {
    let length = run(rest, |byte| matches!(byte, b' ' | b'\n' | b'\r' | b'\t'));
    (length > 0).then_some(Match { length, kind: None })
}

/// From `/**` to the first `**/` after it.
fn comment(rest: &[u8]) -> Option<Match> {
    let inside = rest.strip_prefix(b"/**")?;
    let end = inside.windows(3).position(|three| three == b"**/")?;
    Some(Match { length: 3 + end + 3, kind: None })
}

/// How many bytes at the start of `bytes` are of a kind.
fn run(bytes: &[u8], is_kind: impl Fn(u8) -> bool) -> usize {
    bytes.iter().take_while(|byte| is_kind(**byte)).count()
}
