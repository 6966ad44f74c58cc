//! Section 2: text into tokens. The first byte of a token settles which rules
//! can match, and the longest of them is taken.

use crate::limits;
use crate::number::Number;
use crate::refusal::{Reason, Refusal, Smallest};
use crate::token::{Kind, Token};
use crate::words;

/// The tokens of a text and, behind them, one that says that it ends.
pub struct Lexed {
    pub tokens: Vec<Token>,
    /// The first token that passes a limit by itself.
    pub too_large: Option<usize>,
}

/// Refusals 1, 2 and the first 6; or the tokens.
pub fn tokens(text: &[u8]) -> Result<Lexed, Refusal> {
    check_bytes(text)?;
    let mut lexer = Lexer { text, at: 0, comments_end: false };
    // Most texts have a token for every four bytes or fewer.
    let mut tokens = Vec::with_capacity(text.len() / 4 + 1);
    while let Some(token) = lexer.next()? {
        tokens.push(token);
    }
    check_counts(&tokens, text.len())?;
    let too_large = tokens.iter().find(|token| !fits(token, text)).map(Token::place);
    tokens.push(Token { kind: Kind::EndOfText, place: text.len() as u32, length: 0 });
    Ok(Lexed { tokens, too_large })
}

/// Refusal 1: the first byte over 127, or the length of too long a text.
fn check_bytes(text: &[u8]) -> Result<(), Refusal> {
    if text.is_ascii() && text.len() <= limits::TEXT_BYTES {
        return Ok(());
    }
    let odd = text.iter().position(|byte| !byte.is_ascii());
    Err(Reason::Bytes.at(odd.unwrap_or(text.len())))
}

/// The first 6: too many open brackets, or too many tokens.
fn check_counts(tokens: &[Token], length: usize) -> Result<(), Refusal> {
    let mut open = 0;
    let mut place = Smallest::default();
    for token in tokens {
        match token.kind {
            Kind::OpenRound | Kind::OpenSquare => open += 1,
            Kind::CloseRound | Kind::CloseSquare if open > 0 => open -= 1,
            _ => {}
        }
        if open > limits::OPEN_BRACKETS {
            place.note(token.place());
            break;
        }
    }
    if tokens.len() > limits::TOKENS {
        place.note(length);
    }
    Reason::Limit.at_any(place.0)
}

/// Whether a token by itself keeps within the limits.
fn fits(token: &Token, text: &[u8]) -> bool {
    match token.kind {
        Kind::Atom | Kind::QuotedAtom | Kind::DoubleQuotedString => {
            token.inner(text).len() <= limits::NAME_BYTES
        }
        Kind::Integer => Number::read_integer(token.written(text)).is_some(),
        Kind::Float => Number::read_float(token.written(text)).is_some(),
        _ => true,
    }
}

/// Where the reader stands.
struct Lexer<'text> {
    text: &'text [u8],
    at: usize,
    /// Whether it is known that no comment closes from here on.
    comments_end: bool,
}

impl Lexer<'_> {
    /// The next token, or none if only white space and comments are left.
    fn next(&mut self) -> Result<Option<Token>, Refusal> {
        self.skip_blanks();
        let Some(first) = self.text.get(self.at) else {
            return Ok(None);
        };
        let (kind, length) = match first {
            b'a'..=b'z' | b'A'..=b'Z' | b'_' => self.word(),
            b'0'..=b'9' => self.number(0),
            b'-' if self.number_follows(1) => self.number(1),
            b'.' if self.is_digit(1) => self.number(0),
            b'\'' => (Kind::QuotedAtom, self.quoted(b'\'')?),
            b'"' => (Kind::DoubleQuotedString, self.quoted(b'"')?),
            _ => self.symbol().ok_or(Reason::Lexical.at(self.at))?,
        };
        let token = Token { kind, place: self.at as u32, length: length as u32 };
        self.at += length;
        Ok(Some(token))
    }

    /// Goes on behind white space and comments.
    fn skip_blanks(&mut self) {
        loop {
            match self.text.get(self.at) {
                Some(b' ' | b'\n' | b'\r' | b'\t') => self.at += 1,
                Some(b'/') if self.skip_comment() => {}
                _ => return,
            }
        }
    }

    /// Goes on behind the comment that begins here, if one does and closes.
    fn skip_comment(&mut self) -> bool {
        let rest = &self.text[self.at..];
        if self.comments_end || !rest.starts_with(b"/**") {
            return false;
        }
        match rest[3..].windows(3).position(|three| three == b"**/") {
            Some(inside) => self.at += 3 + inside + 3,
            None => self.comments_end = true,
        }
        !self.comments_end
    }

    fn byte(&self, ahead: usize) -> Option<u8> {
        self.text.get(self.at + ahead).copied()
    }

    fn is_digit(&self, ahead: usize) -> bool {
        self.byte(ahead).is_some_and(|byte| byte.is_ascii_digit())
    }

    /// Whether digits, or a point and digits, follow.
    fn number_follows(&self, ahead: usize) -> bool {
        self.is_digit(ahead) || (self.byte(ahead) == Some(b'.') && self.is_digit(ahead + 1))
    }

    /// The place behind the digits that begin at `ahead`.
    fn digits(&self, mut ahead: usize) -> usize {
        while self.is_digit(ahead) {
            ahead += 1;
        }
        ahead
    }

    /// A bare atom or a reserved word.
    fn word(&self) -> (Kind, usize) {
        let rest = &self.text[self.at..];
        let is_inside = |byte: &u8| byte.is_ascii_alphanumeric() || *byte == b'_';
        let length = rest.iter().position(|byte| !is_inside(byte)).unwrap_or(rest.len());
        (words::kind_of(&rest[..length]), length)
    }

    /// An integer or float whose sign, if any, is behind.
    fn number(&self, sign: usize) -> (Kind, usize) {
        let point = self.digits(sign);
        if self.byte(point) != Some(b'.') {
            return (Kind::Integer, point);
        }
        let end = self.digits(point + 1);
        let has_exponent =
            matches!(self.byte(end), Some(b'e' | b'E' | b'd' | b'D')) && self.is_digit(end + 1);
        match has_exponent {
            true => (Kind::ExponentFloat, self.digits(end + 1)),
            false => (Kind::Float, end),
        }
    }

    /// From a quote to the next one that no backslash stands right before.
    fn quoted(&self, quote: u8) -> Result<usize, Refusal> {
        let rest = &self.text[self.at..];
        let closes = |at: &usize| rest[*at] == quote && rest[at - 1] != b'\\';
        let end = (1..rest.len()).find(closes);
        end.map(|end| end + 1).ok_or(Reason::Lexical.at(self.at))
    }

    /// The longest symbol here.
    fn symbol(&self) -> Option<(Kind, usize)> {
        Some(match (self.byte(0)?, self.byte(1)) {
            (b':', Some(b':')) => (Kind::DoubleColon, 2),
            (b'+', Some(b'+')) => (Kind::DoublePlus, 2),
            (b'<', Some(b'=')) | (b'=', Some(b'<')) => (Kind::LessOrEqual, 2),
            (b'>', Some(b'=')) | (b'=', Some(b'>')) => (Kind::GreaterOrEqual, 2),
            (b'!', Some(b'=')) => (Kind::NotEqual, 2),
            (b':', _) => (Kind::Colon, 1),
            (b';', _) => (Kind::Semicolon, 1),
            (b'.', _) => (Kind::Point, 1),
            (b',', _) => (Kind::Comma, 1),
            (b'(', _) => (Kind::OpenRound, 1),
            (b')', _) => (Kind::CloseRound, 1),
            (b'[', _) => (Kind::OpenSquare, 1),
            (b']', _) => (Kind::CloseSquare, 1),
            (b'=', _) => (Kind::Equal, 1),
            (b'#', _) => (Kind::Hash, 1),
            (b'<', _) => (Kind::Less, 1),
            (b'>', _) => (Kind::Greater, 1),
            (b'+', _) => (Kind::Plus, 1),
            (b'-', _) => (Kind::Minus, 1),
            (b'*', _) => (Kind::Star, 1),
            (b'/', _) => (Kind::Slash, 1),
            _ => return None,
        })
    }
}
