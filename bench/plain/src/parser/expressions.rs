//! Expressions, by the levels of document 01's grouping. Each is measured on
//! the way; a tree that gets too deep is not kept, as load refuses it anyway.

use super::Parser;
use crate::limits;
use crate::number::Number;
use crate::operators::{Functor, Infix};
use crate::refusal::Refusal;
use crate::syntax::{Expression, Outermost};
use crate::token::Kind;

/// How tightly an operator binds.
type Level = u8;
const OR: Level = 1;

/// An infix operator by its token; `#` and `++` are left out.
fn infix(kind: Kind) -> Option<(Level, Option<Infix>)> {
    Some(match kind {
        Kind::Or => (OR, Some(Infix::Or)),
        Kind::And | Kind::AndCapital => (2, Some(Infix::And)),
        Kind::Less => (3, Some(Infix::Less)),
        Kind::LessOrEqual => (3, Some(Infix::LessOrEqual)),
        Kind::Greater => (3, Some(Infix::Greater)),
        Kind::GreaterOrEqual => (3, Some(Infix::GreaterOrEqual)),
        Kind::Equal => (3, Some(Infix::Equal)),
        Kind::NotEqual => (3, Some(Infix::NotEqual)),
        Kind::Include => (3, Some(Infix::Includes)),
        Kind::Oneof => (3, Some(Infix::Oneof)),
        Kind::Hash | Kind::DoublePlus => (4, None),
        Kind::Plus => (5, Some(Infix::Plus)),
        Kind::Minus => (5, Some(Infix::Minus)),
        Kind::Star => (6, Some(Infix::Times)),
        Kind::Slash => (6, Some(Infix::Over)),
        _ => return None,
    })
}

/// A part of an expression in the making.
struct Part<'text> {
    expression: Expression<'text>,
    depth: usize,
    /// The most elements that one list in it has.
    longest_list: usize,
}

impl<'text> Part<'text> {
    /// One part out of others: deeper by one than the deepest of them.
    fn of(depth: usize, longest_list: usize, make: impl FnOnce() -> Expression<'text>) -> Part<'text> {
        let depth = depth + 1;
        let expression = if depth > limits::DEPTH { Expression::Refused } else { make() };
        Part { expression, depth, longest_list }
    }
}

/// Expressions between commas, with their measures.
#[derive(Default)]
struct Series<'text> {
    expressions: Vec<Expression<'text>>,
    depth: usize,
    longest_list: usize,
}

impl<'text> Parser<'text> {
    /// The expression of an attribute.
    pub(super) fn outermost(&mut self) -> Result<Outermost<'text>, Refusal> {
        self.measured(true)
    }

    /// The expression of an assignment: an `and` outside its brackets ends it.
    pub(super) fn assigned(&mut self) -> Result<Outermost<'text>, Refusal> {
        self.measured(false)
    }

    fn measured(&mut self, joins_and: bool) -> Result<Outermost<'text>, Refusal> {
        let place = self.place();
        let whole = self.operation(OR, joins_and)?;
        if whole.depth > limits::DEPTH || whole.longest_list > limits::LIST_ELEMENTS {
            self.notes.too_large.get_or_insert(place);
        }
        Ok(Outermost { place, expression: whole.expression })
    }

    /// Operands joined by operators that bind at least as tightly as `lowest`;
    /// each level groups to the left.
    fn operation(&mut self, lowest: Level, joins_and: bool) -> Result<Part<'text>, Refusal> {
        let mut left = self.operand()?;
        while let Some((level, operator)) = infix(self.kind()) {
            if level < lowest || (self.kind() == Kind::And && !joins_and) {
                break;
            }
            if operator.is_none() {
                self.leave_out();
            }
            self.at += 1;
            self.notes.parts += 1;
            let right = self.operation(level + 1, joins_and)?;
            let (depth, list) = (left.depth.max(right.depth), left.longest_list.max(right.longest_list));
            left = Part::of(depth, list, || match operator {
                Some(operator) => Expression::Infix(operator, Box::new([left.expression, right.expression])),
                None => Expression::Refused,
            });
        }
        Ok(left)
    }

    /// A primary with any number of minus signs before it.
    fn operand(&mut self) -> Result<Part<'text>, Refusal> {
        let first = self.at;
        while self.passes(Kind::Minus) {}
        let signs = self.at - first;
        let mut operand = self.primary()?;
        self.notes.parts += signs;
        for _ in 0..signs {
            operand = Part::of(operand.depth, operand.longest_list, || {
                Expression::Call(Functor::Minus, vec![operand.expression])
            });
        }
        Ok(operand)
    }

    fn primary(&mut self) -> Result<Part<'text>, Refusal> {
        let token = self.token();
        let leaf = match token.kind {
            Kind::Atom | Kind::QuotedAtom => return self.name_or_call(),
            Kind::OpenSquare => return self.list(),
            Kind::OpenRound => return self.parenthesis(),
            Kind::ResultOf | Kind::Netsupport => return self.left_out_primary(),
            Kind::Integer => number(Number::read_integer(token.written(self.text))),
            Kind::Float => number(Number::read_float(token.written(self.text))),
            Kind::DoubleQuotedString => Expression::Text(token.inner(self.text)),
            Kind::ExponentFloat => {
                self.leave_out();
                Expression::Refused
            }
            _ => return self.stop(),
        };
        self.at += 1;
        Ok(self.leaf(leaf))
    }

    fn leaf(&mut self, expression: Expression<'text>) -> Part<'text> {
        self.notes.parts += 1;
        Part { expression, depth: 1, longest_list: 0 }
    }

    fn name_or_call(&mut self) -> Result<Part<'text>, Refusal> {
        if self.tokens[self.at + 1].kind == Kind::OpenRound {
            return self.call();
        }
        let name = self.data_name()?;
        Ok(self.leaf(Expression::Atom(name.text)))
    }

    /// A functor and its arguments in brackets.
    fn call(&mut self) -> Result<Part<'text>, Refusal> {
        let functor = Functor::named(self.token().inner(self.text));
        if functor.is_none() {
            self.leave_out();
        }
        self.at += 2;
        let Series { expressions, depth, longest_list } = self.series(Kind::CloseRound)?;
        Ok(Part::of(depth, longest_list, || match functor {
            Some(functor) => Expression::Call(functor, expressions),
            None => Expression::Refused,
        }))
    }

    fn list(&mut self) -> Result<Part<'text>, Refusal> {
        self.at += 1;
        let Series { expressions, depth, longest_list } = self.series(Kind::CloseSquare)?;
        let longest_list = longest_list.max(expressions.len());
        Ok(Part::of(depth, longest_list, || Expression::List(expressions)))
    }

    /// Expressions between commas, none or more, up to a closing bracket. What
    /// holds them is a part.
    fn series(&mut self, close: Kind) -> Result<Series<'text>, Refusal> {
        self.notes.parts += 1;
        let mut series = Series::default();
        if self.passes(close) {
            return Ok(series);
        }
        loop {
            let part = self.operation(OR, true)?;
            series.depth = series.depth.max(part.depth);
            series.longest_list = series.longest_list.max(part.longest_list);
            series.expressions.push(part.expression);
            if !self.passes(Kind::Comma) {
                self.expect(close)?;
                return Ok(series);
            }
        }
    }

    fn parenthesis(&mut self) -> Result<Part<'text>, Refusal> {
        self.at += 1;
        let inner = self.operation(OR, true)?;
        self.expect(Kind::CloseRound)?;
        Ok(Part::of(inner.depth, inner.longest_list, || inner.expression))
    }

    /// `result_of` or `netsupport`.
    fn left_out_primary(&mut self) -> Result<Part<'text>, Refusal> {
        self.leave_out();
        let names = if self.kind() == Kind::Netsupport { 2 } else { 1 };
        self.at += 1;
        self.expect(Kind::OpenRound)?;
        self.atom()?;
        if names == 2 {
            self.expect(Kind::Comma)?;
            self.atom()?;
        }
        self.expect(Kind::CloseRound)?;
        Ok(self.leaf(Expression::Refused))
    }
}

/// A literal; one beyond its limits is refused as a token.
fn number<'text>(number: Option<Number>) -> Expression<'text> {
    number.map_or(Expression::Refused, Expression::Number)
}
