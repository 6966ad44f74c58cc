//! The tree of an expression, by document 01's grouping. The tokens are known
//! to be an expression, and nothing left out is among them; so two stacks, one
//! of operands and one of what still waits for its operands, are all it takes.

use crate::expression::{Expression, Infix, Outermost, UNARY_MINUS};
use crate::number::Number;
use crate::token::{Kind, Token};

/// How tightly an operator binds: `or` is the loosest. `#` and `++` would stand
/// between membership and `+`.
type Level = u8;

/// The infix operator that a token is, with its level.
fn infix(token: &Token) -> Option<(Infix, Level)> {
    Some(match token.reserved()? {
        "or" | "OR" => (Infix::Or, 1),
        "and" | "AND" => (Infix::And, 2),
        "<" => (Infix::Less, 3),
        "<=" | "=<" => (Infix::LessOrEqual, 3),
        ">" => (Infix::Greater, 3),
        ">=" | "=>" => (Infix::GreaterOrEqual, 3),
        "=" => (Infix::Equal, 3),
        "!=" => (Infix::NotEqual, 3),
        "include" | "includes" => (Infix::Includes, 3),
        "oneof" => (Infix::Oneof, 3),
        "+" => (Infix::Plus, 5),
        "-" => (Infix::Minus, 5),
        "*" => (Infix::Times, 6),
        "/" => (Infix::Over, 6),
        _ => return None,
    })
}

/// What waits for its operands.
enum Pending {
    Infix(Infix, Level),
    /// Unary minus, the tightest of all.
    Minus,
    Parenthesis,
    /// A functor and how many operands there were before its arguments.
    Call(String, usize),
    /// How many operands there were before the list's elements.
    List(usize),
}

struct Operand {
    expression: Expression,
    depth: usize,
}

#[derive(Default)]
struct Grouping {
    operands: Vec<Operand>,
    pending: Vec<Pending>,
    parts: usize,
    longest_list: usize,
}

/// The tree of these tokens, which are an expression, and its measures.
pub fn group(tokens: &[Token]) -> Outermost {
    let mut grouping = Grouping::default();
    let mut wants_operand = true;
    for (index, token) in tokens.iter().enumerate() {
        wants_operand = match wants_operand {
            true => grouping.begin(tokens, index),
            false => grouping.go_on(token),
        };
    }
    grouping.settle(0);
    let whole = grouping.operands.pop().expect("an expression is one operand");
    Outermost {
        place: tokens[0].place,
        expression: whole.expression,
        depth: whole.depth,
        parts: grouping.parts,
        longest_list: grouping.longest_list,
    }
}

impl Grouping {
    /// Takes a token where an operand may begin (or an empty bracket end), and
    /// says whether an operand is still wanted after it. An atom before a
    /// bracket is a functor, and its call waits from the bracket on.
    fn begin(&mut self, tokens: &[Token], index: usize) -> bool {
        let token = &tokens[index];
        let functor = tokens[..index].last().filter(|before| before.is_atom());
        let opens_call = tokens.get(index + 1).is_some_and(|next| next.is("("));
        match token.kind {
            Kind::Integer => self.leaf(Expression::Number(Number::read_integer(token.written))),
            Kind::Float => self.leaf(Expression::Number(Number::read_float(token.written))),
            Kind::DoubleQuotedString => self.leaf(Expression::Text(token.inner().to_string())),
            _ if token.is_atom() && opens_call => true,
            _ if token.is_atom() => self.leaf(Expression::Atom(token.inner().to_string())),
            _ => match token.reserved() {
                Some("(") => match functor {
                    Some(name) => self.wait(Pending::Call(name.inner().to_string(), self.operands.len())),
                    None => self.wait(Pending::Parenthesis),
                },
                Some("[") => self.wait(Pending::List(self.operands.len())),
                Some("-") => self.wait(Pending::Minus),
                _ => self.close(),
            },
        }
    }

    /// Takes a token after an operand, and says whether one is wanted again.
    fn go_on(&mut self, token: &Token) -> bool {
        if let Some((operator, level)) = infix(token) {
            self.settle(level);
            return self.wait(Pending::Infix(operator, level));
        }
        self.settle(0);
        if token.is(",") {
            return true;
        }
        self.close()
    }

    fn wait(&mut self, pending: Pending) -> bool {
        self.pending.push(pending);
        true
    }

    fn leaf(&mut self, expression: Expression) -> bool {
        self.parts += 1;
        self.operands.push(Operand { expression, depth: 1 });
        false
    }

    /// Applies the waiting operators that bind as tightly as `level` or more:
    /// each level groups to the left.
    fn settle(&mut self, level: Level) {
        loop {
            match self.pending.last() {
                Some(Pending::Minus) => {
                    let operand = self.operands.split_off(self.operands.len() - 1);
                    self.apply(operand, |operand| Expression::Call(UNARY_MINUS.to_string(), operand));
                }
                Some(Pending::Infix(operator, waiting)) if *waiting >= level => {
                    let operator = *operator;
                    let both = self.operands.split_off(self.operands.len() - 2);
                    self.apply(both, |both| {
                        let [left, right] = both.try_into().expect("an infix operator has two operands");
                        Expression::Infix(operator, Box::new(left), Box::new(right))
                    });
                }
                _ => return,
            }
            self.pending.pop();
        }
    }

    /// A closing bracket: what waited for it is an operand now.
    fn close(&mut self) -> bool {
        match self.pending.pop().expect("a bracket was opened") {
            Pending::Call(functor, before) => {
                let arguments = self.operands.split_off(before);
                self.apply(arguments, |arguments| Expression::Call(functor, arguments));
            }
            Pending::List(before) => {
                let elements = self.operands.split_off(before);
                self.longest_list = self.longest_list.max(elements.len());
                self.apply(elements, Expression::List);
            }
            _ => {
                let inner = self.operands.split_off(self.operands.len() - 1);
                self.apply(inner, |mut inner| Expression::Parenthesis(Box::new(inner.remove(0))));
                self.parts -= 1;
            }
        }
        false
    }

    /// Puts together one operand out of others: one more part, and deeper by one.
    fn apply(&mut self, operands: Vec<Operand>, make: impl FnOnce(Vec<Expression>) -> Expression) {
        let deepest = operands.iter().map(|operand| operand.depth).max().unwrap_or(0);
        let expression = make(operands.into_iter().map(|operand| operand.expression).collect());
        self.operands.push(Operand { expression, depth: deepest + 1 });
        self.parts += 1;
    }
}
