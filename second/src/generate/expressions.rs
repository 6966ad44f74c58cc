//! Random expressions: well typed ones of a wanted type, and wild ones.

use super::random::Random;
use super::words::{words, Words};
use crate::types::Type;

/// How tightly an expression's outermost operator binds; 8 for none.
type Level = u8;

const UNARY: Level = 7;
const PRIMARY: Level = 8;

const INTEGERS: [&str; 22] = [
    "0", "1", "2", "3", "5", "7", "10", "-1", "-2", "-7", "100", "999", "1000", "1414", "1415", "2000", "-0",
    "007", "1999999", "2000000", "-2000000", "-1999999",
];
const REALS: [&str; 20] = [
    "0.5", ".5", "1.", "2.0", "-0.5", "-.25", "-1.", "0.001", "-0.001", "0.125", "1.999", "0.999", "3.14",
    "-0.0", "10.000", "1000.5", "1999999.999", "2000000.0", "-2000000.000", "0000.100",
];
const TEXTS: [&str; 24] = [
    "a", "b", "B", "abc", "ABD", "abcd", "yes", "no", "unknown", "true", "_x1", "Zebra", "'two words'", "''",
    "'a'", "'it\\'s'", "'plan'", "'_'", "\"a\"", "\"\"", "\"Yes\"", "\"a b\"", "\"say \\\"x\\\"\"", "\"[\"",
];
const FUNCTORS: [&str; 15] = [
    "min", "max", "sum", "count", "nth", "not", "if", "isknown", "is_dormant", "'-'", "Min", "f", "'+'",
    "'min'", "''",
];
const INFIX: [&str; 14] =
    ["+", "-", "*", "/", "<", "=", "!=", "and", "or", "AND", "OR", "includes", "include", "oneof"];
const COMPARISONS: [&str; 8] = ["<", "<=", "=<", ">", ">=", "=>", "=", "!="];
pub const EVERY_TYPE: [Type; 8] = [
    Type::Text,
    Type::Integer,
    Type::Real,
    Type::SetofText,
    Type::SetofInteger,
    Type::SetofReal,
    Type::SetofAnything,
    Type::TruthValue,
];

/// An expression and the level of its outermost operator.
struct Made {
    words: Words,
    level: Level,
}

/// A maker of expressions over some data items and tasks.
pub struct Expressions<'world> {
    pub random: &'world mut Random,
    /// Names as they may be written, with the types of their items.
    pub items: &'world [(String, Type)],
    pub tasks: &'world [String],
}

impl Expressions<'_> {
    /// An expression that is, or promotes to, the wanted type (now and then
    /// brackets left away spoil that).
    pub fn well_typed(&mut self, wanted: Type, depth: usize) -> Words {
        self.make(wanted, depth).words
    }

    /// An expression whose operators are applied to whatever comes.
    pub fn wild(&mut self, depth: usize) -> Words {
        let wanted = self.random.pick(&EVERY_TYPE);
        if depth == 0 || self.random.chance(25) {
            return self.well_typed(wanted, depth);
        }
        let (left, right) = (self.wild(depth - 1), self.wild(depth - 1));
        match self.random.below(6) {
            0 => [words("["), left, words(","), right, words("]")].concat(),
            1 => [words(self.functor()), words("("), left, words(")")].concat(),
            2 => [words(self.functor()), words("("), left, words(","), right, words(")")].concat(),
            3 => [words("- "), left].concat(),
            _ => [left, words(self.random.pick(&INFIX)), right].concat(),
        }
    }

    fn functor(&mut self) -> &'static str {
        self.random.pick(&FUNCTORS)
    }

    /// The wanted type, or now and then one that promotes to it. (An empty list
    /// does not pass for a set of texts everywhere, and comes as a list.)
    fn before_promotion(&mut self, wanted: Type) -> Type {
        match wanted {
            Type::Real if self.random.chance(20) => Type::Integer,
            Type::SetofReal if self.random.chance(20) => Type::SetofInteger,
            _ => wanted,
        }
    }

    fn make(&mut self, wanted: Type, depth: usize) -> Made {
        let wanted = self.before_promotion(wanted);
        let made = match depth {
            0 => self.leaf(wanted),
            _ if self.random.chance(20) => self.leaf(wanted),
            _ => self.applied(wanted, depth - 1),
        };
        match self.random.chance(6) {
            true => Made { words: bracketed(made.words), level: PRIMARY },
            false => made,
        }
    }

    fn leaf(&mut self, wanted: Type) -> Made {
        let items: Vec<&String> =
            self.items.iter().filter(|item| item.1 == wanted).map(|item| &item.0).collect();
        if !items.is_empty() && self.random.chance(60) {
            return primary(vec![items[self.random.below(items.len())].clone()]);
        }
        match wanted {
            Type::Text => primary(vec![self.random.pick(&TEXTS).to_string()]),
            Type::Integer => self.integer(),
            Type::Real => self.real(),
            Type::SetofText => self.list(Type::Text, 0),
            Type::SetofInteger => self.list(Type::Integer, 0),
            Type::SetofReal => self.list(Type::Real, 0),
            Type::SetofAnything => primary(words("[ ]")),
            Type::TruthValue => self.comparison(0),
        }
    }

    fn integer(&mut self) -> Made {
        let chosen = match self.random.chance(60) {
            true => self.random.pick(&INTEGERS).to_string(),
            false => self.random.between(-50, 50).to_string(),
        };
        primary(vec![chosen])
    }

    fn real(&mut self) -> Made {
        let chosen = match self.random.chance(60) {
            true => self.random.pick(&REALS).to_string(),
            false => format!("{}.{}", self.random.between(-20, 20), self.random.below(1_000)),
        };
        primary(vec![chosen])
    }

    fn applied(&mut self, wanted: Type, depth: usize) -> Made {
        match wanted {
            Type::Integer | Type::Real => self.number(wanted, depth),
            Type::Text => self.text(depth),
            Type::TruthValue => self.truth(depth),
            _ if self.random.chance(20) => self.conditional(wanted, depth),
            Type::SetofText => self.list(Type::Text, depth),
            Type::SetofInteger => self.list(Type::Integer, depth),
            Type::SetofReal => self.list(Type::Real, depth),
            Type::SetofAnything => primary(words("[ ]")),
        }
    }

    fn number(&mut self, wanted: Type, depth: usize) -> Made {
        let set = if wanted == Type::Integer { Type::SetofInteger } else { Type::SetofReal };
        match self.random.below(12) {
            0..=2 => self.infix(&["+", "-"], 5, (wanted, wanted), depth),
            3 | 4 => self.infix(&["*"], 6, (wanted, wanted), depth),
            5 if wanted == Type::Real => self.infix(&["/"], 6, (wanted, wanted), depth),
            5 => {
                let counted = self.random.pick(&[Type::SetofText, Type::SetofReal, Type::SetofInteger]);
                self.call("count", &[counted], depth)
            }
            6 => self.minus(wanted, depth),
            7 => self.call("sum", &[set], depth),
            8 => self.call("max", &[set], depth),
            9 => self.call("min", &[set], depth),
            10 => self.call("nth", &[Type::Integer, set], depth),
            _ => self.conditional(wanted, depth),
        }
    }

    fn text(&mut self, depth: usize) -> Made {
        match self.random.below(4) {
            0 => self.call("max", &[Type::SetofText], depth),
            1 => self.call("min", &[Type::SetofText], depth),
            2 => self.call("nth", &[Type::Integer, Type::SetofText], depth),
            _ => self.conditional(Type::Text, depth),
        }
    }

    fn truth(&mut self, depth: usize) -> Made {
        let truth = Type::TruthValue;
        match self.random.below(14) {
            0 | 1 => self.infix(&["and", "AND"], 2, (truth, truth), depth),
            2 | 3 => self.infix(&["or", "OR"], 1, (truth, truth), depth),
            4 => self.call("not", &[truth], depth),
            5 => {
                let known = self.random.pick(&EVERY_TYPE);
                self.call("isknown", &[known], depth)
            }
            6 => self.infix(&["includes", "include"], 3, (Type::SetofText, Type::Text), depth),
            7 => self.infix(&["includes", "include"], 3, (Type::SetofReal, Type::Real), depth),
            8 => self.infix(&["oneof"], 3, (Type::Text, Type::SetofText), depth),
            9 => self.infix(&["oneof"], 3, (Type::Integer, Type::SetofInteger), depth),
            10 => self.conditional(truth, depth),
            11 => self.state(),
            _ => self.comparison(depth),
        }
    }

    fn comparison(&mut self, depth: usize) -> Made {
        let compared = match depth {
            0 => [Type::Integer, Type::Real, Type::Text],
            _ => [Type::Real, Type::SetofReal, Type::SetofText],
        };
        let one = self.random.pick(&compared);
        let other = match one {
            Type::SetofReal | Type::SetofText if self.random.chance(15) => Type::SetofAnything,
            _ => one,
        };
        self.infix(&COMPARISONS, 3, (one, other), depth)
    }

    fn state(&mut self) -> Made {
        let functor = self.random.pick(&["is_dormant", "is_in_progress", "is_discarded", "is_completed"]);
        let task = match self.tasks.is_empty() {
            true => "a".to_string(),
            false => self.random.choose(self.tasks).clone(),
        };
        primary([words(functor), words("("), vec![task], words(")")].concat())
    }

    fn conditional(&mut self, wanted: Type, depth: usize) -> Made {
        self.call("if", &[Type::TruthValue, wanted, wanted], depth)
    }

    fn call(&mut self, functor: &str, arguments: &[Type], depth: usize) -> Made {
        let mut made = words(functor);
        made.push("(".to_string());
        for (index, argument) in arguments.iter().enumerate() {
            if index > 0 {
                made.push(",".to_string());
            }
            made.extend(self.make(*argument, depth).words);
        }
        made.push(")".to_string());
        primary(made)
    }

    fn list(&mut self, element: Type, depth: usize) -> Made {
        let length = self.random.pick(&[0, 1, 1, 2, 2, 2, 3, 3, 4, 5]);
        // An empty list does not pass for a set of texts everywhere.
        let length = if element == Type::Text { length.max(1) } else { length };
        let mut made = words("[");
        for index in 0..length {
            if index > 0 {
                made.push(",".to_string());
            }
            made.extend(self.make(element, depth).words);
        }
        made.push("]".to_string());
        primary(made)
    }

    fn minus(&mut self, wanted: Type, depth: usize) -> Made {
        let operand = self.make(wanted, depth);
        let operand = if operand.level >= UNARY { operand.words } else { bracketed(operand.words) };
        match self.random.chance(15) {
            true => primary([words("'-' ("), operand, words(")")].concat()),
            false => Made { words: [words("-"), operand].concat(), level: UNARY },
        }
    }

    /// Two operands, bracketed where the grouping asks for it, or rarely not.
    fn infix(&mut self, operators: &[&str], level: Level, types: (Type, Type), depth: usize) -> Made {
        let (left, right) = (self.make(types.0, depth), self.make(types.1, depth));
        let careless = self.random.chance(1);
        let left = if left.level >= level || careless { left.words } else { bracketed(left.words) };
        let right = if right.level > level || careless { right.words } else { bracketed(right.words) };
        let operator = words(self.random.pick(operators));
        Made { words: [left, operator, right].concat(), level }
    }
}

fn primary(words: Words) -> Made {
    Made { words, level: PRIMARY }
}

fn bracketed(inner: Words) -> Words {
    [words("("), inner, words(")")].concat()
}
