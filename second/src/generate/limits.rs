//! Expressions at and just past each limit, and hostile ones.

use super::random::Random;
use super::words::{words, Words};
use crate::limits;

/// A little below the limit, at it, or past it.
pub fn around(limit: usize, random: &mut Random) -> usize {
    limit + random.below(4) - 2
}

/// A text or name of some bytes: bare, in single or in double quotes.
pub fn long_name(length: usize, random: &mut Random) -> String {
    let inner = "Long_name_".repeat(length / 10 + 1)[..length].to_string();
    match random.below(3) {
        0 if length > 0 => inner,
        1 => format!("\"{inner}\""),
        _ => format!("'{inner}'"),
    }
}

const INTEGERS: [&str; 6] =
    ["2000000", "2000001", "-2000000", "-2000001", "0002000000", "99999999999999999999"];

const REALS: [&str; 9] =
    ["0.125", "0.1250", "2000000.000", "2000000.001", "-2000000.001", "1.", ".0001", "2000001.", "-.999"];

/// A number or a call around one of the limits; rarely the long one on parts.
pub fn expression(random: &mut Random) -> Words {
    let depth = around(limits::DEPTH, random);
    let name = long_name(around(limits::NAME_BYTES, random), random);
    match random.below(34) / 3 {
        0 => words(random.pick(&INTEGERS)),
        1 => words(random.pick(&REALS)),
        2 => words(&format!("count ( [ {name} ] )")),
        3 => words(&format!("{} ( 1 )", name.replace('"', "'"))),
        4 => list(around(limits::LIST_ELEMENTS, random)),
        5 => repeated("(", depth - 1, "1", ")"),
        6 => repeated("min ( [", (depth - 1) / 2, "1", "] )"),
        7 => repeated("-", depth - 1, "1", ""),
        8 => repeated("", depth - 1, "1", "+ 1"),
        9 => repeated("( 1 -", depth / 2, "1", ")"),
        10 => repeated("(", around(limits::OPEN_BRACKETS, random), "1", ")"),
        _ => parts(around(limits::EXPRESSION_PARTS, random)),
    }
}

/// Something that asks much of a reader.
pub fn hostile(random: &mut Random) -> Words {
    let many = random.between(30, limits::TOKENS as i64 / 2 + 10) as usize;
    match random.below(12) {
        0 => repeated("-", 2 * many, "1", ""),
        1 => repeated("", many, "1", "+ 1"),
        2 => repeated("(", many, "1", ")"),
        3 => repeated("[", many, "", "]"),
        4 => repeated("", many / 2, "1", ") ("),
        5 => [words("f ("), repeated("", many - 3, "1", ", 1"), words(")")].concat(),
        6 => list(many),
        7 => vec!["1".to_string(), "'never closed".to_string()],
        8 => vec!["1".to_string(), "\"never closed \\\"".to_string()],
        9 => vec!["1".to_string(), "/** never closed **".to_string(), "1".to_string()],
        10 => repeated("", many, "a", "a"),
        _ => repeated("not ( 1 = 1 and", random.below(26), "1 = 1", ")"),
    }
}

/// `before` some times, the middle, and `after` as many times.
fn repeated(before: &str, times: usize, middle: &str, after: &str) -> Words {
    let many = |text: &str| words(&format!("{text} ").repeat(times));
    [many(before), words(middle), many(after)].concat()
}

fn list(length: usize) -> Words {
    let elements = vec!["1"; length].join(" , ");
    words(&format!("count ( [ {elements} ] )"))
}

/// A call of as many parts as are asked for. Each `max` of fourteen numbers is
/// sixteen of them.
fn parts(count: usize) -> Words {
    let mut arguments = Vec::new();
    let mut left = count - 1;
    while left > 16 {
        arguments.push("max ( [ 1 , 1 , 1 , 1 , 1 , 1 , 1 , 1 , 1 , 1 , 1 , 1 , 1 , 1 ] )");
        left -= 16;
    }
    arguments.extend(vec!["1"; left]);
    words(&format!("f ( {} )", arguments.join(" , ")))
}
