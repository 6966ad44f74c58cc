//! Values to add: right ones, ones at and past each limit, and of other kinds.

use super::random::Random;
use crate::given::Given;
use crate::limits::{INTEGER, LIST_ELEMENTS, NAME_BYTES, REAL_THOUSANDTHS};
use crate::types::Type;

const TYPES: [Type; 6] =
    [Type::Text, Type::Integer, Type::Real, Type::SetofText, Type::SetofInteger, Type::SetofReal];

/// The most that a script can give.
const LARGEST_INTEGER: i64 = (1 << 31) - 1;
const LARGEST_REAL: i64 = (1 << 62) - 1;
const LONGEST_TEXT: usize = 64;
const LONGEST_LIST: usize = 20;

/// A value for an item of this type: mostly right.
pub fn value(wanted: Type, random: &mut Random) -> Given {
    match random.below(20) {
        0..=11 => right(wanted, random),
        12 => Given::Unknown,
        13..=16 => at_a_limit(wanted, random),
        17 => Given::Truth(random.chance(50)),
        18 => right(random.pick(&TYPES), random),
        _ => mixed_list(random),
    }
}

/// A value that is accepted, and that conditions may ask for.
pub fn right(wanted: Type, random: &mut Random) -> Given {
    match wanted {
        Type::Integer => Given::Integer(random.between(-1, 3)),
        Type::Real if random.chance(40) => Given::Integer(random.between(-1, 3)),
        Type::Real => Given::Real(random.pick(&[0, 500, 2_000, -1_250, 1, -1])),
        Type::SetofText => list(Type::Text, random),
        Type::SetofInteger => list(Type::Integer, random),
        Type::SetofReal => list(Type::Real, random),
        _ => Given::Text(random.pick(&["yes", "no", "", "Yes", "two words", "\0\n\x7f"]).as_bytes().to_vec()),
    }
}

fn list(element: Type, random: &mut Random) -> Given {
    let length = random.below(4);
    let of_list =
        |random: &mut Random| if random.chance(15) { Given::Unknown } else { right(element, random) };
    Given::List((0..length).map(|_| of_list(random)).collect())
}

/// At a limit, one past it, or as far past it as a script can say.
fn at_a_limit(wanted: Type, random: &mut Random) -> Given {
    let sign = random.pick(&[1, -1]);
    let past = random.pick(&[0, 0, 1]);
    match wanted {
        Type::Integer => Given::Integer(sign * random.pick(&[INTEGER + past, LARGEST_INTEGER])),
        Type::Real => match random.below(4) {
            0 => Given::Integer(sign * (INTEGER + past)),
            1 => Given::Real(sign * LARGEST_REAL),
            _ => Given::Real(sign * (REAL_THOUSANDTHS + past)),
        },
        Type::SetofText => long_list(Type::Text, random),
        Type::SetofInteger => long_list(Type::Integer, random),
        Type::SetofReal => long_list(Type::Real, random),
        _ => text_at_a_limit(random),
    }
}

/// 48 bytes, 49 or as many as can be; or a byte over 127.
fn text_at_a_limit(random: &mut Random) -> Given {
    let length = random.pick(&[NAME_BYTES, NAME_BYTES, NAME_BYTES + 1, LONGEST_TEXT]);
    Given::Text(match random.below(4) {
        0 => vec![b'a', random.pick(&[127, 128, 255])],
        _ => vec![random.pick(b"aZ '\\"); length],
    })
}

/// 16 elements, 17 or as many as can be; or an element past its own limit.
fn long_list(element: Type, random: &mut Random) -> Given {
    let length = random.pick(&[LIST_ELEMENTS, LIST_ELEMENTS, LIST_ELEMENTS + 1, LONGEST_LIST]);
    match random.below(4) {
        0 => Given::List(vec![right(element, random), at_a_limit(element, random)]),
        _ => Given::List((0..length).map(|_| right(element, random)).collect()),
    }
}

/// A list of whatever comes, so that kinds and limits are wrong together.
fn mixed_list(random: &mut Random) -> Given {
    let length = random.pick(&[1, 2, 3, LIST_ELEMENTS + 1]);
    let of_any = |random: &mut Random| {
        let wanted = random.pick(&TYPES[..3]);
        match random.below(6) {
            0 => Given::Truth(random.chance(50)),
            1 => at_a_limit(wanted, random),
            _ => right(wanted, random),
        }
    };
    Given::List((0..length).map(|_| of_any(random)).collect())
}
