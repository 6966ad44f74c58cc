//! Values as cells: a tag and a number each, as the calls for adding a value and for reading a row have them
//! (include/schotterei.h). The first tag is the shape: 0 for one value, k + 1 for a list of k.

use crate::value::{Scalar, Value};

/// The cells and bytes of a value that a row shows.
pub const FORM_CELLS: usize = 34;
pub const FORM_BYTES: usize = 768;
/// In them: the elements at most, and the first cell of their tags and of their numbers.
const ELEMENTS: usize = 16;
const TAGS: usize = 1;
const NUMBERS: usize = 18;
/// The number of 0: those of integers and of thousandths are so much larger.
const ZERO: i64 = 2_000_000_000;

const TRUTH: u32 = 1;
const INTEGER: u32 = 2;
const REAL: u32 = 3;
const TEXT: u32 = 4;

/// A handle is 64 times the place, and the length.
const HANDLE: usize = 64;

/// A value in cells, with the bytes of its texts.
#[derive(Clone, Debug, Default, PartialEq, Eq)]
pub struct Cells {
    pub tags: Vec<u32>,
    pub numbers: Vec<i64>,
    pub bytes: Vec<u8>,
}

impl Cells {
    pub fn of(value: &Value) -> Cells {
        let mut cells = Cells::default();
        let (shape, elements) = match value {
            Value::One(scalar) => (0, std::slice::from_ref(scalar)),
            Value::List(elements) => (elements.len() as u32 + 1, elements.as_slice()),
        };
        cells.put(shape, 0);
        for element in elements {
            cells.put_scalar(element);
        }
        cells
    }

    fn put(&mut self, tag: u32, number: i64) {
        self.tags.push(tag);
        self.numbers.push(number);
    }

    fn put_scalar(&mut self, scalar: &Scalar) {
        match scalar {
            Scalar::Unknown => self.put(0, 0),
            Scalar::Truth(truth) => self.put(TRUTH, i64::from(*truth)),
            Scalar::Integer(integer) => self.put(INTEGER, *integer),
            Scalar::Real(thousandths) => self.put(REAL, *thousandths),
            Scalar::Text(text) => {
                // No handle has a longer text; one of 63 bytes is over the limit of 48 as well.
                let text = &text[..text.len().min(HANDLE - 1)];
                self.put(TEXT, (HANDLE * self.bytes.len() + text.len()) as i64);
                self.bytes.extend_from_slice(text);
            }
        }
    }
}

/// A value that a row shows, in its one form: its shape and the tags of its elements, whether there is one and their
/// numbers, and 48 bytes for the text of each.
#[derive(Clone, Copy, Debug, PartialEq, Eq)]
pub struct Form {
    pub cells: [u32; FORM_CELLS],
    pub bytes: [u8; FORM_BYTES],
}

impl Form {
    pub const BLANK: Form = Form { cells: [0; FORM_CELLS], bytes: [0; FORM_BYTES] };

    pub fn value(&self) -> Value {
        match self.cells[0] as usize {
            0 => Value::One(self.element(0)),
            shape => Value::List((0..(shape - 1).min(ELEMENTS)).map(|index| self.element(index)).collect()),
        }
    }

    fn element(&self, index: usize) -> Scalar {
        let number = self.cells[NUMBERS + index];
        match self.cells[TAGS + index] {
            TRUTH => Scalar::Truth(number == 1),
            INTEGER => Scalar::Integer(i64::from(number) - ZERO),
            REAL => Scalar::Real(i64::from(number) - ZERO),
            TEXT => Scalar::Text(self.text(number as usize)),
            _ => Scalar::Unknown,
        }
    }

    fn text(&self, handle: usize) -> Vec<u8> {
        let (place, length) = (handle / HANDLE, handle % HANDLE);
        self.bytes.get(place..place + length).unwrap_or_default().to_vec()
    }
}
