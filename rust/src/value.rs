//! Values: as they are given to data items, and as rows show them.

/// One value that is no list.
#[derive(Clone, Debug, PartialEq, Eq, Hash)]
pub enum Scalar {
    Unknown,
    Truth(bool),
    Integer(i64),
    /// In thousandths: -500 is -0.5.
    Real(i64),
    Text(Vec<u8>),
}

/// A value: one, or a list.
#[derive(Clone, Debug, PartialEq, Eq, Hash)]
pub enum Value {
    One(Scalar),
    List(Vec<Scalar>),
}

impl Value {
    pub const UNKNOWN: Value = Value::One(Scalar::Unknown);

    /// A real, in thousandths.
    pub fn real(thousandths: i64) -> Value {
        Value::One(Scalar::Real(thousandths))
    }
}

impl From<bool> for Scalar {
    fn from(truth: bool) -> Scalar {
        Scalar::Truth(truth)
    }
}

impl From<i64> for Scalar {
    fn from(integer: i64) -> Scalar {
        Scalar::Integer(integer)
    }
}

impl From<&str> for Scalar {
    fn from(text: &str) -> Scalar {
        Scalar::Text(text.as_bytes().to_vec())
    }
}

impl<S: Into<Scalar>> From<S> for Value {
    fn from(scalar: S) -> Value {
        Value::One(scalar.into())
    }
}

impl<S: Into<Scalar>> FromIterator<S> for Value {
    fn from_iter<I: IntoIterator<Item = S>>(elements: I) -> Value {
        Value::List(elements.into_iter().map(Into::into).collect())
    }
}

impl<S: Into<Scalar>, const N: usize> From<[S; N]> for Value {
    fn from(elements: [S; N]) -> Value {
        elements.into_iter().collect()
    }
}
