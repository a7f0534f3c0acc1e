//! Values and expressions, as far as the supplied files name them.

use crate::*;

#[derive(Clone, Debug)]
pub struct ValueMetadata {
    pub statically_known: bool,
}

#[derive(Clone, Debug)]
pub enum Value {
    Unknown,
    Void,
    Integer(ValueMetadata, util::BigInt),
}

impl Value {
    pub fn make_void() -> Value {
        Value::Void
    }

    pub fn make_integer(value: util::BigInt) -> Value {
        Value::Integer(ValueMetadata { statically_known: false }, value)
    }

    pub fn statically_known_if(self, known: bool) -> Value {
        match self {
            Value::Integer(_, value) => Value::Integer(ValueMetadata { statically_known: known }, value),
            other => other,
        }
    }

    pub fn is_statically_known(&self) -> bool {
        matches!(self, Value::Integer(ValueMetadata { statically_known: true }, _))
    }

    /// The same number, however it became known.
    pub fn is_same_number(&self, other: &Value) -> bool {
        match (self, other) {
            (Value::Integer(_, a), Value::Integer(_, b)) => a == b,
            _ => false,
        }
    }

    pub fn unwrap_bigint(&self) -> &util::BigInt {
        match self {
            Value::Integer(_, value) => value,
            _ => panic!("no integer"),
        }
    }

    pub fn expect_bigint(&self, report: &mut diagn::Report, span: diagn::Span) -> Result<&util::BigInt, ()> {
        match self {
            Value::Integer(_, value) => Ok(value),
            _ => {
                report.error_span("expected integer", span);
                Err(())
            }
        }
    }

    pub fn expect_usize(&self, report: &mut diagn::Report, span: diagn::Span) -> Result<usize, ()> {
        self.expect_bigint(report, span)?.checked_into::<usize>(report, span)
    }
}

impl std::fmt::Display for Value {
    fn fmt(&self, f: &mut std::fmt::Formatter) -> std::fmt::Result {
        write!(f, "{:?}", self)
    }
}

/// A literal: the only expression that form 1 can give.
#[derive(Clone, Debug)]
pub struct Expr {
    pub value: Value,
    pub span: diagn::Span,
}

impl Expr {
    pub fn number<T>(value: T, span: diagn::Span) -> Expr
    where
        util::BigInt: From<T>,
    {
        Expr { value: Value::make_integer(util::BigInt::from(value)), span }
    }

    pub fn span(&self) -> diagn::Span {
        self.span
    }
}
