//! The parts of expressions.

use enumset::EnumSetType;

/// A part of an expression.
#[derive(EnumSetType, Debug)]
#[enumset(no_ops)]
pub enum Part {
    /// Products, with `+` or `-` between them.
    Sum,
    /// Operands, with `*` or `/` between them.
    Product,
    /// A number, an operand after a minus, or a sum in parentheses.
    Operand,
}
