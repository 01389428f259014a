use {
    enumset::{EnumSet, EnumSetType},
    std::cmp::Ordering,
};

/// Kinds of nodes in a tree.
#[derive(EnumSetType, Debug)]
#[enumset(no_ops = true, repr = r"u8")]
#[must_use]
pub enum Node {
    Module,
    Function,
    #[deprecated(note = "write a function")]
    Lambda,
    Call,
}

/// How two nodes are ordered.
pub fn order(a: Node, b: Node) -> Ordering {
    (a as u8).cmp(&(b as u8))
}

pub type Nodes = EnumSet<Node>;
