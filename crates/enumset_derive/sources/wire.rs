//! Frames of a protocol.

use enumset::EnumSetType;
use serde::Serialize;

/// A kind of frame.
#[derive(EnumSetType, Debug, Serialize)]
#[serde(rename_all = "kebab-case")]
#[enumset(serialize_repr = "map", serialize_deny_unknown, no_ops)]
pub enum Frame {
    OpenStream,
    #[serde(rename = "payload")]
    Data,
    CloseStream,
}
