//! What naga's files use of files of naga that are not at hand.
use crate::{Expression, Handle, Scalar, ScalarKind};

pub type FastIndexMap<K, V> =
    indexmap::IndexMap<K, V, rustc_hash::FxBuildHasher>;
pub type FastIndexSet<K> =
    indexmap::IndexSet<K, rustc_hash::FxBuildHasher>;
pub type NamedExpressions = FastIndexMap<Handle<Expression>, String>;

pub const BOOL_WIDTH: u8 = 1;
pub const ABSTRACT_WIDTH: u8 = 8;

/// The length of an array, with which naga's file on lengths begins.
pub enum IndexableLength {
    Known(u32),
    Dynamic,
}

pub mod error {
    pub fn replace_control_chars(text: &str) -> std::borrow::Cow<'_, str> {
        text.into()
    }
}

const fn scalar(kind: ScalarKind, width: u8) -> Scalar {
    Scalar { kind, width }
}

impl Scalar {
    pub const I16: Self = scalar(ScalarKind::Sint, 2);
    pub const U16: Self = scalar(ScalarKind::Uint, 2);
    pub const I32: Self = scalar(ScalarKind::Sint, 4);
    pub const U32: Self = scalar(ScalarKind::Uint, 4);
    pub const F16: Self = scalar(ScalarKind::Float, 2);
    pub const F32: Self = scalar(ScalarKind::Float, 4);
    pub const F64: Self = scalar(ScalarKind::Float, 8);
    pub const I64: Self = scalar(ScalarKind::Sint, 8);
    pub const U64: Self = scalar(ScalarKind::Uint, 8);
    pub const BOOL: Self = scalar(ScalarKind::Bool, BOOL_WIDTH);
    pub const ABSTRACT_INT: Self = scalar(ScalarKind::AbstractInt, ABSTRACT_WIDTH);
    pub const ABSTRACT_FLOAT: Self = scalar(ScalarKind::AbstractFloat, ABSTRACT_WIDTH);
}

/// A stand-in for log.
pub mod log {
    pub enum Level {
        Warn,
        Info,
    }
}
