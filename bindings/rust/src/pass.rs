//! The passes and their names.

/// A pass over a module.
#[non_exhaustive]
#[derive(Clone, Copy, Debug, PartialEq, Eq, Hash)]
pub enum Pass {
    /// Removes the statements that follow one that diverges by its form. A statement behind a `loop {}` stays.
    Cull,
    /// Inserts the returns that are missing, so that no run of a body falls off its end.
    Close,
    /// Inserts the returns that naga inserts: none after a `Switch`.
    CloseNaga,
    /// Removes what is not used by an entry point, by a special type, or by a named constant of a concrete type.
    Compact,
    /// The same, but keeps all functions, all global variables, and named types and overrides.
    CompactKeepUnused,
    /// Clamps each access that may be out of bounds. It is an error if one cannot be clamped.
    Restrict,
}

impl Pass {
    /// All passes.
    pub const ALL: [Pass; 6] = [
        Pass::Cull,
        Pass::Close,
        Pass::CloseNaga,
        Pass::Compact,
        Pass::CompactKeepUnused,
        Pass::Restrict,
    ];

    /// Returns the name of the pass, as the program `naga_opt` takes it.
    pub fn name(self) -> &'static str {
        match self {
            Pass::Cull => "cull",
            Pass::Close => "close",
            Pass::CloseNaga => "close-naga",
            Pass::Compact => "compact",
            Pass::CompactKeepUnused => "compact-keep-unused",
            Pass::Restrict => "restrict",
        }
    }
}
