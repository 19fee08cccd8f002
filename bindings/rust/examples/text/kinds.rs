//! The kinds of boxes in words.

/// The word for each kind, at the place of its byte.
pub const KINDS: [&str; 4] = ["user", "file", "group", "folder"];
