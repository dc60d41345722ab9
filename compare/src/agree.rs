//! Whether both engines say the same.

use std::fmt::Debug;

/// Nothing, or what each engine said.
pub type Agreed = Result<(), String>;

pub fn equal<T: PartialEq + Debug>(what: &str, ours: &T, theirs: &T) -> Agreed {
    if ours == theirs {
        return Ok(());
    }
    Err(format!(
        "{what}\n  proved engine    {ours:?}\n  reference engine {theirs:?}"
    ))
}
