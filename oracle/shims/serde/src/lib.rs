//! The two derive macros that the published Rust names. No text is read or written here, so they make nothing.
pub use serde_derive::{Deserialize, Serialize};
