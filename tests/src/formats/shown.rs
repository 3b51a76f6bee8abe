//! How a value is shown.

use std::alloc::Global;
use std::fmt::Display;

/// Whether the value is shown as that text.
pub fn is_shown<T: Display>(alloc: Global, value: &T, text: &str) -> bool {
    match format!(in alloc; "{value}") {
        Ok(shown) => shown.as_str() == text,
        Err(_) => false,
    }
}
