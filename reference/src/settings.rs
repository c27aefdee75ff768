//! Numbers that a run takes from its environment.

use std::env;

/// The variable's number, decimal or `0x` and hexadecimal; `None` where it is
/// not set. A text that is no number stops the run: a seed that is silently
/// passed over would repeat another run.
pub fn number(variable: &str) -> Option<u64> {
    let text = env::var(variable).ok()?;
    let parsed = match text.strip_prefix("0x") {
        Some(hex) => u64::from_str_radix(hex, 16),
        None => text.parse(),
    };
    Some(parsed.unwrap_or_else(|_| panic!("{variable} is no number: {text}")))
}
