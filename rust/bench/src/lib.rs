//! What the bench measures on, and how it takes the time.

#![forbid(unsafe_code)]

use second::Rules;

pub mod clock;
pub mod inputs;

/// The rules that the second implementation goes by: what has landed.
pub const LANDED: Rules = Rules {
    remarks: true,
    newest_edition: 3,
    turns: true,
    own_numbers: true,
};
