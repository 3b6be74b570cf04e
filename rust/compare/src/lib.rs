//! What the comparisons share: the inputs, and which requests of the second paper have landed.

#![forbid(unsafe_code)]

use second::Rules;

pub mod inputs;

/// The rules that the second implementation goes by: what has landed and changes an answer to the
/// same call, remarks (i), editions 2 (v) and 3 (vii), turns (ix) and a desk's own numbers (x). The lag (xi)
/// is given with each call.
pub const LANDED: Rules = Rules {
    remarks: true,
    newest_edition: 3,
    turns: true,
    own_numbers: true,
};
