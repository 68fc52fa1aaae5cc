//! "Refusal numbers and their order": a call's refusals as a list of conditions, looked at one
//! after another.

/// A refusal number and whether it applies. A condition may count on those before it not applying.
pub type Condition<'a> = (u8, &'a dyn Fn() -> bool);

/// Success.
pub const DONE: u8 = 0;

/// The number of the first condition that applies, or 0.
pub fn first_that_applies(conditions: &[Condition]) -> u8 {
    for (number, applies) in conditions {
        if applies() {
            return *number;
        }
    }
    DONE
}
