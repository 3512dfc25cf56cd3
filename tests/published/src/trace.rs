//! Stands in for the names of traced events, which nothing here reads.

pub const CHASE_STEP: &str = "chase-step";
pub const EXTEND: &str = "extend";
pub const BOUND: &str = "bound";
pub const MODEL: &str = "model";
pub const FAIL: &str = "fail";
