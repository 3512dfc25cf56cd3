//! Document 01's corners on the published Rust, from the same table as the reference's.

use compare::corners;
use published::peer::Published;

#[test]
fn corners_hold() {
    let wrong = corners::wrong(&Published);
    assert!(wrong.is_empty(), "{}", wrong.join("\n"));
}
