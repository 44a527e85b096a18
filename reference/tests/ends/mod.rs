//! What the tests of figures share: a fresh end with its key, and a first
//! message that is refused.

use reference::client::{make_key, End, Stage};
use reference::field::Element;
use reference::scheme::{Plan, Use};

/// Two places: L = 2.
pub const PLAN: [u8; 4] = [3, 2, 1, 2];
pub const BEFORE: [Element; 2] = [7, 9];

/// A fresh end of airfield 1 with its key, which is all zero.
pub fn fresh(usage: Use) -> (End, Vec<Element>) {
    let plan = Plan::new(PLAN).unwrap();
    let mut key = vec![1; plan.key_length(1)];
    make_key(PLAN, 1, &vec![0; plan.list_length()], &mut key).unwrap();
    (End::start(PLAN, 1, usage, 0).unwrap(), key)
}

/// The call is refused, and leaves buffer and stage as they were, so that good
/// figures are then taken.
pub fn refused(usage: Use, number: u8, key: &[Element], figures: [Element; 2], good: [Element; 2]) {
    let (mut end, good_key) = fresh(usage);
    let mut message = BEFORE;
    let refusal = end.first_message(key, &figures, &mut message).unwrap_err();
    assert_eq!((refusal.number(), message, end.stage()), (number, BEFORE, Stage::Fresh));
    end.first_message(&good_key, &good, &mut message).unwrap();
    assert_eq!((message, end.stage()), (good, Stage::Sent));
}
