//! Random lists from raw bytes: item 1 of document 02, its words one by one.
//! The lists of plan 3 2 1 1 have 7 elements.

use reference::client::{list_from_bytes, make_key};
use reference::field::Element;

const PLAN: [u8; 4] = [3, 2, 1, 1];
const LENGTH: usize = 7;
const BEFORE: Element = 7;

/// The number answered, and the list of this length left by the call.
fn draw(plan: [u8; 4], bytes: &[u8], length: usize) -> (u8, Vec<Element>) {
    let mut list = vec![BEFORE; length];
    let number =
        list_from_bytes(plan, bytes, &mut list).map_or_else(|refusal| refusal.number(), |()| 0);
    (number, list)
}

/// The list drawn under the plan.
fn drawn(bytes: &[u8]) -> Vec<Element> {
    let (number, list) = draw(PLAN, bytes, LENGTH);
    assert_eq!(number, 0);
    list
}

/// The call is refused, and leaves the list as it was.
fn refused(number: u8, plan: [u8; 4], bytes: &[u8], length: usize) {
    assert_eq!(draw(plan, bytes, length), (number, vec![BEFORE; length]));
}

#[test]
fn low_byte_first() {
    let bytes = [1, 0, 0, 1, 2, 1, 255, 0, 0, 255, 0xEF, 0xFF, 0xF0, 0xFF];
    assert_eq!(drawn(&bytes), [1, 256, 258, 255, 65280, 65519, 65520]);
}

#[test]
fn numbers_above_65520_are_skipped() {
    for low in 0xF1..=0xFF {
        let skipped = [low, 0xFF];
        let at_the_start = [&skipped[..], &[0; 14]].concat();
        let in_the_middle = [&[0; 6], &skipped[..], &skipped, &[0; 8]].concat();
        let before_the_last = [&[0; 12], &skipped[..], &[3, 0]].concat();
        let behind_the_last = [&[0; 14], &skipped[..]].concat();
        assert_eq!(drawn(&at_the_start), [0; LENGTH]);
        assert_eq!(drawn(&in_the_middle), [0; LENGTH]);
        assert_eq!(drawn(&before_the_last), [0, 0, 0, 0, 0, 0, 3]);
        assert_eq!(drawn(&behind_the_last), [0; LENGTH]);
        refused(31, PLAN, &[&[0; 12], &skipped[..]].concat(), LENGTH);
    }
    // these are no such numbers, high byte first
    assert_eq!(drawn(&[0xFF, 0xF1].repeat(LENGTH)), [0xF1FF; LENGTH]);
}

#[test]
fn bytes_behind_a_full_list_are_unused() {
    let bytes: Vec<u8> = (1..=20).collect();
    let list = [0x0201, 0x0403, 0x0605, 0x0807, 0x0A09, 0x0C0B, 0x0E0D];
    for end in 14..=20 {
        assert_eq!(drawn(&bytes[..end]), list);
    }
}

#[test]
fn bytes_of_any_length_may_run_out() {
    for length in 0..14 {
        refused(31, PLAN, &vec![1; length], LENGTH);
    }
    for length in 0..40 {
        refused(31, PLAN, &vec![0xFF; length], LENGTH);
    }
}

#[test]
fn refused_in_order() {
    let enough = [0; 16];
    refused(1, [3, 3, 1, 1], &enough, LENGTH);
    refused(1, [3, 3, 1, 1], &[], LENGTH + 1);
    refused(1, [3, 2, 1, 17], &[], 0);
    for length in [0, LENGTH - 1, LENGTH + 1] {
        refused(2, PLAN, &enough, length);
        refused(2, PLAN, &[], length);
    }
    refused(31, PLAN, &[], LENGTH);
}

/// The list of the example round, and the key of airfield 1 that it gives.
#[test]
fn keys_from_raw_bytes() {
    let bytes = [100, 0, 200, 0, 0xFF, 0xFF, 44, 1, 12, 0, 60, 0, 40, 0, 120, 0];
    let list = drawn(&bytes);
    assert_eq!(list, [100, 200, 300, 12, 60, 40, 120]);
    let mut key = [0; 4];
    make_key(PLAN, 1, &list, &mut key).unwrap();
    assert_eq!(key, [100, 154, 220, 340]);
}
