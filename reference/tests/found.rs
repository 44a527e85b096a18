//! Where a set's shares start in an airfield's key: item 4 of document 02. "Its
//! result is how many smaller usable sets hold the airfield"; by document 01
//! each of them has M shares, and the L elements of S come first.

use reference::client::reply_start;
use reference::material::all_plans;
use reference::scheme::Set;

const EXAMPLE: [u8; 4] = [3, 2, 1, 1];
const LARGE: [u8; 4] = [8, 2, 1, 16];

/// The sets' starts in the airfield's key.
fn starts<const N: usize>(plan: [u8; 4], airfield: u8, sets: [Set; N]) -> [usize; N] {
    sets.map(|set| reply_start(plan, airfield, set).unwrap())
}

fn refused(number: u8, plan: [u8; 4], airfield: u8, sets: &[Set]) {
    for &set in sets {
        assert_eq!(reply_start(plan, airfield, set).unwrap_err().number(), number);
    }
}

#[test]
fn the_example() {
    assert_eq!(starts(EXAMPLE, 1, [3, 5, 7]), [1, 2, 3]);
    assert_eq!(starts(EXAMPLE, 2, [3, 6, 7]), [1, 2, 3]);
    assert_eq!(starts(EXAMPLE, 3, [5, 6, 7]), [1, 2, 3]);
}

/// Document 01's replies stand there in its keys.
#[test]
fn the_example_replies() {
    let replies = [
        (1, [100, 154, 220, 340], 5, 220),
        (3, [300, 112, 133, 174], 5, 112),
        (1, [100, 154, 220, 340], 7, 340),
        (2, [200, 103, 22017, 230], 7, 230),
        (3, [300, 112, 133, 174], 7, 174),
    ];
    for (airfield, key, set, share) in replies {
        assert_eq!(key[starts(EXAMPLE, airfield, [set])[0]], share);
    }
}

/// Each key has 2048 elements, the last 16 of them for set 255.
#[test]
fn plan_8_2_1_16() {
    assert_eq!(starts(LARGE, 1, [3, 5, 7, 9, 255]), [16, 32, 48, 64, 2032]);
    assert_eq!(starts(LARGE, 3, [5, 6, 7, 12, 255]), [16, 32, 48, 64, 2032]);
    assert_eq!(starts(LARGE, 8, [129, 130, 131, 132, 255]), [16, 32, 48, 64, 2032]);
}

/// Two blocks of two items: L is 4. The usable sets are 7, 11, 13, 14, 15.
#[test]
fn plan_4_3_1_2() {
    for (airfield, sets) in
        [(1, [7, 11, 13, 15]), (2, [7, 11, 14, 15]), (3, [7, 13, 14, 15]), (4, [11, 13, 14, 15])]
    {
        assert_eq!(starts([4, 3, 1, 2], airfield, sets), [4, 6, 8, 10]);
    }
}

/// "Its L elements of S, then for each usable set holding k, in rising number,
/// its M shares": nothing between them, and nothing behind.
#[test]
fn parts_of_all_keys() {
    for plan in all_plans() {
        let [airfields, least, colluders, blocks] = plan.numbers();
        for airfield in 1..=airfields {
            let mut next = usize::from(blocks * (least - colluders));
            for set in 0..(1 as Set) << airfields {
                let enough = set.count_ones() >= least.into();
                let inside = set >> (airfield - 1) & 1 == 1;
                let answer = reply_start(plan.numbers(), airfield, set);
                match (enough, inside) {
                    (false, _) => assert_eq!(answer.unwrap_err().number(), 5),
                    (true, false) => assert_eq!(answer.unwrap_err().number(), 6),
                    (true, true) => {
                        assert_eq!(answer, Ok(next));
                        next += usize::from(blocks);
                    }
                }
            }
            assert_eq!(next, plan.key_length(airfield));
        }
    }
}

#[test]
fn refused_in_order() {
    let any = [0, 1, 2, 3, 5, 6, 7, 8, 11, 15, 65535];
    for plan in [[3, 3, 1, 1], [3, 2, 1, 17], [3, 2, 1, 0], [3, 2, 2, 1], [9, 2, 1, 1], [0; 4]] {
        for airfield in [0, 1, 2, 4, 255] {
            refused(1, plan, airfield, &any);
        }
    }
    for airfield in [0, 4, 255] {
        refused(4, EXAMPLE, airfield, &any);
    }
    for airfield in [1, 2, 3] {
        refused(5, EXAMPLE, airfield, &[0, 1, 2, 4, 8, 9, 10, 12, 11, 13, 14, 15, 256, 65535]);
    }
    refused(6, EXAMPLE, 1, &[6]);
    refused(6, EXAMPLE, 2, &[5]);
    refused(6, EXAMPLE, 3, &[3]);
    refused(4, LARGE, 9, &[3, 255, 256, 511]);
    refused(5, LARGE, 8, &[127 + 256, 128, 255 + 256, 65535]);
    refused(6, LARGE, 8, &[3, 127]);
}
