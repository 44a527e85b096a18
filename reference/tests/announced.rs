//! A set announced for another round: item 7 of document 02, its words one by
//! one. The keys, figures and messages are those of document 01's example.

use reference::client::{End, Stage};
use reference::field::Element;
use reference::refusal::Refusal;
use reference::scheme::{Set, Use};

const PLAN: [u8; 4] = [3, 2, 1, 1];
const KEYS: [[Element; 4]; 3] =
    [[100, 154, 220, 340], [200, 103, 22017, 230], [300, 112, 133, 174]];
const FIGURES: [Element; 3] = [10, 20, 30];
const FIRST_MESSAGES: [Element; 3] = [110, 220, 330];
const SET_5: Set = 5;
const SET_7: Set = 7;
const LAST_WEEK: u32 = 6;
const ROUND: u32 = 7;

/// Either end of four bytes, of two and of one, and some between.
const ROUNDS: [u32; 14] = [
    0,
    1,
    LAST_WEEK,
    ROUND,
    255,
    256,
    65535,
    65536,
    65537,
    7 << 16,
    1 << 31,
    u32::MAX - 65535,
    u32::MAX - 1,
    u32::MAX,
];

fn fresh(airfield: u8, round: u32) -> End {
    End::start(PLAN, airfield, Use::Counts, round).unwrap()
}

/// The end has sent, and what it sent is the example's.
fn sent(airfield: u8, round: u32) -> End {
    let mut end = fresh(airfield, round);
    send(&mut end, airfield);
    end
}

fn send(end: &mut End, airfield: u8) {
    let index = usize::from(airfield - 1);
    let mut message = [0];
    end.first_message(&KEYS[index], &[FIGURES[index]], &mut message).unwrap();
    assert_eq!(message, [FIRST_MESSAGES[index]]);
}

/// The request is refused by this number, and the end stays as it was.
fn refused(number: u8, end: &mut End, key: &[Element], set: Set, round: u32) {
    let before = end.clone();
    let refusal = end.reply(key, set, round).unwrap_err();
    assert_eq!(refusal.number(), number, "set {set} of round {round}");
    assert_eq!(*end, before);
}

#[test]
fn a_round_is_any_of_four_bytes() {
    for round in ROUNDS {
        let mut end = sent(1, round);
        assert_eq!(end.reply(&KEYS[0], SET_5, round), Ok(&[220][..]));
        assert_eq!(end.stage(), Stage::Answered(SET_5));
        assert_eq!(end.reply(&KEYS[0], SET_5, round), Ok(&[220][..]));
    }
}

#[test]
fn a_start_is_refused_as_before() {
    for round in ROUNDS {
        assert_eq!(End::start([3, 3, 1, 1], 0, Use::Counts, round), Err(Refusal::PlanRange));
        assert_eq!(End::start(PLAN, 4, Use::Counts, round), Err(Refusal::AirfieldNumber));
    }
}

/// "A late notice from last week named the same airfields and was answered."
#[test]
fn a_late_notice_is_not_answered() {
    let mut end = sent(1, ROUND);
    refused(33, &mut end, &KEYS[0], SET_5, LAST_WEEK);
    let part = end.reply(&KEYS[0], SET_5, ROUND).unwrap();
    assert!(std::ptr::eq(part, &KEYS[0][2..3]));
    refused(33, &mut end, &KEYS[0], SET_5, LAST_WEEK);
    let again = end.reply(&KEYS[0], SET_5, ROUND).unwrap();
    assert!(std::ptr::eq(again, part));
}

/// Whichever is the end's and whichever is asked; and of every bit.
#[test]
fn every_other_round_is_refused_by_33() {
    let one_bit = |own: u32| (0..32).map(move |bit| own ^ 1 << bit);
    for own in ROUNDS {
        let mut end = sent(1, own);
        let others: Vec<u32> =
            ROUNDS.into_iter().filter(|&round| round != own).chain(one_bit(own)).collect();
        for &round in &others {
            refused(33, &mut end, &KEYS[0], SET_5, round);
        }
        assert_eq!(end.reply(&KEYS[0], SET_5, own), Ok(&[220][..]));
        for &round in &others {
            refused(33, &mut end, &KEYS[0], SET_5, round);
            refused(33, &mut end, &KEYS[0], SET_7, round);
        }
        assert_eq!(end.stage(), Stage::Answered(SET_5));
    }
}

/// "After 6 and before 19": each request breaks the rule of its number and all
/// behind it that it can.
#[test]
fn refused_in_order() {
    let no_element = [100, 154, 220, 65521];
    for other in [0, LAST_WEEK, ROUND + (1 << 16), u32::MAX] {
        let mut end = fresh(1, ROUND);
        for set in [0, 6, SET_5] {
            refused(18, &mut end, &no_element[1..], set, other);
        }
        send(&mut end, 1);
        for set in [0, 6, SET_5] {
            refused(2, &mut end, &no_element[1..], set, other);
            refused(3, &mut end, &no_element, set, other);
        }
        for _ in 0..2 {
            for set in [0, 1, 4, 8, 9, 15, 65535] {
                refused(5, &mut end, &KEYS[0], set, other);
            }
            refused(6, &mut end, &KEYS[0], 6, other);
            for set in [3, SET_5, SET_7] {
                refused(33, &mut end, &KEYS[0], set, other);
            }
            assert_eq!(end.reply(&KEYS[0], SET_5, ROUND), Ok(&[220][..]));
        }
        for set in [3, SET_7] {
            refused(19, &mut end, &KEYS[0], set, ROUND);
        }
        refused(5, &mut end, &KEYS[0], 1, ROUND);
        refused(6, &mut end, &KEYS[0], 6, ROUND);
    }
}

/// "Given at the end's start": the same key, started for another round, is of
/// that one.
#[test]
fn a_round_is_of_the_start() {
    let mut end = sent(3, ROUND);
    assert_eq!(end.reply(&KEYS[2], SET_5, ROUND), Ok(&[112][..]));
    let mut end = sent(3, LAST_WEEK);
    refused(33, &mut end, &KEYS[2], SET_5, ROUND);
    assert_eq!(end.reply(&KEYS[2], SET_5, LAST_WEEK), Ok(&[112][..]));
}

/// Asks an end for every set of three airfields, in every other round.
fn notices(end: &mut End, airfield: u8) {
    for round in ROUNDS.into_iter().filter(|&round| round != ROUND) {
        for set in 0..=7 {
            assert!(end.reply(&KEYS[usize::from(airfield - 1)], set, round).is_err());
        }
    }
}

/// "Any notices for other rounds change no byte shown": what demand 3 shows of
/// set 5, with such notices before, between and behind the calls.
#[test]
fn notices_for_other_rounds_change_no_byte_shown() {
    let mut replies = vec![];
    for airfield in 1..=3 {
        let mut end = fresh(airfield, ROUND);
        notices(&mut end, airfield);
        send(&mut end, airfield);
        notices(&mut end, airfield);
        if airfield != 2 {
            replies.push(end.reply(&KEYS[usize::from(airfield - 1)], SET_5, ROUND).unwrap()[0]);
            notices(&mut end, airfield);
        }
        let stage = if airfield == 2 { Stage::Sent } else { Stage::Answered(SET_5) };
        assert_eq!(end.stage(), stage);
    }
    assert_eq!(replies, [220, 112]);
}
