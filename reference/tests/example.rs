//! Document 01's "Example round", line by line, and its stream example.

use reference::client::{make_key, End, Stage};
use reference::field::{inverse, Element};
use reference::refusal::Refusal;
use reference::scheme::{self, Plan, RandomList, Set, Use};
use reference::service::{Finished, Service};
use reference::stream;

const PLAN: [u8; 4] = [3, 2, 1, 1];
const LIST: [Element; 7] = [100, 200, 300, 12, 60, 40, 120];
const FIGURES: [Element; 3] = [10, 20, 30];
const OTHER_LIST: [Element; 7] = [100, 195, 300, 32780, 60, 40, 32888];
const OTHER_FIGURES: [Element; 3] = [10, 25, 30];
const KEYS: [[Element; 4]; 3] =
    [[100, 154, 220, 340], [200, 103, 22017, 230], [300, 112, 133, 174]];
const FIRST_MESSAGES: [Element; 3] = [110, 220, 330];
/// The round of the service, to which the keys belong.
const ROUND: u32 = 1;
const SET_5: Set = 5;
const SET_7: Set = 7;

fn key(list: &[Element], airfield: u8) -> [Element; 4] {
    let mut key = [0; 4];
    make_key(PLAN, airfield, list, &mut key).unwrap();
    key
}

/// An end that has sent, and what it sent.
fn sent(key: &[Element], airfield: u8, figure: Element) -> (End, Element) {
    let mut end = End::start(PLAN, airfield, Use::Counts, ROUND).unwrap();
    let mut message = [0];
    end.first_message(key, &[figure], &mut message).unwrap();
    (end, message[0])
}

/// A service that holds the example's first messages of these airfields,
/// closed, with these replies held.
fn replied(senders: &[u8], replies: &[(u8, Element)]) -> Service {
    let mut service = Service::default();
    service.plan(PLAN).unwrap();
    service.open(ROUND).unwrap();
    for &airfield in senders {
        service.first_element(airfield, 0, FIRST_MESSAGES[usize::from(airfield - 1)]).unwrap();
    }
    service.close().unwrap();
    for &(airfield, share) in replies {
        service.reply_element(airfield, 0, share).unwrap();
    }
    service
}

/// A finish that gives this total, nobody set aside.
fn total(total: Element) -> Result<Finished, Refusal> {
    Ok(Finished { round: ROUND, aside: None, totals: vec![total] })
}

#[test]
fn inverses() {
    assert_eq!([2, 3, 4, 5].map(inverse), [32761, 43681, 49141, 52417]);
}

#[test]
fn keys_and_first_messages() {
    for airfield in 1..=3 {
        let index = usize::from(airfield - 1);
        assert_eq!(key(&LIST, airfield), KEYS[index]);
        assert_eq!(sent(&KEYS[index], airfield, FIGURES[index]).1, FIRST_MESSAGES[index]);
    }
}

#[test]
fn replies_are_parts_of_the_lent_key() {
    let (mut end, _) = sent(&KEYS[2], 3, FIGURES[2]);
    let part = end.reply(&KEYS[2], SET_5, ROUND).unwrap();
    assert!(std::ptr::eq(part, &KEYS[2][1..2]));
    let (mut end, _) = sent(&KEYS[0], 1, FIGURES[0]);
    assert_eq!(end.reply(&KEYS[0], SET_5, ROUND), Ok(&[220][..]));
    assert_eq!(end.reply(&KEYS[0], SET_5, ROUND), Ok(&[220][..]));
}

#[test]
fn set_5_gives_40() {
    let mut service = replied(&[1, 3], &[(1, 220), (3, 112)]);
    assert_eq!(service.finish(), total(40));
}

#[test]
fn set_7_gives_60_from_any_replies() {
    let replies = [(1, 340), (2, 230), (3, 174)];
    for left_out in 0..=3 {
        let used: Vec<_> =
            replies.into_iter().filter(|&(airfield, _)| airfield != left_out).collect();
        assert_eq!(replied(&[1, 2, 3], &used).finish(), total(60));
    }
}

#[test]
fn set_7_with_175_is_refused_16_and_kept() {
    let mut service = replied(&[1, 2, 3], &[(1, 340), (2, 230), (3, 175)]);
    let before = service.clone();
    assert_eq!(service.finish(), Err(Refusal::Unexplained));
    assert_eq!(service, before);
}

#[test]
fn set_5_has_no_check() {
    assert!(replied(&[1, 3], &[(1, 220), (3, 113)]).finish().is_ok());
}

/// What demand 3 compares, for set 5 and colluder 1.
fn shown(list: &[Element], figures: &[Element; 3]) -> (Vec<Element>, Vec<Element>, Vec<Element>) {
    let keys = [1, 2, 3].map(|airfield| key(list, airfield));
    let mut ends: Vec<_> = (1..=3)
        .map(|k: u8| sent(&keys[usize::from(k - 1)], k, figures[usize::from(k - 1)]))
        .collect();
    let messages = ends.iter().map(|(_, message)| *message).collect();
    let replies =
        [0, 2].map(|index| ends[index].0.reply(&keys[index], SET_5, ROUND).unwrap()).concat();
    (messages, replies, keys[0].to_vec())
}

#[test]
fn other_list_shows_the_same_bytes() {
    assert_eq!(shown(&LIST, &FIGURES), shown(&OTHER_LIST, &OTHER_FIGURES));
}

#[test]
fn elements_at_the_bound() {
    let mut key = KEYS[0];
    key[0] = 65511;
    assert_eq!(sent(&key, 1, 10).1, 0);
    key[0] = 1;
    let mut end = End::start(PLAN, 1, Use::Counts, ROUND).unwrap();
    let mut message = [9];
    for (figure, refusal) in [(65521, Refusal::NotElement), (65520, Refusal::FigureBeyond)] {
        let refused = end.first_message(&key, &[figure], &mut message);
        assert_eq!((refused, message, end.stage()), (Err(refusal), [9], Stage::Fresh));
    }
}

#[test]
fn plan_bounds() {
    let passes = |numbers| Plan::new(numbers).is_ok();
    assert!(passes([3, 2, 1, 1]) && passes([3, 2, 1, 16]) && passes([8, 7, 6, 16]));
    let refused = [
        [3, 2, 1, 17],
        [3, 3, 1, 1],
        [3, 2, 2, 1],
        [3, 2, 0, 1],
        [3, 2, 1, 0],
        [2, 1, 0, 1],
        [2, 2, 1, 1],
        [9, 2, 1, 1],
        [8, 8, 1, 1],
        [0, 0, 0, 0],
        [255; 4],
    ];
    assert!(refused.iter().all(|&numbers| Plan::new(numbers) == Err(Refusal::PlanRange)));
}

#[test]
fn lengths_of_plan_8_2_1_16() {
    let plan = Plan::new([8, 2, 1, 16]).unwrap();
    assert_eq!(plan.list_length(), 4080);
    assert!((1..=8).all(|airfield| plan.key_length(airfield) == 2048));
    let list = vec![1; 4080];
    assert_eq!(scheme::key(&RandomList { plan: &plan, elements: &list }, 8).len(), 2048);
}

#[test]
fn round_numbers_at_the_bounds() {
    let mut service = Service::default();
    service.plan(PLAN).unwrap();
    assert_eq!(service.open(0), Err(Refusal::RoundNotAbove));
    assert_eq!(service.open(u32::MAX), Ok(()));
    assert_eq!(service.open(u32::MAX), Err(Refusal::RoundNotAbove));
    assert_eq!(service.open(1), Err(Refusal::RoundNotAbove));
}

#[test]
fn sets_refused() {
    let (mut end, _) = sent(&KEYS[1], 2, FIGURES[1]);
    assert_eq!(end.reply(&KEYS[1], 1, ROUND), Err(Refusal::SetNotUsable));
    assert_eq!(end.reply(&KEYS[1], 8 + 2, ROUND), Err(Refusal::SetNotUsable));
    assert_eq!(end.reply(&KEYS[1], SET_5, ROUND), Err(Refusal::NotInSet));
    assert_eq!(end.stage(), Stage::Sent);
    let (mut end, _) = sent(&KEYS[0], 1, FIGURES[0]);
    end.reply(&KEYS[0], SET_5, ROUND).unwrap();
    assert_eq!(end.reply(&KEYS[0], SET_7, ROUND), Err(Refusal::OtherSet));
    assert_eq!(end.stage(), Stage::Answered(SET_5));
}

#[test]
fn turns_refused() {
    let mut end = End::start(PLAN, 1, Use::Counts, ROUND).unwrap();
    assert_eq!(end.reply(&KEYS[0], SET_5, ROUND), Err(Refusal::SentOrFresh));
    let (mut end, _) = sent(&KEYS[0], 1, 10);
    assert_eq!(end.first_message(&KEYS[0], &[10], &mut [0]), Err(Refusal::SentOrFresh));
}

#[test]
fn key_maker_refuses_in_order() {
    let bad_list = [65521; 6];
    let bad_element = [100, 200, 300, 12, 60, 40, 65521];
    let refused = |plan, airfield, list: &[Element], room| {
        let mut key = vec![7; room];
        let refusal = make_key(plan, airfield, list, &mut key).unwrap_err();
        assert_eq!(key, vec![7; room]);
        refusal.number()
    };
    assert_eq!(refused([3, 3, 1, 1], 0, &bad_list, 3), 1);
    assert_eq!(refused(PLAN, 0, &bad_list, 3), 4);
    assert_eq!(refused(PLAN, 4, &bad_list, 3), 4);
    assert_eq!(refused(PLAN, 1, &bad_list, 4), 2);
    assert_eq!(refused(PLAN, 1, &bad_element, 5), 2);
    assert_eq!(refused(PLAN, 1, &bad_element, 4), 3);
    assert_eq!(End::start([3, 3, 1, 1], 0, Use::Counts, ROUND), Err(Refusal::PlanRange));
    assert_eq!(End::start(PLAN, 4, Use::Counts, ROUND), Err(Refusal::AirfieldNumber));
}

#[test]
fn stream_example() {
    let input = [
        0x01, 0x03, 0x02, 0x01, 0x01, 0x02, 0x07, 0x00, 0x00, 0x00, 0x03, 0x01, 0x00, 0x00, 0x6E,
        0x00, 0x03, 0x03, 0x00, 0x00, 0x4A, 0x01, 0x04, 0x03, 0x02, 0x00, 0x00, 0xDC, 0x00, 0x05,
        0x01, 0x00, 0xDC, 0x00, 0x05, 0x03, 0x00, 0x70, 0x00, 0x06,
    ];
    let output = "plan 3 2 1 1\nopen 7\nsurvivors 7 5\nrefused 12 at 23\ntotal 7 40\n";
    assert_eq!(stream::run(&input), output);
}
