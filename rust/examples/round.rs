//! Document 01's example round through the library, from Rust: the random list from raw bytes, keys, first messages, the service, the
//! replies to set 5 of round 7, the total 40, a notice for another round, where the shares for each set start, the largest figure, signed
//! figures, elements that come again, a false reply that is set aside, and some refusals. Exit status 101 where anything is not as
//! expected.
use cutawheno::{read_total, End, Finished, Plan, Refusal, Service, Use, LONGEST_KEY, LONGEST_LIST, MOST_PLACES};

const PLAN: Plan = Plan { users: 3, threshold: 2, collusion: 1, blocks: 1 };
const BAD: Plan = Plan { threshold: 3, ..PLAN };
const ROUND: u32 = 7;
/// 65521 and 65535 are skipped, and the last byte is unused.
const BYTES: [u8; 19] = [241, 255, 100, 0, 200, 0, 44, 1, 12, 0, 60, 0, 255, 255, 40, 0, 120, 0, 9];
const LIST: [u16; 7] = [100, 200, 300, 12, 60, 40, 120];
const KEYS: [[u16; 4]; 3] = [[100, 154, 220, 340], [200, 103, 22017, 230], [300, 112, 133, 174]];
const FIGURES: [[u16; 1]; 3] = [[10], [20], [30]];
const MESSAGES: [[u16; 1]; 3] = [[110], [220], [330]];
const REPLIES: [Result<&[u16], Refusal>; 3] = [Ok(&[220]), Err(Refusal::NotInSet), Ok(&[112])];

/// An airfield that has sent.
struct Airfield {
    user: u32,
    end: End,
    key: Vec<u16>,
    message: [u16; 1],
}

fn airfield(user: u32) -> Airfield {
    let row = user as usize - 1;
    let mut key = vec![0; PLAN.key_len()];
    let mut message = [0];
    let mut end = End::start(PLAN, user, Use::Counts, ROUND).unwrap();
    assert_eq!(PLAN.make_key(user, &LIST, &mut key), Ok(()));
    assert_eq!(key, KEYS[row]);
    assert_eq!(end.reply(&key, 5, ROUND), Err(Refusal::OutOfTurn));
    assert_eq!(end.first_message(&key, &FIGURES[row], &mut []), Err(Refusal::BadLength));
    assert_eq!(end.numbers(), [3, 2, 1, 1, user, 0, 0, ROUND]);
    assert_eq!(end.first_message(&key, &FIGURES[row], &mut message), Ok(()));
    assert_eq!(message, MESSAGES[row]);
    assert_eq!(end.first_message(&key, &FIGURES[row], &mut message), Err(Refusal::OutOfTurn));
    Airfield { user, end: End::resume(end.numbers()), key, message }
}

/// An element that comes again is taken and changes nothing; only another one is refused, and the first stays.
fn send_repeatedly(service: &mut Service, element: u16, send: impl Fn(&mut Service, u32) -> Result<(), Refusal>) {
    let element = u32::from(element);
    assert_eq!(send(service, element), Ok(()));
    let held = service.clone();
    assert_eq!(send(service, element), Ok(()));
    assert_eq!(send(service, element + 1), Err(Refusal::Held));
    assert_eq!(send(service, element), Ok(()));
    assert_eq!(*service, held);
}

/// Airfields 1 and 3 report, 2 comes too late, and the survivors' figures add up to 40. Every element comes again.
fn run_round(service: &mut Service) {
    let mut airfields = [1, 2, 3].map(airfield);
    assert_eq!(service.open(ROUND), Ok(()));
    for a in [&airfields[0], &airfields[2]] {
        assert_eq!(service.close(), Err(Refusal::TooFew));
        send_repeatedly(service, a.message[0], |service, element| service.first_element(a.user, 0, element));
    }
    let set = service.close();
    assert_eq!(set, Ok(5));
    assert_eq!(service.first_element(2, 0, airfields[1].message[0].into()), Err(Refusal::OtherPhase));
    for (a, expected) in airfields.iter_mut().zip(REPLIES) {
        assert_eq!(a.end.reply(&a.key, 1, ROUND), Err(Refusal::SetUnusable));
        let reply = a.end.reply(&a.key, 5, ROUND);
        assert_eq!(reply, expected);
        assert_eq!(a.end.reply(&a.key, 5, ROUND), reply);
        assert_eq!(a.end.numbers(), [3, 2, 1, 1, a.user, if reply.is_ok() { 2 + 5 } else { 1 }, 0, ROUND]);
        eprintln!("key {:?}, first message {:?}, reply {reply:?}", a.key, a.message);
        if let Ok(shares) = reply {
            assert_eq!(a.end.reply(&a.key, 7, ROUND), Err(Refusal::OtherSet));
            assert_eq!(service.finish(&mut [0; MOST_PLACES]), Err(Refusal::TooFew));
            send_repeatedly(service, shares[0], |service, element| service.reply_element(a.user, 0, element));
        }
    }
    let mut totals = [7; MOST_PLACES];
    assert_eq!(service.finish(&mut totals), Ok(Finished { totals: &[40], aside: None }));
    assert_eq!(totals[1..], [0; MOST_PLACES - 1]);
    assert_eq!(service.finish(&mut totals), Err(Refusal::OtherPhase));
}

/// A late notice for last week's round names the same airfields: it is not answered, before the own one and after it, and changes nothing.
fn run_late_notice() {
    let mut airfield = airfield(1);
    for stage in [1, 2 + 5] {
        for other in [0, ROUND - 1, ROUND + 1, ROUND + 65536, u32::MAX] {
            assert_eq!(airfield.end.reply(&airfield.key, 5, other), Err(Refusal::OtherRound));
            assert_eq!(airfield.end.reply(&airfield.key, 7, other), Err(Refusal::OtherRound));
            assert_eq!(airfield.end.reply(&airfield.key, 6, other), Err(Refusal::NotInSet));
            assert_eq!(airfield.end.numbers(), [3, 2, 1, 1, 1, stage, 0, ROUND]);
        }
        assert_eq!(airfield.end.reply(&airfield.key, 5, ROUND), REPLIES[0]);
    }
}

/// The list from the bytes, which run out where the last number is cut.
fn run_list() {
    let mut list = [7; 7];
    assert_eq!(BAD.list_from_bytes(&BYTES, &mut list), Err(Refusal::BadPlan));
    assert_eq!(PLAN.list_from_bytes(&BYTES, &mut list[..6]), Err(Refusal::BadLength));
    assert_eq!(PLAN.list_from_bytes(&BYTES[..17], &mut list), Err(Refusal::BytesRunOut));
    assert_eq!(list, [7; 7]);
    assert_eq!(PLAN.list_from_bytes(&BYTES, &mut list), Ok(()));
    assert_eq!(list, LIST);
}

/// The keys are a mask and a share for each of three sets; refusals go by 1, 4, 5, 6.
fn run_starts() {
    for (user, sets) in [(1, [3, 5, 7]), (2, [3, 6, 7]), (3, [5, 6, 7])] {
        assert_eq!(sets.map(|set| PLAN.reply_start(user, set)), [Ok(1), Ok(2), Ok(3)]);
    }
    let large = Plan { users: 8, threshold: 2, collusion: 1, blocks: 16 };
    assert_eq!([3, 255].map(|set| large.reply_start(1, set)), [Ok(16), Ok(2032)]);
    assert_eq!((BAD.reply_start(0, 7), PLAN.reply_start(0, 1)), (Err(Refusal::BadPlan), Err(Refusal::BadUser)));
    assert_eq!((PLAN.reply_start(1, 2), PLAN.reply_start(1, 6)), (Err(Refusal::SetUnusable), Err(Refusal::NotInSet)));
}

/// A first message of airfield 1 from a fresh end: the element, or the refusal, which leaves buffer and end as they were.
fn sent_by(usage: Use, key: &[u16], figure: u16) -> Result<u16, Refusal> {
    let mut end = End::start(PLAN, 1, usage, ROUND).unwrap();
    let mut message = [7];
    let answer = end.first_message(key, &[figure], &mut message);
    assert!(answer.is_ok() || (end.numbers(), message) == ([3, 2, 1, 1, 1, 0, usage as u32, ROUND], [7]));
    answer.map(|()| message[0])
}

/// A count of three airfields is at most 21840; one that is no element at all is refused as such, and so is a key.
fn run_figures() {
    let sent = |key: &[u16], figure| sent_by(Use::Counts, key, figure);
    assert_eq!((PLAN.figure_bound(Use::Counts), BAD.figure_bound(Use::Counts)), (21840, 0));
    assert_eq!(sent(&KEYS[0], 21840), Ok(21940));
    assert_eq!(sent(&KEYS[0], 21841), Err(Refusal::FigureBeyond));
    assert_eq!(sent(&KEYS[0], 65520), Err(Refusal::FigureBeyond));
    assert_eq!(sent(&KEYS[0], 65521), Err(Refusal::BadElement));
    assert_eq!(sent(&[100, 154, 220, 65521], 21841), Err(Refusal::BadElement));
    assert_eq!(sent(&[65511, 154, 220, 340], 10), Ok(0));
}

/// Changes of -14 at airfield 1 and 5 at airfield 3: in as residues, and out as -9.
fn run_signed(service: &mut Service) {
    assert_eq!((PLAN.figure_bound(Use::Signed), BAD.figure_bound(Use::Signed)), (10920, 0));
    assert_eq!((PLAN.residue(-10921), BAD.residue(-10921)), (Err(Refusal::FigureBeyond), Err(Refusal::BadPlan)));
    assert_eq!((sent_by(Use::Signed, &KEYS[0], 54601), sent_by(Use::Signed, &KEYS[0], 54600)), (Ok(54701), Err(Refusal::FigureBeyond)));
    assert_eq!(service.open(ROUND + 1), Ok(()));
    let mut ends = [(1, -14), (3, 5)].map(|(user, change)| {
        let (key, mut message) = (&KEYS[user as usize - 1], [0]);
        let mut end = End::start(PLAN, user, Use::Signed, ROUND + 1).unwrap();
        assert_eq!(end.first_message(key, &[PLAN.residue(change).unwrap()], &mut message), Ok(()));
        assert_eq!(service.first_element(user, 0, message[0].into()), Ok(()));
        (user, key, end)
    });
    assert_eq!(service.close(), Ok(5));
    for (user, key, end) in &mut ends {
        assert_eq!(service.reply_element(*user, 0, end.reply(*key, 5, ROUND + 1).unwrap()[0].into()), Ok(()));
    }
    let mut totals = [7; MOST_PLACES];
    assert_eq!(service.finish(&mut totals), Ok(Finished { totals: &[65512], aside: None }));
    assert_eq!(read_total(Use::Signed, totals[0].into()), Ok(-9));
    assert_eq!(read_total(Use::Counts, totals[0].into()), Ok(65512));
    assert_eq!([Use::Counts, Use::Signed].map(|usage| read_total(usage, 65521)), [Err(Refusal::BadElement); 2]);
}

/// Four airfields of which two must respond, with the figures 10, 20, 30 and 40, in the last round that there is: the service, and their
/// replies.
fn four_reported() -> (Service, [u16; 4]) {
    let plan = Plan { users: 4, ..PLAN };
    let list: Vec<u16> = (1..=plan.list_len() as u16).collect();
    let mut service = Service::new();
    assert_eq!((service.plan(plan), service.open(u32::MAX)), (Ok(()), Ok(())));
    let replies = [1, 2, 3, 4].map(|user| {
        let (mut key, mut message) = (vec![0; plan.key_len()], [0]);
        let mut end = End::start(plan, user, Use::Counts, u32::MAX).unwrap();
        assert_eq!(plan.make_key(user, &list, &mut key), Ok(()));
        assert_eq!(end.first_message(&key, &[10 * user as u16], &mut message), Ok(()));
        assert_eq!(service.first_element(user, 0, message[0].into()), Ok(()));
        end.reply(&key, 15, u32::MAX).unwrap()[0]
    });
    assert_eq!(service.close(), Ok(15));
    (service, replies)
}

/// Airfield 2's reply is false: three replies are refused by 16, and with the fourth it is set aside. Its figure stays in the total.
fn run_aside() {
    let (mut service, mut replies) = four_reported();
    replies[1] = (replies[1] + 1) % 65521;
    for (user, &share) in (1..=3).zip(&replies) {
        assert_eq!(service.reply_element(user, 0, share.into()), Ok(()));
    }
    let held = service.clone();
    let mut totals = [7; MOST_PLACES];
    assert_eq!(service.finish(&mut totals), Err(Refusal::Unexplained));
    assert_eq!((&service, totals), (&held, [7; MOST_PLACES]));
    assert_eq!(service.reply_element(4, 0, replies[3].into()), Ok(()));
    assert_eq!(service.finish(&mut totals), Ok(Finished { totals: &[100], aside: Some(2) }));
}

/// What is refused changes nothing.
fn run_refusals() {
    let mut key = [7; 4];
    assert_eq!(BAD.make_key(1, &LIST, &mut key), Err(Refusal::BadPlan));
    assert_eq!(PLAN.make_key(4, &LIST, &mut key), Err(Refusal::BadUser));
    assert_eq!(PLAN.make_key(1, &[65521; 7], &mut key), Err(Refusal::BadElement));
    assert_eq!(key, [7; 4]);
    assert_eq!(End::start(BAD, 1, Use::Signed, ROUND), Err(Refusal::BadPlan));
    assert_eq!(End::start(PLAN, 4, Use::Signed, ROUND), Err(Refusal::BadUser));
    let mut any = End::resume([u32::MAX; 8]);
    assert_eq!(any.reply(&KEYS[0], 5, ROUND), Err(Refusal::BadPlan));
    assert_eq!(any.numbers(), [u32::MAX; 8]);

    let mut service = Service::new();
    assert_eq!(service.open(1), Err(Refusal::PlanOrder));
    assert_eq!(service.plan(BAD), Err(Refusal::BadPlan));
    assert_eq!(service, Service::new());
    assert_eq!(service.plan(PLAN), Ok(()));
    assert_eq!(service.open(1), Ok(()));
    for (user, message) in [(1, 110), (2, 220), (3, 330)] {
        assert_eq!(service.first_element(user, 0, message), Ok(()));
    }
    assert_eq!(service.close(), Ok(7));
    for (user, share) in [(1, 340), (2, 230), (3, 175)] {
        assert_eq!(service.reply_element(user, 0, share), Ok(()));
    }
    let held = service.clone();
    let mut totals = [7; MOST_PLACES];
    assert_eq!(service.finish(&mut totals), Err(Refusal::Unexplained));
    assert_eq!(service.plan(PLAN), Err(Refusal::PlanOrder));
    assert_eq!(service.open(1), Err(Refusal::OldRound));
    assert_eq!(service.reply_element(0, 0, 1), Err(Refusal::BadUser));
    assert_eq!(service.reply_element(1, 1, 1), Err(Refusal::BadPlace));
    assert_eq!(service.reply_element(1, 0, 65536), Err(Refusal::BadElement));
    assert_eq!((service, totals), (held, [7; MOST_PLACES]));
}

fn main() {
    assert_eq!((PLAN.row_len(), PLAN.list_len(), PLAN.key_len()), (1, 7, 4));
    let large = |threshold, collusion| Plan { users: 8, threshold, collusion, blocks: 16 };
    assert_eq!((large(2, 1).list_len(), large(2, 1).key_len()), (4080, LONGEST_KEY));
    assert_eq!((large(4, 3).list_len(), large(7, 1).row_len()), (LONGEST_LIST, MOST_PLACES));
    assert_eq!((BAD.row_len(), BAD.list_len(), BAD.key_len()), (0, 0, 0));
    let mut service = Service::new();
    assert_eq!(service.plan(PLAN), Ok(()));
    run_list();
    run_round(&mut service);
    run_late_notice();
    run_starts();
    run_figures();
    run_signed(&mut service);
    run_aside();
    run_refusals();
    println!("Rust: the example round, as expected");
}
