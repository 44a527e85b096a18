//! Whole rounds over every plan: keys from the key maker, messages from the
//! airfield ends, totals from the service.

use reference::client::{make_key, End};
use reference::field::{add, Element};
use reference::material::{all_plans, common_use, table, totals, whole_sums, Row};
use reference::random::Random;
use reference::reading::read_total;
use reference::refusal::Refusal;
use reference::scheme::{members, Plan, Set, Use};
use reference::service::{Finished, Service};

const SEED: u64 = 1;
const PLANS: usize = 896;

struct Round {
    table: Vec<Row>,
    survivors: Set,
    /// The reply of each survivor, in rising number.
    replies: Vec<(u8, Vec<Element>)>,
    /// Closed, with no replies held yet.
    service: Service,
}

/// A round of this plan with figures and survivors drawn at random.
fn round(plan: Plan, random: &mut Random) -> Round {
    let sets: Vec<Set> = plan.usable_sets().collect();
    let survivors = random.pick(&sets);
    let table = table(&plan, random);
    round_of(plan, table, survivors, random)
}

fn round_of(plan: Plan, table: Vec<Row>, survivors: Set, random: &mut Random) -> Round {
    let list = random.elements(plan.list_length());
    let mut service = Service::default();
    service.plan(plan.numbers()).unwrap();
    service.open(1).unwrap();
    let mut replies = Vec::new();
    for airfield in members(survivors) {
        let mut key = vec![0; plan.key_length(airfield)];
        make_key(plan.numbers(), airfield, &list, &mut key).unwrap();
        let mut message = vec![0; plan.row_length()];
        let row = &table[usize::from(airfield - 1)];
        let mut end = End::start(plan.numbers(), airfield, row.usage, 1).unwrap();
        end.first_message(&key, &row.lent(), &mut message).unwrap();
        for (place, &element) in (0..).zip(&message) {
            service.first_element(airfield, place, element).unwrap();
        }
        replies.push((airfield, end.reply(&key, survivors, 1).unwrap().to_vec()));
    }
    assert_eq!(service.close(), Ok((1, survivors)));
    Round { table, survivors, replies, service }
}

fn give(service: &mut Service, replies: &[(u8, Vec<Element>)]) {
    for (airfield, shares) in replies {
        for (block, &share) in (0..).zip(shares) {
            service.reply_element(*airfield, block, share).unwrap();
        }
    }
}

/// The residue of the whole-number sum, whatever the uses; and the sum itself,
/// as read, where the survivors have one use.
#[test]
fn totals_are_the_survivors_sums() {
    let mut random = Random::new(SEED);
    let mut met = [0; 3];
    assert_eq!(all_plans().len(), PLANS);
    for plan in all_plans() {
        let mut round = round(plan, &mut random);
        random.shuffle(&mut round.replies);
        let spare = round.replies.len() - plan.least();
        let used = plan.least() + random.below(spare + 1);
        give(&mut round.service, &round.replies[..used]);
        let given = totals(&plan, &round.table, round.survivors);
        let finished = Finished { round: 1, aside: None, totals: given.clone() };
        assert_eq!(round.service.finish(), Ok(finished));
        let usage = common_use(&round.table, round.survivors);
        met[usage.map_or(2, |usage| usage as usize)] += 1;
        if let Some(usage) = usage {
            let read: Vec<i32> =
                given.iter().map(|&total| read_total(usage, total.into()).unwrap()).collect();
            assert_eq!(read, whole_sums(&plan, &round.table, round.survivors));
        }
    }
    assert!(met.iter().all(|&rounds| rounds > PLANS / 10), "counts, signed, both: {met:?}");
}

/// All airfields at one end of the bound: counts, and signed figures at either.
#[test]
fn whole_rounds_reach_the_ends() {
    let ends = [(Use::Counts, 1, 65520), (Use::Signed, 1, 32760), (Use::Signed, -1, -32760)];
    for (usage, sign, reach) in ends {
        let plan = Plan::new([8, 2, 1, 1]).unwrap();
        let figure = sign * i32::from(plan.figure_bound(usage));
        let table = vec![Row { usage, figures: vec![figure] }; 8];
        let mut round = round_of(plan, table, 255, &mut Random::new(SEED));
        give(&mut round.service, &round.replies);
        let finished = round.service.finish().unwrap();
        assert_eq!(read_total(usage, finished.totals[0].into()), Ok(reach));
    }
}

#[test]
fn one_reply_too_few_is_refused_15() {
    let mut random = Random::new(SEED);
    for plan in all_plans() {
        let mut round = round(plan, &mut random);
        random.shuffle(&mut round.replies);
        give(&mut round.service, &round.replies[..plan.least() - 1]);
        let (airfield, shares) = &round.replies[plan.least() - 1];
        for (block, &share) in (0..).zip(shares).skip(1) {
            round.service.reply_element(*airfield, block, share).unwrap();
        }
        assert_eq!(round.service.finish(), Err(Refusal::TooFew));
        round.service.reply_element(*airfield, 0, shares[0]).unwrap();
        assert!(round.service.finish().is_ok());
    }
}

/// Of every number of replies from U on. One garbled reply, in one block or in
/// all from one on, passes unseen among U, is refused by 16 among U + 1, and is
/// set aside among more, whose total is the survivors' all the same.
#[test]
fn one_garbled_reply() {
    let mut random = Random::new(SEED);
    let mut met = [0; 3];
    for plan in all_plans() {
        let round = round(plan, &mut random);
        let right = totals(&plan, &round.table, round.survivors);
        for count in plan.least()..=round.replies.len() {
            let mut replies = round.replies.clone();
            random.shuffle(&mut replies);
            let aside = garble(&mut replies[random.below(count)], &mut random);
            let mut service = round.service.clone();
            give(&mut service, &replies[..count]);
            let finished = service.finish();
            let spare = (count - plan.least()).min(2);
            match spare {
                0 => assert_ne!(finished.unwrap().totals, right),
                1 => assert_eq!(finished, Err(Refusal::Unexplained)),
                _ => assert_eq!(finished, Ok(Finished { round: 1, aside, totals: right.clone() })),
            }
            met[spare] += 1;
        }
    }
    assert!(met.iter().all(|&rounds| rounds > PLANS / 10), "U, U + 1, more: {met:?}");
}

/// Changes one block of the reply, or all from one on; whose reply it is.
fn garble((airfield, shares): &mut (u8, Vec<Element>), random: &mut Random) -> Option<u8> {
    let from = random.below(shares.len());
    let to = random.pick(&[from + 1, shares.len()]);
    for share in &mut shares[from..to] {
        *share = add(*share, 1 + random.below(65520) as Element);
    }
    Some(*airfield)
}
