//! Cases for sets that are announced for a round (document 02, item 7).
//!
//! - `cases`: the text of `count` cases, by `vectors::Case`
//!
//! The plan of case i is that of seed + i, so 896 cases meet every plan. A
//! case has one key and two ends, the second one for a round that the first
//! one refuses. An end is asked while it is fresh, when it has sent, and when
//! it has answered, each time for its own round and for others, and for each
//! kind of set; and when it has sent, with keys that must be refused too. So
//! requests break one rule, or several at once.

use super::calls::{any_use, no_element, with};
use super::vectors::Case;
use super::{another_round, any_round, plan_by_seed, row};
use crate::random::Random;
use crate::scheme::{holds, Plan, Set};

pub fn cases(seed: u64, count: u32) -> impl Iterator<Item = String> {
    let mut random = Random::new(seed);
    (0..count).map(move |index| {
        let plan = plan_by_seed(seed.wrapping_add(u64::from(index)));
        let airfield = 1 + random.below(usize::from(plan.airfields())) as u8;
        two_ends(&plan, airfield, &mut random).into_text()
    })
}

/// Each end has its own round, which is the first of the other end's others.
fn two_ends(plan: &Plan, airfield: u8, random: &mut Random) -> Case {
    let mut case = Case::new(plan.numbers());
    case.lend_list(random.elements(plan.list_length()));
    case.make_key(airfield, plan.key_length(airfield));
    let one = any_round(random);
    let two = another_round(one, random);
    for (own, other) in [(one, two), (two, one)] {
        let others = [other, another_round(own, random), another_round(own, random)];
        let sets = Sets::draw(plan, airfield, random);
        let usage = any_use(random);
        case.start(airfield, usage, own);
        for round in [others[0], own] {
            sets.ask_all(&mut case, round);
        }
        case.first_message(&row(plan, usage, random).lent(), plan.row_length());
        wrong_keys(&mut case, &sets, others[0], random);
        asked_for(&mut case, &sets, own, &others);
    }
    case
}

/// An end that has sent: notices for other rounds, before its answer and
/// behind it.
fn asked_for(case: &mut Case, sets: &Sets, own: u32, others: &[u32]) {
    for &round in others {
        sets.ask_all(case, round);
    }
    for set in [sets.unusable, sets.without, sets.answered] {
        case.reply(set, own);
    }
    for &round in others {
        sets.ask_all(case, round);
    }
    sets.ask_all(case, own);
}

/// A key with a number that is no element, and one that is too short: each
/// comes before another round.
fn wrong_keys(case: &mut Case, sets: &Sets, other: u32, random: &mut Random) {
    let key = case.key().to_vec();
    let wrong_element = with(key.clone(), random.below(key.len()), no_element(random));
    for wrong in [wrong_element, key[1..].to_vec()] {
        case.lend_key(wrong);
        case.reply(sets.answered, other);
    }
    case.lend_key(key);
}

/// The set that an end answers, and others: also usable and with the airfield,
/// usable without it, not usable.
struct Sets {
    answered: Set,
    second: Set,
    without: Set,
    unusable: Set,
}

impl Sets {
    fn draw(plan: &Plan, airfield: u8, random: &mut Random) -> Sets {
        let (mut inside, outside): (Vec<Set>, Vec<Set>) =
            plan.usable_sets().partition(|&set| holds(set, airfield));
        random.shuffle(&mut inside);
        let alone = 1 << (airfield - 1);
        let above = 1 << plan.airfields();
        Sets {
            answered: inside[0],
            second: inside[1],
            without: random.pick(&outside),
            unusable: random.pick(&[0, alone, above | alone, above | inside[0], Set::MAX]),
        }
    }

    /// Each kind of set, announced for the round.
    fn ask_all(&self, case: &mut Case, round: u32) {
        for set in [self.unusable, self.without, self.second, self.answered] {
            case.reply(set, round);
        }
    }
}
