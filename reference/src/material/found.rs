//! Cases for where the shares for a set start in an airfield's key.
//!
//! - `cases`: the text of `count` cases, by `vectors::Case`
//!
//! The plan of case i is that of seed + i, so 896 cases meet every plan. A
//! case asks airfields 0 to K + 1 and the largest number for the same sets,
//! usable ones and others, and each airfield of the plan for either end of the
//! usable sets with it and without it. Behind each fourth case stands another
//! one, with a plan outside its ranges and the same questions.

use super::vectors::Case;
use super::{plan_by_seed, wrong_numbers};
use crate::random::Random;
use crate::scheme::{holds, Plan, Set};
use std::collections::BTreeSet;

/// Sets that are drawn in each case, among the usable ones and among those of
/// one airfield more.
const DRAWN: usize = 3;

pub fn cases(seed: u64, count: u32) -> impl Iterator<Item = String> {
    let mut random = Random::new(seed);
    (0..count).map(move |index| {
        let plan = plan_by_seed(seed.wrapping_add(u64::from(index)));
        let sets = sets_for_all(&plan, &mut random);
        let mut text = lookups(plan.numbers(), &plan, &sets);
        if index % 4 == 3 {
            text += &lookups(wrong_numbers(&plan, &mut random), &plan, &sets);
        }
        text
    })
}

/// Asks what the plan suggests, under these numbers.
fn lookups(numbers: [u8; 4], plan: &Plan, sets: &BTreeSet<Set>) -> String {
    let mut case = Case::new(numbers);
    for airfield in (0..=plan.airfields() + 1).chain([u8::MAX]) {
        let mut asked = sets.clone();
        if plan.has_airfield(airfield) {
            asked.extend(ends_for(plan, airfield));
        }
        for set in asked {
            case.find_reply(airfield, set);
        }
    }
    case.into_text()
}

/// No member, one too few, just enough, everyone; members above K, alone, with
/// enough others and with everyone; and drawn sets.
fn sets_for_all(plan: &Plan, random: &mut Random) -> BTreeSet<Set> {
    let above = 1 << plan.airfields();
    let enough = (1 << plan.least()) - 1;
    let mut sets = BTreeSet::from([0, enough >> 1, enough, above - 1, above, above | enough]);
    sets.insert(Set::MAX);
    let usable: Vec<Set> = plan.usable_sets().collect();
    for _ in 0..DRAWN {
        sets.insert(random.pick(&usable));
        sets.insert(random.below(usize::from(2 * above)) as Set);
    }
    sets
}

/// The smallest and the largest usable set that holds the airfield, and the
/// same of those that do not.
fn ends_for(plan: &Plan, airfield: u8) -> Vec<Set> {
    let (with, without): (Vec<Set>, Vec<Set>) =
        plan.usable_sets().partition(|&set| holds(set, airfield));
    [with, without].iter().flat_map(|sets| [sets[0], sets[sets.len() - 1]]).collect()
}
