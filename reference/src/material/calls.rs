//! Cases for the key maker and the airfield end, one end a case.
//!
//! - `cases`: the text of `count` cases, by `vectors::Case`
//!
//! The plan of case i is that of seed + i, so 896 cases meet every plan. Of
//! four cases, one has no fault, one has figures around the bound, one has
//! faults for the key maker, one for the end.

use super::vectors::Case;
use super::{another_round, any_round, plan_by_seed, row};
use crate::field::{Element, LARGEST, Q};
use crate::random::Random;
use crate::scheme::{Plan, Set, Use, MAX_AIRFIELDS, MAX_BLOCKS};

/// Calls on the end in a case with refusals, and how many of them in a
/// hundred ask for the first message.
const WALK_CALLS: usize = 12;
const FIRST_CALL: usize = 40;
/// How often each fault is put in, in a hundred: for the key maker, which is
/// called once a case, and for the end, which must get on to later stages.
const MAKER_FAULT: usize = 30;
const END_FAULT: usize = 15;
/// How often the end is asked for another round, in a hundred.
const OTHER_ROUND: usize = 30;

pub fn cases(seed: u64, count: u32) -> impl Iterator<Item = String> {
    let mut random = Random::new(seed);
    (0..count).map(move |index| {
        let plan = plan_by_seed(seed.wrapping_add(u64::from(index)));
        let airfield = 1 + random.below(usize::from(plan.airfields())) as u8;
        match index % 4 {
            0 => honest(&plan, airfield, &mut random),
            1 => around_the_bound(&plan, airfield, &mut random),
            2 => key_maker_faults(&plan, airfield, &mut random),
            _ => walk(&plan, airfield, &mut random),
        }
        .into_text()
    })
}

/// Nothing refused.
fn honest(plan: &Plan, airfield: u8, random: &mut Random) -> Case {
    let usage = any_use(random);
    let round = any_round(random);
    let mut case = key_and_start(plan, airfield, usage, round, random);
    case.first_message(&row(plan, usage, random).lent(), plan.row_length());
    let sets: Vec<Set> = plan.usable_sets_holding(airfield).collect();
    case.reply(random.pick(&sets), round);
    case
}

pub(super) fn any_use(random: &mut Random) -> Use {
    random.pick(&[Use::Counts, Use::Signed])
}

/// The elements that are the last within the bound, and those beyond it: first
/// the nearest ones, then the farthest.
fn at_the_bound(plan: &Plan, usage: Use) -> (Vec<Element>, Vec<Element>) {
    let bound = plan.figure_bound(usage);
    match usage {
        Use::Counts => (vec![bound], vec![bound + 1, LARGEST]),
        Use::Signed => {
            let farthest = Use::Signed.reach();
            (vec![bound, Q - bound], vec![bound + 1, Q - bound - 1, farthest, farthest + 1])
        }
    }
}

/// Figures beyond the bound at either end of the row, between and everywhere,
/// and with each fault that comes before them; then rows that reach the bound,
/// which the end takes, and none behind them.
fn around_the_bound(plan: &Plan, airfield: u8, random: &mut Random) -> Case {
    let usage = any_use(random);
    let round = any_round(random);
    let mut case = key_and_start(plan, airfield, usage, round, random);
    let length = plan.row_length();
    let (last, beyond) = at_the_bound(plan, usage);
    let lent = |random: &mut Random| row(plan, usage, random).lent();
    for &figure in &beyond {
        for place in [0, length - 1, random.below(length)] {
            case.first_message(&with(lent(random), place, figure), length);
        }
        case.first_message(&vec![figure; length], length);
    }
    beyond_with_earlier_faults(&mut case, plan, usage, random);
    for &figure in &last {
        case.start(airfield, usage, round);
        case.first_message(&with(lent(random), 0, figure), length);
        case.first_message(&vec![beyond[0]; length], length);
    }
    case.reply((1 << plan.airfields()) - 1, round);
    case
}

/// A figure beyond the bound before one that is no element, and behind it,
/// where there are two places; with a number in the key that is no element, in
/// S or in the shares; and in a row or for a buffer of another length.
fn beyond_with_earlier_faults(case: &mut Case, plan: &Plan, usage: Use, random: &mut Random) {
    let length = plan.row_length();
    let lent = |random: &mut Random| row(plan, usage, random).lent();
    let beyond = random.pick(&at_the_bound(plan, usage).1);
    if length > 1 {
        let left = random.below(length - 1);
        let right = left + 1 + random.below(length - 1 - left);
        for (place, other) in [(left, right), (right, left)] {
            let figures = with(lent(random), place, beyond);
            case.first_message(&with(figures, other, no_element(random)), length);
        }
    }
    let figures = with(lent(random), random.below(length), beyond);
    let key = case.key().to_vec();
    for place in [random.below(length), length + random.below(key.len() - length)] {
        case.lend_key(with(key.clone(), place, no_element(random)));
        case.first_message(&figures, length);
    }
    case.lend_key(key);
    case.first_message(&vec![beyond; length + 1], length);
    case.first_message(&figures, wrong_length(length, random));
}

/// The list with another number at a place.
pub(super) fn with(mut list: Vec<Element>, place: usize, number: u16) -> Vec<Element> {
    list[place] = number;
    list
}

/// The key maker with any of its faults together, then a start with the same
/// plan and airfield.
fn key_maker_faults(plan: &Plan, mut airfield: u8, random: &mut Random) -> Case {
    let mut numbers = plan.numbers();
    let mut list = random.elements(plan.list_length());
    let mut room = plan.key_length(airfield);
    if random.chance(MAKER_FAULT) {
        numbers[random.below(4)] = random.pick(&[0, MAX_AIRFIELDS + 1, MAX_BLOCKS + 1, u8::MAX]);
    }
    if random.chance(MAKER_FAULT) {
        airfield = random.pick(&[0, plan.airfields() + 1, u8::MAX]);
    }
    if random.chance(MAKER_FAULT) {
        room = wrong_length(room, random);
    }
    wrong_list(&mut list, MAKER_FAULT, random);
    let mut case = Case::new(numbers);
    case.lend_list(list);
    case.make_key(airfield, room);
    case.start(airfield, any_use(random), any_round(random));
    case
}

/// Calls on one end in any order, each with any of its faults together.
fn walk(plan: &Plan, airfield: u8, random: &mut Random) -> Case {
    let usage = any_use(random);
    let round = any_round(random);
    let mut case = key_and_start(plan, airfield, usage, round, random);
    let key = case.key().to_vec();
    for _ in 0..WALK_CALLS {
        let mut lent = key.clone();
        wrong_list(&mut lent, END_FAULT, random);
        case.lend_key(lent);
        if random.chance(FIRST_CALL) {
            faulty_first(&mut case, plan, usage, random);
        } else {
            let other = random.chance(OTHER_ROUND);
            let asked = if other { another_round(round, random) } else { round };
            case.reply(any_set(plan, random), asked);
        }
    }
    case
}

fn faulty_first(case: &mut Case, plan: &Plan, usage: Use, random: &mut Random) {
    let mut figures = row(plan, usage, random).lent();
    if random.chance(END_FAULT) {
        let place = random.below(figures.len());
        figures[place] = random.pick(&at_the_bound(plan, usage).1);
    }
    wrong_list(&mut figures, END_FAULT, random);
    let mut room = plan.row_length();
    if random.chance(END_FAULT) {
        room = wrong_length(room, random);
    }
    case.first_message(&figures, room);
}

/// Mostly one of the two sets most often asked, so that sets come again.
fn any_set(plan: &Plan, random: &mut Random) -> Set {
    let everyone = (1 << plan.airfields()) - 1;
    let without_last = everyone >> 1;
    match random.below(4) {
        0 => random.below(1 << MAX_AIRFIELDS) as Set,
        1 => without_last,
        _ => everyone,
    }
}

fn key_and_start(plan: &Plan, airfield: u8, usage: Use, round: u32, random: &mut Random) -> Case {
    let mut case = Case::new(plan.numbers());
    case.lend_list(random.elements(plan.list_length()));
    case.make_key(airfield, plan.key_length(airfield));
    case.start(airfield, usage, round);
    case
}

/// Puts in a number that is no element, at either end or between, this many
/// times in a hundred, and changes the length half as often.
fn wrong_list(list: &mut Vec<Element>, percent: usize, random: &mut Random) {
    if random.chance(percent) {
        let places = [0, list.len() - 1, random.below(list.len())];
        list[random.pick(&places)] = no_element(random);
    }
    if random.chance(percent / 2) {
        list.resize(wrong_length(list.len(), random), 0);
    }
}

pub(super) fn no_element(random: &mut Random) -> u16 {
    random.pick(&[Q, u16::MAX])
}

fn wrong_length(right: usize, random: &mut Random) -> usize {
    random.pick(&[0, right - 1, right + 1])
}
