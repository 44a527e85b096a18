//! Cases for random lists from raw bytes.
//!
//! - `cases`: the text of `count` cases, by `vectors::Case`
//! - `WAYS`: the ways to draw a list, each by one call or more
//!
//! The plan of case i is that of seed + i, so 896 cases meet every plan. A
//! case draws lists, short ones in every way and long ones in two of them, at
//! least one of which gives a list; and it makes keys from them. Behind each
//! fourth case stands another one, with a plan outside its ranges.

use super::vectors::Case;
use super::{plan_by_seed, wrong_numbers};
use crate::field::{Element, LARGEST, Q};
use crate::random::Random;
use crate::scheme::Plan;

/// A case draws about this many elements, and lists in so many ways at least.
const CASE_ELEMENTS: usize = 560;
const LEAST_WAYS: usize = 2;
/// How often, in a hundred, a key is made behind a way, and a skipped number
/// stands before an element.
const KEY: usize = 60;
const SKIPPED: usize = 15;
/// How many skipped numbers stand in a row at most, and how many bytes are
/// few.
const LONGEST_RUN: usize = 3;
const MOST_FEW: usize = 6;

type Way = fn(&mut Case, usize, &mut Random);
/// The first ones give a list.
const GIVING: usize = 5;
const WAYS: [Way; 8] = [
    number_by_number,
    hardly_skipped,
    skipped_all_over,
    near_the_bound,
    spare_bytes,
    skipped_at_the_end,
    hardly_a_byte,
    wrong_rooms,
];

pub fn cases(seed: u64, count: u32) -> impl Iterator<Item = String> {
    let mut random = Random::new(seed);
    (0..count).map(move |index| {
        let plan = plan_by_seed(seed.wrapping_add(u64::from(index)));
        let mut text = draws(&plan, &mut random).into_text();
        if index % 4 == 3 {
            text += &wrong_plan(&plan, &mut random).into_text();
        }
        text
    })
}

/// Lists drawn one after the other, now and then with a key from what is lent
/// by then.
fn draws(plan: &Plan, random: &mut Random) -> Case {
    let length = plan.list_length();
    let count = (CASE_ELEMENTS / length).clamp(LEAST_WAYS, WAYS.len());
    let mut ways = WAYS;
    random.shuffle(&mut ways[..GIVING]);
    random.shuffle(&mut ways[1..]);
    random.shuffle(&mut ways[..count]);
    let mut case = Case::new(plan.numbers());
    for way in &ways[..count] {
        way(&mut case, length, random);
        if random.chance(KEY) {
            let airfield = 1 + random.below(usize::from(plan.airfields())) as u8;
            case.make_key(airfield, plan.key_length(airfield));
        }
    }
    case
}

/// One number of the plan is wrong. The room may be wrong too, or none at all,
/// and the bytes too few.
fn wrong_plan(plan: &Plan, random: &mut Random) -> Case {
    let length = plan.list_length();
    let mut case = Case::new(wrong_numbers(plan, random));
    case.draw_list(&bytes(&with_skipped(length, random)), length);
    case.draw_list(&few_bytes(random), length);
    case.draw_list(&few_bytes(random), random.pick(&[length - 1, length + 1]));
    case.draw_list(&few_bytes(random), 0);
    case.make_key(1, plan.key_length(1));
    case
}

/// A number too few, half a number too few, then full with the last byte.
fn number_by_number(case: &mut Case, length: usize, random: &mut Random) {
    let bytes = bytes(&with_skipped(length, random));
    for missing in [2, 1, 0] {
        case.draw_list(&bytes[..bytes.len() - missing], length);
    }
}

/// No number skipped, then one: as a sound source mostly gives them. It stands
/// where a program that takes many numbers at a time may have its rows end.
fn hardly_skipped(case: &mut Case, length: usize, random: &mut Random) {
    let mut numbers = random.elements(length);
    case.draw_list(&bytes(&numbers), length);
    let place = random.pick(&[7, 8, 15, 16, 31, 32, 63, 64, 65, 127, 128]);
    numbers.insert(place.min(length), skipped(random));
    case.draw_list(&bytes(&numbers), length);
}

/// Skipped numbers at the start, in the middle, before the last element and
/// behind it.
fn skipped_all_over(case: &mut Case, length: usize, random: &mut Random) {
    let elements = random.elements(length);
    let middle = 1 + random.below(length - 2);
    let numbers = [
        &skipped_run(random)[..],
        &elements[..middle],
        &skipped_run(random),
        &elements[middle..length - 1],
        &skipped_run(random),
        &elements[length - 1..],
        &skipped_run(random),
    ];
    case.draw_list(&bytes(&numbers.concat()), length);
}

/// The last two elements and all numbers above them in any order, among other
/// elements or behind them.
fn near_the_bound(case: &mut Case, length: usize, random: &mut Random) {
    let mut near: Vec<u16> = (LARGEST - 1..=u16::MAX).collect();
    random.shuffle(&mut near);
    let elements = random.elements(length - 2);
    let (start, end) = elements.split_at(random.below(length - 1));
    case.draw_list(&bytes(&[start, &near, end].concat()), length);
}

/// Bytes left over: whole numbers, some of them skipped ones, or half a one.
fn spare_bytes(case: &mut Case, length: usize, random: &mut Random) {
    let enough = bytes(&with_skipped(length, random));
    case.draw_list(&[enough, few_bytes(random)].concat(), length);
}

/// Enough numbers, but an element too few, as the last ones are skipped.
fn skipped_at_the_end(case: &mut Case, length: usize, random: &mut Random) {
    let numbers = [with_skipped(length - 1, random), skipped_run(random)].concat();
    let mut bytes = bytes(&numbers);
    if random.chance(50) {
        bytes.push(0);
    }
    case.draw_list(&bytes, length);
}

fn hardly_a_byte(case: &mut Case, length: usize, random: &mut Random) {
    case.draw_list(&[], length);
    case.draw_list(&[random.pick(&[0, u8::MAX])], length);
    case.draw_list(&few_bytes(random), length);
}

/// Buffers that are empty, too short or too long, each with as many elements
/// as it takes, or with too few.
fn wrong_rooms(case: &mut Case, length: usize, random: &mut Random) {
    for room in [0, length - 1, length + 1] {
        let enough = bytes(&with_skipped(room, random));
        let few = few_bytes(random);
        case.draw_list(random.pick(&[&enough, &few]), room);
    }
}

/// One byte or more, too few for any list.
fn few_bytes(random: &mut Random) -> Vec<u8> {
    (0..=random.below(MOST_FEW)).map(|_| random.pick(&[0, 1, u8::MAX])).collect()
}

/// So many elements, skipped numbers before some of them.
fn with_skipped(length: usize, random: &mut Random) -> Vec<u16> {
    let mut numbers = vec![];
    for _ in 0..length {
        if random.chance(SKIPPED) {
            numbers.push(skipped(random));
        }
        numbers.push(random.element());
    }
    numbers
}

/// One skipped number or more.
fn skipped_run(random: &mut Random) -> Vec<u16> {
    (0..=random.below(LONGEST_RUN)).map(|_| skipped(random)).collect()
}

fn skipped(random: &mut Random) -> u16 {
    Q + random.below(usize::from(u16::MAX - LARGEST)) as Element
}

fn bytes(numbers: &[u16]) -> Vec<u8> {
    numbers.iter().flat_map(|number| number.to_le_bytes()).collect()
}
