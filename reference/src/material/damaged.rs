//! Streams that try what must be refused, under the plan of the seed.
//!
//! - `ENDINGS`: how many endings there are; a seed takes the ending that its
//!   remainder names, so this many seeds in a row take them all
//! - `bytes`: the stream
//!
//! In order: every kind before a plan; plans outside their ranges; the plan;
//! every kind, and each value at its bound and one past it, when idle, when
//! gathering and when replying; a round with just U replies, in which all
//! elements come again, one with replies drawn at random, and one in which all
//! replies but one agree; `steps` random records; the last round number; and one
//! ending: none, an unknown kind, each kind cut after each length, or random
//! bytes. With the last ending the stream is random bytes from the start.

use super::{first_records, plan_by_seed, reply_records};
use crate::field::{LARGEST, Q};
use crate::random::Random;
use crate::scheme::{Plan, MAX_AIRFIELDS, MAX_BLOCKS, MIN_AIRFIELDS};
use crate::stream::{to_bytes, Record, FORMS};

/// No damage, four unknown kinds, 17 cuts, a random tail, all random.
pub const ENDINGS: usize = 24;
const UNKNOWN_KINDS: [u8; 4] = [0x00, 0x07, 0x80, 0xFF];

/// Random bytes: fewer than this many, this many in a hundred a known kind.
const RANDOM_BYTES: usize = 200;
const KNOWN_KIND: usize = 80;

/// Elements at the bound, one past it, and at the ends of 16 bits.
const ELEMENTS: [u16; 4] = [0, LARGEST, Q, u16::MAX];

/// The arms of a random step share out this many equal chances.
const STEP_WEIGHTS: usize = 32;

/// Rounds opened before the random records start.
const FIXED_ROUNDS: u32 = 5;

pub fn bytes(seed: u64, steps: u32) -> Vec<u8> {
    let mut random = Random::new(seed);
    let ending = (seed % ENDINGS as u64) as usize;
    if ending == ENDINGS - 1 {
        return random_bytes(&mut random);
    }
    let plan = plan_by_seed(seed);
    let mut records = before_plan(&plan);
    records.extend(refused_plans(&plan));
    records.push(Record::Plan(plan.numbers()));
    records.extend(every_phase(&plan, &mut random));
    records.extend((0..steps).flat_map(|step| random_step(&plan, step, &mut random)));
    records.extend([u32::MAX, u32::MAX, 0].map(Record::Open));
    records.extend(every_kind(&plan));
    [to_bytes(&records), ending_bytes(ending, &mut random)].concat()
}

/// A record of each kind that names no airfield. None of them ends the phase
/// it is met in while no airfield is complete.
fn every_kind(plan: &Plan) -> Vec<Record> {
    vec![
        Record::Plan(plan.numbers()),
        Record::Plan([0; 4]),
        Record::Open(0),
        Record::Close,
        Record::Finish,
    ]
}

/// Every combination of values around their bounds.
fn firsts_at_bounds(plan: &Plan) -> Vec<Record> {
    let length = plan.row_length() as u16;
    combinations(&airfields_at_bounds(plan), &[0, length - 1, length, u16::MAX])
        .map(|(airfield, place, element)| Record::First { airfield, place, element })
        .collect()
}

fn replies_at_bounds(plan: &Plan) -> Vec<Record> {
    let blocks = plan.blocks() as u8;
    combinations(&airfields_at_bounds(plan), &[0, blocks - 1, blocks, u8::MAX])
        .map(|(airfield, block, element)| Record::Reply { airfield, block, element })
        .collect()
}

fn airfields_at_bounds(plan: &Plan) -> [u8; 5] {
    [0, 1, plan.airfields(), plan.airfields() + 1, u8::MAX]
}

fn combinations<'a, T: Copy>(
    airfields: &'a [u8],
    positions: &'a [T],
) -> impl Iterator<Item = (u8, T, u16)> + 'a {
    airfields
        .iter()
        .flat_map(move |&airfield| positions.iter().map(move |&position| (airfield, position)))
        .flat_map(|(airfield, position)| ELEMENTS.map(|element| (airfield, position, element)))
}

fn before_plan(plan: &Plan) -> Vec<Record> {
    let rest = [Record::Open(1), Record::Close, Record::Finish];
    [firsts_at_bounds(plan), replies_at_bounds(plan), rest.to_vec()].concat()
}

/// Every plan outside its ranges whose numbers are all near a bound.
fn refused_plans(plan: &Plan) -> Vec<Record> {
    let [k, u, ..] = plan.numbers();
    let airfields = [0, MIN_AIRFIELDS - 1, k, MAX_AIRFIELDS + 1, u8::MAX];
    let least = [0, 1, u, k - 1, k, k + 1, u8::MAX];
    let colluders = [0, 1, u - 1, u, u + 1, u8::MAX];
    let blocks = [0, 1, MAX_BLOCKS, MAX_BLOCKS + 1, u8::MAX];
    airfields
        .iter()
        .flat_map(|&k| least.map(|u| (k, u)))
        .flat_map(|(k, u)| colluders.map(|t| (k, u, t)))
        .flat_map(|(k, u, t)| blocks.map(|m| [k, u, t, m]))
        .filter(|&numbers| Plan::new(numbers).is_err())
        .map(Record::Plan)
        .collect()
}

/// Idle, gathering and replying, left by open and by finish.
fn every_phase(plan: &Plan, random: &mut Random) -> Vec<Record> {
    let firsts = firsts_at_bounds(plan);
    let replies = replies_at_bounds(plan);
    let kinds = every_kind(plan);
    let bounds = [firsts.clone(), replies.clone()].concat();
    let enough = plan.least() as u8;
    let all = plan.airfields();
    let twice = |records: Vec<Record>| [records.clone(), records].concat();
    [
        [bounds.clone(), kinds.clone()].concat(),
        [vec![Record::Open(1)], kinds.clone(), replies, twice(firsts)].concat(),
        [vec![Record::Open(2)], twice(rows(plan, enough, random)), vec![Record::Close]].concat(),
        [kinds.clone(), bounds.clone(), twice(answers(plan, enough, random))].concat(),
        [vec![Record::Finish], kinds.clone(), bounds].concat(),
        [vec![Record::Open(3)], rows(plan, all, random), vec![Record::Close]].concat(),
        [answers(plan, all, random), vec![Record::Finish; 2], vec![Record::Open(3)]].concat(),
        [vec![Record::Open(4)], rows(plan, all, random), vec![Record::Close]].concat(),
        [one_false(plan, random), vec![Record::Finish], kinds.clone()].concat(),
        [vec![Record::Open(FIXED_ROUNDS)], kinds].concat(),
    ]
    .concat()
}

/// Whole rows of airfields 1 to `last`.
fn rows(plan: &Plan, last: u8, random: &mut Random) -> Vec<Record> {
    (1..=last)
        .flat_map(|airfield| first_records(airfield, &random.elements(plan.row_length())))
        .collect()
}

/// Whole replies of airfields 1 to `last`, drawn at random.
fn answers(plan: &Plan, last: u8, random: &mut Random) -> Vec<Record> {
    (1..=last)
        .flat_map(|airfield| reply_records(airfield, &random.elements(plan.blocks())))
        .collect()
}

/// Whole replies of all airfields: 0 throughout, but for one airfield.
fn one_false(plan: &Plan, random: &mut Random) -> Vec<Record> {
    let odd = 1 + random.below(usize::from(plan.airfields())) as u8;
    let element = |airfield| if airfield == odd { LARGEST } else { 0 };
    (1..=plan.airfields())
        .flat_map(|airfield| reply_records(airfield, &vec![element(airfield); plan.blocks()]))
        .collect()
}

/// A record with values near their bounds, or a whole row or reply, so that
/// every phase is reached.
fn random_step(plan: &Plan, step: u32, random: &mut Random) -> Vec<Record> {
    let airfield = random.below(usize::from(plan.airfields()) + 2) as u8;
    let place = random.below(plan.row_length() + 2) as u16;
    let block = random.below(plan.blocks() + 2) as u8;
    let element = random.pick(&ELEMENTS);
    match random.below(STEP_WEIGHTS) {
        0 => vec![Record::Plan([airfield, block, block, airfield])],
        1 => vec![Record::Open(FIXED_ROUNDS + step)],
        2 => vec![Record::Open(step / 2)],
        3..=5 => vec![Record::Close],
        6..=7 => vec![Record::Finish],
        8..=11 => vec![Record::First { airfield, place, element }],
        12..=15 => vec![Record::Reply { airfield, block, element }],
        16..=23 => first_records(airfield, &random.elements(plan.row_length())),
        _ => reply_records(airfield, &random.elements(plan.blocks())),
    }
}

/// Ending 0 is no damage; then the unknown kinds, the cuts, a random tail.
fn ending_bytes(ending: usize, random: &mut Random) -> Vec<u8> {
    let unknown = UNKNOWN_KINDS.map(|kind| vec![kind]);
    let cuts = FORMS.iter().flat_map(|form| {
        (0..form.body_length()).map(|found| [vec![form.kind], vec![1; found]].concat())
    });
    let endings: Vec<Vec<u8>> =
        [vec![]].into_iter().chain(unknown).chain(cuts).chain([random_bytes(random)]).collect();
    assert_eq!(endings.len(), ENDINGS - 1);
    endings[ending].clone()
}

/// Mostly known kinds, so that many records are read before the damage.
fn random_bytes(random: &mut Random) -> Vec<u8> {
    let length = random.below(RANDOM_BYTES);
    let byte = |_| {
        let any = random.draw() as u8;
        let kind = random.pick(&FORMS.map(|form| form.kind));
        if random.chance(KNOWN_KIND) {
            kind
        } else {
            any
        }
    };
    (0..length).map(byte).collect()
}
