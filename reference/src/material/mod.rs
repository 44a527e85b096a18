//! Test material from a seed. The same kind, seed and count always give the
//! same bytes.
//!
//! - `rounds`: streams of whole rounds, with the ways a round can go wrong
//! - `repeated`: streams of whole rounds in which every record comes twice
//! - `garbled`: streams of whole rounds with false replies
//! - `damaged`: streams that try every bound in every phase, and damage
//! - `vectors`: calls with their answers as text, one a line
//! - `calls`: cases for the key maker and the airfield end, by `vectors`
//! - `announced`: cases for sets announced for a round, by `vectors`
//! - `drawn`: cases for random lists from raw bytes, by `vectors`
//! - `found`: cases for where replies lie in keys, by `vectors`
//! - `read`: cases for the reader and for residues, by `vectors`
//! - `whole`: whole rounds from keys to totals, by `vectors`
//! - `all_plans`, `plan_by_seed`: every plan there is, one for each seed
//! - `wrong_numbers`: a plan's numbers, one of them outside its range
//! - `any_round`, `another_round`: the round of an end, and one unlike it
//! - `Row`, `row`, `table`: the figures of one airfield, and of all of them
//! - `whole_sums`, `totals`: what they add up to, and the residues of it
//! - `common_use`: the use of the airfields of a set, if they have one
//! - `first_records`, `reply_records`: one airfield's messages as records

pub mod announced;
pub mod calls;
pub mod damaged;
pub mod drawn;
pub mod found;
pub mod garbled;
pub mod read;
pub mod repeated;
pub mod rounds;
pub mod vectors;
pub mod whole;

use crate::field::Element;
use crate::random::Random;
use crate::reading::residue;
use crate::scheme::{members, Plan, Set, Use, MAX_AIRFIELDS, MAX_BLOCKS};
use crate::stream::Record;

/// Coprime to the 896 plans, so that seeds in a row meet very unlike plans
/// and 896 seeds in a row meet them all.
const PLAN_STRIDE: u64 = 555;

/// In this many tables of a hundred every figure is the bound, so that the
/// figures of all airfields add up to 65520, or to 32760 or -32760 if all are
/// signed.
const BUSY: usize = 10;

/// Every K, U, T, M within its ranges.
pub fn all_plans() -> Vec<Plan> {
    let up_to_eight = || 1..=MAX_AIRFIELDS;
    up_to_eight()
        .flat_map(|k| up_to_eight().map(move |u| (k, u)))
        .flat_map(|(k, u)| up_to_eight().map(move |t| (k, u, t)))
        .flat_map(|(k, u, t)| (1..=MAX_BLOCKS).map(move |m| [k, u, t, m]))
        .filter_map(|numbers| Plan::new(numbers).ok())
        .collect()
}

pub fn plan_by_seed(seed: u64) -> Plan {
    let plans = all_plans();
    let count = plans.len() as u64;
    plans[(seed % count * PLAN_STRIDE % count) as usize]
}

/// Wrong by itself, or beside the others.
pub fn wrong_numbers(plan: &Plan, random: &mut Random) -> [u8; 4] {
    let mut numbers = plan.numbers();
    let [airfields, least, ..] = numbers;
    let (at, number) = random.pick(&[
        (0, least),
        (0, MAX_AIRFIELDS + 1),
        (1, 0),
        (1, airfields),
        (2, 0),
        (2, least),
        (3, 0),
        (3, MAX_BLOCKS + 1),
        (3, u8::MAX),
    ]);
    numbers[at] = number;
    numbers
}

/// Rounds up to this one are small.
const SMALL_ROUND: usize = 9;

/// Any number of four bytes: often either end, often a small one.
pub fn any_round(random: &mut Random) -> u32 {
    let small = 1 + random.below(SMALL_ROUND) as u32;
    let any = random.draw() as u32;
    random.pick(&[0, u32::MAX, small, any])
}

/// Differs in one bit, at either end of the low or of the high half; in bits of
/// one half alone or of both; or in every bit.
pub fn another_round(round: u32, random: &mut Random) -> u32 {
    let half = 1 + random.below(usize::from(u16::MAX)) as u32;
    let both = half << 16 | half;
    round ^ random.pick(&[1, 1 << 15, half, 1 << 16, 1 << 31, half << 16, both, u32::MAX])
}

/// The figures of one airfield, as whole numbers.
#[derive(Clone, Debug)]
pub struct Row {
    pub usage: Use,
    pub figures: Vec<i32>,
}

impl Row {
    /// As they are lent.
    pub fn lent(&self) -> Vec<Element> {
        self.figures.iter().copied().map(residue).collect()
    }
}

/// A row of figures within the plan's bound.
pub fn row(plan: &Plan, usage: Use, random: &mut Random) -> Row {
    let bound = plan.figure_bound(usage);
    let mut figure = || match usage {
        Use::Counts => random.up_to(bound).into(),
        Use::Signed => random.around(bound),
    };
    Row { usage, figures: (0..plan.row_length()).map(|_| figure()).collect() }
}

/// A row of figures for each airfield: all counts, all signed, or each as it
/// comes.
pub fn table(plan: &Plan, random: &mut Random) -> Vec<Row> {
    let uses = random.pick(&[&[Use::Counts][..], &[Use::Signed], &[Use::Counts, Use::Signed]]);
    let busy = random.chance(BUSY);
    let sign = random.pick(&[1, -1]);
    let busy_row = |usage| {
        let bound = i32::from(plan.figure_bound(usage));
        let figure = if usage == Use::Signed { sign * bound } else { bound };
        Row { usage, figures: vec![figure; plan.row_length()] }
    };
    let row = |_| match random.pick(uses) {
        usage if busy => busy_row(usage),
        usage => row(plan, usage, random),
    };
    (1..=plan.airfields()).map(row).collect()
}

/// Per place, the whole-number sum of the figures of a set.
pub fn whole_sums(plan: &Plan, table: &[Row], set: Set) -> Vec<i32> {
    let figure = |airfield: u8, place: usize| table[usize::from(airfield - 1)].figures[place];
    let sum = |place| members(set).map(|airfield| figure(airfield, place)).sum();
    (0..plan.row_length()).map(sum).collect()
}

/// Per place, what the service must give for a set.
pub fn totals(plan: &Plan, table: &[Row], set: Set) -> Vec<Element> {
    whole_sums(plan, table, set).into_iter().map(residue).collect()
}

/// None if the airfields of the set have both uses.
pub fn common_use(table: &[Row], set: Set) -> Option<Use> {
    let mut uses = members(set).map(|airfield| table[usize::from(airfield - 1)].usage);
    let first = uses.next()?;
    uses.all(|usage| usage == first).then_some(first)
}

/// A first message as records, place by place.
pub fn first_records(airfield: u8, message: &[Element]) -> Vec<Record> {
    let record = |(place, &element)| Record::First { airfield, place, element };
    (0..).zip(message).map(record).collect()
}

/// A reply as records, block by block.
pub fn reply_records(airfield: u8, shares: &[Element]) -> Vec<Record> {
    let record = |(block, &element)| Record::Reply { airfield, block, element };
    (0..).zip(shares).map(record).collect()
}
