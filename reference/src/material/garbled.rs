//! Streams of whole rounds with false replies (document 02, item 6).
//!
//! - `Way`: what is false in a round, and how the replies come
//! - `plan`: the plan of the first seed from this one on under which U + 2
//!   airfields can reply
//! - `Round`: a round that goes one of the ways
//! - `rounds`: `count` rounds of a seed, whose ways take turns
//! - `records`: the plan, and the records of these rounds
//!
//! Each round draws fresh figures and a fresh random list, has at least U + 2
//! survivors, and asks for the finish twice in the end.

use super::rounds::another;
use super::{first_records, plan_by_seed, reply_records, table, totals};
use crate::field::{add, mul, sum, Element};
use crate::random::Random;
use crate::scheme::{
    coefficient, first_message, members, set_of, shares, solve, Plan, RandomList, Reply, Set,
};
use crate::stream::Record;

/// Where nothing else is said, all survivors reply, and then the finish is
/// asked. The odd airfield is the first of the survivors, the last, or any.
#[derive(Clone, Copy, Debug, PartialEq, Eq)]
pub enum Way {
    /// Nothing is false.
    Right,
    /// The odd airfield is false in one block.
    OneBlock,
    /// The odd airfield is false in all blocks.
    EveryBlock,
    /// The odd airfield and another are false in the same block.
    TwoInOneBlock,
    /// The odd airfield is false in one block and another airfield in the next,
    /// which is the same one if there is no other.
    TwoInTwoBlocks,
    /// The odd airfield and another reply, in all blocks, by other sums and noise
    /// than the rest, and both by the same.
    TwoTogether,
    /// The odd airfield is right, and so are U - 1 others; by other sums and
    /// noise these and all the rest agree in one block.
    AllButOne,
    /// The odd airfield is false in one block. The finish is asked behind U + 1
    /// replies with its own, behind one more, and behind the rest.
    OneLater,
    /// The odd airfield is false in one block. The finish is asked behind U + 1
    /// replies with its own, while the others lack the next block, and behind
    /// that.
    WholeLater,
    /// The odd airfield is false in one block. All replies come again, and then
    /// its own as it should have been.
    Again,
}

impl Way {
    pub const ALL: [Way; 10] = [
        Way::Right,
        Way::OneBlock,
        Way::EveryBlock,
        Way::TwoInOneBlock,
        Way::TwoInTwoBlocks,
        Way::TwoTogether,
        Way::AllButOne,
        Way::OneLater,
        Way::WholeLater,
        Way::Again,
    ];
}

pub fn plan(seed: u64) -> Plan {
    let tells = |plan: &Plan| usize::from(plan.airfields()) >= plan.least() + 2;
    (seed..).map(plan_by_seed).find(tells).expect("there is such a plan")
}

pub struct Round {
    pub way: Way,
    pub survivors: Set,
    pub odd: u8,
    /// Of the survivors' figures.
    pub totals: Vec<Element>,
    pub records: Vec<Record>,
}

pub fn rounds(seed: u64, count: u32) -> Vec<Round> {
    let mut random = Random::new(seed);
    let plan = plan(seed);
    let mut ways = Way::ALL;
    random.shuffle(&mut ways);
    let turns = ways.iter().cycle();
    (1..=count).zip(turns).map(|(number, &way)| round(&plan, number, way, &mut random)).collect()
}

pub fn records(seed: u64, count: u32) -> Vec<Record> {
    let rounds = rounds(seed, count).into_iter().flat_map(|round| round.records);
    [Record::Plan(plan(seed).numbers())].into_iter().chain(rounds).collect()
}

fn round(plan: &Plan, number: u32, way: Way, random: &mut Random) -> Round {
    let elements = random.elements(plan.list_length());
    let list = RandomList { plan, elements: &elements };
    let table = table(plan, random);
    let survivors = survivors(plan, random);
    let mut records = vec![Record::Open(number)];
    for airfield in members(survivors) {
        let figures = table[usize::from(airfield - 1)].lent();
        records.extend(first_records(airfield, &first_message(list.s(airfield), &figures)));
    }
    records.push(Record::Close);
    let mut right: Vec<Reply> =
        members(survivors).map(|airfield| (airfield, shares(&list, airfield, survivors))).collect();
    let any = random.below(right.len());
    let odd = random.pick(&[0, right.len() - 1, any]);
    // the odd airfield leads, the others follow in any order
    right.swap(0, odd);
    random.shuffle(&mut right[1..]);
    let block = random.below(plan.blocks());
    let sent = falsified(plan, way, &right, block, random);
    records.extend(replying(plan, way, &right, &sent, block));
    let totals = totals(plan, &table, survivors);
    Round { way, survivors, odd: right[0].0, totals, records }
}

/// U + 2 airfields or more.
fn survivors(plan: &Plan, random: &mut Random) -> Set {
    let mut airfields: Vec<u8> = (1..=plan.airfields()).collect();
    random.shuffle(&mut airfields);
    let least = plan.least() + 2;
    let count = least + random.below(airfields.len() - least + 1);
    set_of(airfields.into_iter().take(count))
}

/// What is sent in the place of the right replies, the first of which is that
/// of the odd airfield.
fn falsified(
    plan: &Plan,
    way: Way,
    right: &[Reply],
    block: usize,
    random: &mut Random,
) -> Vec<Reply> {
    let mut sent = right.to_vec();
    let mut change = |index: usize, block: usize| {
        let share = &mut sent[index].1[block];
        *share = another(*share, random);
    };
    match way {
        Way::Right => {}
        Way::OneBlock | Way::OneLater | Way::WholeLater | Way::Again => change(0, block),
        Way::EveryBlock => (0..plan.blocks()).for_each(|block| change(0, block)),
        Way::TwoInOneBlock => [0, 1].into_iter().for_each(|index| change(index, block)),
        Way::TwoInTwoBlocks => {
            change(0, block);
            change(1, (block + 1) % plan.blocks());
        }
        Way::TwoTogether => {
            for block in 0..plan.blocks() {
                let other: Vec<Element> = (0..plan.least()).map(|_| another(0, random)).collect();
                move_by(&other, &mut sent[..2], block);
            }
        }
        Way::AllButOne => {
            let other = unseen_by_some(plan, right, another(0, random));
            move_by(&other, &mut sent[1..], block);
        }
    }
    sent
}

/// Adds these sums and noise to those by which the replies answer a block.
fn move_by(unknowns: &[Element], replies: &mut [Reply], block: usize) {
    for (airfield, shares) in replies {
        let terms = (1..)
            .zip(unknowns)
            .map(|(column, &unknown)| mul(coefficient(*airfield, column), unknown));
        shares[block] = add(shares[block], sum(terms));
    }
}

/// Sums and noise that give the first airfield this share, and the next U - 1
/// airfields 0.
fn unseen_by_some(plan: &Plan, replies: &[Reply], share: Element) -> Vec<Element> {
    let equation = |(airfield, right_side): (u8, Element)| {
        let left = (1..=plan.least()).map(|column| coefficient(airfield, column));
        left.chain([right_side]).collect()
    };
    let right_sides = [share].into_iter().chain([0].into_iter().cycle());
    let airfields = replies[..plan.least()].iter().map(|&(airfield, _)| airfield);
    let rows = airfields.zip(right_sides).map(equation).collect();
    solve(rows, plan.least()).expect("U equations have one solution")
}

/// The replies in batches, a finish behind each of them, and one more.
fn replying(plan: &Plan, way: Way, right: &[Reply], sent: &[Reply], block: usize) -> Vec<Record> {
    let (some, others) = sent.split_at(plan.least() + 1);
    let batches = match way {
        Way::OneLater => {
            vec![records_of(some), records_of(&others[..1]), records_of(&others[1..])]
        }
        Way::WholeLater => {
            let next = (block + 1) % plan.blocks();
            let (missing, held): (Vec<Record>, Vec<Record>) =
                records_of(others).into_iter().partition(|record| is_of_block(record, next));
            vec![[records_of(some), held].concat(), missing]
        }
        Way::Again => {
            vec![[records_of(sent), records_of(sent), records_of(&right[..1])].concat()]
        }
        _ => vec![records_of(sent)],
    };
    let finished = batches.into_iter().flat_map(|batch| batch.into_iter().chain([Record::Finish]));
    finished.chain([Record::Finish]).collect()
}

fn records_of(replies: &[Reply]) -> Vec<Record> {
    replies.iter().flat_map(|(airfield, shares)| reply_records(*airfield, shares)).collect()
}

fn is_of_block(record: &Record, wanted: usize) -> bool {
    matches!(record, Record::Reply { block, .. } if usize::from(*block) == wanted)
}
