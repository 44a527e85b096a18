//! Streams of whole rounds under one plan, the plan taken by the seed.
//!
//! - `records`: the plan, `count` rounds, then opens that must be refused
//! - `Round`: one of the rounds; `Round::draw`, `Round::records`
//!
//! Each round draws fresh figures within the bound, counts or signed ones or
//! both, and a fresh random list. It may have airfields that drop out before or
//! after the close, unfinished rows, rows and replies in any order, elements
//! that come again as they were or changed, a close or finish asked too early,
//! first messages after the close, replies of others than survivors, partial
//! replies, more replies than needed, one garbled reply, and it may be left
//! before its finish. Round numbers start at 1, or spread over all numbers, or
//! run up to 4294967295.

use super::{first_records, plan_by_seed, reply_records, table};
use crate::field::{add, Element, LARGEST};
use crate::random::Random;
use crate::scheme::{first_message, holds, set_of, shares, Plan, RandomList, Set};
use crate::stream::Record;

/// How often something happens, in a hundred.
pub(super) const RARE: usize = 10;
pub(super) const SOMETIMES: usize = 20;
pub(super) const OFTEN: usize = 50;

/// Elements that come again in a batch with repeats, at most.
const REPEATS: usize = 6;

pub fn records(seed: u64, count: u32) -> Vec<Record> {
    let mut random = Random::new(seed);
    let plan = plan_by_seed(seed);
    let mut records = vec![Record::Plan(plan.numbers())];
    let numbers = round_numbers(&mut random, count);
    for &number in &numbers {
        let round = Round::draw(&plan, number, &mut random);
        records.extend(round.records(&mut random));
    }
    records.extend([0, numbers.last().copied().unwrap_or(0)].map(Record::Open));
    records
}

/// Rising numbers: from 1, spread out, or up to the largest.
fn round_numbers(random: &mut Random, count: u32) -> Vec<u32> {
    let widest_gap = u32::MAX / count.max(1);
    match random.below(3) {
        0 => (1..=count).collect(),
        1 => (0..count)
            .map(|index| index * widest_gap + 1 + random.below(widest_gap as usize) as u32)
            .collect(),
        _ => (0..count).rev().map(|before_last| u32::MAX - before_last).collect(),
    }
}

pub(super) struct Round<'a> {
    plan: &'a Plan,
    number: u32,
    list: Vec<Element>,
    messages: Vec<Vec<Element>>,
    /// Airfields that send their whole row, and that send their whole reply.
    senders: Vec<u8>,
    repliers: Vec<u8>,
}

impl Round<'_> {
    pub(super) fn draw<'a>(plan: &'a Plan, number: u32, random: &mut Random) -> Round<'a> {
        let list = random.elements(plan.list_length());
        let s = RandomList { plan, elements: &list };
        let messages = (1..=plan.airfields())
            .zip(table(plan, random))
            .map(|(airfield, row)| first_message(s.s(airfield), &row.lent()))
            .collect();
        let everyone: Vec<u8> = (1..=plan.airfields()).collect();
        let senders = some_of(&everyone, plan.least(), random);
        let repliers = some_of(&senders, plan.least(), random);
        Round { plan, number, list, messages, senders, repliers }
    }

    pub(super) fn records(&self, random: &mut Random) -> Vec<Record> {
        let mut records = vec![Record::Open(self.number)];
        records.extend(self.gathering(random));
        records.push(Record::Close);
        records.extend(self.late_firsts(random));
        records.extend(self.replying(random));
        if !random.chance(RARE) {
            records.push(Record::Finish);
        }
        if random.chance(RARE) {
            records.push(Record::Finish);
        }
        records
    }

    /// Unfinished rows and all whole rows but the last needed, perhaps a close
    /// too early, then the other whole rows.
    fn gathering(&self, random: &mut Random) -> Vec<Record> {
        let rows: Vec<_> =
            self.senders.iter().map(|&airfield| self.first_records(airfield)).collect();
        let unfinished = self.others().into_iter().filter(|_| random.chance(OFTEN)).collect();
        let parts: Vec<_> =
            all_but_some(unfinished, |airfield| self.first_records(airfield), random);
        self.in_two_batches(rows, parts, Record::Close, random)
    }

    /// First elements of anyone after the close.
    fn late_firsts(&self, random: &mut Random) -> Vec<Record> {
        let late = self.others().into_iter().filter(|_| random.chance(OFTEN));
        late.flat_map(|airfield| self.first_records(airfield)).collect()
    }

    /// Partial replies and all whole replies but the last needed, perhaps a
    /// finish too early, then the other whole replies and those of others
    /// than survivors.
    fn replying(&self, random: &mut Random) -> Vec<Record> {
        let survivors = set_of(self.senders.iter().copied());
        if !self.plan.usable(survivors) {
            return vec![Record::Close];
        }
        let mut whole: Vec<_> =
            self.repliers.iter().map(|&airfield| self.reply_records(airfield, survivors)).collect();
        if random.chance(SOMETIMES) {
            garble(&mut whole, random);
        }
        let silent =
            self.senders.iter().copied().filter(|airfield| !self.repliers.contains(airfield));
        let partial = silent.filter(|_| random.chance(OFTEN)).collect();
        let parts =
            all_but_some(partial, |airfield| self.reply_records(airfield, survivors), random);
        let mut records = self.in_two_batches(whole, parts, Record::Finish, random);
        let outsiders = (1..=self.plan.airfields()).filter(|&airfield| !holds(survivors, airfield));
        records.extend(outsiders.map(|airfield| Record::Reply {
            airfield,
            block: 0,
            element: random.element(),
        }));
        records
    }

    /// The parts with U - 1 of the whole messages, perhaps `early`, then the
    /// other whole messages.
    fn in_two_batches(
        &self,
        mut whole: Vec<Vec<Record>>,
        parts: Vec<Record>,
        early: Record,
        random: &mut Random,
    ) -> Vec<Record> {
        let rest = whole.split_off(whole.len().min(self.plan.least() - 1)).concat();
        let mut records = self.mixed([parts, whole.concat()].concat(), random);
        if random.chance(RARE) {
            records.push(early);
        }
        records.extend(self.mixed(rest, random));
        records
    }

    /// In order or shuffled; often with repeats, and now and then with an open
    /// of the same round.
    fn mixed(&self, mut records: Vec<Record>, random: &mut Random) -> Vec<Record> {
        if random.chance(OFTEN) {
            random.shuffle(&mut records);
        }
        if random.chance(OFTEN) && !records.is_empty() {
            (0..=random.below(REPEATS)).for_each(|_| repeat(&mut records, random));
        }
        if random.chance(RARE) {
            records.push(Record::Open(self.number));
        }
        records
    }

    /// Airfields that do not send their whole row.
    fn others(&self) -> Vec<u8> {
        (1..=self.plan.airfields()).filter(|airfield| !self.senders.contains(airfield)).collect()
    }

    fn first_records(&self, airfield: u8) -> Vec<Record> {
        first_records(airfield, &self.messages[usize::from(airfield - 1)])
    }

    fn reply_records(&self, airfield: u8, survivors: Set) -> Vec<Record> {
        let list = RandomList { plan: self.plan, elements: &self.list };
        reply_records(airfield, &shares(&list, airfield, survivors))
    }
}

/// Mostly at least `least` of the airfields, rarely fewer; in any order.
pub(super) fn some_of(airfields: &[u8], least: usize, random: &mut Random) -> Vec<u8> {
    let mut chosen = airfields.to_vec();
    random.shuffle(&mut chosen);
    let enough = least.min(chosen.len());
    let too_few = random.chance(RARE);
    let count = if too_few {
        random.below(enough + 1)
    } else {
        enough + random.below(chosen.len() - enough + 1)
    };
    chosen.truncate(count);
    chosen
}

/// The messages of these airfields, each with at least one element missing.
fn all_but_some(
    airfields: Vec<u8>,
    message: impl Fn(u8) -> Vec<Record>,
    random: &mut Random,
) -> Vec<Record> {
    let part = |airfield| {
        let mut records = message(airfield);
        random.shuffle(&mut records);
        records.truncate(random.below(records.len()));
        records
    };
    airfields.into_iter().flat_map(part).collect()
}

/// Changes one element of one reply.
fn garble(replies: &mut [Vec<Record>], random: &mut Random) {
    if replies.is_empty() {
        return;
    }
    let reply = &mut replies[random.below(replies.len())];
    let block = random.below(reply.len());
    reply[block] = with_other_element(reply[block], random);
}

/// Sends one of the records again anywhere behind it, as it was or with another
/// element.
fn repeat(records: &mut Vec<Record>, random: &mut Random) {
    let at = random.below(records.len());
    let behind = at + 1 + random.below(records.len() - at);
    let other = with_other_element(records[at], random);
    records.insert(behind, random.pick(&[records[at], other]));
}

/// The same record with another element; others than elements stay as they are.
pub(super) fn with_other_element(mut record: Record, random: &mut Random) -> Record {
    if let Record::First { element, .. } | Record::Reply { element, .. } = &mut record {
        *element = another(*element, random);
    }
    record
}

/// Any element but this one.
pub(super) fn another(element: Element, random: &mut Random) -> Element {
    add(element, 1 + random.below(usize::from(LARGEST)) as Element)
}
