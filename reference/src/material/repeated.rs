//! Streams of whole rounds over a link that repeats records (document 02,
//! item 5), the plan taken by the seed.
//!
//! - `records`: the plan, `count` rounds as those of `rounds`, and one whose
//!   elements are all 0 or 65520; each record twice
//!
//! Behind each pair, an element of the round may come once more, as it was or
//! changed, in its phase or behind the end of it; and behind an open the first
//! element since the open before, which is new there if the open is taken.

use super::rounds::{with_other_element, Round, OFTEN, SOMETIMES};
use super::{first_records, plan_by_seed, reply_records};
use crate::field::{Element, LARGEST};
use crate::random::Random;
use crate::scheme::Plan;
use crate::stream::Record;

pub fn records(seed: u64, count: u32) -> Vec<Record> {
    let mut random = Random::new(seed);
    let plan = plan_by_seed(seed);
    let mut records = vec![Record::Plan(plan.numbers())];
    for number in 1..=count {
        records.extend(Round::draw(&plan, number, &mut random).records(&mut random));
    }
    records.extend(round_of_ends(&plan, count + 1));
    repeated(&records, &mut random)
}

/// A round of U airfields. Each message comes, then the same with 0 and 65520
/// exchanged, then the message again.
fn round_of_ends(plan: &Plan, number: u32) -> Vec<Record> {
    let messages = || (1..=plan.least() as u8).flat_map(|k| [k, k + 1, k].map(|turn| (k, turn)));
    let first = |(k, turn)| first_records(k, &by_turns(turn, plan.row_length()));
    let reply = |(k, turn)| reply_records(k, &by_turns(turn, plan.blocks()));
    let mut records = vec![Record::Open(number)];
    records.extend(messages().flat_map(first));
    records.push(Record::Close);
    records.extend(messages().flat_map(reply));
    records.push(Record::Finish);
    records
}

/// 0 and 65520 by turns, from 0 on if the first turn is even.
fn by_turns(first: u8, length: usize) -> Vec<Element> {
    (first..).map(|turn| if turn % 2 == 0 { 0 } else { LARGEST }).take(length).collect()
}

fn repeated(records: &[Record], random: &mut Random) -> Vec<Record> {
    let mut stream = Vec::new();
    let mut sent = Vec::new();
    for &record in records {
        stream.extend([record; 2]);
        match record {
            Record::Open(_) => {
                stream.extend(sent.first().filter(|_| random.chance(OFTEN)));
                sent.clear();
            }
            Record::First { .. } | Record::Reply { .. } => sent.push(record),
            Record::Plan(_) | Record::Close | Record::Finish => {}
        }
        if random.chance(SOMETIMES) && !sent.is_empty() {
            let again = random.pick(&sent);
            let changed = with_other_element(again, random);
            stream.push(random.pick(&[again, changed]));
        }
    }
    stream
}
