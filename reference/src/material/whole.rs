//! Whole rounds from keys to totals, by the calls on both sides.
//!
//! - `cases`: the text of `count` cases, by `vectors::Case`
//!
//! The plan of case i is that of seed + i, so 896 cases meet every plan. A
//! case has one round or two, each with its own random list, whose keys all
//! belong to that round. Every airfield makes its calls, and a late notice for
//! the round before names the same set; then the service is given what it
//! sends. Airfields may drop out before or after the close, leave rows and
//! replies unfinished, come late, reply though they are no survivors, and one
//! reply or two may be garbled, in one block or in all; a message may come
//! again, as it was or changed; close and finish may be asked too early, or once
//! too often. Figures lie within the bound of their airfield's use. Where no
//! reply is garbled, or one among U + 2 or more, which is then set aside, the
//! totals are held against the residues of the whole-number sums of the
//! survivors' figures; and where the survivors have one use, what is read from
//! them against those sums.

use super::rounds::some_of;
use super::vectors::Case;
use super::{
    common_use, plan_by_seed,
    rounds::{another, OFTEN, RARE, SOMETIMES},
    table, totals, whole_sums, Row,
};
use crate::field::{Element, Q};
use crate::random::Random;
use crate::reading::read_total;
use crate::scheme::{set_of, Plan, Set, Use};

/// What an airfield sends, its reply empty if it is no survivor.
struct Sent {
    airfield: u8,
    message: Vec<Element>,
    reply: Vec<Element>,
}

pub fn cases(seed: u64, count: u32) -> impl Iterator<Item = String> {
    let mut random = Random::new(seed);
    (0..count).map(move |index| {
        let plan = plan_by_seed(seed.wrapping_add(u64::from(index)));
        let mut case = Case::new(plan.numbers());
        let rounds = if random.chance(SOMETIMES) { 2 } else { 1 };
        for number in 1..=rounds {
            round(&mut case, &plan, number, &mut random);
        }
        case.into_text()
    })
}

fn round(case: &mut Case, plan: &Plan, number: u16, random: &mut Random) {
    let everyone: Vec<u8> = (1..=plan.airfields()).collect();
    let senders = some_of(&everyone, plan.least(), random);
    let repliers = some_of(&senders, plan.least(), random);
    let survivors = set_of(senders.iter().copied());
    case.lend_list(random.elements(plan.list_length()));
    let table = table(plan, random);
    let sent: Vec<Sent> = (1..)
        .zip(&table)
        .map(|(airfield, row)| calls(case, plan, airfield, row, (number, survivors), random))
        .collect();
    let of = |airfields: &[u8]| -> Vec<&Sent> {
        airfields.iter().map(|&airfield| &sent[usize::from(airfield - 1)]).collect()
    };
    let others: Vec<u8> = without(&everyone, &senders);
    let silent = without(&senders, &repliers);
    case.open(number);
    gathering(case, plan, &of(&senders), &of(&others), random);
    let given = replying(case, plan, &of(&repliers), &of(&silent), &of(&others), random);
    if let Some(given) = given {
        assert_eq!(given, totals(plan, &table, survivors));
        read_back(case, plan, &table, survivors, &given, random);
    }
    if random.chance(RARE) {
        case.finish();
    }
    if random.chance(RARE) {
        case.open(number);
    }
}

/// Reads one of the totals; survivors of both uses have no reader, so that
/// either one is asked.
fn read_back(
    case: &mut Case,
    plan: &Plan,
    table: &[Row],
    survivors: Set,
    given: &[Element],
    random: &mut Random,
) {
    let usage = common_use(table, survivors);
    if let Some(usage) = usage {
        let values: Vec<i32> =
            given.iter().map(|&total| read_total(usage, total.into()).unwrap()).collect();
        assert_eq!(values, whole_sums(plan, table, survivors));
    }
    let either = random.pick(&[Use::Counts, Use::Signed]);
    case.read_total(usage.unwrap_or(either), random.pick(given));
}

fn without(airfields: &[u8], some: &[u8]) -> Vec<u8> {
    airfields.iter().copied().filter(|airfield| !some.contains(airfield)).collect()
}

/// Key, first message and reply of one airfield, a late notice before it; now
/// and then the airfield is asked again, for the same set or for another.
fn calls(
    case: &mut Case,
    plan: &Plan,
    airfield: u8,
    row: &Row,
    (number, survivors): (u16, Set),
    random: &mut Random,
) -> Sent {
    let round = u32::from(number);
    case.make_key(airfield, plan.key_length(airfield));
    case.start(airfield, row.usage, round);
    let message = case.first_message(&row.lent(), plan.row_length());
    case.reply(survivors, round - 1);
    let reply = case.reply(survivors, round);
    if random.chance(SOMETIMES) {
        case.reply(random.pick(&[survivors, (1 << plan.airfields()) - 1]), round);
    }
    Sent { airfield, message, reply }
}

/// Unfinished rows, then whole rows, perhaps with a close before the last one
/// that is needed, rows that come again or elements that no row has; then the
/// close, and rows that come late.
fn gathering(
    case: &mut Case,
    plan: &Plan,
    senders: &[&Sent],
    others: &[&Sent],
    random: &mut Random,
) {
    for sent in others {
        if random.chance(OFTEN) {
            let from = random.below(sent.message.len());
            let (start, end) = random.pick(&[(0, from), (from + 1, sent.message.len())]);
            case.first_elements(sent.airfield, start as u16, &sent.message[start..end]);
        }
    }
    for (index, sent) in senders.iter().enumerate() {
        if index + 1 == plan.least() && random.chance(RARE) {
            case.close();
        }
        give(&sent.message, random, |message| case.first_elements(sent.airfield, 0, message));
    }
    if random.chance(RARE) {
        case.first_elements(random.pick(&[0, plan.airfields() + 1]), 0, &[0]);
        case.first_elements(1, plan.row_length() as u16, &[0]);
        case.first_elements(1, 0, &[random.pick(&[Q, u16::MAX])]);
    }
    case.close();
    for sent in others {
        if random.chance(OFTEN) {
            case.first_elements(sent.airfield, 0, &sent.message);
        }
    }
}

/// Unfinished replies, replies of others than survivors, then whole replies,
/// perhaps some garbled, perhaps with a finish before the last one that is
/// needed, for a total or to tell the garbled one, or replies that come again;
/// then the finish. Gives its totals where they must be right.
fn replying(
    case: &mut Case,
    plan: &Plan,
    repliers: &[&Sent],
    silent: &[&Sent],
    others: &[&Sent],
    random: &mut Random,
) -> Option<Vec<Element>> {
    for sent in silent {
        if random.chance(OFTEN) && !sent.reply.is_empty() {
            let end = random.below(sent.reply.len());
            case.reply_elements(sent.airfield, 0, &sent.reply[..end]);
        }
    }
    for sent in others {
        if random.chance(OFTEN) {
            case.reply_elements(sent.airfield, 0, &[random.element()]);
        }
    }
    let garbled = garbled_ones(repliers.len(), random);
    for (index, sent) in repliers.iter().enumerate() {
        if index + 1 == plan.least() && random.chance(RARE) {
            case.finish();
        }
        let garbled_came = garbled.iter().any(|&garbled| garbled < index);
        if index == plan.least() + 1 && garbled_came && random.chance(OFTEN) {
            case.finish();
        }
        let mut reply = sent.reply.clone();
        if garbled.contains(&index) && !reply.is_empty() {
            garble(&mut reply, random);
        }
        give(&reply, random, |reply| case.reply_elements(sent.airfield, 0, reply));
    }
    if random.chance(RARE) {
        case.reply_elements(plan.airfields() + 1, 0, &[0]);
        case.reply_elements(1, plan.blocks() as u8, &[0]);
    }
    let finished = case.finish()?;
    let expected_aside = match garbled[..] {
        [] => None,
        [one] if repliers.len() >= plan.least() + 2 => Some(repliers[one].airfield),
        _ => return None,
    };
    assert_eq!(finished.aside, expected_aside);
    Some(finished.totals)
}

/// Which of so many replies are garbled: mostly none, sometimes one, rarely two.
fn garbled_ones(replies: usize, random: &mut Random) -> Vec<usize> {
    if !random.chance(SOMETIMES) || replies == 0 {
        return vec![];
    }
    let one = random.below(replies);
    let next = (one + 1) % replies;
    if next != one && random.chance(SOMETIMES) {
        vec![one, next]
    } else {
        vec![one]
    }
}

/// Changes one element of a reply, or all of them.
fn garble(reply: &mut [Element], random: &mut Random) {
    if random.chance(OFTEN) {
        change_one(reply, random);
    } else {
        reply.iter_mut().for_each(|element| *element = another(*element, random));
    }
}

/// Sends a message. Now and then it comes again, perhaps with one element
/// changed and then as it was.
fn give(message: &[Element], random: &mut Random, mut send: impl FnMut(&[Element])) {
    send(message);
    if message.is_empty() || !random.chance(SOMETIMES) {
        return;
    }
    if random.chance(OFTEN) {
        let mut changed = message.to_vec();
        change_one(&mut changed, random);
        send(&changed);
    }
    send(message);
}

fn change_one(message: &mut [Element], random: &mut Random) {
    let at = random.below(message.len());
    message[at] = another(message[at], random);
}
