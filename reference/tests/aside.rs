//! One garbled reply should not cost the round: item 6 of document 02, its words
//! one by one. Most rounds here have plan 4 2 1 1 and four survivors with
//! figures 10, 20, 30, 40 and S 100, 200, 300, 600. The sum of S is 1200, the
//! noise 120, and airfield k replies with 1200 / (k + 1) + 120 / (k + 2).

use reference::field::{add, Element};
use reference::material::garbled::{self, Way};
use reference::refusal::Refusal;
use reference::scheme::{set_aside, sums, Plan, Reply};
use reference::service::{Finished, Service};
use reference::stream::{run, to_bytes, Record};
use reference::text::encode;

const PLAN: [u8; 4] = [4, 2, 1, 1];
const FIRSTS: [Element; 4] = [110, 220, 330, 640];
const RIGHT: [Element; 4] = [640, 430, 324, 260];
const CLOSED: &str = "plan 4 2 1 1\nopen 7\nfirst 1 0 110\nfirst 2 0 220\nfirst 3 0 330\n\
        first 4 0 640\nclose\n";

/// The lines printed for records given as text.
fn lines(text: &str) -> String {
    run(&encode(text).unwrap())
}

/// A service that holds the first messages, closed, with these replies held.
fn replied(replies: &[(u8, Element)]) -> Service {
    let mut service = Service::default();
    service.plan(PLAN).unwrap();
    service.open(7).unwrap();
    for (airfield, element) in (1..).zip(FIRSTS) {
        service.first_element(airfield, 0, element).unwrap();
    }
    assert_eq!(service.close(), Ok((7, 15)));
    for &(airfield, share) in replies {
        service.reply_element(airfield, 0, share).unwrap();
    }
    service
}

/// The airfield set aside and the total, of a reply of each airfield.
fn finished(replies: [Element; 4]) -> Result<(Option<u8>, Element), Refusal> {
    let replies: Vec<(u8, Element)> = (1..).zip(replies).collect();
    replied(&replies).finish().map(|finished| (finished.aside, finished.totals[0]))
}

#[test]
fn right_replies_set_nobody_aside() {
    assert_eq!(finished(RIGHT), Ok((None, 100)));
}

#[test]
fn the_line_stands_before_the_total() {
    let replies = "reply 1 0 640\nreply 2 0 430\nreply 3 0 325\nreply 4 0 260\nfinish\n";
    assert_eq!(
        lines(&format!("{CLOSED}{replies}")),
        "plan 4 2 1 1\nopen 7\nsurvivors 7 15\naside 7 3\ntotal 7 100\n"
    );
}

/// First, last and those between; however false the reply is. The first message
/// stays: the total is that of all four.
#[test]
fn one_false_reply_is_set_aside() {
    for (airfield, right) in (1..).zip(RIGHT) {
        for change in [1, 2, 32760, 32761, 65520] {
            let mut replies = RIGHT;
            replies[usize::from(airfield - 1)] = add(right, change);
            assert_eq!(finished(replies), Ok((Some(airfield), 100)), "{airfield} by {change}");
        }
    }
}

#[test]
fn two_false_replies_are_refused_16() {
    for (one, other) in [(0, 1), (0, 2), (0, 3), (1, 2), (1, 3), (2, 3)] {
        let mut replies = RIGHT;
        replies[one] += 1;
        replies[other] += 2;
        assert_eq!(finished(replies), Err(Refusal::Unexplained), "{one} {other}");
    }
}

/// A sum of 0 and noise of 0 give 0 throughout, two or three times here among
/// right replies. A sum of 0 and noise of 1920 give 640, 480, 384 and 320; a sum
/// of 1180 and noise of 150 give airfields 1, 3 and 4 the replies 640, 325 and
/// 261. By both airfield 1 replies with 640, as is right: beside it two false ones
/// leave the other right one alone.
#[test]
fn false_replies_that_agree() {
    assert_eq!(finished([640, 430, 0, 0]), Err(Refusal::Unexplained));
    assert_eq!(finished([0, 430, 0, 260]), Err(Refusal::Unexplained));
    assert_eq!(finished([0, 0, 324, 0]), Ok((Some(3), 1300)));
    assert_eq!(finished([640, 430, 384, 320]), Ok((Some(2), 1300)));
    assert_eq!(finished([640, 430, 325, 261]), Ok((Some(2), 120)));
    assert_eq!(finished([640, 480, 384, 320]), Ok((None, 1300)));
}

/// U + 1 replies cannot tell which of them is false; a further one can. Until
/// then everything stays as it was.
#[test]
fn a_further_reply_tells() {
    let mut service = replied(&[(1, 640), (2, 430), (3, 325)]);
    let before = service.clone();
    assert_eq!(service.finish(), Err(Refusal::Unexplained));
    assert_eq!(service, before);
    service.reply_element(4, 0, 260).unwrap();
    let given = Finished { round: 7, aside: Some(3), totals: vec![100] };
    assert_eq!(service.finish(), Ok(given));
    assert_eq!(service.finish(), Err(Refusal::WrongPhase));
}

/// The further one may be the false one.
#[test]
fn a_false_reply_that_comes_last_is_set_aside() {
    let mut service = replied(&[(1, 640), (2, 430), (4, 260)]);
    let mut early = service.clone();
    assert_eq!(early.finish(), Ok(Finished { round: 7, aside: None, totals: vec![100] }));
    service.reply_element(3, 0, 0).unwrap();
    let given = Finished { round: 7, aside: Some(3), totals: vec![100] };
    assert_eq!(service.finish(), Ok(given));
}

/// A repeat counts once, and a reply is not mended once it is held.
#[test]
fn replies_that_come_again() {
    let again = "reply 1 0 640\nreply 2 0 430\nreply 3 0 325\nreply 1 0 640\nreply 3 0 325\n\
        finish\nreply 3 0 324\nfinish\nreply 4 0 260\nreply 4 0 260\nfinish\n";
    assert_eq!(
        lines(&format!("{CLOSED}{again}")),
        "plan 4 2 1 1\nopen 7\nsurvivors 7 15\nrefused 16 at 60\nrefused 13 at 61\n\
        refused 16 at 66\naside 7 3\ntotal 7 100\n"
    );
}

/// Nothing of it is left: the state is that behind a total without an aside.
#[test]
fn the_next_round_starts_anew() {
    let right: Vec<(u8, Element)> = (1..).zip(RIGHT).collect();
    let mut clean = replied(&right);
    let mut service = replied(&[(1, 640), (2, 430), (3, 325), (4, 260)]);
    assert_eq!(clean.finish().map(|finished| finished.aside), Ok(None));
    assert_eq!(service.finish().map(|finished| finished.aside), Ok(Some(3)));
    assert_eq!(service, clean);
    let round = |number: u32, share: Element| {
        CLOSED.replace("plan 4 2 1 1\n", "").replace("open 7", &format!("open {number}"))
            + &format!("reply 1 0 640\nreply 2 0 430\nreply 3 0 {share}\nreply 4 0 260\nfinish\n")
    };
    let text = format!("plan 4 2 1 1\n{}{}{}", round(1, 0), round(2, 324), round(3, 325));
    assert_eq!(
        lines(&text),
        "plan 4 2 1 1\nopen 1\nsurvivors 1 15\naside 1 3\ntotal 1 100\nopen 2\nsurvivors 2 15\n\
        total 2 100\nopen 3\nsurvivors 3 15\naside 3 3\ntotal 3 100\n"
    );
}

/// The same four airfields with a second block, whose figures are 1, 2, 3, 4,
/// with S and noise of 0; the lines from the first finish on.
fn of_two_blocks(replies: &str) -> String {
    let text = "plan 4 2 1 2\nopen 7\nfirst 1 0 110\nfirst 2 0 220\nfirst 3 0 330\nfirst 4 0 640\n\
        first 1 1 1\nfirst 2 1 2\nfirst 3 1 3\nfirst 4 1 4\nclose\n";
    let lines = lines(&format!("{text}{replies}"));
    lines.strip_prefix("plan 4 2 1 2\nopen 7\nsurvivors 7 15\n").unwrap().to_string()
}

/// One airfield for all blocks together.
#[test]
fn blocks_are_taken_together() {
    let replies = |shares: [[Element; 4]; 2]| {
        let block = |(block, shares): (u8, [Element; 4])| -> String {
            (1..)
                .zip(shares)
                .map(|(k, share): (u8, _)| format!("reply {k} {block} {share}\n"))
                .collect()
        };
        of_two_blocks(&((0..).zip(shares).map(block).collect::<String>() + "finish\n"))
    };
    assert_eq!(replies([RIGHT, [0, 0, 0, 0]]), "total 7 100 10\n");
    assert_eq!(replies([[640, 430, 325, 260], [0, 0, 0, 0]]), "aside 7 3\ntotal 7 100 10\n");
    assert_eq!(replies([RIGHT, [0, 0, 1, 0]]), "aside 7 3\ntotal 7 100 10\n");
    assert_eq!(replies([[640, 430, 325, 260], [0, 0, 9, 0]]), "aside 7 3\ntotal 7 100 10\n");
    assert_eq!(replies([[640, 430, 325, 260], [0, 9, 0, 0]]), "refused 16 at 99\n");
    assert_eq!(replies([[641, 430, 324, 260], [0, 0, 0, 9]]), "refused 16 at 99\n");
    assert_eq!(replies([[640, 430, 325, 261], [0, 0, 9, 0]]), "refused 16 at 99\n");
}

/// Airfield 4 has sent one block of two, and then the other.
#[test]
fn partial_replies_tell_nothing() {
    let text = "reply 1 0 640\nreply 2 0 430\nreply 3 0 325\nreply 4 0 260\nreply 1 1 0\n\
        reply 2 1 0\nreply 3 1 0\nfinish\nreply 4 1 0\nfinish\n";
    assert_eq!(of_two_blocks(text), "refused 16 at 94\naside 7 3\ntotal 7 100 10\n");
}

/// The complete replies that a round ends with: what comes first is held.
fn held_replies(round: &garbled::Round, plan: &Plan) -> Vec<Reply> {
    let mut held = vec![(0, vec![None; plan.blocks()]); usize::from(plan.airfields())];
    for record in &round.records {
        if let Record::Reply { airfield, block, element } = *record {
            let (number, shares) = &mut held[usize::from(airfield - 1)];
            *number = airfield;
            shares[usize::from(block)].get_or_insert(element);
        }
    }
    let whole = |(airfield, shares): (u8, Vec<Option<Element>>)| {
        Some((airfield, shares.into_iter().collect::<Option<_>>()?))
    };
    held.into_iter().filter_map(whole).collect()
}

/// Of replies that disagree; and it is the one that is set aside.
#[test]
fn at_most_one_airfield_fits() {
    let mut met = [0; 2];
    for seed in 0..200 {
        let plan = garbled::plan(seed);
        for round in garbled::rounds(seed, Way::ALL.len() as u32) {
            let replies = held_replies(&round, &plan);
            let fits = |airfield: &u8| {
                let others = replies.iter().filter(|(other, _)| other != airfield);
                sums(&plan, &others.cloned().collect::<Vec<_>>()).is_some()
            };
            if sums(&plan, &replies).is_none() {
                let fitting: Vec<u8> =
                    replies.iter().map(|&(airfield, _)| airfield).filter(fits).collect();
                assert!(fitting.len() <= 1, "seed {seed}, {:?}: {fitting:?}", round.way);
                let aside = set_aside(&plan, &replies).map(|(airfield, _)| airfield);
                assert_eq!(aside.into_iter().collect::<Vec<_>>(), fitting);
                met[fitting.len()] += 1;
            }
        }
    }
    assert!(met.iter().all(|&rounds| rounds > 500), "none, one: {met:?}");
}

/// What is printed behind the survivors, without offsets and totals.
fn answers(plan: &Plan, round: &garbled::Round) -> Vec<String> {
    let records = [&[Record::Plan(plan.numbers())], &round.records[..]].concat();
    let word = |line: &str| match line.split(' ').collect::<Vec<_>>()[..] {
        ["refused", number, ..] => number.to_string(),
        ["aside", _, airfield] => format!("aside {airfield}"),
        ["total", _, ref totals @ ..] => {
            let right: Vec<String> = round.totals.iter().map(Element::to_string).collect();
            (if totals == right { "right" } else { "false" }).to_string()
        }
        _ => line.to_string(),
    };
    run(&to_bytes(&records)).lines().skip(3).map(word).collect()
}

/// By what is false in it, and not by what the service makes of it.
#[test]
fn every_way_ends_as_it_must() {
    for seed in 0..200 {
        let plan = garbled::plan(seed);
        for round in garbled::rounds(seed, Way::ALL.len() as u32) {
            let aside = format!("aside {}", round.odd);
            let late = round.survivors.count_ones() as usize - plan.least() - 2;
            let expected = match round.way {
                Way::Right => vec!["right", "12"],
                Way::OneBlock | Way::EveryBlock => vec![&aside, "right", "12"],
                Way::TwoInOneBlock | Way::TwoInTwoBlocks | Way::TwoTogether => vec!["16"; 2],
                Way::AllButOne => vec![&aside, "false", "12"],
                Way::OneLater => {
                    [vec!["16", &aside, "right"], vec!["12"; late * plan.blocks() + 2]].concat()
                }
                Way::WholeLater => vec!["16", &aside, "right", "12"],
                Way::Again => vec!["13", &aside, "right", "12"],
            };
            assert_eq!(answers(&plan, &round), expected, "seed {seed}, {:?}", round.way);
        }
    }
}
