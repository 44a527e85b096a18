//! The radio link repeats records: item 5 of document 02, its words one by one.
//! Most rounds here are document 01's example: airfields 1 and 3 send 110 and
//! 330, answer set 5 by 220 and 112, and the total is 40.

use reference::material::{damaged, repeated, rounds};
use reference::random::Random;
use reference::refusal::Refusal;
use reference::service::Service;
use reference::stream::{run, to_bytes, Record, Records, REPLY};
use reference::text::encode;

/// Three places and three blocks: L and M are 3.
const PLAN: [u8; 4] = [3, 2, 1, 3];
/// Both ends and one between.
const ELEMENTS: [u16; 3] = [0, 12345, 65520];

const GATHERING: &str = "plan 3 2 1 1\nopen 1\nfirst 1 0 110\nfirst 3 0 330\n";
const REPLYING: &str = "close\nreply 1 0 220\nreply 3 0 112\n";

/// The lines printed for records given as text.
fn lines(text: &str) -> String {
    run(&encode(text).unwrap())
}

/// The numbers of the lines, 0 for one that is no refusal.
fn numbers(text: &str) -> Vec<u8> {
    let number = |line: &str| match line.split(' ').collect::<Vec<_>>()[..] {
        ["refused", number, ..] => number.parse().unwrap(),
        _ => 0,
    };
    lines(text).lines().map(number).collect()
}

/// The total of the example with these first messages and replies.
fn total(first: &str, reply: &str) -> u16 {
    let text = format!("plan 3 2 1 1\nopen 1\n{first}close\n{reply}finish\n");
    let lines = lines(&text);
    let total = lines.lines().find_map(|line| line.strip_prefix("total 1 ")).expect("a total");
    total.parse().unwrap()
}

/// Gives one record to the service.
fn take(service: &mut Service, record: Record) -> Result<(), Refusal> {
    match record {
        Record::Plan(numbers) => service.plan(numbers),
        Record::Open(round) => service.open(round),
        Record::First { airfield, place, element } => {
            service.first_element(airfield, place, element)
        }
        Record::Close => service.close().map(drop),
        Record::Reply { airfield, block, element } => {
            service.reply_element(airfield, block, element)
        }
        Record::Finish => service.finish().map(drop),
    }
}

/// The record is answered so, and changes nothing.
fn leaves_as_it_was(service: &mut Service, record: Record, answer: Result<(), Refusal>) {
    let before = service.clone();
    assert_eq!(take(service, record), answer, "{record:?}");
    assert_eq!(*service, before, "{record:?}");
}

/// Each element where none is held; then again, another one, and again.
fn repeats(service: &mut Service, record: impl Fn(u8, u8, u16) -> Record) {
    for airfield in 1..=3 {
        for (at, element) in (0..).zip(ELEMENTS) {
            take(service, record(airfield, at, element)).unwrap();
            leaves_as_it_was(service, record(airfield, at, element), Ok(()));
            for other in [0, 1, 12344, 12345, 65519, 65520] {
                let answer = if other == element { Ok(()) } else { Err(Refusal::OtherHeld) };
                leaves_as_it_was(service, record(airfield, at, other), answer);
                leaves_as_it_was(service, record(airfield, at, element), Ok(()));
            }
        }
    }
    for airfield in 1..=3 {
        for (at, element) in (0..).zip(ELEMENTS) {
            leaves_as_it_was(service, record(airfield, at, element), Ok(()));
        }
    }
}

#[test]
fn the_same_element_changes_nothing_and_another_is_13() {
    let mut service = Service::default();
    service.plan(PLAN).unwrap();
    service.open(1).unwrap();
    repeats(&mut service, |airfield, at, element| Record::First {
        airfield,
        place: at.into(),
        element,
    });
    assert_eq!(service.close(), Ok((1, 7)));
    repeats(&mut service, |airfield, block, element| Record::Reply { airfield, block, element });
}

/// The replies give 12 times the one of airfield 1 less 20 times that of
/// airfield 3 as the sum of S, which is 400.
#[test]
fn what_is_held_stays_the_first() {
    let reply = "reply 1 0 220\nreply 3 0 112\n";
    for (held, other, expected) in [
        (110, 111, 40),
        (110, 0, 40),
        (0, 110, 330 - 400 + 65521),
        (0, 65520, 330 - 400 + 65521),
        (65520, 0, 330 - 401 + 65521),
    ] {
        let first =
            format!("first 1 0 {held}\nfirst 1 0 {other}\nfirst 1 0 {held}\nfirst 3 0 330\n");
        assert_eq!(i32::from(total(&first, reply)), expected);
    }
    let first = "first 1 0 110\nfirst 3 0 330\n";
    for (held, other, expected) in [
        (220, 221, 40),
        (220, 0, 40),
        (0, 220, 440 + 20 * 112),
        (0, 65520, 440 + 20 * 112),
        (65520, 0, 440 + 12 + 20 * 112),
    ] {
        let reply =
            format!("reply 1 0 {held}\nreply 1 0 {other}\nreply 1 0 {held}\nreply 3 0 112\n");
        assert_eq!(i32::from(total(first, &reply)), expected);
    }
}

#[test]
fn the_other_tests_come_first() {
    let text = "plan 3 2 1 1\nfirst 1 0 110\nopen 1\nfirst 1 0 110\nfirst 0 0 110\nfirst 4 0 110\n\
        first 1 1 110\nfirst 1 0 65521\nfirst 1 0 65535\nfirst 1 0 110\nreply 1 0 110\n";
    assert_eq!(numbers(text), [0, 12, 0, 4, 4, 8, 3, 3, 12]);
    let text = format!(
        "{GATHERING}{REPLYING}first 1 0 110\nreply 0 0 220\nreply 4 0 220\nreply 1 1 220\n\
        reply 1 0 65521\nreply 2 0 220\nreply 2 0 220\nreply 1 0 220\n"
    );
    assert_eq!(numbers(&text), [0, 0, 0, 12, 4, 4, 8, 3, 14, 14]);
    assert_eq!(numbers("first 1 0 110\nfirst 1 0 110\nreply 1 0 1\nreply 1 0 1\n"), [11; 4]);
}

#[test]
fn a_phase_that_has_ended_takes_no_repeat() {
    let text =
        format!("{GATHERING}{REPLYING}first 1 0 110\nfinish\nreply 1 0 220\nfirst 1 0 110\n");
    assert_eq!(numbers(&text), [0, 0, 0, 12, 0, 12, 12]);
}

/// What a refused record leaves is held as before.
#[test]
fn a_refused_open_close_or_finish_ends_no_phase() {
    let text = "plan 3 2 1 1\nopen 1\nfirst 1 0 110\nopen 1\nfirst 1 0 110\nfirst 1 0 111\nclose\n\
        first 1 0 110\nfirst 3 0 330\nclose\nreply 1 0 220\nfinish\nreply 1 0 220\nreply 1 0 0\n\
        reply 3 0 112\nfinish\n";
    assert_eq!(numbers(text), [0, 0, 17, 13, 15, 0, 15, 13, 0]);
    assert!(lines(text).ends_with("total 1 40\n"));
}

/// Not the elements of the round before: the same ones are new, and so are
/// others. A row that was whole is no longer.
#[test]
fn behind_an_open_elements_are_new() {
    let text = format!(
        "{GATHERING}open 2\nfirst 1 0 110\nclose\nfirst 3 0 331\nfirst 3 0 330\nfirst 3 0 331\n\
        {REPLYING}open 3\nreply 1 0 220\n{}close\nreply 1 0 232\nreply 1 0 220\nfinish\n\
        reply 3 0 112\nfinish\n",
        "first 1 0 0\nfirst 3 0 65520\n".repeat(2)
    );
    assert_eq!(
        lines(&text),
        "plan 3 2 1 1\nopen 1\nopen 2\nrefused 15 at 33\nrefused 13 at 40\nsurvivors 2 5\n\
        open 3\nrefused 12 at 68\nsurvivors 3 5\nrefused 13 at 103\nrefused 15 at 108\n\
        total 3 64976\n"
    );
}

/// The stream example of document 01, every record twice.
#[test]
fn every_record_twice() {
    let text = "plan 3 2 1 1\nopen 7\nfirst 1 0 110\nfirst 3 0 330\nclose\nfirst 2 0 220\n\
        reply 1 0 220\nreply 3 0 112\nfinish\n";
    let twice: String = text.lines().map(|line| format!("{line}\n{line}\n")).collect();
    assert_eq!(
        lines(&twice),
        "plan 3 2 1 1\nrefused 11 at 5\nopen 7\nrefused 17 at 15\nsurvivors 7 5\nrefused 12 at 45\n\
        refused 12 at 46\nrefused 12 at 52\ntotal 7 40\nrefused 12 at 79\n"
    );
}

/// The records of a stream and where they stand, without its damage.
fn undamaged(bytes: &[u8]) -> (Vec<Record>, Vec<usize>) {
    let whole = |(offset, record): (usize, Result<Record, _>)| Some((record.ok()?, offset));
    Records::new(bytes).filter_map(whole).unzip()
}

/// The records with repeats of accepted elements added, each anywhere behind
/// its first and before the phase ends or a round is opened; and where each of
/// the records now stands.
fn with_repeats(records: &[Record], random: &mut Random) -> (Vec<u8>, Vec<usize>) {
    let mut service = Service::default();
    let mut stream = Vec::new();
    let mut offsets = Vec::new();
    let mut accepted = Vec::new();
    for &record in records {
        offsets.push(stream.len());
        stream.extend(record.to_bytes());
        match (record, take(&mut service, record)) {
            (Record::First { .. } | Record::Reply { .. }, Ok(())) => accepted.push(record),
            (_, Ok(())) => accepted.clear(),
            (_, Err(_)) => {}
        }
        while !accepted.is_empty() && random.chance(50) {
            stream.extend(random.pick(&accepted).to_bytes());
        }
    }
    (stream, offsets)
}

/// The lines of a stream, with the number of a refused record for its offset.
fn by_record(stream: &[u8], offsets: &[usize]) -> Vec<String> {
    let by_number = |line: &str| match line.split_once(" at ") {
        Some((refused, offset)) => {
            let number = offsets.binary_search(&offset.parse().unwrap());
            format!("{refused}, record {}", number.expect("a repeat is refused"))
        }
        None => line.to_string(),
    };
    run(stream).lines().map(by_number).collect()
}

#[test]
fn added_repeats_leave_the_lines_as_they_were() {
    let mut random = Random::new(5);
    let (mut before, mut after) = (0, 0);
    for seed in 0..200 {
        for stream in [
            to_bytes(&rounds::records(seed, 3)),
            to_bytes(&repeated::records(seed, 2)),
            damaged::bytes(seed, 20),
        ] {
            let (records, offsets) = undamaged(&stream);
            let (repeated, moved) = with_repeats(&records, &mut random);
            let expected = by_record(&to_bytes(&records), &offsets);
            assert_eq!(by_record(&repeated, &moved), expected, "seed {seed}");
            before += records.len();
            after += undamaged(&repeated).0.len();
        }
    }
    assert!(after > before + before / 2, "{before} records, {after} with repeats");
}

/// How many of the elements are repeats, how many of these are 0 and 65520, and
/// how many elements are refused by 13: of firsts, then of replies.
fn met(records: &[Record]) -> [usize; 8] {
    let mut service = Service::default();
    let mut met = [0; 8];
    for &record in records {
        let before = service.clone();
        let answer = take(&mut service, record);
        if let Record::First { element, .. } | Record::Reply { element, .. } = record {
            let is_repeat = answer.is_ok() && service == before;
            let is_other = answer == Err(Refusal::OtherHeld);
            let is =
                [is_repeat, is_repeat && element == 0, is_repeat && element == 65520, is_other];
            let from = if record.kind() == REPLY { 4 } else { 0 };
            met[from..].iter_mut().zip(is).for_each(|(count, is)| *count += usize::from(is));
        }
    }
    met
}

/// Shares are seldom 0 or 65520, and so they are not asked for in whole rounds.
#[test]
fn generated_streams_have_repeats() {
    let met_by = |stream: fn(u64) -> Vec<Record>| {
        (0..24).map(stream).fold([0; 8], |mut sum, records| {
            sum.iter_mut().zip(met(&records)).for_each(|(sum, count)| *sum += count);
            sum
        })
    };
    for (met, least) in [
        (met_by(|seed| rounds::records(seed, 20)), [500, 0, 0, 500, 500, 0, 0, 500]),
        (met_by(|seed| repeated::records(seed, 4)), [500; 8]),
        (met_by(|seed| undamaged(&damaged::bytes(seed, 4)).0), [50; 8]),
    ] {
        assert!(met.iter().zip(least).all(|(&count, least)| count >= least), "{met:?}");
    }
}
