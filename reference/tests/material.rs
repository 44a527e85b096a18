//! The generated material is repeatable and reaches what it is meant to reach.

use reference::material::{
    all_plans, announced, calls, damaged, drawn, found, garbled, plan_by_seed, read, repeated,
    rounds, whole,
};
use reference::scheme::members;
use reference::stream::{run, to_bytes, Record, Records};
use std::collections::BTreeSet;

const ROUNDS: u32 = 20;
const STEPS: u32 = 100;
const CASES: u32 = 896;
const SEEDS: u64 = 24;

/// The first words of all lines, with the number for refusals.
fn heads(output: &str) -> BTreeSet<String> {
    let head = |line: &str| {
        let words: Vec<&str> = line.split(' ').collect();
        words[..if words[0] == "refused" { 2 } else { 1 }].join(" ")
    };
    output.lines().map(head).collect()
}

fn set(words: &[&str]) -> BTreeSet<String> {
    words.iter().map(|word| word.to_string()).collect()
}

#[test]
fn seeds_meet_every_plan() {
    let plans: BTreeSet<[u8; 4]> = (0..896).map(|seed| plan_by_seed(seed).numbers()).collect();
    assert_eq!(plans.len(), 896);
}

/// What is printed of whole rounds, where the plan comes once.
const OF_ROUNDS: [&str; 11] = [
    "plan",
    "open",
    "survivors",
    "aside",
    "total",
    "refused 12",
    "refused 13",
    "refused 14",
    "refused 15",
    "refused 16",
    "refused 17",
];

/// The lines of the streams of all seeds.
fn lines_of(records: fn(u64, u32) -> Vec<Record>) -> String {
    (0..SEEDS).map(|seed| run(&to_bytes(&records(seed, ROUNDS)))).collect()
}

#[test]
fn rounds_reach_every_line_they_can() {
    let outputs = lines_of(rounds::records);
    assert_eq!(heads(&outputs), set(&OF_ROUNDS));
    assert!(outputs.contains("total 4294967295 "));
}

#[test]
fn repeated_streams_reach_every_line_they_can() {
    let expected = [&OF_ROUNDS[..], &["refused 11"]].concat();
    assert_eq!(heads(&lines_of(repeated::records)), set(&expected));
}

#[test]
fn garbled_streams_reach_every_line_they_can() {
    let expected =
        ["plan", "open", "survivors", "aside", "total", "refused 12", "refused 13", "refused 16"];
    assert_eq!(heads(&lines_of(garbled::records)), set(&expected));
}

/// Every plan under which U + 2 airfields can reply.
#[test]
fn garbled_streams_meet_every_plan() {
    let met: BTreeSet<[u8; 4]> = (0..896).map(|seed| garbled::plan(seed).numbers()).collect();
    let plans = all_plans().into_iter().map(|plan| plan.numbers());
    assert_eq!(met, plans.filter(|[k, u, ..]| k - u >= 2).collect());
    assert_eq!(met.len(), 560);
}

#[test]
fn any_airfield_is_the_odd_one() {
    let rounds = (0..SEEDS).flat_map(|seed| garbled::rounds(seed, ROUNDS));
    let met: BTreeSet<(u8, &str)> = rounds.map(|round| (round.odd, position(&round))).collect();
    let from_to = [("first", 1..=3), ("between", 2..=7), ("last", 5..=8)];
    for (position, airfields) in from_to {
        assert!(airfields.into_iter().all(|airfield| met.contains(&(airfield, position))));
    }
}

/// Where the odd airfield stands among the survivors.
fn position(round: &garbled::Round) -> &'static str {
    let airfields: Vec<u8> = members(round.survivors).collect();
    match airfields[..] {
        [first, ..] if first == round.odd => "first",
        [.., last] if last == round.odd => "last",
        _ => "between",
    }
}

#[test]
fn damaged_streams_reach_every_line() {
    let outputs: String = (0..SEEDS).map(|seed| run(&damaged::bytes(seed, STEPS))).collect();
    let expected = [
        "plan",
        "open",
        "survivors",
        "aside",
        "total",
        "refused 1",
        "refused 3",
        "refused 4",
        "refused 7",
        "refused 8",
        "refused 11",
        "refused 12",
        "refused 13",
        "refused 14",
        "refused 15",
        "refused 16",
        "refused 17",
    ];
    assert_eq!(heads(&outputs), set(&expected));
}

#[test]
fn damaged_streams_end_in_their_damage() {
    for seed in 0..damaged::ENDINGS as u64 - 2 {
        let bytes = damaged::bytes(seed, STEPS);
        let damage = Records::new(&bytes).last().unwrap().1.is_err();
        assert_eq!(damage, seed > 0);
    }
}

/// The letters of all lines, with the number of each; `at` says where in a
/// line its number stands.
fn answers(text: &str, at: fn(&str) -> usize) -> BTreeSet<String> {
    let answer = |line: &str| {
        let words: Vec<&str> = line.split(' ').collect();
        format!("{} {}", words[0], words[at(words[0])])
    };
    text.lines().filter(|line| !matches!(&line[..1], "l" | "y")).map(answer).collect()
}

fn number_at(letter: &str) -> usize {
    match letter {
        "p" | "s" => 5,
        "r" => 4,
        "k" | "w" | "e" | "a" | "v" | "x" => 3,
        "d" | "f" | "o" => 2,
        _ => 1,
    }
}

#[test]
fn calls_reach_every_answer() {
    let text: String = calls::cases(0, CASES).collect();
    let expected = [
        "p 0", "p 1", "k 0", "k 1", "k 4", "k 2", "k 3", "s 0", "s 1", "s 4", "f 0", "f 18", "f 2",
        "f 3", "f 32", "r 0", "r 18", "r 2", "r 3", "r 5", "r 6", "r 33", "r 19",
    ];
    assert_eq!(answers(&text, number_at), set(&expected));
}

/// Where a row leaves the bound, and what comes first if it leaves 65520 too.
/// Signed figures below zero are the elements from `least` on.
fn outside(figures: &[u16], bound: u16, least: u16) -> &'static str {
    let is_beyond = |&figure: &u16| figure > bound && figure < least && figure <= 65520;
    let beyond = figures.iter().position(is_beyond);
    let no_element = figures.iter().position(|&figure| figure > 65520);
    match (beyond, no_element) {
        (None, None) if figures.contains(&bound) => "nowhere, and reaches it",
        (None, None) if figures.contains(&least) => "nowhere, and reaches it below zero",
        (None, None) => "nowhere",
        (None, Some(_)) => "by no element",
        (Some(beyond), Some(no_element)) if beyond < no_element => "before no element",
        (Some(_), Some(_)) => "behind no element",
        (Some(0), None) => "at the start",
        (Some(place), None) if place == figures.len() - 1 => "at the end",
        (Some(_), None) => "between",
    }
}

/// First messages refused by 18 or 2 are left aside.
#[test]
fn first_messages_meet_the_bound() {
    let (mut airfields, mut bound, mut least) = (0, 0, 0);
    let mut met = [BTreeSet::new(), BTreeSet::new()];
    let mut usage = 0;
    for line in calls::cases(0, CASES).collect::<String>().lines() {
        let numbers: Vec<u16> = line.split(' ').skip(1).map(|word| word.parse().unwrap()).collect();
        match (&line[..1], &numbers[..]) {
            ("p", [k, ..]) => airfields = *k,
            ("s", [_, signed, _, _, 0]) => {
                usage = usize::from(*signed);
                bound = [65520, 32760][usage] / airfields;
                least = [u16::MAX, 65521 - bound][usage];
            }
            ("f", [_, number, _, count, rest @ ..]) if ![18, 2].contains(number) => {
                let figures = &rest[..usize::from(*count)];
                met[usage].insert(format!("{number} {}", outside(figures, bound, least)));
            }
            _ => {}
        }
    }
    let either = [
        "0 nowhere",
        "0 nowhere, and reaches it",
        "3 nowhere",
        "3 nowhere, and reaches it",
        "3 by no element",
        "3 before no element",
        "3 behind no element",
        "3 at the start",
        "3 at the end",
        "3 between",
        "32 at the start",
        "32 at the end",
        "32 between",
    ];
    let below_zero =
        ["0 nowhere, and reaches it below zero", "3 nowhere, and reaches it below zero"];
    assert_eq!(met[0], set(&either));
    assert_eq!(met[1], set(&[&either[..], &below_zero].concat()));
}

#[test]
fn announced_sets_reach_every_answer() {
    let text: String = announced::cases(0, CASES).collect();
    let expected =
        ["p 0", "k 0", "s 0", "f 0", "r 0", "r 18", "r 2", "r 3", "r 5", "r 6", "r 33", "r 19"];
    assert_eq!(answers(&text, number_at), set(&expected));
}

/// Where the round of a request differs from the end's.
fn differs(own: [u16; 2], asked: [u16; 2]) -> &'static str {
    match (own[0] == asked[0], own[1] == asked[1]) {
        (true, true) => "its round",
        (false, true) => "another low half",
        (true, false) => "another high half",
        (false, false) => "other halves",
    }
}

/// Each number is answered for each kind of another round, but 0 and 19, which
/// only the end's own round meets, and 33, which it does not; and 33 whether
/// the end has sent alone, has answered the set, or another one.
#[test]
fn announced_sets_meet_every_round() {
    let mut own = [0; 2];
    let mut owns = BTreeSet::new();
    let mut met = BTreeSet::new();
    for line in announced::cases(0, CASES).collect::<String>().lines() {
        let numbers: Vec<u16> = line.split(' ').skip(1).map(|word| word.parse().unwrap()).collect();
        match (&line[..1], &numbers[..]) {
            ("s", &[_, _, low, high, _]) => {
                own = [low, high];
                owns.insert(own);
            }
            ("r", &[set, low, high, number, stage, ..]) => {
                let stage = match stage {
                    0 => "fresh",
                    1 => "sent",
                    _ if stage - 2 == set => "answered",
                    _ => "answered another",
                };
                met.insert(format!("{number} {}, {stage}", differs(own, [low, high])));
            }
            _ => {}
        }
    }
    let other = ["another low half", "another high half", "other halves"];
    let mut expected = set(&["0 its round, answered", "19 its round, answered another"]);
    for stage in ["sent", "answered", "answered another"] {
        expected.extend(other.map(|round| format!("33 {round}, {stage}")));
    }
    for round in [&other[..], &["its round"]].concat() {
        for answer in ["18 fresh", "5 sent", "6 sent", "5 answered another", "6 answered another"] {
            let (number, stage) = answer.split_once(' ').unwrap();
            expected.insert(format!("{number} {round}, {stage}"));
        }
    }
    for round in other {
        expected.extend(["2", "3"].map(|number| format!("{number} {round}, sent")));
    }
    assert_eq!(met, expected);
    assert!([[0, 0], [u16::MAX, u16::MAX], [1, 0]].iter().all(|round| owns.contains(round)));
}

#[test]
fn drawn_lists_reach_every_answer() {
    let text: String = drawn::cases(0, CASES).collect();
    let expected = ["p 0", "p 1", "d 0", "d 1", "d 2", "d 31", "k 0", "k 1", "k 2"];
    assert_eq!(answers(&text, number_at), set(&expected));
}

#[test]
fn lookups_reach_every_answer() {
    let text: String = found::cases(0, CASES).collect();
    let expected = ["p 0", "p 1", "w 0", "w 1", "w 4", "w 5", "w 6"];
    assert_eq!(answers(&text, number_at), set(&expected));
}

/// What a lookup asks for: the airfield, and the members of the set.
fn asked([airfields, least]: [u16; 2], airfield: u16, set: u16) -> String {
    let who = match airfield {
        0 => "nobody",
        _ if airfield > airfields => "above K",
        _ if set >> (airfield - 1) & 1 == 1 => "inside",
        _ => "outside",
    };
    let members = match set.count_ones() as u16 {
        _ if set >> airfields != 0 => "some above K",
        0 => "none",
        count if count < least => "too few",
        count if count == airfields => "everyone",
        _ => "enough",
    };
    format!("{who}, {members}")
}

/// Every airfield of every plan is asked for either end of its shares. Lookups
/// under plans outside their ranges are left aside.
#[test]
fn lookups_meet_every_set() {
    let mut plan = [0; 4];
    let mut met = BTreeSet::new();
    let mut starts = BTreeSet::new();
    for line in found::cases(0, CASES).collect::<String>().lines() {
        let numbers: Vec<u16> = line.split(' ').skip(1).map(|word| word.parse().unwrap()).collect();
        match (&line[..1], &numbers[..]) {
            ("p", &[k, u, t, m, _]) => plan = [k, u, t, m],
            ("w", &[airfield, set, number, start]) if number != 1 => {
                met.insert(format!("{number} {}", asked([plan[0], plan[1]], airfield, set)));
                starts.insert((plan, airfield, usize::from(start)));
            }
            _ => {}
        }
    }
    let nowhere = ["nobody", "above K"].into_iter().flat_map(|who| {
        ["none", "too few", "enough", "everyone", "some above K"]
            .map(|members| format!("4 {who}, {members}"))
    });
    let expected = [
        "0 inside, enough",
        "0 inside, everyone",
        "5 outside, none",
        "5 inside, too few",
        "5 outside, too few",
        "5 inside, some above K",
        "5 outside, some above K",
        "6 outside, enough",
    ];
    assert_eq!(met, nowhere.chain(set(&expected)).collect());
    for plan in all_plans() {
        for airfield in 1..=plan.airfields() {
            for start in [plan.row_length(), plan.key_length(airfield) - plan.blocks()] {
                assert!(starts.contains(&(plan.numbers().map(u16::from), airfield.into(), start)));
            }
        }
    }
}

#[test]
fn readings_reach_every_answer() {
    let text: String = read::cases(0, CASES).collect();
    let expected = ["p 0", "p 1", "v 0", "v 3", "x 0", "x 1", "x 32"];
    assert_eq!(answers(&text, number_at), set(&expected));
}

/// How many numbers of a line the program `rounds` takes: its `SPACE`.
const LONGEST_LINE: usize = 29536;

#[test]
fn lines_are_not_too_long() {
    let longest = drawn::cases(0, 896).map(|case| {
        case.lines().map(|line| line.split(' ').count() - 1).max().expect("a case has lines")
    });
    assert!(longest.max().expect("there are cases") <= LONGEST_LINE);
}

#[test]
fn whole_rounds_reach_every_answer_they_can() {
    let text: String = whole::cases(0, CASES).collect();
    let expected = [
        "p 0", "k 0", "s 0", "f 0", "r 0", "r 5", "r 6", "r 33", "r 19", "o 0", "o 17", "e 0",
        "e 3", "e 4", "e 8", "e 12", "e 13", "c 0", "c 15", "a 0", "a 4", "a 8", "a 12", "a 13",
        "a 14", "t 0", "t 12", "t 15", "t 16", "v 0",
    ];
    assert_eq!(answers(&text, number_at), set(&expected));
    for read in ["v 0 65520 0 0 65520", "v 1 32760 0 0 32760", "v 1 32761 0 1 32760"] {
        assert!(text.lines().any(|line| line == read), "no line {read}");
    }
    for letter in ["e", "a"] {
        let lines: Vec<&str> = text.lines().filter(|line| line.starts_with(letter)).collect();
        let taken = |line: &str| line.split(' ').nth(number_at(letter)) == Some("0");
        let again = |pair: &[&str]| pair[0] == pair[1] && taken(pair[0]);
        assert!(lines.windows(2).any(again), "no {letter} comes again");
    }
    let aside = |line: &&str| line.starts_with("t 0 ") && !line.starts_with("t 0 0 ");
    assert!(text.lines().any(|line| aside(&line)), "no airfield is set aside");
    let told_later: Vec<&str> = text.lines().filter(|line| line.starts_with('t')).collect();
    assert!(told_later.windows(2).any(|pair| pair[0] == "t 16 0" && aside(&pair[1])));
}

#[test]
fn the_same_seed_gives_the_same_material() {
    assert_eq!(rounds::records(9, ROUNDS), rounds::records(9, ROUNDS));
    assert_eq!(repeated::records(9, ROUNDS), repeated::records(9, ROUNDS));
    assert_eq!(garbled::records(9, ROUNDS), garbled::records(9, ROUNDS));
    assert_eq!(damaged::bytes(9, STEPS), damaged::bytes(9, STEPS));
    assert!(calls::cases(9, 4).eq(calls::cases(9, 4)));
    assert!(drawn::cases(9, 4).eq(drawn::cases(9, 4)));
    assert!(found::cases(9, 4).eq(found::cases(9, 4)));
    assert!(read::cases(9, 4).eq(read::cases(9, 4)));
    assert!(whole::cases(9, 4).eq(whole::cases(9, 4)));
}
