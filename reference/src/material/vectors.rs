//! Calls as text, for the program `rounds`: a line is one call, with what it
//! must answer.
//!
//! - `Case`: a case under way; each of its functions makes a call and writes
//!   its line
//!
//! A line is a letter and decimal numbers up to 65535, each led by one space:
//!
//! | Line | Meaning |
//! |---|---|
//! | `p K U T M number` | a new case under this plan, which a new service takes |
//! | `l list..` | the random list lent from then on |
//! | `d room number n bytes.. list..` | a random list from n raw bytes, into a buffer of `room` elements; where it is taken, it is lent from then on |
//! | `k airfield room number key..` | key maker, into a buffer of `room` elements; its key is lent from then on |
//! | `y key..` | another key lent from then on |
//! | `s airfield use low high number` | a fresh end for a round; its use is 0 for counts, 1 for signed figures |
//! | `f room number stage n figures.. message..` | first message of the end for n figures, into a buffer of `room` elements |
//! | `r set low high number stage part..` | reply of the end to the set, announced for a round |
//! | `w airfield set number start` | where the shares for the set start in the airfield's key; 0 if it is refused |
//! | `o round number` | open |
//! | `e airfield place number elements..` | first elements from this place on, each with this answer |
//! | `c number set` | close; the set is 0 if it is refused |
//! | `a airfield block number elements..` | reply elements from this block on, each with this answer |
//! | `t number aside totals..` | finish; the airfield set aside is 0 if there is none, or if it is refused |
//! | `v use total number below size` | the reader of totals, and the value read; 0 0 if it is refused |
//! | `x below size number element` | the residue of a value, as a signed figure; the element is 0 if it is refused |
//!
//! The number is 0, or that of the refusal, and then no elements come back.
//! The stage is the one after the call: 0 fresh, 1 sent, 2 + v answered v.
//! A round of an end takes two numbers, its low sixteen bits and its high ones.
//! No number of a line lies below zero, so a value takes two: 1 if it lies
//! below zero and 0 if not, and how far from zero it lies.

use crate::client::{list_from_bytes, make_key, reply_start, End, Stage};
use crate::field::Element;
use crate::reading::{read_total, residue_of};
use crate::refusal::Refusal;
use crate::scheme::{Set, Use};
use crate::service::{Finished, Service};
use crate::stream::spaced;

pub struct Case {
    plan: [u8; 4],
    list: Vec<Element>,
    key: Vec<Element>,
    end: Option<End>,
    service: Service,
    text: String,
}

impl Case {
    pub fn new(plan: [u8; 4]) -> Case {
        let mut service = Service::default();
        let number = number_of(&service.plan(plan));
        let mut case =
            Case { plan, list: vec![], key: vec![], end: None, service, text: String::new() };
        case.line('p', &[plan.map(u16::from).to_vec(), vec![number]].concat());
        case
    }

    /// The lines written so far.
    pub fn into_text(self) -> String {
        self.text
    }

    /// The key lent.
    pub fn key(&self) -> &[Element] {
        &self.key
    }

    pub fn lend_list(&mut self, list: Vec<Element>) {
        self.line('l', &list);
        self.list = list;
    }

    /// After a refusal the list lent stays the one before.
    pub fn draw_list(&mut self, bytes: &[u8], room: usize) {
        let mut list = vec![0; room];
        let result = list_from_bytes(self.plan, bytes, &mut list);
        let list = if result.is_ok() { list } else { vec![] };
        let head = [short(room), number_of(&result), short(bytes.len())];
        let given: Vec<u16> = bytes.iter().copied().map(u16::from).collect();
        self.line('d', &[&head, &given[..], &list].concat());
        if result.is_ok() {
            self.list = list;
        }
    }

    pub fn make_key(&mut self, airfield: u8, room: usize) {
        let mut key = vec![0; room];
        let result = make_key(self.plan, airfield, &self.list, &mut key);
        self.key = if result.is_ok() { key } else { vec![] };
        let head = [airfield.into(), short(room), number_of(&result)];
        self.line('k', &[&head, &self.key[..]].concat());
    }

    pub fn lend_key(&mut self, key: Vec<Element>) {
        if key != self.key {
            self.line('y', &key);
            self.key = key;
        }
    }

    pub fn start(&mut self, airfield: u8, usage: Use, round: u32) {
        let result = End::start(self.plan, airfield, usage, round);
        let [low, high] = halves(round);
        self.line('s', &[airfield.into(), use_number(usage), low, high, number_of(&result)]);
        self.end = result.ok().or(self.end.take());
    }

    /// Gives the message, none if it is refused.
    pub fn first_message(&mut self, figures: &[Element], room: usize) -> Vec<Element> {
        let mut message = vec![0; room];
        let end = self.end.as_mut().expect("an end was started");
        let result = end.first_message(&self.key, figures, &mut message);
        let stage = stage_number(end);
        let message = if result.is_ok() { message } else { vec![] };
        let head = [short(room), number_of(&result), stage, short(figures.len())];
        self.line('f', &[&head, figures, &message].concat());
        message
    }

    /// Gives the part of the key, none if it is refused.
    pub fn reply(&mut self, set: Set, round: u32) -> Vec<Element> {
        let end = self.end.as_mut().expect("an end was started");
        let result = end.reply(&self.key, set, round).map(<[Element]>::to_vec);
        let [low, high] = halves(round);
        let head = [set, low, high, number_of(&result), stage_number(end)];
        let part = result.unwrap_or_default();
        self.line('r', &[&head, &part[..]].concat());
        part
    }

    pub fn find_reply(&mut self, airfield: u8, set: Set) {
        let result = reply_start(self.plan, airfield, set);
        let number = number_of(&result);
        self.line('w', &[airfield.into(), set, number, short(result.unwrap_or(0))]);
    }

    pub fn open(&mut self, round: u16) {
        let number = number_of(&self.service.open(round.into()));
        self.line('o', &[round, number]);
    }

    pub fn first_elements(&mut self, airfield: u8, place: u16, elements: &[Element]) {
        let mut service = self.service.clone();
        let give = |(place, &element)| number_of(&service.first_element(airfield, place, element));
        let numbers: Vec<u16> = (place..).zip(elements).map(give).collect();
        self.service = service;
        self.runs('e', airfield, place, elements, &numbers);
    }

    pub fn close(&mut self) {
        let result = self.service.close();
        let number = number_of(&result);
        self.line('c', &[number, result.map_or(0, |(_, survivors)| survivors)]);
    }

    pub fn reply_elements(&mut self, airfield: u8, block: u8, elements: &[Element]) {
        let mut service = self.service.clone();
        let give = |(block, &element)| number_of(&service.reply_element(airfield, block, element));
        let numbers: Vec<u16> = (block..).zip(elements).map(give).collect();
        self.service = service;
        self.runs('a', airfield, block.into(), elements, &numbers);
    }

    /// Gives what was finished, nothing if it is refused.
    pub fn finish(&mut self) -> Option<Finished> {
        let result = self.service.finish();
        let number = number_of(&result);
        let finished = result.ok();
        let aside = finished.as_ref().and_then(|finished| finished.aside).unwrap_or(0);
        let totals = finished.as_ref().map_or(&[][..], |finished| &finished.totals);
        self.line('t', &[&[number, aside.into()], totals].concat());
        finished
    }

    pub fn read_total(&mut self, usage: Use, total: u16) {
        let result = read_total(usage, total.into());
        let number = number_of(&result);
        let [below, size] = value_numbers(result.unwrap_or(0));
        self.line('v', &[use_number(usage), total, number, below, size]);
    }

    pub fn residue(&mut self, value: i32) {
        let result = residue_of(self.plan, value);
        let number = number_of(&result);
        let [below, size] = value_numbers(value);
        self.line('x', &[below, size, number, result.unwrap_or(0)]);
    }

    /// A line for each run of elements with the same answer.
    fn runs(
        &mut self,
        letter: char,
        airfield: u8,
        from: u16,
        elements: &[Element],
        numbers: &[u16],
    ) {
        let mut start = 0;
        while start < numbers.len() {
            let number = numbers[start];
            let end = start + numbers[start..].iter().take_while(|&&other| other == number).count();
            let head = [airfield.into(), from + short(start), number];
            self.line(letter, &[&head, &elements[start..end]].concat());
            start = end;
        }
    }

    fn line(&mut self, letter: char, numbers: &[u16]) {
        self.text.push(letter);
        self.text.push_str(&spaced(numbers));
        self.text.push('\n');
    }
}

fn number_of<T>(result: &Result<T, Refusal>) -> u16 {
    result.as_ref().map_or_else(|refusal| refusal.number().into(), |_| 0)
}

fn stage_number(end: &End) -> u16 {
    match end.stage() {
        Stage::Fresh => 0,
        Stage::Sent => 1,
        Stage::Answered(set) => 2 + set,
    }
}

fn use_number(usage: Use) -> u16 {
    (usage == Use::Signed).into()
}

/// The low sixteen bits, then the high ones.
fn halves(round: u32) -> [u16; 2] {
    [round as u16, (round >> 16) as u16]
}

fn value_numbers(value: i32) -> [u16; 2] {
    let size = value.unsigned_abs().try_into().expect("no value lies this far from zero");
    [(value < 0).into(), size]
}

fn short(length: usize) -> u16 {
    u16::try_from(length).expect("no list is this long")
}
