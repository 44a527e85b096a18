//! Pooled sums that nobody has to take on trust: random list from raw bytes, key maker, lookup, airfield end, pooling service and reader,
//! safe over the proved functions that include/cutawheno.h declares (static library libcapi.a; build.rs finds it).
//!
//! A slice carries its own length, and the buffer to be written overlaps no other: what the header asks of a caller always holds.
//! Every call answers or refuses with the specification's number, and a refusal changes neither state nor lent memory.
//!
//! ```
//! use cutawheno::{read_total, End, Plan, Refusal, Use};
//! let plan = Plan { users: 3, threshold: 2, collusion: 1, blocks: 1 };
//! assert_eq!(plan.figure_bound(Use::Counts), 21840);
//! let mut list = vec![0; plan.list_len()];
//! // from a noise source; 65535 is skipped
//! plan.list_from_bytes(&[100, 0, 200, 0, 44, 1, 255, 255, 12, 0, 60, 0, 40, 0, 120, 0], &mut list)?;
//! assert_eq!(list, [100, 200, 300, 12, 60, 40, 120]);
//! let mut key = vec![0; plan.key_len()];
//! plan.make_key(1, &list, &mut key)?;
//! assert_eq!(key, [100, 154, 220, 340]);
//! assert_eq!(plan.reply_start(1, 5)?, 2);
//! let mut end = End::start(plan, 1, Use::Counts, 7)?;
//! let mut message = [0];
//! end.first_message(&key, &[10], &mut message)?;
//! assert_eq!(message, [110]);
//! // set 5, announced for round 7; a late notice for round 6 is not answered
//! assert_eq!(end.reply(&key, 5, 6), Err(Refusal::OtherRound));
//! assert_eq!(end.reply(&key, 5, 7)?, [220]);
//! assert_eq!(end.reply(&key, 7, 7), Err(Refusal::OtherSet));
//!
//! // a change of -14 goes in, and comes out, as its residue
//! assert_eq!((plan.residue(-14)?, read_total(Use::Signed, 65507)?), (65507, -14));
//! # Ok::<(), Refusal>(())
//! ```
//!
//! `examples/round.rs` is a whole round.
#![deny(missing_docs)]

use std::fmt;

/// K, U, T and M of document 01. Any numbers can be written down: a plan outside its ranges is refused by the calls that take it.
#[derive(Clone, Copy, Debug, PartialEq, Eq)]
pub struct Plan {
    /// K, the airfields: 3 to 8.
    pub users: u32,
    /// U, how many must respond at least: above T, below K.
    pub threshold: u32,
    /// T, how many may collude: at least 1.
    pub collusion: u32,
    /// M, the blocks of a row: 1 to 16.
    pub blocks: u32,
}

/// What an airfield's figures are. The survivors' total is read by the use that they have in common.
#[derive(Clone, Copy, Debug, PartialEq, Eq)]
pub enum Use {
    /// From 0 to 65520 / K, rounded down.
    Counts = 0,
    /// Within 32760 / K of zero, rounded down, and lent as residues: see [`Plan::residue`].
    Signed = 1,
}

/// Why a call is refused, by the numbers of documents 01 and 02.
#[derive(Clone, Copy, Debug, PartialEq, Eq)]
pub enum Refusal {
    /// The plan is outside its ranges.
    BadPlan = 1,
    /// A lent list or buffer is not of the plan's length.
    BadLength = 2,
    /// An element is above 65520.
    BadElement = 3,
    /// The airfield number is 0 or above K.
    BadUser = 4,
    /// The set has fewer than U members, or one above K.
    SetUnusable = 5,
    /// The airfield is not in the set.
    NotInSet = 6,
    /// The place or block is one that the plan has not.
    BadPlace = 8,
    /// No plan yet, or a second plan.
    PlanOrder = 11,
    /// Not in this phase.
    OtherPhase = 12,
    /// Another element is held at that place or block.
    Held = 13,
    /// The airfield is not a survivor.
    NoSurvivor = 14,
    /// Fewer than U complete airfields.
    TooFew = 15,
    /// Complete replies disagree, and there are U + 1 of them or no single airfield can be set aside.
    Unexplained = 16,
    /// The round is not above the last one opened.
    OldRound = 17,
    /// The first message was given already, or a reply is asked of a fresh end.
    OutOfTurn = 18,
    /// Another set was answered.
    OtherSet = 19,
    /// The bytes run out before the list is full.
    BytesRunOut = 31,
    /// A count is above 65520 / K, or a signed figure further from zero than 32760 / K, rounded down.
    FigureBeyond = 32,
    /// The set is announced for another round than the end's.
    OtherRound = 33,
}

impl Refusal {
    /// The number that the documents give it.
    pub const fn number(self) -> u32 {
        self as u32
    }

    /// What it means.
    pub const fn meaning(self) -> &'static str {
        match self {
            Refusal::BadPlan => "the plan is outside its ranges",
            Refusal::BadLength => "a lent list or buffer is not of the plan's length",
            Refusal::BadElement => "an element is above 65520",
            Refusal::BadUser => "the airfield number is 0 or above K",
            Refusal::SetUnusable => "the set has fewer than U members, or one above K",
            Refusal::NotInSet => "the airfield is not in the set",
            Refusal::BadPlace => "the place or block is one that the plan has not",
            Refusal::PlanOrder => "no plan yet, or a second plan",
            Refusal::OtherPhase => "not in this phase",
            Refusal::Held => "another element is held at that place or block",
            Refusal::NoSurvivor => "the airfield is not a survivor",
            Refusal::TooFew => "fewer than U complete airfields",
            Refusal::Unexplained => "complete replies disagree, and there are U + 1 of them or no single airfield can be set aside",
            Refusal::OldRound => "the round is not above the last one opened",
            Refusal::OutOfTurn => "the first message was given already, or a reply is asked of a fresh end",
            Refusal::OtherSet => "another set was answered",
            Refusal::BytesRunOut => "the bytes run out before the list is full",
            Refusal::FigureBeyond => "a count is above 65520 / K, or a signed figure further from zero than 32760 / K, rounded down",
            Refusal::OtherRound => "the set is announced for another round than the end's",
        }
    }
}

impl fmt::Display for Refusal {
    fn fmt(&self, out: &mut fmt::Formatter) -> fmt::Result {
        write!(out, "refused {}: {}", self.number(), self.meaning())
    }
}

impl std::error::Error for Refusal {}

/// The length of an end's array.
pub const END: usize = 8;

/// An airfield end: the array that the header describes. It cannot be copied; resume no numbers but the last.
#[derive(Debug, PartialEq, Eq)]
pub struct End {
    numbers: [u32; END],
}

/// The length of a buffer for totals, and of the longest row of figures.
pub const MOST_PLACES: usize = 96;
/// The length of the longest random list of all plans.
pub const LONGEST_LIST: usize = 7952;
/// The length of the longest key of all plans.
pub const LONGEST_KEY: usize = 2048;

// Lengths of a service's arrays, and where its head has the number of places in a row.
const HEAD: usize = 8;
const FIRSTS: usize = 768;
const REPLIES: usize = 128;
const PLACES: usize = 5;

/// A pooling service: the arrays that the header describes.
#[derive(Clone, Debug, PartialEq, Eq)]
pub struct Service {
    head: [u32; HEAD],
    first: [u16; FIRSTS],
    reply: [u16; REPLIES],
}

/// What a finished round gives.
#[derive(Clone, Copy, Debug, PartialEq, Eq)]
pub struct Finished<'a> {
    /// The survivors' total, one number for each place of a row.
    pub totals: &'a [u16],
    /// The airfield whose reply was set aside; its first message is in the total.
    pub aside: Option<u32>,
}

#[repr(C)]
struct Start {
    number: u32,
    start: u32,
}

#[repr(C)]
struct Part {
    number: u32,
    start: u32,
    count: u32,
}

#[repr(C)]
struct Closed {
    number: u32,
    set: u32,
}

#[repr(C)]
struct Finish {
    number: u32,
    aside: u32,
}

#[repr(C)]
struct Reading {
    number: u32,
    value: i32,
}

#[repr(C)]
struct Residue {
    number: u32,
    element: u16,
}

#[rustfmt::skip]
#[link(name = "capi", kind = "static")]
extern "C" {
    fn cutawheno_row_len(users: u32, threshold: u32, collusion: u32, blocks: u32) -> u32;
    fn cutawheno_list_len(users: u32, threshold: u32, collusion: u32, blocks: u32) -> u32;
    fn cutawheno_key_len(users: u32, threshold: u32, collusion: u32, blocks: u32) -> u32;
    fn cutawheno_figure_bound(users: u32, threshold: u32, collusion: u32, blocks: u32) -> u32;
    fn cutawheno_signed_bound(users: u32, threshold: u32, collusion: u32, blocks: u32) -> u32;
    fn cutawheno_reply_start(users: u32, threshold: u32, collusion: u32, blocks: u32, user: u32, set: u32) -> Start;
    fn cutawheno_list_from_bytes(
        bytes: *const u8, bytes_len: usize, list: *mut u16, list_len: usize,
        users: u32, threshold: u32, collusion: u32, blocks: u32,
    ) -> u32;
    fn cutawheno_make_key(
        list: *const u16, list_len: usize, key: *mut u16, key_len: usize,
        users: u32, threshold: u32, collusion: u32, blocks: u32, user: u32,
    ) -> u32;
    fn cutawheno_end_start(
        end: &mut [u32; END], users: u32, threshold: u32, collusion: u32, blocks: u32, user: u32, is_signed: u32, round: u32,
    ) -> u32;
    fn cutawheno_residue(value: i32, users: u32, threshold: u32, collusion: u32, blocks: u32) -> Residue;
    fn cutawheno_end_first_message(
        key: *const u16, key_len: usize, figures: *const u16, figures_len: usize, message: *mut u16, message_len: usize,
        end: &mut [u32; END],
    ) -> u32;
    fn cutawheno_end_reply(key: *const u16, key_len: usize, end: &mut [u32; END], set: u32, round: u32) -> Part;
    fn cutawheno_service_plan(
        head: &mut [u32; HEAD], first: &mut [u16; FIRSTS], reply: &mut [u16; REPLIES],
        users: u32, threshold: u32, collusion: u32, blocks: u32,
    ) -> u32;
    fn cutawheno_service_open(head: &mut [u32; HEAD], first: &mut [u16; FIRSTS], reply: &mut [u16; REPLIES], round: u32) -> u32;
    fn cutawheno_service_first_element(head: &[u32; HEAD], first: &mut [u16; FIRSTS], user: u32, place: u32, element: u32) -> u32;
    fn cutawheno_service_close(head: &mut [u32; HEAD], first: &[u16; FIRSTS], reply: &mut [u16; REPLIES]) -> Closed;
    fn cutawheno_service_reply_element(head: &[u32; HEAD], reply: &mut [u16; REPLIES], user: u32, block: u32, element: u32) -> u32;
    fn cutawheno_service_finish(
        head: &mut [u32; HEAD], first: &mut [u16; FIRSTS], reply: &mut [u16; REPLIES], totals: &mut [u16; MOST_PLACES],
    ) -> Finish;
    fn cutawheno_read_total(total: u32, is_signed: u32) -> Reading;
}

fn outcome(number: u32) -> Result<(), Refusal> {
    match number {
        0 => Ok(()),
        _ => Err(refusal(number)),
    }
}

#[cold]
fn refusal(number: u32) -> Refusal {
    match number {
        1 => Refusal::BadPlan,
        2 => Refusal::BadLength,
        3 => Refusal::BadElement,
        4 => Refusal::BadUser,
        5 => Refusal::SetUnusable,
        6 => Refusal::NotInSet,
        8 => Refusal::BadPlace,
        11 => Refusal::PlanOrder,
        12 => Refusal::OtherPhase,
        13 => Refusal::Held,
        14 => Refusal::NoSurvivor,
        15 => Refusal::TooFew,
        16 => Refusal::Unexplained,
        17 => Refusal::OldRound,
        18 => Refusal::OutOfTurn,
        19 => Refusal::OtherSet,
        31 => Refusal::BytesRunOut,
        32 => Refusal::FigureBeyond,
        33 => Refusal::OtherRound,
        _ => unreachable!("the calls have no other refusal"),
    }
}

/// The whole number that a total of such figures stands for: itself, but for a signed one above 32760, which is itself less 65521. One
/// above 65520 is refused.
pub fn read_total(usage: Use, total: u32) -> Result<i32, Refusal> {
    // SAFETY: numbers alone.
    let reading = unsafe { cutawheno_read_total(total, usage as u32) };
    outcome(reading.number)?;
    Ok(reading.value)
}

impl Plan {
    /// The length of a row of figures, and of a first message; 0 for a plan outside its ranges.
    pub fn row_len(self) -> usize {
        // SAFETY: numbers alone.
        unsafe { cutawheno_row_len(self.users, self.threshold, self.collusion, self.blocks) as usize }
    }

    /// The length of the random list; 0 for a plan outside its ranges.
    pub fn list_len(self) -> usize {
        // SAFETY: numbers alone.
        unsafe { cutawheno_list_len(self.users, self.threshold, self.collusion, self.blocks) as usize }
    }

    /// The length of each user's key; 0 for a plan outside its ranges.
    pub fn key_len(self) -> usize {
        // SAFETY: numbers alone.
        unsafe { cutawheno_key_len(self.users, self.threshold, self.collusion, self.blocks) as usize }
    }

    /// The largest figure of a use, the same for every user and place, 65520 / K for counts and 32760 / K for signed figures, rounded
    /// down; signed figures may lie as far below zero. 0 for a plan outside its ranges.
    pub fn figure_bound(self, usage: Use) -> u16 {
        let bound = match usage {
            Use::Counts => cutawheno_figure_bound,
            Use::Signed => cutawheno_signed_bound,
        };
        // SAFETY: numbers alone.
        unsafe { bound(self.users, self.threshold, self.collusion, self.blocks) as u16 }
    }

    /// Where in the user's key the shares for a set start: they are the M elements from there on. No key is looked at, and no share handed
    /// out: what is sent is what [`End::reply`] gives, from the same place, since it is the end that refuses a second set and another
    /// round.
    pub fn reply_start(self, user: u32, set: u32) -> Result<usize, Refusal> {
        // SAFETY: numbers alone.
        let found = unsafe { cutawheno_reply_start(self.users, self.threshold, self.collusion, self.blocks, user, set) };
        outcome(found.number)?;
        Ok(found.start as usize)
    }

    /// The element as which a signed figure is lent: itself from 0 on, and below 0 itself plus 65521.
    pub fn residue(self, value: i32) -> Result<u16, Refusal> {
        // SAFETY: numbers alone.
        let residue = unsafe { cutawheno_residue(value, self.users, self.threshold, self.collusion, self.blocks) };
        outcome(residue.number)?;
        Ok(residue.element)
    }

    /// Fills the random list from raw random bytes: two bytes are a number, low byte first, and each number above 65520 is skipped.
    pub fn list_from_bytes(self, bytes: &[u8], list: &mut [u16]) -> Result<(), Refusal> {
        // SAFETY: pointers and lengths are those of slices, of which the written one is borrowed alone.
        outcome(unsafe {
            cutawheno_list_from_bytes(
                bytes.as_ptr(),
                bytes.len(),
                list.as_mut_ptr(),
                list.len(),
                self.users,
                self.threshold,
                self.collusion,
                self.blocks,
            )
        })
    }

    /// Writes the user's key, made from the random list.
    pub fn make_key(self, user: u32, list: &[u16], key: &mut [u16]) -> Result<(), Refusal> {
        // SAFETY: pointers and lengths are those of slices, of which the written one is borrowed alone.
        outcome(unsafe {
            cutawheno_make_key(
                list.as_ptr(),
                list.len(),
                key.as_mut_ptr(),
                key.len(),
                self.users,
                self.threshold,
                self.collusion,
                self.blocks,
                user,
            )
        })
    }
}

impl End {
    /// A fresh end, for figures of this use and for a round, any number: its key belongs to that round. All ends whose keys come from one
    /// random list are started with one round.
    pub fn start(plan: Plan, user: u32, usage: Use, round: u32) -> Result<End, Refusal> {
        let mut numbers = [0; END];
        let Plan { users, threshold, collusion, blocks } = plan;
        // SAFETY: a reference to an array leads to its length, and is borrowed alone.
        outcome(unsafe { cutawheno_end_start(&mut numbers, users, threshold, collusion, blocks, user, usage as u32, round) })?;
        Ok(End { numbers })
    }

    /// An end as it stood when its numbers were kept.
    pub fn resume(numbers: [u32; END]) -> End {
        End { numbers }
    }

    /// The numbers to keep, before anything of a call's answer is sent.
    pub fn numbers(&self) -> [u32; END] {
        self.numbers
    }

    /// Writes the first message: figures plus masks, place by place. Figures lie within the bound that the plan has for the end's use, and
    /// signed ones are lent as their residues.
    pub fn first_message(&mut self, key: &[u16], figures: &[u16], message: &mut [u16]) -> Result<(), Refusal> {
        // SAFETY: pointers and lengths are those of slices, of which the written one is borrowed alone, as the array is.
        outcome(unsafe {
            cutawheno_end_first_message(
                key.as_ptr(),
                key.len(),
                figures.as_ptr(),
                figures.len(),
                message.as_mut_ptr(),
                message.len(),
                &mut self.numbers,
            )
        })
    }

    /// The shares for the set that is announced for a round, which must be the end's: the part of the key where they lie.
    pub fn reply<'a>(&mut self, key: &'a [u16], set: u32, round: u32) -> Result<&'a [u16], Refusal> {
        // SAFETY: pointer and length are those of a slice, and the array is borrowed alone.
        let part = unsafe { cutawheno_end_reply(key.as_ptr(), key.len(), &mut self.numbers, set, round) };
        outcome(part.number)?;
        Ok(&key[part.start as usize..][..part.count as usize])
    }
}

impl Default for Service {
    fn default() -> Service {
        Service::new()
    }
}

// SAFETY, of each call below: a reference to an array leads to its length, and what is written is borrowed alone.
impl Service {
    /// A new service, without a plan.
    pub const fn new() -> Service {
        Service { head: [0; HEAD], first: [0; FIRSTS], reply: [0; REPLIES] }
    }

    /// Gives a new service its plan.
    pub fn plan(&mut self, p: Plan) -> Result<(), Refusal> {
        outcome(unsafe {
            cutawheno_service_plan(&mut self.head, &mut self.first, &mut self.reply, p.users, p.threshold, p.collusion, p.blocks)
        })
    }

    /// Opens a round, in any phase: drops what was held, and begins gathering.
    pub fn open(&mut self, round: u32) -> Result<(), Refusal> {
        outcome(unsafe { cutawheno_service_open(&mut self.head, &mut self.first, &mut self.reply, round) })
    }

    /// Holds an element of a user's first message. A repeat of the element that is held there is taken, and changes nothing.
    pub fn first_element(&mut self, user: u32, place: u32, element: u32) -> Result<(), Refusal> {
        outcome(unsafe { cutawheno_service_first_element(&self.head, &mut self.first, user, place, element) })
    }

    /// Closes the round: the set of the survivors.
    pub fn close(&mut self) -> Result<u32, Refusal> {
        let closed = unsafe { cutawheno_service_close(&mut self.head, &self.first, &mut self.reply) };
        outcome(closed.number)?;
        Ok(closed.set)
    }

    /// Holds an element of a survivor's reply. A repeat of the element that is held there is taken, and changes nothing.
    pub fn reply_element(&mut self, user: u32, block: u32, element: u32) -> Result<(), Refusal> {
        outcome(unsafe { cutawheno_service_reply_element(&self.head, &mut self.reply, user, block, element) })
    }

    /// Finishes the round: the survivors' total, written into the lent buffer. Where at least U + 2 complete replies disagree, that of the
    /// one airfield without which all others agree is set aside. Where all that is held of the survivors came from their ends, with keys of
    /// one random list and replies to their set, but for one reply among U + 2 or more, and their use is the same, [`read_total`] by this
    /// use gives the whole-number sum of their figures.
    pub fn finish<'a>(&mut self, totals: &'a mut [u16; MOST_PLACES]) -> Result<Finished<'a>, Refusal> {
        let finish = unsafe { cutawheno_service_finish(&mut self.head, &mut self.first, &mut self.reply, totals) };
        outcome(finish.number)?;
        Ok(Finished { totals: &totals[..self.head[PLACES] as usize], aside: Some(finish.aside).filter(|&user| user != 0) })
    }
}
