//! The pooling service: "The stream" without its bytes, one call for each
//! kind of record, refusals in document 01's order. A refused call changes
//! nothing, and neither does a repeat of an element that is held (document 02,
//! item 5). One garbled reply is set aside where enough others agree (document
//! 02, item 6).
//!
//! - `Service`: the plan, the last opened number and the phase
//! - `Service::plan`: refusals 11, 1
//! - `Service::open`: refusals 11, 17
//! - `Service::first_element`: refusals 11, 12, 4, 8, 3, 13
//! - `Service::close`: refusals 11, 12, 15
//! - `Service::reply_element`: refusals 11, 12, 4, 8, 3, 14, 13
//! - `Service::finish`, `Finished`: refusals 11, 12, 15, 16, or the total

use crate::field::{is_element, Element};
use crate::refusal::{refuse_if, Refusal};
use crate::scheme::{self, holds, members, set_of, Plan, Reply, Set};
use std::collections::BTreeMap;

/// Held elements by airfield and place, or by airfield and block.
type Held = BTreeMap<(u8, usize), Element>;

/// What each phase holds goes when the phase goes.
#[derive(Clone, Debug, PartialEq, Eq)]
enum Phase {
    Idle,
    Gathering { firsts: Held },
    Replying { firsts: Held, survivors: Set, replies: Held },
}

/// What a finish gives: the L totals, and the airfield set aside if one was.
#[derive(Clone, Debug, PartialEq, Eq)]
pub struct Finished {
    pub round: u32,
    pub aside: Option<u8>,
    pub totals: Vec<Element>,
}

#[derive(Clone, Debug, PartialEq, Eq)]
pub struct Service {
    plan: Option<Plan>,
    last_opened: u32,
    phase: Phase,
}

impl Default for Service {
    fn default() -> Service {
        Service { plan: None, last_opened: 0, phase: Phase::Idle }
    }
}

impl Service {
    pub fn plan(&mut self, numbers: [u8; 4]) -> Result<(), Refusal> {
        refuse_if(self.plan.is_some(), Refusal::PlanMissingOrRepeated)?;
        self.plan = Some(Plan::new(numbers)?);
        Ok(())
    }

    /// Works in any phase and drops what was held.
    pub fn open(&mut self, round: u32) -> Result<(), Refusal> {
        self.accepted_plan()?;
        refuse_if(round <= self.last_opened, Refusal::RoundNotAbove)?;
        self.last_opened = round;
        self.phase = Phase::Gathering { firsts: Held::new() };
        Ok(())
    }

    pub fn first_element(
        &mut self,
        airfield: u8,
        place: u16,
        element: Element,
    ) -> Result<(), Refusal> {
        let plan = self.accepted_plan()?;
        let firsts = match &mut self.phase {
            Phase::Gathering { firsts } => firsts,
            _ => return Err(Refusal::WrongPhase),
        };
        let place = usize::from(place);
        refuse_if(!plan.has_airfield(airfield), Refusal::AirfieldNumber)?;
        refuse_if(place >= plan.row_length(), Refusal::PlaceOrBlock)?;
        refuse_if(!is_element(element), Refusal::NotElement)?;
        hold(firsts, (airfield, place), element)
    }

    /// Gives the round and the survivors.
    pub fn close(&mut self) -> Result<(u32, Set), Refusal> {
        let plan = self.accepted_plan()?;
        let firsts = match &self.phase {
            Phase::Gathering { firsts } => firsts,
            _ => return Err(Refusal::WrongPhase),
        };
        let survivors = complete(&plan, firsts, plan.row_length());
        refuse_if(!plan.usable(survivors), Refusal::TooFew)?;
        let firsts = firsts.clone();
        self.phase = Phase::Replying { firsts, survivors, replies: Held::new() };
        Ok((self.last_opened, survivors))
    }

    pub fn reply_element(
        &mut self,
        airfield: u8,
        block: u8,
        element: Element,
    ) -> Result<(), Refusal> {
        let plan = self.accepted_plan()?;
        let (survivors, replies) = match &mut self.phase {
            Phase::Replying { survivors, replies, .. } => (survivors, replies),
            _ => return Err(Refusal::WrongPhase),
        };
        let block = usize::from(block);
        refuse_if(!plan.has_airfield(airfield), Refusal::AirfieldNumber)?;
        refuse_if(block >= plan.blocks(), Refusal::PlaceOrBlock)?;
        refuse_if(!is_element(element), Refusal::NotElement)?;
        refuse_if(!holds(*survivors, airfield), Refusal::NotSurvivor)?;
        hold(replies, (airfield, block), element)
    }

    /// Every complete reply counts, partial ones do not. The first message of
    /// an airfield set aside stays in the sum.
    pub fn finish(&mut self) -> Result<Finished, Refusal> {
        let plan = self.accepted_plan()?;
        let (firsts, survivors, replies) = match &self.phase {
            Phase::Replying { firsts, survivors, replies } => (firsts, survivors, replies),
            _ => return Err(Refusal::WrongPhase),
        };
        let answering = complete(&plan, replies, plan.blocks());
        refuse_if(!plan.usable(answering), Refusal::TooFew)?;
        let replies: Vec<Reply> =
            members(answering).map(|airfield| (airfield, row(replies, airfield))).collect();
        let (aside, sums) = explained(&plan, &replies).ok_or(Refusal::Unexplained)?;
        let messages: Vec<_> = members(*survivors).map(|airfield| row(firsts, airfield)).collect();
        self.phase = Phase::Idle;
        let totals = scheme::total(&messages, &sums);
        Ok(Finished { round: self.last_opened, aside, totals })
    }

    fn accepted_plan(&self) -> Result<Plan, Refusal> {
        self.plan.ok_or(Refusal::PlanMissingOrRepeated)
    }
}

/// Holds the element where none is held. What is held stays: the same element
/// is a repeat, and only another one is refused.
fn hold(held: &mut Held, at: (u8, usize), element: Element) -> Result<(), Refusal> {
    let first = *held.entry(at).or_insert(element);
    refuse_if(first != element, Refusal::OtherHeld)
}

/// The sums of S from all replies, or else from all but one that is set aside.
fn explained(plan: &Plan, replies: &[Reply]) -> Option<(Option<u8>, Vec<Element>)> {
    if let Some(sums) = scheme::sums(plan, replies) {
        return Some((None, sums));
    }
    let (airfield, sums) = scheme::set_aside(plan, replies)?;
    Some((Some(airfield), sums))
}

/// All held elements of one airfield, by rising place or block.
fn row(held: &Held, airfield: u8) -> Vec<Element> {
    held.range((airfield, 0)..=(airfield, usize::MAX)).map(|(_, &element)| element).collect()
}

/// The airfields with `length` elements held, as a set.
fn complete(plan: &Plan, held: &Held, length: usize) -> Set {
    set_of((1..=plan.airfields()).filter(|&airfield| row(held, airfield).len() == length))
}
