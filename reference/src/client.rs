//! Key maker and airfield end: the calls on the airfields' side, with their
//! refusals in document 01's order. A refused call changes nothing.
//!
//! - `list_from_bytes`: a random list from raw bytes, which document 02 adds as
//!   item 1, refusals 1, 2, 31
//! - `make_key`: the key maker, refusals 1, 4, 2, 3
//! - `reply_start`: where in its key an airfield's shares for a set start, which
//!   document 02's item 4 looks up, refusals 1, 4, 5, 6
//! - `End`, `Stage`: an airfield end, its plan, number, use, round and stage
//! - `End::start`: a fresh end, refusals 1, 4
//! - `End::first_message`: refusals 18, 2, 3, and 32, which document 02 adds as
//!   items 2 and 3
//! - `End::reply`: refusals 18, 2, 3, 5, 6, 19, and before 19 the 33 that
//!   document 02 adds as item 7

use crate::field::{is_element, Element};
use crate::reading::value_of;
use crate::refusal::{refuse_if, Refusal};
use crate::scheme::{self, holds, Plan, RandomList, Set, Use};

/// Fills a lent random list: two bytes are a number, low byte first, and a
/// number that is no element is skipped. A lone last byte is no number, and
/// the bytes behind the last element are unused.
pub fn list_from_bytes(plan: [u8; 4], bytes: &[u8], list: &mut [Element]) -> Result<(), Refusal> {
    let plan = Plan::new(plan)?;
    refuse_if(list.len() != plan.list_length(), Refusal::Length)?;
    let numbers = bytes.chunks_exact(2).map(|pair| u16::from_le_bytes([pair[0], pair[1]]));
    let kept = numbers.filter(|&number| is_element(number));
    let drawn: Vec<Element> = kept.take(list.len()).collect();
    refuse_if(drawn.len() < list.len(), Refusal::BytesRunOut)?;
    list.copy_from_slice(&drawn);
    Ok(())
}

/// Writes the key of an airfield into a lent buffer of the key's length.
pub fn make_key(
    plan: [u8; 4],
    airfield: u8,
    list: &[Element],
    key: &mut [Element],
) -> Result<(), Refusal> {
    let plan = Plan::new(plan)?;
    refuse_if(!plan.has_airfield(airfield), Refusal::AirfieldNumber)?;
    let lengths_fit = list.len() == plan.list_length() && key.len() == plan.key_length(airfield);
    refuse_if(!lengths_fit, Refusal::Length)?;
    refuse_if(!all_elements(list), Refusal::NotElement)?;
    key.copy_from_slice(&scheme::key(&RandomList { plan: &plan, elements: list }, airfield));
    Ok(())
}

/// It needs no key: plan, airfield and set fix the place.
pub fn reply_start(plan: [u8; 4], airfield: u8, set: Set) -> Result<usize, Refusal> {
    let plan = Plan::new(plan)?;
    refuse_if(!plan.has_airfield(airfield), Refusal::AirfieldNumber)?;
    refuse_if(!plan.usable(set), Refusal::SetNotUsable)?;
    refuse_if(!holds(set, airfield), Refusal::NotInSet)?;
    Ok(scheme::reply_part(&plan, airfield, set).start)
}

#[derive(Clone, Copy, Debug, PartialEq, Eq)]
pub enum Stage {
    Fresh,
    Sent,
    Answered(Set),
}

#[derive(Clone, Debug, PartialEq, Eq)]
pub struct End {
    plan: Plan,
    airfield: u8,
    usage: Use,
    round: u32,
    stage: Stage,
}

impl End {
    /// The key belongs to one round, any number of four bytes.
    pub fn start(plan: [u8; 4], airfield: u8, usage: Use, round: u32) -> Result<End, Refusal> {
        let plan = Plan::new(plan)?;
        refuse_if(!plan.has_airfield(airfield), Refusal::AirfieldNumber)?;
        Ok(End { plan, airfield, usage, round, stage: Stage::Fresh })
    }

    /// Writes figures plus S into a lent buffer of L elements. The key is lent
    /// whole, so test 3 looks through its shares too; whatever it finds, in key
    /// or figures, comes before a figure beyond the bound.
    pub fn first_message(
        &mut self,
        key: &[Element],
        figures: &[Element],
        message: &mut [Element],
    ) -> Result<(), Refusal> {
        refuse_if(self.stage != Stage::Fresh, Refusal::SentOrFresh)?;
        let row_length = self.plan.row_length();
        let lengths_fit =
            self.key_fits(key) && figures.len() == row_length && message.len() == row_length;
        refuse_if(!lengths_fit, Refusal::Length)?;
        refuse_if(!all_elements(key) || !all_elements(figures), Refusal::NotElement)?;
        let bound = u32::from(self.plan.figure_bound(self.usage));
        let beyond = |&figure: &Element| value_of(self.usage, figure).unsigned_abs() > bound;
        refuse_if(figures.iter().any(beyond), Refusal::FigureBeyond)?;
        message.copy_from_slice(&scheme::first_message(key, figures));
        self.stage = Stage::Sent;
        Ok(())
    }

    /// Hands back the part of the lent key that answers the set, announced for
    /// a round.
    pub fn reply<'a>(
        &mut self,
        key: &'a [Element],
        set: Set,
        round: u32,
    ) -> Result<&'a [Element], Refusal> {
        refuse_if(self.stage == Stage::Fresh, Refusal::SentOrFresh)?;
        refuse_if(!self.key_fits(key), Refusal::Length)?;
        refuse_if(!all_elements(key), Refusal::NotElement)?;
        refuse_if(!self.plan.usable(set), Refusal::SetNotUsable)?;
        refuse_if(!holds(set, self.airfield), Refusal::NotInSet)?;
        refuse_if(round != self.round, Refusal::OtherRound)?;
        let answered_other = matches!(self.stage, Stage::Answered(other) if other != set);
        refuse_if(answered_other, Refusal::OtherSet)?;
        self.stage = Stage::Answered(set);
        Ok(&key[scheme::reply_part(&self.plan, self.airfield, set)])
    }

    pub fn stage(&self) -> Stage {
        self.stage
    }

    fn key_fits(&self, key: &[Element]) -> bool {
        key.len() == self.plan.key_length(self.airfield)
    }
}

fn all_elements(values: &[u16]) -> bool {
    values.iter().copied().all(is_element)
}
