//! Elements as whole numbers, which item 3 of document 02 adds.
//!
//! - `residue`: the element that a whole number leaves modulo q
//! - `value_of`: the whole number that an element stands for
//! - `read_total`: the reader of totals, refusal 3
//! - `residue_of`: how a signed figure is lent, refusals 1, 32

use crate::field::{is_element, Element, Q};
use crate::refusal::{refuse_if, Refusal};
use crate::scheme::{Plan, Use};

pub fn residue(value: i32) -> Element {
    value.rem_euclid(i32::from(Q)) as Element
}

/// An element beyond the reach of its use is itself less q. No count is.
pub fn value_of(usage: Use, element: Element) -> i32 {
    let beyond_reach = element > usage.reach();
    i32::from(element) - if beyond_reach { i32::from(Q) } else { 0 }
}

pub fn read_total(usage: Use, total: u32) -> Result<i32, Refusal> {
    let total = u16::try_from(total).map_err(|_| Refusal::NotElement)?;
    refuse_if(!is_element(total), Refusal::NotElement)?;
    Ok(value_of(usage, total))
}

pub fn residue_of(plan: [u8; 4], value: i32) -> Result<Element, Refusal> {
    let bound = u32::from(Plan::new(plan)?.figure_bound(Use::Signed));
    refuse_if(value.unsigned_abs() > bound, Refusal::FigureBeyond)?;
    Ok(residue(value))
}
