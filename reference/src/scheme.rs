//! The plan, the sets and the formulas of "Keys and messages". Nothing here
//! refuses anything but a plan; lengths, elements and figures are tested by the
//! callers.
//!
//! - `Set`, `members`, `holds`, `set_of`: sets as numbers, bit k - 1 for k
//! - `Use`: what an airfield's figures are, counts or signed ones (document 02,
//!   item 3)
//! - `Plan`: K, U, T, M within their ranges, the lengths they fix, and how far
//!   from zero a figure may lie (document 02, items 2 and 3)
//! - `RandomList`: the layout of the random list
//! - `coefficient`: the Cauchy matrix
//! - `share`, `key`: what airfield k gets from a random list
//! - `first_message`, `reply_part`: what airfield k sends
//! - `solve`: Gaussian elimination
//! - `sums`, `total`: what the service makes of complete replies
//! - `set_aside`: what it makes of those that disagree (document 02, item 6)

use crate::field::{add, inverse, mul, sub, sum, Element, LARGEST};
use crate::refusal::{refuse_if, Refusal};
use std::ops::Range;

pub const MIN_AIRFIELDS: u8 = 3;
pub const MAX_AIRFIELDS: u8 = 8;
pub const MIN_COLLUDERS: u8 = 1;
pub const MIN_BLOCKS: u8 = 1;
pub const MAX_BLOCKS: u8 = 16;

/// Bit k - 1 stands for airfield k. Wider than eight bits, so that a set with
/// a member above 8 can be asked for and refused.
pub type Set = u16;

pub fn holds(set: Set, airfield: u8) -> bool {
    set >> (airfield - 1) & 1 == 1
}

pub fn members(set: Set) -> impl Iterator<Item = u8> {
    (1..=Set::BITS as u8).filter(move |&airfield| holds(set, airfield))
}

pub fn set_of(airfields: impl Iterator<Item = u8>) -> Set {
    airfields.fold(0, |set, airfield| set | 1 << (airfield - 1))
}

/// A count is lent as itself, a signed figure as its residue.
#[derive(Clone, Copy, Debug, PartialEq, Eq)]
pub enum Use {
    Counts,
    Signed,
}

impl Use {
    /// How far from zero a total may lie.
    pub fn reach(self) -> Element {
        match self {
            Use::Counts => LARGEST,
            Use::Signed => LARGEST / 2,
        }
    }
}

/// A plan within its ranges: K, U, T and M of document 01 in this order.
#[derive(Clone, Copy, Debug, PartialEq, Eq)]
pub struct Plan {
    airfields: u8,
    least: u8,
    colluders: u8,
    blocks: u8,
}

impl Plan {
    pub fn new([airfields, least, colluders, blocks]: [u8; 4]) -> Result<Plan, Refusal> {
        let in_range = (MIN_AIRFIELDS..=MAX_AIRFIELDS).contains(&airfields)
            && colluders >= MIN_COLLUDERS
            && colluders < least
            && least < airfields
            && (MIN_BLOCKS..=MAX_BLOCKS).contains(&blocks);
        refuse_if(!in_range, Refusal::PlanRange)?;
        Ok(Plan { airfields, least, colluders, blocks })
    }

    pub fn numbers(&self) -> [u8; 4] {
        [self.airfields, self.least, self.colluders, self.blocks]
    }

    /// K.
    pub fn airfields(&self) -> u8 {
        self.airfields
    }

    /// U.
    pub fn least(&self) -> usize {
        usize::from(self.least)
    }

    /// T.
    pub fn colluders(&self) -> usize {
        usize::from(self.colluders)
    }

    /// M.
    pub fn blocks(&self) -> usize {
        usize::from(self.blocks)
    }

    /// U - T, the items of a block.
    pub fn items(&self) -> usize {
        self.least() - self.colluders()
    }

    /// L.
    pub fn row_length(&self) -> usize {
        self.blocks() * self.items()
    }

    /// Item j of block m, j from 1.
    pub fn place(&self, block: usize, item: usize) -> usize {
        block * self.items() + (item - 1)
    }

    /// How far from zero a figure may lie, so that K of them stay within reach.
    pub fn figure_bound(&self, usage: Use) -> Element {
        usage.reach() / Element::from(self.airfields)
    }

    pub fn has_airfield(&self, airfield: u8) -> bool {
        (1..=self.airfields).contains(&airfield)
    }

    pub fn usable(&self, set: Set) -> bool {
        set.count_ones() as usize >= self.least() && set >> self.airfields == 0
    }

    /// All usable sets in rising number.
    pub fn usable_sets(&self) -> impl Iterator<Item = Set> + '_ {
        (0..1 << self.airfields).filter(|&set| self.usable(set))
    }

    pub fn usable_sets_holding(&self, airfield: u8) -> impl Iterator<Item = Set> + '_ {
        self.usable_sets().filter(move |&set| holds(set, airfield))
    }

    pub fn list_length(&self) -> usize {
        let noise = self.usable_sets().count() * self.blocks() * self.colluders();
        usize::from(self.airfields) * self.row_length() + noise
    }

    pub fn key_length(&self, airfield: u8) -> usize {
        self.row_length() + self.usable_sets_holding(airfield).count() * self.blocks()
    }
}

/// A random list of the plan's length: S of each airfield, then the noise of
/// each usable set, block by block.
#[derive(Clone, Copy)]
pub struct RandomList<'a> {
    pub plan: &'a Plan,
    pub elements: &'a [Element],
}

impl RandomList<'_> {
    /// S of one airfield, all L places.
    pub fn s(&self, airfield: u8) -> &[Element] {
        let length = self.plan.row_length();
        let start = usize::from(airfield - 1) * length;
        &self.elements[start..start + length]
    }

    /// The sum over the set of S at one place.
    pub fn s_sum(&self, set: Set, place: usize) -> Element {
        sum(members(set).map(|airfield| self.s(airfield)[place]))
    }

    /// The T noise elements of one usable set and block.
    pub fn noise(&self, set: Set, block: usize) -> &[Element] {
        let plan = self.plan;
        let before = plan.usable_sets().take_while(|&other| other < set).count();
        let after_s = usize::from(plan.airfields) * plan.row_length();
        let start = after_s + (before * plan.blocks() + block) * plan.colluders();
        &self.elements[start..start + plan.colluders()]
    }
}

/// The inverse of k + j: row by the airfield's number in every set, columns
/// from 1.
pub fn coefficient(airfield: u8, column: usize) -> Element {
    inverse(u16::from(airfield) + column as u16)
}

/// The share of an airfield for a usable set and a block: columns 1 to U - T
/// times the sums of S, then columns U - T + 1 to U times the noise.
pub fn share(list: &RandomList, airfield: u8, set: Set, block: usize) -> Element {
    let plan = list.plan;
    let sums = (1..=plan.items()).map(|item| list.s_sum(set, plan.place(block, item)));
    let noise = list.noise(set, block).iter().copied();
    let terms = sums
        .chain(noise)
        .zip(1..)
        .map(|(unknown, column)| mul(coefficient(airfield, column), unknown));
    sum(terms)
}

/// The shares of an airfield for a usable set, one for each block.
pub fn shares(list: &RandomList, airfield: u8, set: Set) -> Vec<Element> {
    (0..list.plan.blocks()).map(|block| share(list, airfield, set, block)).collect()
}

/// The whole key of an airfield.
pub fn key(list: &RandomList, airfield: u8) -> Vec<Element> {
    let all_shares =
        list.plan.usable_sets_holding(airfield).flat_map(|set| shares(list, airfield, set));
    list.s(airfield).iter().copied().chain(all_shares).collect()
}

/// Figures plus S, place by place; S leads the key.
pub fn first_message(key: &[Element], figures: &[Element]) -> Vec<Element> {
    figures.iter().zip(key).map(|(&figure, &s)| add(figure, s)).collect()
}

/// Where the M shares for a usable set holding the airfield lie in its key.
pub fn reply_part(plan: &Plan, airfield: u8, set: Set) -> Range<usize> {
    let before = plan.usable_sets_holding(airfield).take_while(|&other| other < set).count();
    let start = plan.row_length() + before * plan.blocks();
    start..start + plan.blocks()
}

/// Gaussian elimination. Each row is one equation: its coefficients, then its
/// right-hand side. The coefficients must fix the unknowns. Gives the one
/// solution of all rows together, or none if they contradict each other.
pub fn solve(mut rows: Vec<Vec<Element>>, unknowns: usize) -> Option<Vec<Element>> {
    for column in 0..unknowns {
        let pivot = (column..rows.len())
            .find(|&row| rows[row][column] != 0)
            .expect("the rows fix every unknown");
        rows.swap(column, pivot);
        rows[column] = scaled(&rows[column], inverse(rows[column][column]));
        clear_column(&mut rows, column);
    }
    let (solved, spare) = rows.split_at(unknowns);
    let consistent = spare.iter().all(|row| row[unknowns] == 0);
    consistent.then(|| solved.iter().map(|row| row[unknowns]).collect())
}

/// Takes the pivot row, whose pivot is 1, off every other row as often as
/// that row's entry in the column says.
fn clear_column(rows: &mut [Vec<Element>], column: usize) {
    let pivot_row = rows[column].clone();
    for (index, row) in rows.iter_mut().enumerate() {
        if index != column {
            let taken = scaled(&pivot_row, row[column]);
            *row = row.iter().zip(taken).map(|(&a, b)| sub(a, b)).collect();
        }
    }
}

fn scaled(row: &[Element], factor: Element) -> Vec<Element> {
    row.iter().map(|&entry| mul(entry, factor)).collect()
}

/// A complete reply: the airfield and its M shares.
pub type Reply = (u8, Vec<Element>);

/// The sums of S at all L places, from all of at least U complete replies
/// together; none if no sums and noise explain them all.
pub fn sums(plan: &Plan, replies: &[Reply]) -> Option<Vec<Element>> {
    let blocks: Option<Vec<_>> =
        (0..plan.blocks()).map(|block| block_sums(plan, replies, block)).collect();
    blocks.map(|sums| sums.concat())
}

fn block_sums(plan: &Plan, replies: &[Reply], block: usize) -> Option<Vec<Element>> {
    let equation = |(airfield, shares): &Reply| {
        let left = (1..=plan.least()).map(|column| coefficient(*airfield, column));
        left.chain([shares[block]]).collect()
    };
    let mut unknowns = solve(replies.iter().map(equation).collect(), plan.least())?;
    unknowns.truncate(plan.items());
    Some(unknowns)
}

/// The one airfield without whose whole reply all others agree, with the sums
/// that these give. Fewer than U + 2 replies cannot tell which one it is.
pub fn set_aside(plan: &Plan, replies: &[Reply]) -> Option<(u8, Vec<Element>)> {
    if replies.len() < plan.least() + 2 {
        return None;
    }
    replies.iter().find_map(|&(airfield, _)| {
        let others: Vec<Reply> =
            replies.iter().filter(|&&(other, _)| other != airfield).cloned().collect();
        Some((airfield, sums(plan, &others)?))
    })
}

/// Per place, the sum of the survivors' first messages less the sum of S.
pub fn total(first_messages: &[Vec<Element>], sums: &[Element]) -> Vec<Element> {
    let at = |place: usize| sum(first_messages.iter().map(|message| message[place]));
    sums.iter().enumerate().map(|(place, &s)| sub(at(place), s)).collect()
}
