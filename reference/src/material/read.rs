//! Cases for the reader of totals, and for residues of signed figures.
//!
//! - `cases`: the text of `count` cases, by `vectors::Case`
//!
//! The plan of case i is that of seed + i, so 896 cases meet every plan. A
//! case reads totals of either use around each place where their meaning
//! changes, and asks for residues around zero, around the plan's bound and
//! beyond the reach. Each fourth case has a plan outside its ranges.

use super::plan_by_seed;
use super::vectors::Case;
use crate::field::{LARGEST, Q};
use crate::random::Random;
use crate::scheme::{Use, MAX_BLOCKS};

/// Totals and values that are drawn, in each case.
const DRAWN: usize = 4;

pub fn cases(seed: u64, count: u32) -> impl Iterator<Item = String> {
    let mut random = Random::new(seed);
    (0..count).map(move |index| {
        let plan = plan_by_seed(seed.wrapping_add(u64::from(index)));
        let mut numbers = plan.numbers();
        if index % 4 == 3 {
            numbers[3] = random.pick(&[0, MAX_BLOCKS + 1, u8::MAX]);
        }
        let mut case = Case::new(numbers);
        totals(&mut case, &mut random);
        residues(&mut case, plan.figure_bound(Use::Signed).into(), &mut random);
        case.into_text()
    })
}

fn totals(case: &mut Case, random: &mut Random) {
    let reach = Use::Signed.reach();
    let mut totals =
        vec![0, 1, reach - 1, reach, reach + 1, reach + 2, LARGEST - 1, LARGEST, Q, u16::MAX];
    totals.extend((0..DRAWN).map(|_| random.element()));
    for usage in [Use::Counts, Use::Signed] {
        for &total in &totals {
            case.read_total(usage, total);
        }
    }
}

fn residues(case: &mut Case, bound: i32, random: &mut Random) {
    let reach = i32::from(Use::Signed.reach());
    let farthest = i32::from(u16::MAX);
    case.residue(0);
    let mut sizes = vec![1, bound - 1, bound, bound + 1, reach, reach + 1, Q.into(), farthest];
    sizes.extend((0..DRAWN).map(|_| random.below(2 * bound as usize) as i32));
    for size in sizes {
        case.residue(size);
        case.residue(-size);
    }
}
