//! Figures that add up to a count: item 2 of document 02, its words one by one.
//! Those of item 3 are in signed.rs.

mod ends;

use ends::PLAN;
use reference::client::End;
use reference::field::Element;
use reference::material::{all_plans, common_use, table, whole_sums};
use reference::random::Random;
use reference::scheme::{Plan, Use};

const BOUND: Element = 21840;

fn fresh() -> (End, Vec<Element>) {
    ends::fresh(Use::Counts)
}

/// The bound is taken behind the refusal.
fn refused(number: u8, key: &[Element], figures: [Element; 2]) {
    ends::refused(Use::Counts, number, key, figures, [BOUND, 0]);
}

#[test]
fn bounds_of_all_plans() {
    let bounds = [21840, 16380, 13104, 10920, 9360, 8190];
    for plan in all_plans() {
        assert_eq!(plan.figure_bound(Use::Counts), bounds[usize::from(plan.airfields() - 3)]);
    }
}

#[test]
fn larger_figures_are_refused_by_32() {
    let key = fresh().1;
    for figure in [BOUND + 1, 65520] {
        refused(32, &key, [figure, 0]);
        refused(32, &key, [BOUND, figure]);
        refused(32, &key, [figure, figure]);
    }
}

#[test]
fn three_comes_first_wherever_it_stands() {
    let key = fresh().1;
    for no_element in [65521, 65535] {
        refused(3, &key, [BOUND + 1, no_element]);
        refused(3, &key, [no_element, BOUND + 1]);
        for place in 0..key.len() {
            let mut key = key.clone();
            key[place] = no_element;
            refused(3, &key, [BOUND + 1, 65520]);
        }
    }
}

#[test]
fn eighteen_and_two_come_first() {
    let (mut end, key) = fresh();
    let mut number = |key: &[Element], figures: &[Element], message: &mut [Element]| {
        end.first_message(key, figures, message).map_or_else(|refusal| refusal.number(), |()| 0)
    };
    let beyond = [BOUND + 1; 3];
    assert_eq!(number(&key[1..], &beyond[..2], &mut [0; 2]), 2);
    assert_eq!(number(&key, &beyond, &mut [0; 2]), 2);
    assert_eq!(number(&key, &beyond[..2], &mut [0; 3]), 2);
    assert_eq!(number(&key, &[BOUND; 2], &mut [0; 2]), 0);
    assert_eq!(number(&key, &beyond[..2], &mut [0; 2]), 18);
}

/// Tables of each use reach both ends of the bound, and their sums both ends
/// of what can be told; and there are tables of both uses.
#[test]
fn tables_reach_both_ends() {
    let mut random = Random::new(1);
    let everyone = (1 << PLAN[0]) - 1;
    let plan = Plan::new(PLAN).unwrap();
    let tables: Vec<_> = (0..3000).map(|_| table(&plan, &mut random)).collect();
    let of_use = |usage| tables.iter().filter(move |table| common_use(table, everyone) == usage);
    for (usage, figure_ends, sum_ends) in [
        (Use::Counts, (0, BOUND.into()), (0, 65520)),
        (Use::Signed, (-10920, 10920), (-32760, 32760)),
    ] {
        let rows = of_use(Some(usage)).flatten();
        let figures: Vec<i32> = rows.flat_map(|row| row.figures.clone()).collect();
        let sums = of_use(Some(usage)).flat_map(|table| whole_sums(&plan, table, everyone));
        for (numbers, (least, largest)) in [(figures, figure_ends), (sums.collect(), sum_ends)] {
            assert_eq!(numbers.iter().min(), Some(&least), "{usage:?}");
            assert_eq!(numbers.iter().max(), Some(&largest), "{usage:?}");
        }
    }
    assert!(of_use(None).count() > 0);
}
