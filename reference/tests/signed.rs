//! Figures that fall below zero: item 3 of document 02, its words one by one.

mod ends;

use ends::{BEFORE, PLAN};
use reference::client::End;
use reference::field::Element;
use reference::material::all_plans;
use reference::reading::{read_total, residue, residue_of};
use reference::scheme::Use;
use std::collections::BTreeSet;

/// Of three airfields, and the element that stands for its other end.
const BOUND: Element = 10920;
const LEAST: Element = 65521 - 10920;

fn fresh() -> (End, Vec<Element>) {
    ends::fresh(Use::Signed)
}

/// Both ends of the bound are taken behind the refusal.
fn refused(number: u8, key: &[Element], figures: [Element; 2]) {
    ends::refused(Use::Signed, number, key, figures, [BOUND, LEAST]);
}

#[test]
fn bounds_of_all_plans() {
    let bounds = [10920, 8190, 6552, 5460, 4680, 4095];
    for plan in all_plans() {
        assert_eq!(plan.figure_bound(Use::Signed), bounds[usize::from(plan.airfields() - 3)]);
    }
}

#[test]
fn every_whole_number_is_read_back() {
    let all = -32760..=32760;
    let residues: BTreeSet<Element> = all.clone().map(residue).collect();
    assert_eq!(residues, (0..=65520).collect());
    for value in all {
        assert_eq!(read_total(Use::Signed, residue(value).into()), Ok(value));
    }
}

#[test]
fn totals_around_each_end() {
    let signed = [
        (0, 0),
        (1, 1),
        (32759, 32759),
        (32760, 32760),
        (32761, -32760),
        (32762, -32759),
        (65507, -14),
        (65519, -2),
        (65520, -1),
    ];
    for (total, value) in signed {
        assert_eq!(read_total(Use::Signed, total), Ok(value));
        assert_eq!(read_total(Use::Counts, total), Ok(total as i32));
    }
}

#[test]
fn a_total_above_65520_is_refused_by_3() {
    for total in [65521, 65522, 65535, 65536, 131041, 1 << 31, u32::MAX] {
        for usage in [Use::Counts, Use::Signed] {
            assert_eq!(read_total(usage, total).unwrap_err().number(), 3);
        }
    }
}

/// A mix of uses has no reader, but its total is still that of the whole sum.
#[test]
fn residues_are_taken_modulo_q() {
    for (value, element) in [(65521, 0), (65520, 65520), (-65521, 0), (-65520, 1), (-14, 65507)] {
        assert_eq!(residue(value), element);
    }
}

#[test]
fn residues_of_figures_within_the_bound() {
    let eight = [8, 2, 1, 16];
    for (value, element) in [(0, 0), (4095, 4095), (-4095, 61426), (-1, 65520), (-14, 65507)] {
        assert_eq!(residue_of(eight, value), Ok(element));
    }
    for value in [4096, -4096, 32760, -32760, 65521, -65521, i32::MAX, i32::MIN] {
        assert_eq!(residue_of(eight, value).unwrap_err().number(), 32);
        assert_eq!(residue_of([8, 2, 1, 17], value).unwrap_err().number(), 1);
    }
    assert_eq!(residue_of([8, 2, 1, 17], 0).unwrap_err().number(), 1);
}

#[test]
fn figures_beyond_are_refused_by_32() {
    let key = fresh().1;
    for figure in [BOUND + 1, LEAST - 1, 32760, 32761] {
        refused(32, &key, [figure, 0]);
        refused(32, &key, [BOUND, figure]);
        refused(32, &key, [LEAST, figure]);
        refused(32, &key, [figure, figure]);
    }
}

#[test]
fn three_comes_first_wherever_it_stands() {
    let key = fresh().1;
    for no_element in [65521, 65535] {
        for beyond in [BOUND + 1, LEAST - 1] {
            refused(3, &key, [beyond, no_element]);
            refused(3, &key, [no_element, beyond]);
        }
        for place in 0..key.len() {
            let mut key = key.clone();
            key[place] = no_element;
            refused(3, &key, [BOUND + 1, LEAST - 1]);
        }
    }
}

/// Each end goes by its own use.
#[test]
fn one_use_is_not_the_other() {
    let (mut signed, key) = fresh();
    let mut counts = End::start(PLAN, 1, Use::Counts, 0).unwrap();
    let mut message = BEFORE;
    assert_eq!(counts.first_message(&key, &[65520, 0], &mut message).unwrap_err().number(), 32);
    assert_eq!(signed.first_message(&key, &[21840, 0], &mut message).unwrap_err().number(), 32);
    assert_eq!(message, BEFORE);
    counts.first_message(&key, &[21840, 0], &mut message).unwrap();
    assert_eq!(message, [21840, 0]);
    signed.first_message(&key, &[65520, 0], &mut message).unwrap();
    assert_eq!(message, [65520, 0]);
}

#[test]
fn eighteen_and_two_come_first() {
    let (mut end, key) = fresh();
    let mut number = |key: &[Element], figures: &[Element], message: &mut [Element]| {
        end.first_message(key, figures, message).map_or_else(|refusal| refusal.number(), |()| 0)
    };
    let beyond = [LEAST - 1; 3];
    assert_eq!(number(&key[1..], &beyond[..2], &mut [0; 2]), 2);
    assert_eq!(number(&key, &beyond, &mut [0; 2]), 2);
    assert_eq!(number(&key, &beyond[..2], &mut [0; 3]), 2);
    assert_eq!(number(&key, &[LEAST; 2], &mut [0; 2]), 0);
    assert_eq!(number(&key, &beyond[..2], &mut [0; 2]), 18);
}
