//! Arithmetic modulo 65521 ("Plan, sets and the field").
//!
//! - `Element`: a whole number held in 16 bits, an element if below `Q`
//! - `Q`, `LARGEST`: the prime, and the largest element 65520
//! - `is_element`: the test behind refusal 3
//! - `add`, `sub`, `mul`, `power`, `inverse`: operations on elements
//! - `sum`: the sum of any number of elements

pub type Element = u16;

/// q, a prime.
pub const Q: Element = 65521;
pub const LARGEST: Element = Q - 1;

pub fn is_element(value: u16) -> bool {
    value <= LARGEST
}

pub fn add(a: Element, b: Element) -> Element {
    reduce(u32::from(a) + u32::from(b))
}

/// Q is added first, so that nothing goes below zero.
pub fn sub(a: Element, b: Element) -> Element {
    reduce(u32::from(a) + u32::from(Q) - u32::from(b))
}

pub fn mul(a: Element, b: Element) -> Element {
    reduce(u32::from(a) * u32::from(b))
}

pub fn power(base: Element, exponent: u32) -> Element {
    if exponent == 0 {
        return 1;
    }
    let half = power(base, exponent / 2);
    let square = mul(half, half);
    if exponent % 2 == 1 {
        mul(square, base)
    } else {
        square
    }
}

/// Fermat: a to the power q - 2 is the inverse of any a other than 0.
pub fn inverse(a: Element) -> Element {
    assert!(a != 0, "zero has no inverse");
    power(a, u32::from(Q) - 2)
}

pub fn sum(elements: impl Iterator<Item = Element>) -> Element {
    elements.fold(0, add)
}

fn reduce(value: u32) -> Element {
    (value % u32::from(Q)) as Element
}

#[cfg(test)]
mod tests {
    use super::*;

    #[test]
    fn every_inverse_times_its_element_is_one() {
        assert!((1..=LARGEST).all(|a| mul(a, inverse(a)) == 1));
    }

    #[test]
    fn ends_wrap() {
        assert_eq!(add(LARGEST, 1), 0);
        assert_eq!(sub(0, LARGEST), 1);
        assert_eq!(mul(LARGEST, LARGEST), 1);
        assert!(is_element(LARGEST) && !is_element(Q));
    }
}
