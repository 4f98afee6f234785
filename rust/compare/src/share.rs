//! Elements chosen for the bytes of the image that they share with others.
use crate::both::Element;
use crate::requests::{absent, elements, forbidden, part_of, wanted};
use crate::rng::Rng;
use plain::{meet, Bits};

/// The elements that tables have, and those of them that share a byte with another, with their bits.
pub struct Shared<'a> {
    pub cells: &'a [u64],
    all: Vec<Element>,
    sharing: Vec<(Element, Bits)>,
}

/// Tells whether two elements share a byte.
pub fn share(one: &[(usize, u8)], other: &[(usize, u8)]) -> bool {
    one.iter().any(|it| other.iter().any(|its| its.0 == it.0))
}

impl<'a> Shared<'a> {
    /// Finds them by tables that keep the rule; many of those that may not be written are left out.
    pub fn new(cells: &'a [u64], image_len: usize, rng: &mut Rng) -> Shared<'a> {
        let all = elements(cells);
        let bits = |&(object, part, index): &Element| plain::bits(cells, object, part, index);
        let mut sharing: Vec<(Element, Bits)> = all.iter().map(|element| (*element, bits(element))).collect();
        let mut owners = vec![0u32; image_len];
        for &(place, _) in sharing.iter().flat_map(|it| &it.1) {
            owners[place] += 1;
        }
        sharing.retain(|(element, bits)| {
            bits.iter().any(|&(place, _)| owners[place] > 1) && (!forbidden(cells, *element) || rng.one_in(8))
        });
        Shared { cells, all, sharing }
    }

    /// Tells whether no elements share a byte.
    pub fn is_empty(&self) -> bool {
        self.sharing.is_empty()
    }

    /// Any element, mostly one that is there.
    fn any(&self, rng: &mut Rng) -> Element {
        wanted(self.cells, &self.all, rng)
    }

    /// Deals the elements that share bytes out to two people.
    pub fn deal(&self, rng: &mut Rng) -> [Vec<Element>; 2] {
        let (one, other) = self.sharing.iter().map(|it| it.0).partition(|_| rng.one_in(2));
        [one, other]
    }

    /// One element: mostly one of those dealt.
    pub fn one_of(&self, dealt: &[Element], rng: &mut Rng) -> Element {
        if dealt.is_empty() || rng.one_in(5) {
            return self.any(rng);
        }
        rng.pick(dealt)
    }

    /// Any element of the part that an element is of.
    fn any_of_part(&self, element: Element, rng: &mut Rng) -> Element {
        let part = part_of(self.cells, element);
        (element.0, element.1, rng.below(part[3] * part[4]) as u32)
    }

    /// Two elements: mostly two that share a byte, else one twice, one that is not there, or any.
    pub fn two(&self, rng: &mut Rng) -> [Element; 2] {
        let any = self.any(rng);
        let way = rng.below(18);
        let near = if way > 2 { self.neighbours(way > 7, rng) } else { None };
        match (way, near) {
            (0, _) => [any, any],
            (1, _) => [any, absent(self.cells, rng)],
            // Parts that share bytes: where in them an element stands is not asked.
            (3 | 4, Some([one, other])) => [one, self.any_of_part(other, rng)],
            (_, Some(near)) => near,
            (_, None) => [any, self.any(rng)],
        }
    }

    /// Two elements that share a byte: if such are found soon, with bits apart or with bits that meet, as wished.
    fn neighbours(&self, apart: bool, rng: &mut Rng) -> Option<[Element; 2]> {
        let mut found = None;
        for _ in 0..6 {
            if self.sharing.is_empty() {
                return None;
            }
            let (one, bits) = &self.sharing[rng.place(self.sharing.len())];
            let others = self.sharing.iter().filter(|(other, its)| other != one && share(bits, its));
            let (fit, unfit): (Vec<_>, Vec<_>) = others.partition(|(_, its)| meet(bits, its) != apart);
            if !fit.is_empty() {
                return Some([*one, rng.pick(&fit).0]);
            }
            found = unfit.first().map(|other| [*one, other.0]).or(found);
        }
        found
    }
}
