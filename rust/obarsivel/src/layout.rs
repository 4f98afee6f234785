//! The few cells of the tables that the wrapper looks at itself.
use crate::Edition;

/// Where the edition, the element total, the objects and the groups stand, and how wide their records are.
const EDITION: usize = 1;
const ELEMENTS: usize = 3;
const OBJECTS: usize = 4;
const GROUPS: usize = OBJECTS + 1 + 3 * 512;

/// The tables of an accepted load.
pub struct Layout<'a>(pub &'a [u64]);

impl Layout<'_> {
    /// The edition: 1 or 2, and no other in the tables of an accepted load.
    pub fn edition(&self) -> Edition {
        match self.0[EDITION] {
            2 => Edition::Two,
            _ => Edition::One,
        }
    }

    /// How many elements all objects have.
    pub fn elements(&self) -> usize {
        self.0[ELEMENTS] as usize
    }

    /// How many objects there are.
    pub fn objects(&self) -> usize {
        self.0[OBJECTS] as usize
    }

    /// The first byte of an object's name and the one past it.
    pub fn name(&self, object: usize) -> Option<(usize, usize)> {
        if object >= self.objects() {
            return None;
        }
        let at = OBJECTS + 1 + 3 * object;
        Some((self.0[at] as usize, self.0[at + 1] as usize))
    }

    /// How many elements a part of an object has.
    pub fn part_elements(&self, object: usize, part: usize) -> usize {
        if object >= self.objects() {
            return 0;
        }
        let at = GROUPS + 1 + 19 * (3 * object + part);
        (self.0[at + 3] * self.0[at + 4]) as usize
    }
}
