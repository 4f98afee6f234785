//! What a run counts: answers, and what had to occur.
use crate::aimed::AIMS;
use crate::pairs::{Pair, Write};
use crate::share::share;
use plain::Rounded;
use std::collections::BTreeMap;

/// How many answers of each number there were.
#[derive(Default)]
pub struct Counts(BTreeMap<u8, u64>);

impl Counts {
    /// Counts an answer.
    pub fn count(&mut self, number: u8) {
        *self.0.entry(number).or_default() += 1;
    }

    /// How many answers of a number there were.
    pub fn of(&self, number: u8) -> u64 {
        self.0.get(&number).copied().unwrap_or(0)
    }

    /// The numbers that occurred, and how often.
    pub fn rows(&self) -> impl Iterator<Item = (u8, u64)> + '_ {
        self.0.iter().map(|(&number, &count)| (number, count))
    }
}

/// What the test of the value that would be stored met.
#[derive(Default)]
pub struct Stored {
    /// Refused with 16 for that value; among these, numbers that mean no value.
    pub outside: u64,
    pub no_value: u64,
    /// Refused with 18 where the value is outside the limits too.
    pub after_18: u64,
    /// Accepted with a value that is a limit exactly.
    pub at_limit: u64,
    /// Tested with a value that is no limit but the same as one in 53 bits.
    pub close: u64,
    /// Tested with a number of 2^60 or more in the fraction.
    pub wide: u64,
}

impl Stored {
    /// Counts a physical write by what would be stored and by its answer.
    pub fn count(&mut self, rounded: &Rounded, answer: u8) {
        if answer == 18 {
            self.after_18 += !rounded.inside() as u64;
            return;
        }
        self.outside += (answer == 16) as u64;
        let Some((top, under)) = rounded.value() else {
            self.no_value += (answer == 16) as u64;
            return;
        };
        let limits = [rounded.limits.lower, rounded.limits.upper].map(|it| (it.signed(), 10i128.pow(it.power)));
        let exact = limits.iter().any(|&(whole, ten)| whole * under == top * ten);
        let same = limits.iter().any(|&(whole, ten)| whole as f64 / ten as f64 == top as f64 / under as f64);
        self.at_limit += (exact && answer == 0) as u64;
        self.close += (same && !exact) as u64;
        self.wide += (top.abs().max(under) >= 1 << 60) as u64;
    }

    /// The counts with their names.
    pub fn rows(&self) -> [(&'static str, u64); 6] {
        [
            ("16 for it", self.outside),
            ("no value", self.no_value),
            ("18 before 16", self.after_18),
            ("a limit itself", self.at_limit),
            ("as close as 53 bits", self.close),
            ("2^60 and more", self.wide),
        ]
    }
}

/// Tells whether a write's quotient in 53 bits is a half.
pub fn half_in_53_bits(rounded: &Rounded) -> bool {
    let (top, under) = rounded.quotient;
    (2.0 * (top as f64 / under as f64)).rem_euclid(2.0) == 1.0
}

/// What physical writes met whose quotient lies exactly between two raw numbers, or very close to that.
#[derive(Default)]
pub struct Halves {
    /// Halves above and below zero, each in edition 1 and in edition 2.
    above: [u64; 2],
    below: [u64; 2],
    /// Halves that both editions store: as the same number, and as two numbers.
    same: u64,
    other: u64,
    /// Halves that one edition alone stores: edition 1, edition 2.
    alone: [u64; 2],
    /// No halves, but the same as one in 53 bits: in edition 1 and in edition 2.
    close: [u64; 2],
}

impl Halves {
    /// Counts a physical write by its quotient and the tables' edition.
    pub fn count(&mut self, rounded: &Rounded, edition: u64) {
        let at = edition as usize - 1;
        if rounded.is_half() {
            let side = if rounded.quotient.0 < 0 { &mut self.below } else { &mut self.above };
            side[at] += 1;
        } else {
            self.close[at] += half_in_53_bits(rounded) as u64;
        }
    }

    /// Counts a half written under an edition and under the other, by both answers and whether all is the same then.
    pub fn count_both(&mut self, edition: u64, answers: [u8; 2], same: bool) {
        match answers.map(|answer| answer == 0) {
            [true, true] if same => self.same += 1,
            [true, true] => self.other += 1,
            [true, false] => self.alone[edition as usize - 1] += 1,
            [false, true] => self.alone[2 - edition as usize] += 1,
            [false, false] => {}
        }
    }

    /// How many halves there were in an edition.
    pub fn in_edition(&self, edition: usize) -> u64 {
        self.above[edition - 1] + self.below[edition - 1]
    }

    /// The counts with their names.
    pub fn rows(&self) -> [(&'static str, u64); 10] {
        [
            ("above zero in 1", self.above[0]),
            ("above zero in 2", self.above[1]),
            ("below zero in 1", self.below[0]),
            ("below zero in 2", self.below[1]),
            ("one number in both", self.same),
            ("another in each", self.other),
            ("stored in 1 alone", self.alone[0]),
            ("stored in 2 alone", self.alone[1]),
            ("as close as 53 bits in 1", self.close[0]),
            ("as close as 53 bits in 2", self.close[1]),
        ]
    }
}

/// What pairs of writes met that were made in either order.
#[derive(Default)]
pub struct Pairs {
    pub answers: Counts,
    /// Bits apart; among these, elements that share a byte, one write refused, both, an element that is not there.
    apart: u64,
    sharing: u64,
    one_refused: u64,
    both_refused: u64,
    absent: u64,
    /// Bits that meet; among these, orders that differed; among these, masks apart as numbers, and bits that would be
    /// apart if byte orders were left out.
    met: u64,
    differed: u64,
    by_numbers: u64,
    without_order: u64,
    close: Close,
}

/// What pairs met whose bits are apart in a byte that they share, both accepted.
#[derive(Default)]
struct Close {
    /// By their widths: 1 and 1, 1 and 2, 1 and 4, 2 and 2, 2 and 4, 4 and 4.
    widths: [u64; 6],
    /// Opposite byte orders; an element with all bits of its bytes; both with bits in one byte; both changed.
    opposite: u64,
    whole: u64,
    one_byte: u64,
    changed: u64,
    /// A raw with a physical write, two physical ones; over damaged tables.
    mixed: u64,
    physical: u64,
    damaged: u64,
}

impl Pairs {
    /// Counts a pair, over good tables or over damaged ones that keep the rule.
    pub fn count(&mut self, pair: &Pair, damaged: bool) {
        for answer in pair.answers {
            self.answers.count(answer);
        }
        if pair.meets() {
            self.met += 1;
            if !pair.same {
                self.differed += 1;
                self.by_numbers += pair.apart_as_numbers() as u64;
                self.without_order += pair.apart_without_order() as u64;
            }
            return;
        }
        let accepted = pair.answers.map(|answer| answer == 0);
        self.apart += 1;
        self.sharing += pair.shares() as u64;
        self.one_refused += (accepted[0] != accepted[1]) as u64;
        self.both_refused += (accepted == [false; 2]) as u64;
        self.absent += pair.writes.iter().any(|write| write.bits.is_empty()) as u64;
        if pair.shares() && accepted == [true; 2] {
            self.close.count(pair, damaged);
        }
    }

    /// The counts with their names.
    pub fn rows(&self) -> [(&'static str, u64); 9] {
        [
            ("apart", self.apart),
            ("sharing a byte", self.sharing),
            ("one refused", self.one_refused),
            ("both refused", self.both_refused),
            ("no such element", self.absent),
            ("meeting", self.met),
            ("differed", self.differed),
            ("apart as numbers", self.by_numbers),
            ("apart without byte order", self.without_order),
        ]
    }

    /// The counts of pairs apart in a shared byte, both accepted, with their names.
    pub fn close_rows(&self) -> [(&'static str, u64); 13] {
        let Close { widths, opposite, whole, one_byte, changed, mixed, physical, damaged } = self.close;
        [
            ("1/1", widths[0]),
            ("1/2", widths[1]),
            ("1/4", widths[2]),
            ("2/2", widths[3]),
            ("2/4", widths[4]),
            ("4/4", widths[5]),
            ("opposite byte orders", opposite),
            ("one with all its bits", whole),
            ("both in one byte", one_byte),
            ("both changed", changed),
            ("raw and physical", mixed),
            ("both physical", physical),
            ("damaged tables", damaged),
        ]
    }
}

impl Close {
    /// Counts a pair that is such.
    fn count(&mut self, pair: &Pair, damaged: bool) {
        let [one, other] = &pair.writes;
        let (less, more) = (one.bits.len().min(other.bits.len()), one.bits.len().max(other.bits.len()));
        let at = [(1, 1), (1, 2), (1, 4), (2, 2), (2, 4), (4, 4)].iter().position(|&it| it == (less, more));
        if let Some(at) = at {
            self.widths[at] += 1;
        }
        let in_one_byte = |&(place, bits): &(usize, u8)| bits != 0 && other.has_bits_at(place);
        self.opposite += pair.is_opposite() as u64;
        self.whole += (one.is_whole() || other.is_whole()) as u64;
        self.one_byte += one.bits.iter().any(in_one_byte) as u64;
        self.changed += (pair.changed == [true; 2]) as u64;
        self.mixed += (one.is_physical() != other.is_physical()) as u64;
        self.physical += (one.is_physical() && other.is_physical()) as u64;
        self.damaged += damaged as u64;
    }
}

/// What merges of two rows of writes met.
#[derive(Default)]
pub struct Merges {
    /// All of them; those with two accepted writes or more in each row, and not one row after the other; among these,
    /// accepted writes of both rows that share a byte.
    all: u64,
    mixed: u64,
    sharing: u64,
}

impl Merges {
    /// Counts a merge: both rows' writes with their answers, how many are of the first, and their order.
    pub fn count(&mut self, writes: &[&Write], answers: &[u8], first: usize, order: &[usize]) {
        self.all += 1;
        let accepted = |from: usize, past: usize| (from..past).filter(|&at| answers[at] == 0).map(|at| writes[at]);
        let (one, other) = (accepted(0, first), accepted(first, writes.len()));
        let (one, other): (Vec<_>, Vec<_>) = (one.collect(), other.collect());
        if one.len() < 2 || other.len() < 2 || order.is_sorted() {
            return;
        }
        self.mixed += 1;
        self.sharing += one.iter().any(|it| other.iter().any(|its| share(&it.bits, &its.bits))) as u64;
    }

    /// The counts with their names.
    pub fn rows(&self) -> [(&'static str, u64); 3] {
        [("merges", self.all), ("two accepted in each row, mixed", self.mixed), ("sharing a byte", self.sharing)]
    }
}

/// What was counted.
#[derive(Default)]
pub struct Stats {
    pub loads: u64,
    pub writes: u64,
    pub load_answers: Counts,
    pub raw_answers: Counts,
    pub physical_answers: Counts,
    pub other_answers: Counts,
    pub damaged_answers: Counts,
    /// How often each aim of damage was answered by the rule, and not with 20.
    pub aimed: [u64; AIMS.len()],
    /// Loads and writes made again with the same numbers without exponents.
    pub loads_without: u64,
    pub writes_without: u64,
    /// What the test of the value that would be stored met, over good tables and over damaged ones that keep the rule.
    pub stored: Stored,
    pub stored_damaged: Stored,
    /// What exact halves met, over good tables and over damaged ones that keep the rule.
    pub halves: Halves,
    pub halves_damaged: Halves,
    /// Halves over tables whose edition is the other one than the load's.
    pub halves_turned: u64,
    /// Loads and writes made again with the other edition.
    pub loads_other: u64,
    pub writes_other: u64,
    /// Loads refused with 20 whose edition is none, too.
    pub before_33: u64,
    /// Pairs of writes made in either order, and rows of writes merged.
    pub pairs: Pairs,
    pub merges: Merges,
    pub short_calls: u64,
    pub elements: u64,
}

impl Stats {
    /// What the two editions met beside halves over good tables, with names.
    pub fn editions(&self) -> [(&'static str, u64); 6] {
        [
            ("loads again", self.loads_other),
            ("writes again", self.writes_other),
            ("20 before 33", self.before_33),
            ("halves over damaged tables in 1", self.halves_damaged.in_edition(1)),
            ("halves over damaged tables in 2", self.halves_damaged.in_edition(2)),
            ("halves over a turned edition", self.halves_turned),
        ]
    }
}
