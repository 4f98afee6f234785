//! Writes of two people to one image: two of them in either order, and two rows of them merged.
use crate::both::{Both, Call, Element};
use crate::counts::Stats;
use crate::requests::{any_line, part_of, write_to};
use crate::rng::Rng;
use crate::share::{share, Shared};
use plain::{meet, Bits};
use std::fmt;

/// The most writes of a row.
const ROW: usize = 6;

/// A write, and what its element has of the image; no bits where there is no such element.
pub struct Write {
    pub call: Call,
    pub bits: Bits,
    /// The bits as the tables say them: the mask as a number, all bits where there is none, and the byte order.
    mask: u64,
    msb_first: bool,
}

impl fmt::Debug for Write {
    /// The call alone.
    fn fmt(&self, out: &mut fmt::Formatter) -> fmt::Result {
        self.call.fmt(out)
    }
}

impl Write {
    /// A write to an element, by tables that keep the rule.
    fn new(cells: &[u64], element: Element, rng: &mut Rng) -> Write {
        let (object, part, index) = element;
        let of = part_of(cells, element);
        let mask = if of[9] == 0 { u64::MAX } else { of[9] };
        let bits = plain::bits(cells, object, part, index);
        Write { call: write_to(cells, element, rng), bits, mask, msb_first: of[1] == 1 }
    }

    /// Tells whether it asks for a physical value.
    pub fn is_physical(&self) -> bool {
        matches!(self.call, Call::WritePhysical(..))
    }

    /// Tells whether its element has all bits of its bytes.
    pub fn is_whole(&self) -> bool {
        self.bits.iter().all(|&(_, bits)| bits == 255)
    }

    /// Tells whether its element has bits of a byte.
    pub fn has_bits_at(&self, at: usize) -> bool {
        self.bits.iter().any(|&(place, bits)| place == at && bits != 0)
    }

    /// The bits as they would be if every byte order were MSB_LAST.
    fn bits_without_order(&self) -> Bits {
        let mut bytes: Vec<u8> = self.bits.iter().map(|it| it.1).collect();
        if self.msb_first {
            bytes.reverse();
        }
        self.bits.iter().map(|it| it.0).zip(bytes).collect()
    }
}

/// Two writes made in either order, and what they came to.
pub struct Pair {
    pub writes: [Write; 2],
    /// The answers, which are the same in either order.
    pub answers: [u8; 2],
    /// Whether image and list are the same in either order.
    pub same: bool,
    /// Whether the bits of each are others than before.
    pub changed: [bool; 2],
}

impl Pair {
    /// Tells whether the bits meet.
    pub fn meets(&self) -> bool {
        meet(&self.writes[0].bits, &self.writes[1].bits)
    }

    /// Tells whether the elements share a byte.
    pub fn shares(&self) -> bool {
        share(&self.writes[0].bits, &self.writes[1].bits)
    }

    /// Tells whether both elements have more than one byte, in opposite byte orders.
    pub fn is_opposite(&self) -> bool {
        let [one, other] = &self.writes;
        one.msb_first != other.msb_first && one.bits.len().min(other.bits.len()) > 1
    }

    /// Tells whether the masks have no bit in common as numbers, wherever they stand.
    pub fn apart_as_numbers(&self) -> bool {
        self.writes[0].mask & self.writes[1].mask == 0
    }

    /// Tells whether the bits would not meet if the byte orders were left out.
    pub fn apart_without_order(&self) -> bool {
        let [one, other] = self.writes.each_ref().map(Write::bits_without_order);
        !meet(&one, &other)
    }
}

/// A copy whose list holds anything in every line, in a few, or in none.
fn copy_of<'a>(both: &Both<'a>, requests: &mut Vec<String>, rng: &mut Rng) -> Both<'a> {
    let mut copy = both.clone();
    let len = copy.lines.len();
    let places: Vec<usize> = match rng.below(4) {
        0 => Vec::new(),
        1 => (0..len.min(3)).map(|_| rng.place(len)).collect(),
        _ => (0..len).collect(),
    };
    requests.push(format!("copies with anything in {} lines", places.len()));
    for at in places {
        copy.put_line(at, any_line(rng));
    }
    copy
}

/// Makes writes one after the other on a copy: what it is then, and the answers.
fn in_order<'a>(start: &Both<'a>, cells: &[u64], writes: &[&Write]) -> Result<(Both<'a>, Vec<u8>), String> {
    let mut copy = start.clone();
    let mut answers = Vec::new();
    for write in writes {
        answers.push(copy.call(&write.call, cells).map_err(|why| format!("{write:?}: {why}"))?);
    }
    Ok((copy, answers))
}

/// Where the images or the lists of two copies differ, if they do.
fn difference(one: &Both, other: &Both) -> Option<String> {
    if let Some(at) = (0..one.image.len()).find(|&at| one.image[at] != other.image[at]) {
        return Some(format!("byte {at} of the image: {:#04x} and {:#04x}", one.image[at], other.image[at]));
    }
    let at = (0..one.lines.len()).find(|&at| one.lines[at] != other.lines[at])?;
    Some(format!("line {at} of the list: {:?} and {:?}", one.lines[at], other.lines[at]))
}

/// Makes two writes on copies in either order: the same answers and, where their bits don't meet, the same image and
/// list.
fn pair(start: &Both, cells: &[u64], writes: [Write; 2]) -> Result<Pair, String> {
    let [one, other] = &writes;
    let (forth, answers) = in_order(start, cells, &[one, other])?;
    let (back, turned) = in_order(start, cells, &[other, one])?;
    let answers = [answers[0], answers[1]];
    if answers != [turned[1], turned[0]] {
        return Err(format!("answers {answers:?}, the other way round {:?}", [turned[1], turned[0]]));
    }
    let differs = difference(&forth, &back);
    if let Some(why) = differs.as_ref().filter(|_| !meet(&one.bits, &other.bits)) {
        return Err(format!("no bit in common, but {why}"));
    }
    let changes = |&(place, bits): &(usize, u8)| (forth.image[place] ^ start.image[place]) & bits != 0;
    let changed = writes.each_ref().map(|write| write.bits.iter().any(changes));
    Ok(Pair { answers, same: differs.is_none(), changed, writes })
}

/// Makes a pair of writes in either order over tables that keep the rule, and counts it.
pub fn either_order(
    both: &Both,
    shared: &Shared,
    damaged: bool,
    (stats, requests): (&mut Stats, &mut Vec<String>),
    rng: &mut Rng,
) -> Result<(), String> {
    let start = copy_of(both, requests, rng);
    let writes = shared.two(rng).map(|element| Write::new(shared.cells, element, rng));
    let what = format!("either order: {:?} and {:?}", writes[0], writes[1]);
    requests.push(what.clone());
    let pair = pair(&start, shared.cells, writes).map_err(|why| format!("{what}: {why}"))?;
    stats.pairs.count(&pair, damaged);
    Ok(())
}

/// Two rows of writes: those of the second that meet one of the first are left out.
fn rows(shared: &Shared, rng: &mut Rng) -> [Vec<Write>; 2] {
    let [one, other] = shared.deal(rng);
    let mut row = |dealt: &[Element], most: usize| -> Vec<Write> {
        let many = rng.range(1, most as u64);
        (0..many).map(|_| Write::new(shared.cells, shared.one_of(dealt, rng), rng)).collect()
    };
    let (first, mut second) = (row(&one, ROW), row(&other, 2 * ROW));
    second.retain(|write| first.iter().all(|it| !meet(&write.bits, &it.bits)));
    second.truncate(ROW);
    [first, second]
}

/// The numbers of the writes of two rows, merged at random, each row in its own order.
fn merged(first: usize, second: usize, rng: &mut Rng) -> Vec<usize> {
    let (mut one, mut other) = (0..first, first..first + second);
    let mut order = Vec::new();
    while order.len() < first + second {
        let of_one = rng.place(one.len() + other.len()) < one.len();
        order.extend(if of_one { one.next() } else { other.next() });
    }
    order
}

/// Makes writes on copies, in their order and in another: each answer as on the state at the start, and the same image
/// and list. Gives the answers.
fn merge(start: &Both, cells: &[u64], writes: &[&Write], order: &[usize]) -> Result<Vec<u8>, String> {
    let alone = |write: &&Write| in_order(start, cells, &[*write]).map(|(_, answers)| answers[0]);
    let at_start = writes.iter().map(alone).collect::<Result<Vec<u8>, String>>()?;
    let in_turn = |numbers: &[usize]| -> Result<Both, String> {
        let now: Vec<&Write> = numbers.iter().map(|&number| writes[number]).collect();
        let (copy, answers) = in_order(start, cells, &now)?;
        match numbers.iter().zip(answers).find(|&(&number, answer)| at_start[number] != answer) {
            Some((&number, answer)) => {
                Err(format!("{:?} answers {answer}, at the start {}", writes[number], at_start[number]))
            }
            None => Ok(copy),
        }
    };
    let straight: Vec<usize> = (0..writes.len()).collect();
    match difference(&in_turn(&straight)?, &in_turn(order)?) {
        Some(why) => Err(why),
        None => Ok(at_start),
    }
}

/// Merges two rows of writes over tables that keep the rule, and counts it.
pub fn merged_rows(
    both: &Both,
    shared: &Shared,
    (stats, requests): (&mut Stats, &mut Vec<String>),
    rng: &mut Rng,
) -> Result<(), String> {
    let start = copy_of(both, requests, rng);
    let [first, second] = rows(shared, rng);
    let order = merged(first.len(), second.len(), rng);
    requests.push(format!("a row of writes: {first:?}"));
    requests.push(format!("another row: {second:?}"));
    requests.push(format!("merged, in the order of their numbers: {order:?}"));
    let writes: Vec<&Write> = first.iter().chain(&second).collect();
    let answers = merge(&start, shared.cells, &writes, &order).map_err(|why| format!("merged rows: {why}"))?;
    stats.merges.count(&writes, &answers, first.len(), &order);
    Ok(())
}

#[cfg(test)]
mod tests {
    use super::*;
    use plain::Line;

    /// Two VALUEs in the two halves of one byte, and one in all of it.
    const TEXT: &[u8] = b"/begin PROJECT P \"\" /begin MODULE M \"\"
        /begin RECORD_LAYOUT L FNC_VALUES 1 UBYTE ROW_DIR DIRECT /end RECORD_LAYOUT
        /begin CHARACTERISTIC LOW \"\" VALUE 0 L 0 NO_COMPU_METHOD 0 15 BIT_MASK 0x0F /end CHARACTERISTIC
        /begin CHARACTERISTIC HIGH \"\" VALUE 0 L 0 NO_COMPU_METHOD 0 15 BIT_MASK 0xF0 /end CHARACTERISTIC
        /begin CHARACTERISTIC ALL \"\" VALUE 0 L 0 NO_COMPU_METHOD 0 15 /end CHARACTERISTIC
        /end MODULE /end PROJECT";

    /// The tables of the three VALUEs, and both readers over one byte and five lines.
    fn start() -> (Vec<u64>, Both<'static>) {
        let cells = plain::load(TEXT, &[0x35], 0, 1).expect("the description is loaded");
        (cells, Both::new(TEXT, &[0x35], 0, vec![Line::default(); 5]))
    }

    /// A raw write to one of the VALUEs; it has no bits if that is said.
    fn raw(cells: &[u64], object: u32, value: i64, has_bits: bool) -> Write {
        let bits = if has_bits { plain::bits(cells, object, 2, 0) } else { Vec::new() };
        Write { call: Call::WriteRaw(object, 2, 0, value), bits, mask: u64::MAX, msb_first: false }
    }

    #[test]
    fn a_pair_is_judged_by_its_bits() {
        let (cells, start) = start();
        let apart = pair(&start, &cells, [raw(&cells, 0, 9, true), raw(&cells, 1, 7, true)]).unwrap();
        assert!(!apart.meets() && apart.shares() && apart.same && apart.changed == [true; 2]);
        let met = pair(&start, &cells, [raw(&cells, 0, 9, true), raw(&cells, 2, 7, true)]).unwrap();
        assert!(met.meets() && !met.same);
        let refused = pair(&start, &cells, [raw(&cells, 0, 16, true), raw(&cells, 2, 7, true)]).unwrap();
        assert!(refused.meets() && refused.same && refused.answers == [18, 0]);
        // Two writes that meet, taken for apart.
        let denied = pair(&start, &cells, [raw(&cells, 0, 9, true), raw(&cells, 2, 7, false)]);
        let why = denied.err().unwrap_or_default();
        assert!(why.starts_with("no bit in common, but byte 0 of the image"), "{why}");
    }

    #[test]
    fn a_merge_is_judged_by_what_the_rows_leave() {
        let (cells, start) = start();
        let [low, more, high, all] =
            [(0, 1), (0, 2), (1, 3), (2, 255)].map(|(object, value)| raw(&cells, object, value, true));
        assert_eq!(merge(&start, &cells, &[&low, &more, &high], &[0, 2, 1]), Ok(vec![0; 3]));
        assert!(merge(&start, &cells, &[&low, &more, &high], &[1, 0, 2]).is_err());
        assert!(merge(&start, &cells, &[&low, &all], &[1, 0]).is_err());
    }

    #[test]
    fn merged_rows_keep_their_own_order() {
        let mut rng = Rng::new(9);
        for (first, second) in [(0, 0), (1, 0), (0, 3), (6, 6), (2, 5)] {
            for _ in 0..20 {
                let (one, other): (Vec<usize>, Vec<usize>) =
                    merged(first, second, &mut rng).into_iter().partition(|&number| number < first);
                assert_eq!(one, (0..first).collect::<Vec<_>>());
                assert_eq!(other, (first..first + second).collect::<Vec<_>>());
            }
        }
    }
}
