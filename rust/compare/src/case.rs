//! One case: a description from its seed, loaded by both readers, then every call compared.
use crate::aimed::{aimed, AIMS};
use crate::both::{Both, Call, Element};
use crate::counts::{half_in_53_bits, Stats};
use crate::damage::{damage_image, damage_text, damage_tokens, put_word};
use crate::generate::make;
use crate::large::{large, KINDS};
use crate::lent::Lent;
use crate::pairs::{either_order, merged_rows};
use crate::requests::*;
use crate::rng::Rng;
use crate::share::Shared;
use crate::token::{render, take_exponents_out};
use obarsivel::raw;
use plain::{Line, Refusal};
use std::time::Instant;

/// In so many seeds each large case stands once, and each word of document 000.
const ROUND: u64 = 8192;

/// Where in the round the words start.
const WORDS_FROM: u64 = 64;

/// The buffers and counts that all cases share.
pub struct Run {
    pub stats: Stats,
    pub writes: u64,
    tables: Lent<u64>,
    work: Lent<u64>,
}

/// What a case is about; written to files where the readers differ.
#[derive(Default)]
pub struct Subject {
    pub text: Vec<u8>,
    /// The same description without exponents, everything at the same place; sometimes, where it has some.
    pub without: Option<Vec<u8>>,
    pub image: Vec<u8>,
    pub base: u32,
    pub edition: u32,
    pub requests: Vec<String>,
}

impl Subject {
    /// What the load is asked with.
    fn ask(&self) -> Ask<'_> {
        Ask { text: &self.text, image: &self.image, base: self.base, edition: self.edition }
    }
}

/// What a load is asked with.
#[derive(Clone, Copy)]
struct Ask<'a> {
    text: &'a [u8],
    image: &'a [u8],
    base: u32,
    edition: u32,
}

impl Ask<'_> {
    /// The plain reader's answer.
    fn plain(self) -> Result<Vec<u64>, Refusal> {
        plain::load(self.text, self.image, self.base, self.edition)
    }

    /// Tells whether its edition is 1 or 2.
    fn of_an_edition(self) -> bool {
        (1..=2).contains(&self.edition)
    }
}

/// One of the two editions.
fn edition(rng: &mut Rng) -> u32 {
    rng.range(1, 2) as u32
}

/// A number that is no edition: beside the two, at its ends, with their lowest bits alone, or any.
fn no_edition(rng: &mut Rng) -> u32 {
    let one = edition(rng);
    match rng.below(4) {
        0 | 1 => rng.pick(&[0, 3, 255, u32::MAX]),
        2 => one + rng.pick(&[3, 1 << 8, 1 << 16, 1 << 24, 1 << 31]),
        _ => (rng.next() as u32).max(3),
    }
}

/// Makes the description, the image, the base address and the edition that follow from a seed.
fn subject(seed: u64, rng: &mut Rng) -> Subject {
    let at = seed % ROUND;
    if at < KINDS {
        let made = large(at, rng);
        let edition = edition(rng);
        return Subject { text: made.text, image: made.image, base: made.base, edition, ..Subject::default() };
    }
    let mut made = make(rng);
    let word = at.wrapping_sub(WORDS_FROM);
    if word < plain::WORDS.len() as u64 {
        put_word(&mut made, word as usize, rng);
        let text = render(&made.tokens, false, rng);
        return Subject { text, image: made.image, base: made.base, edition: edition(rng), ..Subject::default() };
    }
    let how = rng.below(20);
    if (8..16).contains(&how) {
        for _ in 0..rng.pick(&[1, 1, 1, 2, 3]) {
            damage_tokens(&mut made, rng);
        }
    }
    if matches!(how, 15 | 18 | 19) {
        damage_image(&mut made, rng);
    }
    let wild = rng.one_in(2);
    let whole = !(8..18).contains(&how);
    let others = if whole && rng.one_in(4) { take_exponents_out(&mut made.tokens) } else { None };
    let without = others.map(|others| render(&others, wild, &mut rng.clone()));
    let mut text = render(&made.tokens, wild, rng);
    if matches!(how, 16 | 17) {
        for _ in 0..rng.pick(&[1, 1, 2, 4]) {
            damage_text(&mut text, rng);
        }
    }
    let edition = if rng.one_in(24) { no_edition(rng) } else { edition(rng) };
    Subject { text, without, image: made.image, base: made.base, edition, requests: Vec::new() }
}

impl Run {
    /// Nothing counted yet; so many writes to each accepted description.
    pub fn new(writes: u64) -> Run {
        Run {
            stats: Stats::default(),
            writes,
            tables: Lent::new(&vec![0; plain::CELLS + 3], 0xFEED),
            work: Lent::new(&vec![0; raw::WORK_CELLS + 3], 0xFEED),
        }
    }

    /// Runs the case of a seed; where the readers differ, says how.
    pub fn case(&mut self, seed: u64, subject_out: &mut Subject) -> Result<(), String> {
        let mut rng = Rng::new(seed);
        *subject_out = subject(seed, &mut rng);
        let expected = subject_out.ask().plain();
        self.stats.loads += 1;
        self.stats.load_answers.count(expected.as_ref().err().map_or(0, |it| it.number));
        let large = seed % ROUND < KINDS;
        self.loads(subject_out, large, &expected, &mut rng)?;
        let Ok(cells) = expected else {
            return Ok(());
        };
        let Subject { text, image, base, requests, .. } = subject_out;
        if !plain::keeps_rule(&cells, text.len(), image.len()) {
            return Err("the plain reader's tables break the rule".to_string());
        }
        self.calls(text, image, *base, cells, requests, &mut rng)
    }

    /// Makes every load of a case; where one differs, the subject gets that one's text and edition.
    fn loads(
        &mut self,
        subject: &mut Subject,
        large: bool,
        expected: &Result<Vec<u64>, Refusal>,
        rng: &mut Rng,
    ) -> Result<(), String> {
        let extra = if rng.one_in(4) { 3 } else { 0 };
        self.tables.lend(plain::CELLS + extra);
        self.work.lend(raw::WORK_CELLS + extra);
        subject.requests.push(format!("Load with {extra} cells more"));
        self.load(subject.ask(), expected, rng.next())?;
        if let Some(without) = subject.without.take() {
            subject.requests.push("Load without exponents".to_string());
            self.stats.loads_without += 1;
            let done = self.load_like(Ask { text: &without, ..subject.ask() }, expected, "without exponents");
            done.inspect_err(|_| subject.text = without)?;
        }
        if subject.ask().of_an_edition() && rng.one_in(8) {
            let edition = 3 - subject.edition;
            subject.requests.push(format!("Load with edition {edition}"));
            let done = self.load_other(Ask { edition, ..subject.ask() }, expected);
            done.inspect_err(|_| subject.edition = edition)?;
        }
        if large {
            // A large case stands once in a round: it is loaded with an edition, and then with none.
            let edition = no_edition(rng);
            subject.requests.push(format!("Load with edition {edition}"));
            let ask = Ask { edition, ..subject.ask() };
            self.load(ask, &ask.plain(), rng.next()).inspect_err(|_| subject.edition = edition)?;
        }
        if rng.one_in(16) {
            let edition = if rng.one_in(2) { no_edition(rng) } else { subject.edition };
            subject.requests.push(format!("Load with edition {edition}, tables or work one too short"));
            self.short_load(Ask { edition, ..subject.ask() }, rng.one_in(2))?;
        }
        Ok(())
    }

    /// Calls the proved load with what is lent now.
    fn proved_load(&mut self, ask: Ask) -> u64 {
        let Ask { text, image, base, edition } = ask;
        let (tables, tables_len) = self.tables.parts();
        let (work, work_len) = self.work.parts();
        // SAFETY: every pointer is a living buffer's and its length is at most that buffer's.
        unsafe {
            raw::obarsivel_load(
                text.as_ptr(),
                text.len(),
                image.as_ptr(),
                image.len(),
                base,
                edition,
                tables,
                tables_len,
                work,
                work_len,
            )
        }
    }

    /// Loads with the proved reader over cells full of something, and compares with what is expected.
    fn load(&mut self, ask: Ask, expected: &Result<Vec<u64>, Refusal>, before: u64) -> Result<(), String> {
        self.tables.get_mut().fill(before);
        self.work.get_mut().fill(before);
        let answer = self.proved_load(ask);
        let wanted = expected.as_ref().err().map_or(0, |it| it.place as u64 * 64 + it.number as u64);
        if answer != wanted {
            let (one, other) = ((answer % 64, answer / 64), (wanted % 64, wanted / 64));
            return Err(format!("load, number and place: proved {one:?}, plain {other:?}"));
        }
        if !self.tables.guarded() || !self.work.guarded() {
            return Err("a load wrote past its tables or its work cells".to_string());
        }
        let (tables, work) = (self.tables.get(), self.work.get());
        if wanted == 20 || wanted == 33 {
            if tables.iter().chain(work).any(|&cell| cell != before) {
                return Err(format!("a load refused with {wanted} touched its tables or work cells"));
            }
            self.stats.before_33 += (wanted == 20 && !ask.of_an_edition()) as u64;
            return Ok(());
        }
        let nothing = Vec::new();
        let cells = expected.as_ref().unwrap_or(&nothing);
        for (at, &cell) in tables.iter().enumerate() {
            let wanted = cells.get(at).copied().unwrap_or(0);
            if cell != wanted {
                return Err(format!("cell {at} of the tables: proved {cell}, plain {wanted}"));
            }
        }
        match work[..raw::WORK_CELLS].iter().position(|&cell| cell != 0) {
            Some(at) => Err(format!("work cell {at} is not zero after a load")),
            None => Ok(()),
        }
    }

    /// Loads what both readers must answer as they did before, cell by cell.
    fn load_like(&mut self, ask: Ask, expected: &Result<Vec<u64>, Refusal>, what: &str) -> Result<(), String> {
        let found = ask.plain();
        if found != *expected {
            let (found, expected) = (found.err(), expected.as_ref().err());
            return Err(format!("the plain reader {what}: {found:?}, before {expected:?}"));
        }
        self.load(ask, expected, 4).map_err(|why| format!("{what}: {why}"))
    }

    /// Loads with the other edition: both readers answer as before, and no cell but the edition's is another.
    fn load_other(&mut self, ask: Ask, expected: &Result<Vec<u64>, Refusal>) -> Result<(), String> {
        self.stats.loads_other += 1;
        let mut expected = expected.clone();
        if let Ok(cells) = &mut expected {
            cells[EDITION] = ask.edition as u64;
        }
        self.load_like(ask, &expected, "with the other edition")
    }

    /// Where the loads of a subject differ: a text made smaller in which they still do.
    pub fn smaller(&mut self, subject: &Subject) -> Option<Vec<u8>> {
        let start = Instant::now();
        self.tables.lend(plain::CELLS);
        self.work.lend(raw::WORK_CELLS);
        let mut differs = |text: &[u8]| {
            let ask = Ask { text, ..subject.ask() };
            self.load(ask, &ask.plain(), 9).is_err()
        };
        let mut text = subject.text.clone();
        if text.len() > 1 << 20 || !differs(&text) {
            return None;
        }
        // Whole blocks first, then pieces of any length.
        let mut at = 0;
        while at < text.len() && start.elapsed().as_secs() < 20 {
            let block = if text[at..].starts_with(b"/begin") { block_ends(&text, at) } else { Vec::new() };
            let without = |past: usize| [&text[..at], &text[past..]].concat();
            match block.into_iter().rev().map(without).find(|text| differs(text)) {
                Some(smaller) => text = smaller,
                None => at += 1,
            }
        }
        let mut piece = text.len() / 2;
        while piece > 0 && start.elapsed().as_secs() < 20 {
            let mut at = 0;
            while at < text.len() && start.elapsed().as_secs() < 20 {
                let past = (at + piece).min(text.len());
                let without = [&text[..at], &text[past..]].concat();
                if differs(&without) {
                    text = without;
                } else {
                    at += piece;
                }
            }
            piece /= 2;
        }
        Some(text)
    }

    /// Loads with the tables or the work cells one too short: 20 and nothing touched.
    fn short_load(&mut self, ask: Ask, tables: bool) -> Result<(), String> {
        self.tables.lend(plain::CELLS);
        self.work.lend(raw::WORK_CELLS);
        self.tables.get_mut().fill(5);
        self.work.get_mut().fill(6);
        self.tables.lend(plain::CELLS - tables as usize);
        self.work.lend(raw::WORK_CELLS - !tables as usize);
        let answer = self.proved_load(ask);
        self.tables.lend(plain::CELLS);
        self.work.lend(raw::WORK_CELLS);
        self.stats.short_calls += 1;
        self.stats.before_33 += !ask.of_an_edition() as u64;
        if answer != 20 {
            return Err(format!("a load with a buffer too short answered {}", answer % 64));
        }
        let untouched =
            self.tables.get().iter().all(|&cell| cell == 5) && self.work.get().iter().all(|&cell| cell == 6);
        if untouched && self.tables.guarded() && self.work.guarded() {
            Ok(())
        } else {
            Err("a load with a buffer too short touched a buffer".to_string())
        }
    }

    /// Compares every call after an accepted load.
    fn calls(
        &mut self,
        text: &[u8],
        image: &[u8],
        base: u32,
        mut cells: Vec<u64>,
        requests: &mut Vec<String>,
        rng: &mut Rng,
    ) -> Result<(), String> {
        let all = elements(&cells);
        let names = names(&cells, text);
        if rng.one_in(4) {
            // Cells past the tables' end that no call looks at.
            cells.extend([rng.next(), 1]);
        }
        self.stats.elements += all.len() as u64;
        // Lines of anything to begin with, and sometimes more of them than there are elements.
        let len = all.len() + rng.pick(&[0, 0, 1, 2]);
        let lines: Vec<Line> = (0..len).map(|_| any_line(rng)).collect();
        let mut both = Both::new(text, image, base, lines);
        for name in &names {
            self.other(&mut both, Call::Find(name.to_vec()), &cells, requests)?;
        }
        for _ in 0..4 {
            self.other(&mut both, Call::Find(absent_name(&names, rng)), &cells, requests)?;
        }
        let step = 1 + all.len() / 1024;
        for at in (rng.place(step)..all.len()).step_by(step) {
            let (object, part, index) = all[at];
            self.other(&mut both, Call::Read(object, part, index), &cells, requests)?;
        }
        for _ in 0..3 {
            let (object, part, index) = absent(&cells, rng);
            self.other(&mut both, Call::Read(object, part, index), &cells, requests)?;
        }
        self.other(&mut both, Call::MakeList, &cells, requests)?;
        self.other(&mut both, Call::Listing, &cells, requests)?;
        for _ in 0..self.writes {
            if len > 0 && rng.one_in(6) {
                let (at, line) = (rng.place(len), any_line(rng));
                requests.push(format!("line {at} set to {line:?}"));
                both.put_line(at, line);
            }
            let (call, without) = write(&cells, &all, rng);
            requests.push(format!("{call:?}"));
            let answer = self.counted_write(&mut both, &call, &mut cells, rng);
            let answer = answer.map_err(|why| format!("{call:?}: {why}"))?;
            if let Some(without) = without {
                requests.push(format!("{without:?}"));
                self.write_without(&mut both, &without, &cells, answer).map_err(|why| format!("{without:?}: {why}"))?;
            }
        }
        self.pairs(&both, &cells, requests, rng)?;
        self.other(&mut both, Call::MakeList, &cells, requests)?;
        self.other(&mut both, Call::Listing, &cells, requests)?;
        self.short_calls(&mut both, &cells, &all, &names, requests, rng)?;
        if !rng.one_in(8) {
            return self.damaged_calls(&mut both, &mut cells, &all, &names, requests, rng);
        }
        // With room for many more elements in image and list.
        let mut image = both.image.clone();
        image.extend((image.len()..20_000).map(|at| (at % 251) as u8));
        let lines: Vec<Line> = (0..4100).map(|_| any_line(rng)).collect();
        let base = base.min(((1u64 << 32) - image.len() as u64) as u32);
        let mut both = Both::new(text, &image, base, lines);
        requests.push(format!("image of {} bytes, list of 4100 lines, base {base:#x}", image.len()));
        self.damaged_calls(&mut both, &mut cells, &all, &names, requests, rng)
    }

    /// Makes a write and counts it; sometimes, and around a half always, on copies under the other edition too: there
    /// it may differ at a half alone.
    fn counted_write(&mut self, both: &mut Both, call: &Call, cells: &mut [u64], rng: &mut Rng) -> Result<u8, String> {
        let rounded = both.rounded(call, cells);
        let half = rounded.is_some_and(|it| it.is_half());
        let around = half || rounded.is_some_and(|it| half_in_53_bits(&it));
        let other = if around || rng.one_in(4) { Some(both.in_other_edition(call, cells)?) } else { None };
        let answer = both.call(call, cells)?;
        self.stats.writes += 1;
        match call {
            Call::WriteRaw(..) => self.stats.raw_answers.count(answer),
            _ => self.stats.physical_answers.count(answer),
        }
        if let Some(rounded) = rounded {
            self.stats.stored.count(&rounded, answer);
            self.stats.halves.count(&rounded, cells[EDITION]);
        }
        let Some((other, other_answer)) = other else {
            return Ok(answer);
        };
        self.stats.writes_other += 1;
        let same = answer == other_answer && (&both.image, &both.lines) == (&other.image, &other.lines);
        if half {
            self.stats.halves.count_both(cells[EDITION], [answer, other_answer], same);
        } else if !same {
            return Err(format!("no half, but not the same in the other edition, which answers {other_answer}"));
        }
        Ok(answer)
    }

    /// Makes pairs of writes in either order on copies, more where elements share bytes, and sometimes merges two rows.
    fn pairs(&mut self, both: &Both, cells: &[u64], requests: &mut Vec<String>, rng: &mut Rng) -> Result<(), String> {
        let shared = Shared::new(cells, both.image.len(), rng);
        for _ in 0..self.writes / if shared.is_empty() { 12 } else { 4 } {
            either_order(both, &shared, false, (&mut self.stats, requests), rng)?;
        }
        if rng.one_in(if shared.is_empty() { 40 } else { 6 }) {
            merged_rows(both, &shared, (&mut self.stats, requests), rng)?;
        }
        Ok(())
    }

    /// Makes a pair of writes over damaged tables that keep the rule; mostly where the damage may have moved bits.
    fn damaged_pair(
        &mut self,
        both: &Both,
        cells: &[u64],
        changes: &[(usize, u64)],
        requests: &mut Vec<String>,
        rng: &mut Rng,
    ) -> Result<(), String> {
        let moved = changes.iter().any(|&(cell, _)| moves_bits(cell));
        if cells[3] > both.lines.len() as u64 || !rng.one_in(if moved { 2 } else { 24 }) {
            return Ok(());
        }
        let shared = Shared::new(cells, both.image.len(), rng);
        either_order(both, &shared, true, (&mut self.stats, requests), rng)
    }

    /// Makes a write again whose exponent is taken out: the same answer, and nothing is changed any more.
    fn write_without(&mut self, both: &mut Both, call: &Call, cells: &[u64], answer: u8) -> Result<(), String> {
        self.stats.writes_without += 1;
        let before = (both.image.clone(), both.lines.clone());
        let again = both.call(call, cells)?;
        if again != answer {
            return Err(format!("answers {again}, with an exponent {answer}"));
        }
        if (&both.image, &both.lines) != (&before.0, &before.1) {
            return Err("stores another value than with an exponent".to_string());
        }
        Ok(())
    }

    /// Calls with tables of which one cell or a few are changed.
    fn damaged_calls(
        &mut self,
        both: &mut Both,
        cells: &mut [u64],
        all: &[Element],
        names: &[&[u8]],
        requests: &mut Vec<String>,
        rng: &mut Rng,
    ) -> Result<(), String> {
        let (text_len, image_len) = (both.text.len(), both.image.len());
        for _ in 0..12 {
            let aim = if rng.one_in(2) { aimed(cells, image_len, rng) } else { None };
            let changes = match &aim {
                Some((_, changes)) => changes.clone(),
                None if rng.one_in(3) => damaged_cells(cells, text_len, image_len, rng),
                None => vec![damaged_cell(cells, text_len, image_len, rng)],
            };
            let mut call = any_call(cells, all, names, rng);
            // A damaged text place can make a very long listing.
            if matches!(call, Call::Listing) && text_len * both.lines.len() > 1 << 23 {
                continue;
            }
            let right: Vec<(usize, u64)> = changes.iter().map(|&(cell, _)| (cell, cells[cell])).collect();
            for &(cell, value) in &changes {
                cells[cell] = value;
            }
            let rule = plain::keeps_rule(cells, text_len, image_len);
            if rule && rng.one_in(2) {
                // A write by what the cells say now.
                call = write(cells, &elements(cells), rng).0;
            }
            let what = format!("cells {right:?} -> {changes:?}: {call:?}");
            requests.push(what.clone());
            let answer = both.call(&call, cells).map_err(|why| format!("{what}: {why}"))?;
            if let Some(rounded) = both.rounded(&call, cells) {
                self.stats.stored_damaged.count(&rounded, answer);
                self.stats.halves_damaged.count(&rounded, cells[EDITION]);
                let turned = right.iter().any(|&(cell, old)| cell == EDITION && old != cells[EDITION]);
                self.stats.halves_turned += (turned && rounded.is_half()) as u64;
            }
            if rule == (answer == 22) && answer != 20 {
                return Err(format!("{what}: rule kept {rule}, answer {answer}"));
            }
            if let Some((number, _)) = aim {
                if rule == AIMS[number].breaks {
                    return Err(format!("{what}: {}: rule kept {rule}", AIMS[number].what));
                }
                self.stats.aimed[number] += (answer != 20) as u64;
            }
            self.stats.damaged_answers.count(answer);
            if rule {
                self.damaged_pair(both, cells, &changes, requests, rng).map_err(|why| format!("{what}; {why}"))?;
            }
            for &(cell, value) in &right {
                cells[cell] = value;
            }
        }
        Ok(())
    }

    /// Makes one call that is no write, and counts its answer.
    fn other(&mut self, both: &mut Both, call: Call, cells: &[u64], requests: &mut Vec<String>) -> Result<(), String> {
        let answer = both.call(&call, cells).map_err(|why| {
            requests.push(format!("{call:?}"));
            format!("{call:?}: {why}")
        })?;
        self.stats.other_answers.count(answer);
        Ok(())
    }

    /// Calls with each lent buffer one too short, or with sizes that no call takes.
    fn short_calls(
        &mut self,
        both: &mut Both,
        cells: &[u64],
        all: &[Element],
        names: &[&[u8]],
        requests: &mut Vec<String>,
        rng: &mut Rng,
    ) -> Result<(), String> {
        let every = rng.one_in(8);
        for _ in 0..if every { 16 } else { 1 } {
            let call = any_call(cells, all, names, rng);
            let buffers = call.buffers();
            let one = rng.pick(buffers);
            for &buffer in buffers.iter().filter(|&&it| every || it == one) {
                requests.push(format!("{call:?} with {buffer:?} one too short"));
                let done = both.short(&call, buffer, cells);
                let done = done.map_err(|why| format!("{call:?} with {buffer:?} one too short: {why}"))?;
                self.stats.short_calls += done as u64;
            }
        }
        if both.image.len() >= 2 && rng.one_in(8) {
            let call = any_call(cells, all, names, rng);
            requests.push(format!("{call:?} with base 0xFFFFFFFF"));
            let base = std::mem::replace(&mut both.base, u32::MAX);
            both.oversized(&call, cells).map_err(|why| format!("{call:?} with base 0xFFFFFFFF: {why}"))?;
            both.base = base;
            self.stats.short_calls += 1;
        }
        if rng.one_in(200) {
            let call = any_call(cells, all, names, rng);
            let text_too_long = rng.one_in(2);
            let text = if text_too_long { vec![b' '; (16 << 20) + 1] } else { both.text.to_vec() };
            let image = vec![0; if text_too_long { both.image.len() } else { (1 << 20) + 1 }];
            requests.push(format!("{call:?} with text of {} and image of {}", text.len(), image.len()));
            let mut other = Both::new(&text, &image, 0, both.lines.clone());
            other.oversized(&call, cells).map_err(|why| format!("{call:?} with text or image too long: {why}"))?;
            self.stats.short_calls += 1;
        }
        Ok(())
    }
}

/// The places just past the first few `/end` and its word after a place.
fn block_ends(text: &[u8], at: usize) -> Vec<usize> {
    let ends = (at..text.len()).filter(|&place| text[place..].starts_with(b"/end ")).take(12);
    let past = |place: usize| {
        let word = text[place + 5..].iter().take_while(|byte| byte.is_ascii_alphanumeric() || **byte == b'_');
        place + 5 + word.count()
    };
    ends.map(past).collect()
}
