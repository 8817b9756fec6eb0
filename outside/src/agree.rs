//! The comparison of the proved program and of the rig call with this implementation, table by table: hand-made sources
//! first, then random ones; what is packed, and what is left of it after damage.

use std::fmt;
use std::io;

use crate::by_hand::{by_hand, text_of};
use crate::case::Case;
use crate::damage::damaged;
use crate::material::{self, SHAPES};
use crate::model::{Kind, Region, Source};
use crate::packed::{pack_rows, BLOCK, MAX_BYTES};
use crate::peer::{Compared, Peer};
use crate::rng::Rng;
use crate::table;
use crate::text::read_book;

/// Packed tables of at most so many bytes are asked about more often.
const SMALL: usize = 6 * BLOCK;

/// What a table is made of. A layer has no case line of its own here; its packed bytes have.
enum Origin {
    Text(Kind, Vec<u8>),
    Layer(Source),
}

/// What is asked about one table.
#[derive(Default)]
struct Questions {
    cases: Vec<Case>,
    packed: usize,
    damaged: usize,
}

/// What a comparison came to. It prints as one line.
#[derive(Clone, Debug, Default, PartialEq, Eq)]
pub struct Summary {
    pub seed: u64,
    pub tables: usize,
    pub packed: usize,
    pub damaged: usize,
    pub answers: usize,
    pub differences: usize,
    /// How often opening is expected to refuse, by the refusal's number; under 0, how often it is not.
    pub openings: [usize; 17],
    /// How many tables have too many rows.
    pub too_large: usize,
}

impl fmt::Display for Summary {
    fn fmt(&self, out: &mut fmt::Formatter<'_>) -> fmt::Result {
        let Summary { seed, tables, packed, damaged, answers, differences, .. } = self;
        write!(out, "agree: seed {seed}, {tables} tables, {packed} packed, {damaged} damaged, ")?;
        write!(out, "{answers} answers, {differences} differences")
    }
}

impl Summary {
    /// A line that tells how often each refusal was expected.
    pub fn met(&self) -> String {
        let refused: Vec<String> = (11..=16).map(|number| format!("{number} {}", self.openings[number])).collect();
        format!("met: refused 5 {}, opened {}, refused {}", self.too_large, self.openings[0], refused.join(", "))
    }

    fn count(&mut self, case: &Case, expected: &str) {
        let number = expected.split(' ').nth(1).and_then(|word| word.parse::<usize>().ok()).unwrap_or(0);
        let refused = expected.starts_with("refused");
        match case {
            Case::Open(..) => self.openings[if refused { number } else { 0 }] += 1,
            Case::Rows(..) => self.too_large += usize::from(refused && number == 5),
            _ => {}
        }
    }
}

/// Asks the program, and the rig where it is about its call, about so many tables. Differences are printed.
pub fn agree(seed: u64, tables: usize, program: &str, rig: &str) -> io::Result<Summary> {
    let (program, rig) = (Peer::start(program)?, Peer::start(rig)?);
    let mut summary = Summary { seed, ..Summary::default() };
    let mut rng = Rng::new(seed);
    let mut origins = origins_by_hand().into_iter();
    for number in 0..tables {
        let origin = origins.next().unwrap_or_else(|| random_origin(&mut rng, number));
        let questions = questions(&mut rng, origin);
        summary.tables += 1;
        summary.packed += questions.packed;
        summary.damaged += questions.damaged;
        if !questions.cases.iter().all(|case| ask(case, &program, &rig, &mut summary)) {
            break;
        }
    }
    for Compared { answers, differences } in [program.finish()?, rig.finish()?] {
        summary.answers += answers;
        summary.differences += differences;
    }
    Ok(summary)
}

/// Asks one case; false, if a program no longer takes any.
fn ask(case: &Case, program: &Peer, rig: &Peer, summary: &mut Summary) -> bool {
    let (line, expected) = (case.to_string(), case.answer());
    summary.count(case, &expected);
    let is_rig = matches!(case, Case::Rig(..));
    (!is_rig || rig.ask(line.clone(), expected.clone())) && program.ask(line, expected)
}

/// The texts and layers of all hand-made cases that have some.
fn origins_by_hand() -> Vec<Origin> {
    let mut origins = Vec::new();
    for call in ["rows", "pack", "over", "meet", "join", "part", "read"] {
        for (_, case) in by_hand(call) {
            let layer = match case {
                Case::Rows(kind, text) | Case::Pack(kind, text, _) | Case::Read(kind, text) => {
                    origins.push(Origin::Text(kind, text));
                    continue;
                }
                Case::Layer(blend, kind, first, second) => match (read_book(kind, &first), read_book(kind, &second)) {
                    (Ok(first), Ok(second)) => Some(Source::pair(blend, first.into(), second.into())),
                    _ => None,
                },
                Case::Part(kind, text, region) => {
                    read_book(kind, &text).ok().and_then(|book| Source::part(region, book.into()).ok())
                }
                _ => None,
            };
            origins.extend(layer.map(Origin::Layer));
        }
    }
    origins
}

fn random_origin(rng: &mut Rng, number: usize) -> Origin {
    let kind = material::kind(rng);
    let shape = SHAPES[number % SHAPES.len()];
    if rng.once_in(4) {
        let layers = 1 + rng.below(3);
        return Origin::Layer(material::source(rng, kind, shape, 3, layers));
    }
    // Some tables have a number of rows that was chosen: about a block's or some blocks', or about the most.
    if rng.once_in(10) {
        let few = 1 + rng.below(60);
        let rows = if rng.once_in(20) { 1140 + rng.below(20) } else { few };
        return Origin::Text(kind, text_of(&material::with_rows(rng, kind, rows)));
    }
    let most = rng.pick(&[2, 3, 4, 6, 12, 24]);
    let count = rng.below(most + 1);
    let rules = material::rules(rng, kind, shape, count);
    let mut text = material::text(rng, kind, &rules);
    if rng.once_in(25) {
        material::spoil(rng, &mut text);
    }
    Origin::Text(kind, text)
}

fn questions(rng: &mut Rng, origin: Origin) -> Questions {
    let mut questions = Questions::default();
    let source = match origin {
        Origin::Layer(source) => source,
        Origin::Text(kind, text) => {
            let book = read_book(kind, &text);
            questions.cases.push(Case::Rows(kind, text.clone()));
            let Ok(book) = book else {
                questions.cases.push(Case::Pack(kind, text, MAX_BYTES));
                return questions;
            };
            let blocks = table::rows(&book.clone().into()).map_or(65, |rows| pack_rows(kind, &rows).len() / BLOCK);
            questions.cases.push(Case::Pack(kind, text, room(rng, blocks)));
            book.into()
        }
    };
    let Ok(rows) = table::rows(&source) else { return questions };
    let (kind, regions) = (source.kind(), source.regions());
    let packed = pack_rows(kind, &rows);
    questions.packed += 1;
    let is_small = packed.len() <= SMALL;
    about_packed(rng, kind, &regions, packed, &mut questions.cases);
    let damages = if is_small { 3 } else { rng.below(3) / 2 };
    for _ in 0..damages {
        let bytes = damaged(rng, kind, &rows);
        questions.damaged += 1;
        about_damaged(rng, kind, &regions, bytes, &mut questions.cases);
    }
    questions
}

/// Bytes to pack so many blocks into: mostly enough of them, sometimes a byte too few, or far too few or many.
fn room(rng: &mut Rng, blocks: usize) -> usize {
    let exact = blocks * BLOCK;
    let any = rng.below(MAX_BYTES + BLOCK);
    rng.pick(&[exact, exact, exact + 511, exact - 1, any, 0, MAX_BYTES])
}

/// Opened, the bytes decide as they should and are packed to themselves again; with another kind they are refused.
fn about_packed(rng: &mut Rng, kind: Kind, regions: &[Region], bytes: Vec<u8>, cases: &mut Vec<Case>) {
    let is_small = bytes.len() <= SMALL;
    for _ in 0..if is_small { 2 } else { 1 } {
        let packet = material::packet(rng, regions);
        cases.push(Case::Opened(kind, bytes.clone(), packet));
    }
    if kind == Kind::Verdicts || rng.once_in(6) {
        cases.push(Case::Rig(bytes.clone(), material::packet(rng, regions)));
    }
    if rng.once_in(8) {
        let other = if kind == Kind::Marks { Kind::Verdicts } else { Kind::Marks };
        cases.push(Case::Open(other, bytes.clone()));
    }
    if is_small || rng.once_in(3) {
        cases.push(Case::Repack(kind, bytes.clone()));
    }
    cases.push(Case::Open(kind, bytes));
}

/// Some damaged bytes are good after all, so that every call is asked about some of them.
fn about_damaged(rng: &mut Rng, kind: Kind, regions: &[Region], bytes: Vec<u8>, cases: &mut Vec<Case>) {
    let packet = material::packet(rng, regions);
    match rng.below(4) {
        0 => cases.push(Case::Repack(kind, bytes.clone())),
        1 => cases.push(Case::Opened(kind, bytes.clone(), packet)),
        _ => {}
    }
    if kind == Kind::Verdicts || rng.once_in(6) {
        cases.push(Case::Rig(bytes.clone(), packet));
    }
    cases.push(Case::Open(kind, bytes));
}

#[cfg(test)]
mod tests {
    use super::*;

    #[test]
    fn every_refusal_is_met() {
        let mut rng = Rng::new(31);
        let mut summary = Summary::default();
        let mut origins = origins_by_hand().into_iter();
        for number in 0..1000 {
            let origin = origins.next().unwrap_or_else(|| random_origin(&mut rng, number));
            let questions = questions(&mut rng, origin);
            summary.packed += questions.packed;
            summary.damaged += questions.damaged;
            questions.cases.iter().for_each(|case| summary.count(case, &case.answer()));
        }
        assert!(origins.next().is_none(), "all hand-made sources are among them");
        assert!(summary.openings[11..].iter().all(|&times| times > 50), "{summary:?}");
        assert!(summary.openings[0] > summary.packed && summary.damaged > 2 * summary.packed, "{summary:?}");
        assert!(summary.too_large > 5, "{summary:?}");
    }

    #[test]
    fn the_summary_is_one_line() {
        let summary = Summary { seed: 1, tables: 20_000, packed: 3, damaged: 4, answers: 5, ..Summary::default() };
        let line = "agree: seed 1, 20000 tables, 3 packed, 4 damaged, 5 answers, 0 differences";
        assert_eq!(summary.to_string(), line);
    }
}
