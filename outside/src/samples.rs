//! Verdict lists for measuring, each made from a seed.

use crate::material::{self, Shape};
use crate::model::{Book, Kind, Range, Region, Rule, Source, MAX_RULES, TOPS};
use crate::rng::Rng;
use crate::table;

/// The names of the kinds of lists.
pub const SAMPLES: [&str; 4] = ["realistic", "boxes", "refused", "verdicts"];

/// A list of a kind; None, if there is no such kind.
///
/// - `realistic`: 64 rules as a yard writes them, for 16 machines and a few networks.
/// - `boxes`: 64 small random boxes.
/// - `refused`: 64 large random boxes, whose table has more than 1,152 rows.
/// - `verdicts`: rules that differ in one protocol and their verdicts, whose table has the most rows that are given, 1,152.
pub fn sample(name: &str, seed: u64) -> Option<Book> {
    let rng = &mut Rng::new(seed);
    match name {
        "realistic" => Some(first(rng, realistic, true)),
        "boxes" => Some(first(rng, boxes, true)),
        "refused" => Some(first(rng, |rng| material::rules(rng, Kind::Verdicts, Shape::Boxes, MAX_RULES), false)),
        "verdicts" => Some(material::with_rows(rng, Kind::Verdicts, table::MAX_ROWS)),
        _ => None,
    }
}

/// The first list of its making that has a table, or none.
fn first(rng: &mut Rng, make: impl Fn(&mut Rng) -> Vec<Rule>, has_table: bool) -> Book {
    loop {
        let mut book = Book::open(Kind::Verdicts);
        for rule in make(rng) {
            book.push(rule).expect("there are 64 good rules");
        }
        if table::rows(&Source::from(book.clone())).is_ok() == has_table {
            return book;
        }
    }
}

/// For each of 16 machines: three networks or hosts reach a service of it, and nobody else reaches the machine.
fn realistic(rng: &mut Rng) -> Vec<Rule> {
    let mut rules = Vec::new();
    for machine in 0..16 {
        let to_machine = Region::whole().with(2, Range::one(0x0a01_0005 + 3 * machine));
        for _ in 0..3 {
            let network = 0x0a00_0000 + (rng.between(0, 2) << 8);
            let from = if rng.once_in(6) { Range::one(network + 7) } else { Range::new(network, network + 255) };
            let port = rng.pick(&[
                Range::one(22),
                Range::one(80),
                Range::one(443),
                Range::one(502),
                Range::new(17, 80),
                Range::new(5000, 5999),
            ]);
            let protocol = Range::one(rng.pick(&[6, 6, 6, 17]));
            let decision = if rng.once_in(5) { 0 } else { 2 };
            rules.push(Rule::new(to_machine.with(0, from).with(3, port).with(4, protocol), decision));
        }
        rules.push(Rule::new(to_machine, 0));
    }
    rules
}

/// Boxes of a thousandth or so of every field that has so many values.
fn boxes(rng: &mut Rng) -> Vec<Rule> {
    let small = |rng: &mut Rng, top: u32| {
        let low = rng.between(0, top - top / 500);
        Range::new(low, low + rng.between(0, top / 500))
    };
    (0..MAX_RULES).map(|_| Rule::new(Region(TOPS.map(|top| small(rng, top))), rng.pick(&[0, 2]))).collect()
}

#[cfg(test)]
mod tests {
    use super::*;

    #[test]
    fn lists_are_what_their_names_say() {
        for seed in 0..5 {
            let rows = |name: &str| table::rows(&sample(name, seed).unwrap().into()).map(|rows| rows.len());
            let rules = |name: &str| sample(name, seed).unwrap().rules().len();
            assert!(rows("realistic").is_ok_and(|rows| rows > 200), "{:?}", rows("realistic"));
            assert!(rows("boxes").is_ok_and(|rows| rows > 500), "{:?}", rows("boxes"));
            assert!(rows("refused").is_err());
            assert_eq!(rows("verdicts"), Ok(table::MAX_ROWS));
            assert!(["realistic", "boxes", "refused"].iter().all(|name| rules(name) == MAX_RULES));
        }
        assert!(sample("nothing", 1).is_none());
        assert!(SAMPLES.iter().all(|name| sample(name, 1) == sample(name, 1) && sample(name, 1).is_some()));
    }
}
