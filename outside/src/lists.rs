//! Questions about rule lists: which line decides a packet, which rules of a book get in each other's way,
//! and where two verdict lists contradict one another.

use crate::model::{Blend, Book, Kind, Packet, Refusal, Row, Source};
use crate::table;
use crate::text::{self, Fault, Placed};

/// Which of two texts.
#[derive(Clone, Copy, Debug, PartialEq, Eq)]
pub enum Which {
    First = 1,
    Second = 2,
}

/// The line that decides a packet, the first text lying over the second; none if neither decides. A text
/// with a fault is refused, the first text before the second.
pub fn winner<'a>(
    kind: Kind,
    first: &'a [u8],
    second: &'a [u8],
    packet: &Packet,
) -> Result<Option<(Which, Placed<'a>)>, (Which, Fault)> {
    let read = |which, text| text::read(kind, text).finish().map_err(|fault| (which, fault));
    let lines = [(Which::First, read(Which::First, first)?), (Which::Second, read(Which::Second, second)?)];
    // No rule is silent, so the first line of all that holds the packet is the one that decides it.
    let mut all = lines.into_iter().flat_map(|(which, lines)| lines.into_iter().map(move |line| (which, line)));
    Ok(all.find(|(_, line)| line.rule.region.holds(packet)))
}

/// What is to be said of a pair of rules.
#[derive(Clone, Copy, Debug, PartialEq, Eq)]
pub enum Finding {
    Redundant = 1,
    Shadowed = 2,
    Generalised = 3,
    Correlated = 4,
}

/// The rule pairs `(i, j)` of a book, i before j, of which something is to be said, by i, then j.
pub fn findings(book: &Book) -> Vec<(usize, usize, Finding)> {
    let rules = book.rules();
    let mut found = Vec::new();
    for (i, first) in rules.iter().enumerate() {
        for (j, second) in rules.iter().enumerate().skip(i + 1) {
            let differ = first.decision != second.decision;
            let finding = if first.region.covers(&second.region) {
                Some(if differ { Finding::Shadowed } else { Finding::Redundant })
            } else if !differ {
                None
            } else if second.region.covers(&first.region) {
                Some(Finding::Generalised)
            } else if first.region.touches(&second.region) {
                Some(Finding::Correlated)
            } else {
                None
            };
            found.extend(finding.map(|finding| (i, j, finding)));
        }
    }
    found
}

/// The rows where two sources both decide and differ, each with the first one's decision: the rows that are
/// not silent in the table that gives that decision there and is silent elsewhere.
pub fn disputes(first: &Source, second: &Source) -> Result<Vec<Row>, Refusal> {
    let clash = Source::pair(Blend::Clash, first.clone(), second.clone());
    let silent = clash.kind().silent();
    let mut rows = table::rows(&clash)?;
    rows.retain(|row| row.decision != silent);
    Ok(rows)
}

#[cfg(test)]
mod tests {
    use super::*;
    use crate::brute;
    use crate::compare::compare;
    use crate::material::{self, SHAPES};
    use crate::model::{Range, Region, Rule};
    use crate::rng::Rng;

    fn on_ports(rules: &[(u32, u32, u8)]) -> Book {
        let mut book = Book::open(Kind::Verdicts);
        for &(low, high, decision) in rules {
            book.push(Rule::new(Region::whole().with(3, Range::new(low, high)), decision)).unwrap();
        }
        book
    }

    #[test]
    fn findings_on_ports() {
        use Finding::*;
        let book = on_ports(&[(17, 80, 2), (22, 22, 0), (20, 30, 2), (0, 65_535, 0)]);
        let expected =
            [(0, 1, Shadowed), (0, 2, Redundant), (0, 3, Generalised), (1, 2, Generalised), (2, 3, Generalised)];
        assert_eq!(findings(&book), expected);
        assert_eq!(findings(&on_ports(&[(10, 20, 2), (15, 30, 0)])), [(0, 1, Correlated)]);
        assert_eq!(findings(&on_ports(&[(10, 20, 2), (15, 30, 2)])), []);
        assert_eq!(findings(&on_ports(&[(10, 20, 2), (21, 30, 0)])), []);
        assert_eq!(findings(&on_ports(&[(10, 20, 2), (10, 20, 0)])), [(0, 1, Shadowed)]);
    }

    #[test]
    fn findings_are_those_of_brute_force() {
        let mut rng = Rng::new(31);
        let mut met = [0; 5];
        for round in 0..200 {
            let kind = material::kind(&mut rng);
            let book = material::book(&mut rng, kind, SHAPES[round % SHAPES.len()], 4);
            let source = Source::from(book.clone());
            let rules = book.rules();
            // For every packet of the grid, which rules hold it.
            let grid: Vec<Vec<bool>> = brute::packets(&brute::grid(&[&source]))
                .iter()
                .map(|packet| rules.iter().map(|rule| rule.region.holds(packet)).collect())
                .collect();
            let mut expected = Vec::new();
            for i in 0..rules.len() {
                for j in i + 1..rules.len() {
                    let i_covers_j = grid.iter().all(|held| !held[j] || held[i]);
                    let j_covers_i = grid.iter().all(|held| !held[i] || held[j]);
                    let shared = grid.iter().any(|held| held[i] && held[j]);
                    let equal = rules[i].decision == rules[j].decision;
                    let applies = [
                        (i_covers_j && equal, Finding::Redundant),
                        (i_covers_j, Finding::Shadowed),
                        (j_covers_i && !equal, Finding::Generalised),
                        (shared && !equal, Finding::Correlated),
                    ];
                    let first = applies.into_iter().find(|(applies, _)| *applies);
                    met[first.map_or(0, |(_, finding)| finding as usize)] += 1;
                    expected.extend(first.map(|(_, finding)| (i, j, finding)));
                }
            }
            assert_eq!(findings(&book), expected, "round {round}");
        }
        assert!(met.iter().all(|&times| times > 10), "{met:?}");
    }

    #[test]
    fn the_winner_decides_as_over() {
        let mut rng = Rng::new(32);
        let mut met = [0; 3];
        for round in 0..400 {
            let kind = material::kind(&mut rng);
            let shape = SHAPES[round % SHAPES.len()];
            let books = [3, 5].map(|count| material::book(&mut rng, kind, shape, count));
            let texts = [0, 1].map(|i| material::text(&mut rng, kind, books[i].rules()));
            let [first, second] = books.map(Source::from);
            let over = Source::pair(Blend::Over, first, second);
            let regions = over.regions();
            for _ in 0..20 {
                let packet = material::packet(&mut rng, &regions);
                let won = winner(kind, &texts[0], &texts[1], &packet).unwrap();
                let decided = won.as_ref().map_or(kind.silent(), |(_, line)| line.rule.decision);
                assert_eq!(decided, over.decide(&packet));
                if let Some((which, line)) = &won {
                    let text = &texts[*which as usize - 1];
                    let lines: Vec<&[u8]> = text.split(|&byte| byte == b'\n').collect();
                    assert_eq!(lines[line.number - 1], line.line);
                }
                met[won.map_or(0, |(which, _)| which as usize)] += 1;
            }
        }
        assert!(met.iter().all(|&times| times > 500), "{met:?}");
    }

    #[test]
    fn the_first_text_is_refused_first() {
        let refused = |first: &[u8], second: &[u8]| {
            let (which, fault) = winner(Kind::Verdicts, first, second, &[0; 5]).unwrap_err();
            (which, fault.refusal)
        };
        assert_eq!(refused(b"x", b"\0"), (Which::First, Refusal::BadWordCount));
        assert_eq!(refused(b"allow * * * * *", b"\0"), (Which::Second, Refusal::BadLetter));
    }

    #[test]
    fn disputes_are_where_the_order_of_two_lists_matters() {
        let mut rng = Rng::new(33);
        for round in 0..300 {
            let shape = SHAPES[round % SHAPES.len()];
            let [a, b] = [4, 4].map(|count| Source::from(material::book(&mut rng, Kind::Verdicts, shape, count)));
            let Ok(rows) = disputes(&a, &b) else { continue };
            let over = |x: &Source, y: &Source| Source::pair(Blend::Over, x.clone(), y.clone());
            let (first, second) = (over(&a, &b), over(&b, &a));
            let same = compare(&first, &second).is_none() && compare(&second, &first).is_none();
            assert_eq!(rows.is_empty(), same);
            let regions = first.regions();
            for _ in 0..200 {
                let packet = material::packet(&mut rng, &regions);
                let held: Vec<u8> =
                    rows.iter().filter(|row| row.region.holds(&packet)).map(|row| row.decision).collect();
                let (x, y) = (first.decide(&packet), second.decide(&packet));
                assert_eq!(held, if x == y { vec![] } else { vec![x] }, "round {round}");
            }
        }
    }

    #[test]
    fn the_pilot_boat_has_one_dispute() {
        let read = |name: &str| {
            let path = format!("{}/../examples/pilot-boat/{name}.rules", env!("CARGO_MANIFEST_DIR"));
            Source::from(text::read_book(Kind::Verdicts, &std::fs::read(path).unwrap()).unwrap())
        };
        let rows = disputes(&read("ours"), &read("yard")).unwrap();
        let lines: Vec<String> = rows.iter().map(|row| text::print_line(Kind::Verdicts, row)).collect();
        assert_eq!(lines, ["deny 10.1.0.0-10.1.0.255 * 10.2.0.9 5514 17"]);
    }
}
