//! Comparing two sources: the earliest packet on which the first one's decision is not below the second's.
//!
//! All regions of both sources are numbered. Each axis is cut at all ends of their ranges, and each cut knows
//! the set of regions that hold it on that field. The cuts are searched in the packets' order; the sets of
//! the chosen cuts are intersected, and what is left tells which decisions are still possible. A set that
//! was searched in vain from some field on is not searched again.

use std::collections::{BTreeSet, HashSet};

use crate::model::{Blend, Decision, Kind, Packet, Range, Region, Source, FIELDS, TOPS};

/// The earliest packet that fails, with both decisions.
#[derive(Clone, Copy, Debug, PartialEq, Eq)]
pub struct Witness {
    pub packet: Packet,
    pub first: Decision,
    pub second: Decision,
}

/// None if on every packet the first source's decision is below the second's.
pub fn compare(first: &Source, second: &Source) -> Option<Witness> {
    assert_eq!(first.kind(), second.kind(), "sources of one kind are compared");
    let mut regions = Vec::new();
    let first = Form::of(first, &mut regions);
    let second = Form::of(second, &mut regions);
    let search = Search {
        cuts: std::array::from_fn(|field| cuts(field, &regions)),
        whole: std::array::from_fn(|field| whole_from(field, &regions)),
        first,
        second,
    };
    let all = (0..regions.len()).fold(Set::empty(regions.len()), Set::with);
    search.from(0, [0; FIELDS], all, &mut HashSet::new())
}

/// A set of region numbers.
#[derive(Clone, PartialEq, Eq, Hash)]
struct Set(Vec<u64>);

impl Set {
    fn empty(size: usize) -> Set {
        Set(vec![0; size.div_ceil(64)])
    }

    fn with(mut self, member: usize) -> Set {
        self.0[member / 64] |= 1 << (member % 64);
        self
    }

    fn has(&self, member: usize) -> bool {
        self.0[member / 64] >> (member % 64) & 1 == 1
    }

    fn and(&self, other: &Set) -> Set {
        Set(self.0.iter().zip(&other.0).map(|(a, b)| a & b).collect())
    }
}

/// A source with its regions replaced by their numbers.
enum Form {
    List(Kind, Vec<(usize, Decision)>),
    Pair(Kind, Blend, Box<Form>, Box<Form>),
    Part(Kind, usize, Box<Form>),
}

impl Form {
    fn of(source: &Source, regions: &mut Vec<Region>) -> Form {
        let kind = source.kind();
        let mut number = |region: Region| {
            regions.push(region);
            regions.len() - 1
        };
        match source {
            Source::Book(book) => {
                Form::List(kind, book.rules().iter().map(|rule| (number(rule.region), rule.decision)).collect())
            }
            Source::Table(_, rows) => {
                Form::List(kind, rows.iter().map(|row| (number(row.region), row.decision)).collect())
            }
            Source::Pair(blend, a, b) => {
                let a = Form::of(a, regions);
                let b = Form::of(b, regions);
                Form::Pair(kind, *blend, Box::new(a), Box::new(b))
            }
            Source::Part(region, inner) => {
                let number = number(*region);
                Form::Part(kind, number, Box::new(Form::of(inner, regions)))
            }
        }
    }

    /// The decisions that may still come, one bit each: `open` are the regions that hold the values chosen so
    /// far, `whole` those that hold all values of the later fields. There may be bits too many, but none is
    /// wanting; when no field is left, there is exactly one.
    fn possible(&self, open: &Set, whole: &Set) -> u16 {
        match self {
            Form::List(kind, rules) => {
                let mut bits = 0;
                for &(region, decision) in rules.iter().filter(|(region, _)| open.has(*region)) {
                    bits |= 1 << decision;
                    if whole.has(region) {
                        return bits;
                    }
                }
                bits | 1 << kind.silent()
            }
            Form::Pair(kind, blend, a, b) => {
                let (a, b) = (a.possible(open, whole), b.possible(open, whole));
                pairs(a, b).fold(0, |bits, (a, b)| bits | 1 << blend.of(*kind, a, b))
            }
            Form::Part(kind, region, _) if !open.has(*region) => 1 << kind.silent(),
            Form::Part(_, region, inner) if whole.has(*region) => inner.possible(open, whole),
            Form::Part(kind, _, inner) => inner.possible(open, whole) | 1 << kind.silent(),
        }
    }

    fn kind(&self) -> Kind {
        match self {
            Form::List(kind, ..) | Form::Pair(kind, ..) | Form::Part(kind, ..) => *kind,
        }
    }
}

fn decisions(bits: u16) -> impl Iterator<Item = Decision> + Clone {
    (0..16).filter(move |decision| bits >> decision & 1 == 1)
}

fn pairs(a: u16, b: u16) -> impl Iterator<Item = (Decision, Decision)> {
    decisions(a).flat_map(move |a| decisions(b).map(move |b| (a, b)))
}

/// The lowest value of each cut of a field, and the regions that hold the cut on that field.
fn cuts(field: usize, regions: &[Region]) -> Vec<(u32, Set)> {
    let mut lows = BTreeSet::from([0]);
    for region in regions {
        let Range { low, high } = region.0[field];
        lows.insert(low);
        if high < TOPS[field] {
            lows.insert(high + 1);
        }
    }
    let holders = |value: u32| {
        let held = regions.iter().enumerate().filter(|(_, region)| region.0[field].holds(value));
        held.fold(Set::empty(regions.len()), |set, (number, _)| set.with(number))
    };
    lows.into_iter().map(|low| (low, holders(low))).collect()
}

/// The regions that are whole on the given field and all later ones.
fn whole_from(field: usize, regions: &[Region]) -> Set {
    let is_whole = |region: &Region| (field..FIELDS).all(|field| region.0[field] == Range::whole(field));
    let whole = regions.iter().enumerate().filter(|(_, region)| is_whole(region));
    whole.fold(Set::empty(regions.len()), |set, (number, _)| set.with(number))
}

struct Search {
    cuts: [Vec<(u32, Set)>; FIELDS],
    whole: [Set; FIELDS],
    first: Form,
    second: Form,
}

impl Search {
    /// The earliest failing packet with the given values before `field`, where `open` are the regions that
    /// hold these values.
    fn from(&self, field: usize, mut packet: Packet, open: Set, vain: &mut HashSet<(usize, Set)>) -> Option<Witness> {
        let kind = self.first.kind();
        let whole = self.whole.get(field).unwrap_or(&open);
        let first = self.first.possible(&open, whole);
        let second = self.second.possible(&open, whole);
        let (first, second) = pairs(first, second).find(|&(first, second)| !kind.below(first, second))?;
        if field == FIELDS {
            return Some(Witness { packet, first, second });
        }
        for (low, holders) in &self.cuts[field] {
            let rest = (field + 1, open.and(holders));
            if vain.contains(&rest) {
                continue;
            }
            packet[field] = *low;
            let found = self.from(field + 1, packet, rest.1.clone(), vain);
            if found.is_some() {
                return found;
            }
            vain.insert(rest);
        }
        None
    }
}

#[cfg(test)]
mod tests {
    use super::*;
    use crate::brute;
    use crate::material::{self, SHAPES};
    use crate::model::{Book, Rule};
    use crate::rng::Rng;
    use crate::table;

    #[test]
    fn everything_against_everything_but_one_port() {
        let mut all = Book::open(Kind::Verdicts);
        all.push(Rule::new(Region::whole(), 2)).unwrap();
        let mut but = all.clone();
        but.add(0, Rule::new(Region::whole().with(3, Range::one(22)), 0)).unwrap();
        let (all, but) = (Source::from(all), Source::from(but));
        let witness = Witness { packet: [0, 0, 0, 22, 0], first: 2, second: 0 };
        assert_eq!(compare(&all, &but), Some(witness));
        assert_eq!(compare(&but, &all), None);
    }

    fn by_brute_force(a: &Source, b: &Source) -> Option<Witness> {
        let all = brute::packets(&brute::grid(&[a, b]));
        let witness = |packet: Packet| Witness { packet, first: a.decide(&packet), second: b.decide(&packet) };
        all.into_iter().map(witness).find(|found| !a.kind().below(found.first, found.second))
    }

    #[test]
    fn the_witness_is_the_earliest_of_the_grid() {
        let mut rng = Rng::new(21);
        let mut cleared = 0;
        for round in 0..600 {
            let kind = material::kind(&mut rng);
            let shape = SHAPES[round % SHAPES.len()];
            let a = material::source(&mut rng, kind, shape, 2, round % 3);
            let b = match rng.below(3) {
                0 => Source::pair(Blend::Join, material::source(&mut rng, kind, shape, 1, 0), a.clone()),
                1 => a.clone(),
                _ => material::source(&mut rng, kind, shape, 2, round % 2),
            };
            let found = compare(&a, &b);
            assert_eq!(found, by_brute_force(&a, &b), "round {round}: {a:?} {b:?}");
            cleared += usize::from(found.is_none());
        }
        assert!((150..550).contains(&cleared), "{cleared}");
    }

    /// Larger sources: the witness fails, no earlier packet that was tried does, and layers keep their laws.
    #[test]
    fn larger_sources_are_compared() {
        let mut rng = Rng::new(22);
        for round in 0..300 {
            let kind = material::kind(&mut rng);
            let shape = SHAPES[round % SHAPES.len()];
            let a = material::source(&mut rng, kind, shape, 10, round % 3);
            let b = material::source(&mut rng, kind, shape, 10, round % 2);
            let found = compare(&a, &b);
            if let Some(Witness { packet, first, second }) = found {
                assert_eq!((first, second), (a.decide(&packet), b.decide(&packet)));
                assert!(!kind.below(first, second));
            }
            let regions = [a.regions(), b.regions()].concat();
            for _ in 0..500 {
                let packet = material::packet(&mut rng, &regions);
                let earlier = found.is_none_or(|found| packet < found.packet);
                assert!(!earlier || kind.below(a.decide(&packet), b.decide(&packet)), "round {round}");
            }
            let meet = Source::pair(Blend::Meet, a.clone(), b.clone());
            let join = Source::pair(Blend::Join, a.clone(), b);
            assert_eq!(compare(&meet, &a), None);
            assert_eq!(compare(&a, &join), None);
        }
    }

    /// Two ways to one answer: sources are below each other exactly if they have one table.
    #[test]
    fn equal_tables_compare_as_equal() {
        let mut rng = Rng::new(23);
        for round in 0..300 {
            let kind = material::kind(&mut rng);
            let a = material::source(&mut rng, kind, SHAPES[round % SHAPES.len()], 6, round % 3);
            let Ok(rows) = table::rows(&a) else { continue };
            let opened = Source::Table(kind, rows.clone());
            assert_eq!(compare(&a, &opened), None);
            assert_eq!(compare(&opened, &a), None);
            let mut changed = rows;
            let place = rng.below(changed.len());
            let row = &mut changed[place];
            row.decision = (row.decision + 1) % kind.count();
            let changed = Source::Table(kind, changed);
            assert!(compare(&a, &changed).is_some() || compare(&changed, &a).is_some());
        }
    }
}
