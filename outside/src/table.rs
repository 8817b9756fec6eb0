//! The table of a source.
//!
//! Every field's axis is cut at all ends of ranges that the source has left on it. What is left of the
//! source over one cut is a smaller source over the later fields; its table is found first, and equal
//! tables are made one and the same tree. Then two values are alike exactly if their trees are the
//! same, so neighbouring cuts with the same tree are put together.

use std::collections::{BTreeSet, HashMap};

use crate::model::{Blend, Decision, Kind, Range, Refusal, Region, Row, Rule, Source, FIELDS, TOPS};

/// The most rows that a table is given with.
pub const MAX_ROWS: usize = 1152;

/// The table of a source; refused with 5 if it has more than 1,152 rows.
pub fn rows(source: &Source) -> Result<Vec<Row>, Refusal> {
    let mut builder = Builder { kind: source.kind(), forest: Forest::new(), known: HashMap::new() };
    let tree = builder.build(0, Piece::of(source))?;
    Ok(builder.forest.rows(tree))
}

/// The name of a tree in a forest: the table over some last fields. Equal tables have one name.
pub type Tree = usize;

#[derive(Clone, PartialEq, Eq, Hash)]
enum Node {
    Leaf(Decision),
    /// The ranges of one field, each by its high end and the tree below it. No two neighbours are alike.
    Branch(Vec<(u32, Tree)>),
}

/// Trees, each kept once.
pub struct Forest {
    nodes: Vec<Node>,
    /// The number of rows of each tree.
    sizes: Vec<usize>,
    names: HashMap<Node, Tree>,
}

impl Forest {
    pub fn new() -> Forest {
        Forest { nodes: Vec::new(), sizes: Vec::new(), names: HashMap::new() }
    }

    fn keep(&mut self, node: Node) -> Tree {
        if let Some(&tree) = self.names.get(&node) {
            return tree;
        }
        let size = match &node {
            Node::Leaf(_) => 1,
            Node::Branch(ranges) => ranges.iter().map(|&(_, tree)| self.sizes[tree]).sum(),
        };
        self.nodes.push(node.clone());
        self.sizes.push(size);
        self.names.insert(node, self.nodes.len() - 1);
        self.nodes.len() - 1
    }

    pub fn leaf(&mut self, decision: Decision) -> Tree {
        self.keep(Node::Leaf(decision))
    }

    /// A tree over one more field; neighbours that are alike are put together.
    pub fn branch(&mut self, mut ranges: Vec<(u32, Tree)>) -> Tree {
        ranges.dedup_by(|right, left| {
            let alike = right.1 == left.1;
            if alike {
                left.0 = right.0;
            }
            alike
        });
        self.keep(Node::Branch(ranges))
    }

    fn rows(&self, tree: Tree) -> Vec<Row> {
        let mut rows = Vec::with_capacity(self.sizes[tree]);
        self.unfold(tree, 0, Region::whole(), &mut rows);
        rows
    }

    fn unfold(&self, tree: Tree, field: usize, region: Region, rows: &mut Vec<Row>) {
        match &self.nodes[tree] {
            Node::Leaf(decision) => rows.push(Row::new(region, *decision)),
            Node::Branch(ranges) => {
                let mut low = 0;
                for &(high, below) in ranges {
                    self.unfold(below, field + 1, region.with(field, Range::new(low, high)), rows);
                    low = high.wrapping_add(1);
                }
            }
        }
    }
}

impl Default for Forest {
    fn default() -> Forest {
        Forest::new()
    }
}

/// What is left of a source where the values of the earlier fields are given.
/// Its regions are whole on those fields.
#[derive(Clone, PartialEq, Eq, Hash)]
enum Piece {
    Fixed(Decision),
    /// The first rule that holds a packet decides; else the decision behind them.
    List(Vec<Rule>, Decision),
    Pair(Blend, Box<Piece>, Box<Piece>),
    Part(Region, Box<Piece>),
}

impl Piece {
    fn of(source: &Source) -> Piece {
        let silent = source.kind().silent();
        match source {
            Source::Book(book) => Piece::List(book.rules().to_vec(), silent),
            Source::Table(_, rows) => Piece::List(rows.clone(), silent),
            Source::Pair(blend, a, b) => Piece::Pair(*blend, Box::new(Piece::of(a)), Box::new(Piece::of(b))),
            Source::Part(region, inner) => Piece::Part(*region, Box::new(Piece::of(inner))),
        }
    }

    /// Adds the values of a field at which a range starts or has just ended.
    fn cuts(&self, field: usize, cuts: &mut BTreeSet<u32>) {
        let mut cut = |region: &Region| {
            let Range { low, high } = region.0[field];
            cuts.insert(low);
            if high < TOPS[field] {
                cuts.insert(high + 1);
            }
        };
        match self {
            Piece::Fixed(_) => {}
            Piece::List(rules, _) => rules.iter().for_each(|rule| cut(&rule.region)),
            Piece::Pair(_, a, b) => {
                a.cuts(field, cuts);
                b.cuts(field, cuts);
            }
            Piece::Part(region, inner) => {
                cut(region);
                inner.cuts(field, cuts);
            }
        }
    }

    /// What is left where the field has the given value.
    fn at(&self, kind: Kind, field: usize, value: u32) -> Piece {
        let widened = |region: &Region| region.0[field].holds(value).then(|| region.with(field, Range::whole(field)));
        match self {
            Piece::Fixed(decision) => Piece::Fixed(*decision),
            Piece::List(rules, behind) => {
                let left = rules.iter().filter_map(|rule| Some(Rule::new(widened(&rule.region)?, rule.decision)));
                Piece::list(left, *behind)
            }
            Piece::Pair(blend, a, b) => Piece::pair(kind, *blend, a.at(kind, field, value), b.at(kind, field, value)),
            Piece::Part(region, inner) => match widened(region) {
                None => Piece::Fixed(kind.silent()),
                Some(region) => match inner.at(kind, field, value) {
                    inner if region.is_whole() || inner == Piece::Fixed(kind.silent()) => inner,
                    inner => Piece::Part(region, Box::new(inner)),
                },
            },
        }
    }

    /// A list without the rules that plainly decide nothing.
    fn list(rules: impl Iterator<Item = Rule>, mut behind: Decision) -> Piece {
        let mut kept: Vec<Rule> = Vec::new();
        for rule in rules {
            if rule.region.is_whole() {
                behind = rule.decision;
                break;
            }
            if !kept.iter().any(|earlier| earlier.region.covers(&rule.region)) {
                kept.push(rule);
            }
        }
        while kept.last().is_some_and(|rule| rule.decision == behind) {
            kept.pop();
        }
        if kept.is_empty() {
            Piece::Fixed(behind)
        } else {
            Piece::List(kept, behind)
        }
    }

    /// A layer over two pieces, or less if one of them is fixed and the other then says all or nothing.
    fn pair(kind: Kind, blend: Blend, a: Piece, b: Piece) -> Piece {
        let of = |x, y| blend.of(kind, x, y);
        let all = |test: &dyn Fn(Decision) -> bool| (0..kind.count()).all(test);
        match (&a, &b) {
            (&Piece::Fixed(x), &Piece::Fixed(y)) => Piece::Fixed(of(x, y)),
            (&Piece::Fixed(x), _) if all(&|y| of(x, y) == y) => b,
            (_, &Piece::Fixed(y)) if all(&|x| of(x, y) == x) => a,
            (&Piece::Fixed(x), _) if all(&|y| of(x, y) == of(x, 0)) => Piece::Fixed(of(x, 0)),
            (_, &Piece::Fixed(y)) if all(&|x| of(x, y) == of(0, y)) => Piece::Fixed(of(0, y)),
            _ => Piece::Pair(blend, Box::new(a), Box::new(b)),
        }
    }
}

struct Builder {
    kind: Kind,
    forest: Forest,
    /// The trees of the pieces met so far, by the field at which they begin.
    known: HashMap<(usize, Piece), Tree>,
}

impl Builder {
    /// The tree of a piece from the given field on. A tree of more than 1,152 rows stands somewhere in the
    /// whole table, so the whole is then refused too.
    fn build(&mut self, field: usize, piece: Piece) -> Result<Tree, Refusal> {
        if field == FIELDS {
            let Piece::Fixed(decision) = piece else { unreachable!("no field is left to depend on") };
            return Ok(self.forest.leaf(decision));
        }
        let key = (field, piece);
        if let Some(&tree) = self.known.get(&key) {
            return Ok(tree);
        }
        let piece = &key.1;
        let mut cuts = BTreeSet::from([0]);
        piece.cuts(field, &mut cuts);
        let lows: Vec<u32> = cuts.into_iter().collect();
        let mut ranges: Vec<(u32, Tree)> = Vec::new();
        let mut size = 0;
        for (i, &low) in lows.iter().enumerate() {
            let high = lows.get(i + 1).map_or(TOPS[field], |next| next - 1);
            let below = self.build(field + 1, piece.at(self.kind, field, low))?;
            if ranges.last().is_none_or(|&(_, last)| last != below) {
                size += self.forest.sizes[below];
            }
            if size > MAX_ROWS {
                return Err(Refusal::TooManyRows);
            }
            ranges.push((high, below));
        }
        let tree = self.forest.branch(ranges);
        self.known.insert(key, tree);
        Ok(tree)
    }
}

#[cfg(test)]
mod tests {
    use super::*;
    use crate::brute;
    use crate::material::{self, SHAPES};
    use crate::rng::Rng;
    use crate::text;

    fn book(kind: Kind, lines: &str) -> Source {
        text::read_book(kind, lines.as_bytes()).unwrap().into()
    }

    fn printed(source: &Source) -> Vec<String> {
        let kind = source.kind();
        rows(source).unwrap().iter().map(|row| text::print_line(kind, row)).collect()
    }

    #[test]
    fn small_tables() {
        assert_eq!(printed(&book(Kind::Verdicts, "")), ["none * * * * *"]);
        assert_eq!(
            printed(&book(Kind::Verdicts, "allow * * * * 6")),
            ["none * * * * 0-5", "allow * * * * 6", "none * * * * 7-255"]
        );
        assert_eq!(
            printed(&book(Kind::Verdicts, "allow * * * 17-21 *\nallow * * * 22-80 *")),
            ["none * * * 0-16 *", "allow * * * 17-80 *", "none * * * 81-65535 *"]
        );
        assert_eq!(
            printed(&book(Kind::Marks, "log * * * 1-2 6\nmeter * * * 2 6")),
            ["none * * * 0 *", "none * * * 1-2 0-5", "log * * * 1-2 6", "none * * * 1-2 7-255", "none * * * 3-65535 *"]
        );
    }

    #[test]
    fn a_join_of_two_overlapping_boxes() {
        let a = book(Kind::Verdicts, "allow * * 0.0.0.1-0.0.0.3 1-3 *");
        let b = book(Kind::Verdicts, "allow * * 0.0.0.2-0.0.0.4 2-4 *");
        let join = Source::pair(Blend::Join, a, b);
        assert_eq!(rows(&join).unwrap().len(), 11);
    }

    #[test]
    fn the_two_editions_of_the_tug_have_the_same_rows() {
        let of = |name: &str| {
            let path = format!("{}/../examples/tug/{name}.rules", env!("CARGO_MANIFEST_DIR"));
            printed(&book(Kind::Verdicts, &std::fs::read_to_string(path).unwrap()))
        };
        assert_eq!(of("first-edition"), of("second-edition"));
    }

    #[test]
    fn the_limit_is_exact() {
        let mut rng = Rng::new(1);
        for count in (1..40).chain(1080..=1220) {
            let kind = material::kind(&mut rng);
            let source = material::with_rows(&mut rng, kind, count).into();
            let expected = if count <= MAX_ROWS { Ok(count) } else { Err(Refusal::TooManyRows) };
            assert_eq!(rows(&source).map(|rows| rows.len()), expected, "{count}");
        }
    }

    /// Tables of sources so small that every packet of the grid can be looked at.
    #[test]
    fn tables_are_those_of_brute_force() {
        let mut rng = Rng::new(2);
        let mut refused = 0;
        for round in 0..400 {
            let kind = material::kind(&mut rng);
            let source = material::source(&mut rng, kind, SHAPES[round % SHAPES.len()], 3, round % 3);
            match rows(&source) {
                Ok(rows) => assert!(rows == brute::rows(&source), "round {round}: {source:?}"),
                Err(refusal) => {
                    assert_eq!(refusal, Refusal::TooManyRows);
                    assert!(brute::rows(&source).len() > MAX_ROWS, "round {round}: {source:?}");
                    refused += 1;
                }
            }
        }
        assert!(refused < 100, "most tables of the material are small enough: {refused} are not");
    }

    /// Tables of larger sources, held against the source packet by packet and against the definition.
    #[test]
    fn tables_decide_as_their_sources() {
        let mut rng = Rng::new(3);
        let (mut taken, mut searched) = (0, 0);
        for round in 0..600 {
            let kind = material::kind(&mut rng);
            let source = material::source(&mut rng, kind, SHAPES[round % SHAPES.len()], 12, round % 4);
            let Ok(rows) = rows(&source) else { continue };
            taken += 1;
            assert!(brute::is_nested(&rows));
            let cells: usize = brute::grid(&[&Source::Table(kind, rows.clone())]).iter().map(Vec::len).product();
            if cells * rows.len() < 100_000 {
                assert_eq!(brute::first_alike(kind, &rows), None, "round {round}");
                searched += 1;
            }
            let regions = source.regions();
            for _ in 0..300 {
                let packet = material::packet(&mut rng, &regions);
                let held: Vec<Decision> =
                    rows.iter().filter(|row| row.region.holds(&packet)).map(|row| row.decision).collect();
                assert_eq!(held, [source.decide(&packet)], "round {round} packet {packet:?}");
            }
            let again = Source::Table(kind, rows.clone());
            assert!(super::rows(&again).unwrap() == rows, "the table of a table is the same table");
        }
        assert!(taken > 300 && searched > 150, "only {taken} tables were small enough, {searched} for a search");
    }
}
