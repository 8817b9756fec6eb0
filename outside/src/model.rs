//! Packets, regions, decision kinds, books and layers, written down as the rules say them.

use std::fmt;

/// The number of fields of a packet.
pub const FIELDS: usize = 5;

/// The largest value of each field: source address and port, destination address and port, protocol.
pub const TOPS: [u32; FIELDS] = [u32::MAX, 65_535, u32::MAX, 65_535, 255];

/// The most rules a book holds.
pub const MAX_RULES: usize = 64;

/// A packet: one value a field. Arrays compare in the packets' order.
pub type Packet = [u32; FIELDS];

/// A decision of some kind, by its number.
pub type Decision = u8;

/// Every refusal, by its number.
#[derive(Clone, Copy, Debug, PartialEq, Eq)]
pub enum Refusal {
    BookFull = 1,
    NoSuchPosition = 2,
    Reversed = 3,
    BadDecision = 4,
    TooManyRows = 5,
    TextTooLong = 6,
    BadLetter = 7,
    BadWordCount = 8,
    UnknownDecision = 9,
    Malformed = 10,
    BadLength = 11,
    BadCheck = 12,
    BadFrame = 13,
    ForeignRow = 14,
    NotNested = 15,
    NotReduced = 16,
}

impl Refusal {
    pub fn number(self) -> u8 {
        self as u8
    }
}

impl fmt::Display for Refusal {
    fn fmt(&self, out: &mut fmt::Formatter<'_>) -> fmt::Result {
        write!(out, "refused {}", self.number())
    }
}

/// The values from `low` to `high`, both inside.
#[derive(Clone, Copy, Debug, PartialEq, Eq, Hash, PartialOrd, Ord)]
pub struct Range {
    pub low: u32,
    pub high: u32,
}

impl Range {
    pub const fn new(low: u32, high: u32) -> Range {
        Range { low, high }
    }

    pub const fn one(value: u32) -> Range {
        Range::new(value, value)
    }

    pub const fn whole(field: usize) -> Range {
        Range::new(0, TOPS[field])
    }

    pub fn is_reversed(self) -> bool {
        self.low > self.high
    }

    pub fn holds(self, value: u32) -> bool {
        self.low <= value && value <= self.high
    }

    /// Whether every value of the other range is in this one; both are good ranges.
    pub fn covers(self, other: Range) -> bool {
        self.low <= other.low && other.high <= self.high
    }

    /// Whether the two good ranges share a value.
    pub fn touches(self, other: Range) -> bool {
        self.low <= other.high && other.low <= self.high
    }
}

/// Five ranges, one a field.
#[derive(Clone, Copy, Debug, PartialEq, Eq, Hash, PartialOrd, Ord)]
pub struct Region(pub [Range; FIELDS]);

impl Region {
    /// The region of every packet.
    pub fn whole() -> Region {
        Region(std::array::from_fn(Range::whole))
    }

    /// This region with another range on one field.
    pub fn with(mut self, field: usize, range: Range) -> Region {
        self.0[field] = range;
        self
    }

    pub fn is_whole(&self) -> bool {
        *self == Region::whole()
    }

    pub fn is_reversed(&self) -> bool {
        self.0.iter().any(|range| range.is_reversed())
    }

    pub fn holds(&self, packet: &Packet) -> bool {
        (0..FIELDS).all(|field| self.0[field].holds(packet[field]))
    }

    pub fn covers(&self, other: &Region) -> bool {
        (0..FIELDS).all(|field| self.0[field].covers(other.0[field]))
    }

    pub fn touches(&self, other: &Region) -> bool {
        (0..FIELDS).all(|field| self.0[field].touches(other.0[field]))
    }
}

/// The two decision kinds.
#[derive(Clone, Copy, Debug, PartialEq, Eq, Hash)]
pub enum Kind {
    Verdicts,
    Marks,
}

/// The marks in the order of their words; mark `i` counts `1 << i`.
const MARKS: [&str; 4] = ["log", "meter", "copy", "hold"];

impl Kind {
    pub fn from_number(number: u8) -> Option<Kind> {
        match number {
            1 => Some(Kind::Verdicts),
            2 => Some(Kind::Marks),
            _ => None,
        }
    }

    pub fn number(self) -> u8 {
        match self {
            Kind::Verdicts => 1,
            Kind::Marks => 2,
        }
    }

    pub fn count(self) -> u8 {
        match self {
            Kind::Verdicts => 3,
            Kind::Marks => 16,
        }
    }

    pub fn silent(self) -> Decision {
        match self {
            Kind::Verdicts => 1,
            Kind::Marks => 0,
        }
    }

    pub fn has(self, decision: Decision) -> bool {
        decision < self.count()
    }

    pub fn below(self, a: Decision, b: Decision) -> bool {
        if !self.has(a) || !self.has(b) {
            return false;
        }
        match self {
            Kind::Verdicts => a <= b,
            Kind::Marks => a & !b == 0,
        }
    }

    pub fn meet(self, a: Decision, b: Decision) -> Decision {
        if !self.has(a) || !self.has(b) {
            return self.silent();
        }
        match self {
            Kind::Verdicts => a.min(b),
            Kind::Marks => a & b,
        }
    }

    pub fn join(self, a: Decision, b: Decision) -> Decision {
        if !self.has(a) || !self.has(b) {
            return self.silent();
        }
        match self {
            Kind::Verdicts => a.max(b),
            Kind::Marks => a | b,
        }
    }

    /// The word that is written for a decision of this kind.
    pub fn word(self, decision: Decision) -> String {
        match self {
            _ if decision == self.silent() => "none".to_string(),
            Kind::Verdicts if decision == 0 => "deny".to_string(),
            Kind::Verdicts => "allow".to_string(),
            Kind::Marks => {
                let names: Vec<&str> =
                    (0..MARKS.len()).filter(|i| decision & (1 << i) != 0).map(|i| MARKS[i]).collect();
                names.join("+")
            }
        }
    }

    /// The decision that a word of a rule line names; never the silent one.
    pub fn read(self, word: &[u8]) -> Option<Decision> {
        match self {
            Kind::Verdicts => match word {
                b"deny" => Some(0),
                b"allow" => Some(2),
                _ => None,
            },
            Kind::Marks => {
                let mut sum = 0;
                let mut allowed = MARKS.iter().enumerate();
                for name in word.split(|&byte| byte == b'+') {
                    // Each name must stand behind the one before it, so the search goes only forward.
                    let (place, _) = allowed.find(|(_, mark)| mark.as_bytes() == name)?;
                    sum |= 1 << place;
                }
                Some(sum)
            }
        }
    }
}

/// A rule of a book, or a row of a table: a region and a decision.
#[derive(Clone, Copy, Debug, PartialEq, Eq, Hash)]
pub struct Rule {
    pub region: Region,
    pub decision: Decision,
}

/// A row of a table. Unlike a rule's, its decision may be the silent one.
pub type Row = Rule;

impl Rule {
    pub fn new(region: Region, decision: Decision) -> Rule {
        Rule { region, decision }
    }
}

/// 0 to 64 rules in order. The first that holds a packet decides it.
#[derive(Clone, Debug, PartialEq, Eq)]
pub struct Book {
    kind: Kind,
    rules: Vec<Rule>,
}

impl Book {
    pub fn open(kind: Kind) -> Book {
        Book { kind, rules: Vec::new() }
    }

    pub fn kind(&self) -> Kind {
        self.kind
    }

    pub fn rules(&self) -> &[Rule] {
        &self.rules
    }

    /// Puts a rule behind the first `position` rules.
    pub fn add(&mut self, position: usize, rule: Rule) -> Result<(), Refusal> {
        if self.rules.len() >= MAX_RULES {
            return Err(Refusal::BookFull);
        }
        if position > self.rules.len() {
            return Err(Refusal::NoSuchPosition);
        }
        if rule.region.is_reversed() {
            return Err(Refusal::Reversed);
        }
        self.check_decision(rule.decision)?;
        self.rules.insert(position, rule);
        Ok(())
    }

    /// Puts a rule behind all others.
    pub fn push(&mut self, rule: Rule) -> Result<(), Refusal> {
        self.add(self.rules.len(), rule)
    }

    /// Takes a rule out and answers it.
    pub fn drop(&mut self, position: usize) -> Result<Rule, Refusal> {
        self.check_position(position)?;
        Ok(self.rules.remove(position))
    }

    /// Takes rule `from` out and puts it behind the first `to` of those left.
    pub fn shift(&mut self, from: usize, to: usize) -> Result<(), Refusal> {
        self.check_position(from)?;
        self.check_position(to)?;
        let rule = self.rules.remove(from);
        self.rules.insert(to, rule);
        Ok(())
    }

    /// Changes the decision of one rule.
    pub fn recast(&mut self, position: usize, decision: Decision) -> Result<(), Refusal> {
        self.check_position(position)?;
        self.check_decision(decision)?;
        self.rules[position].decision = decision;
        Ok(())
    }

    fn check_position(&self, position: usize) -> Result<(), Refusal> {
        if position < self.rules.len() {
            Ok(())
        } else {
            Err(Refusal::NoSuchPosition)
        }
    }

    fn check_decision(&self, decision: Decision) -> Result<(), Refusal> {
        if self.kind.has(decision) && decision != self.kind.silent() {
            Ok(())
        } else {
            Err(Refusal::BadDecision)
        }
    }
}

/// How a layer over two sources makes one decision of two.
#[derive(Clone, Copy, Debug, PartialEq, Eq, Hash)]
pub enum Blend {
    /// The first, unless it is silent; then the second.
    Over,
    Meet,
    Join,
    /// The first where neither is silent and the two differ, else silent. No layer of the rules; it
    /// serves to list disputes.
    Clash,
}

impl Blend {
    pub fn of(self, kind: Kind, a: Decision, b: Decision) -> Decision {
        let silent = kind.silent();
        match self {
            Blend::Over if a == silent => b,
            Blend::Over => a,
            Blend::Meet => kind.meet(a, b),
            Blend::Join => kind.join(a, b),
            Blend::Clash if a != silent && b != silent && a != b => a,
            Blend::Clash => silent,
        }
    }
}

/// Anything that decides packets by one kind.
#[derive(Clone, Debug)]
pub enum Source {
    Book(Book),
    /// The rows of an opened table.
    Table(Kind, Vec<Row>),
    Pair(Blend, Box<Source>, Box<Source>),
    Part(Region, Box<Source>),
}

impl Source {
    /// A layer over two sources of one kind.
    pub fn pair(blend: Blend, a: Source, b: Source) -> Source {
        assert_eq!(a.kind(), b.kind(), "a layer's sources have one kind");
        Source::Pair(blend, Box::new(a), Box::new(b))
    }

    /// The source inside a region, silent outside. Refused with 3 if a range is reversed.
    pub fn part(region: Region, inner: Source) -> Result<Source, Refusal> {
        if region.is_reversed() {
            return Err(Refusal::Reversed);
        }
        Ok(Source::Part(region, Box::new(inner)))
    }

    pub fn kind(&self) -> Kind {
        match self {
            Source::Book(book) => book.kind(),
            Source::Table(kind, _) => *kind,
            Source::Pair(_, a, _) => a.kind(),
            Source::Part(_, inner) => inner.kind(),
        }
    }

    pub fn decide(&self, packet: &Packet) -> Decision {
        let first_of = |rules: &[Rule]| {
            let found = rules.iter().find(|rule| rule.region.holds(packet));
            found.map_or(self.kind().silent(), |rule| rule.decision)
        };
        match self {
            Source::Book(book) => first_of(book.rules()),
            Source::Table(_, rows) => first_of(rows),
            Source::Pair(blend, a, b) => blend.of(self.kind(), a.decide(packet), b.decide(packet)),
            Source::Part(region, inner) if region.holds(packet) => inner.decide(packet),
            Source::Part(..) => self.kind().silent(),
        }
    }

    /// Every region that the source is made of.
    pub fn regions(&self) -> Vec<Region> {
        match self {
            Source::Book(book) => book.rules().iter().map(|rule| rule.region).collect(),
            Source::Table(_, rows) => rows.iter().map(|row| row.region).collect(),
            Source::Pair(_, a, b) => [a.regions(), b.regions()].concat(),
            Source::Part(region, inner) => [vec![*region], inner.regions()].concat(),
        }
    }
}

impl From<Book> for Source {
    fn from(book: Book) -> Source {
        Source::Book(book)
    }
}

#[cfg(test)]
mod tests {
    use super::*;

    const KINDS: [Kind; 2] = [Kind::Verdicts, Kind::Marks];

    #[test]
    fn kinds_keep_the_laws() {
        for kind in KINDS {
            let all = || 0..kind.count();
            for a in all() {
                assert!(kind.below(a, a));
                for b in all() {
                    assert!(!(kind.below(a, b) && kind.below(b, a)) || a == b);
                    let (meet, join) = (kind.meet(a, b), kind.join(a, b));
                    assert!(kind.below(meet, a) && kind.below(meet, b));
                    assert!(kind.below(a, join) && kind.below(b, join));
                    for c in all() {
                        assert!(!(kind.below(a, b) && kind.below(b, c)) || kind.below(a, c));
                        assert!(!(kind.below(c, a) && kind.below(c, b)) || kind.below(c, meet));
                        assert!(!(kind.below(a, c) && kind.below(b, c)) || kind.below(join, c));
                    }
                }
            }
        }
        assert!(!Kind::Marks.below(1, 2) && !Kind::Marks.below(2, 1));
        assert_eq!(Kind::Marks.join(5, 12), 13);
        assert_eq!(Kind::Verdicts.meet(2, 1), 1);
    }

    #[test]
    fn numbers_outside_a_kind_are_no_decisions() {
        for kind in KINDS {
            for other in [kind.count(), 255] {
                assert!(!kind.below(other, other) && !kind.below(0, other) && !kind.below(other, 0));
                assert_eq!(kind.meet(other, 0), kind.silent());
                assert_eq!(kind.join(0, other), kind.silent());
            }
        }
    }

    #[test]
    fn words_are_read_back() {
        for kind in KINDS {
            for decision in 0..kind.count() {
                let word = kind.word(decision);
                let expected = (decision != kind.silent()).then_some(decision);
                assert_eq!(kind.read(word.as_bytes()), expected, "{word}");
            }
        }
    }

    #[test]
    fn marks_words_keep_their_order() {
        let word = |text: &str| Kind::Marks.read(text.as_bytes());
        assert_eq!(word("log+hold"), Some(9));
        assert_eq!(word("log+meter+copy+hold"), Some(15));
        for bad in [
            "",
            "+",
            "log+",
            "+log",
            "log++meter",
            "log+log",
            "meter+log",
            "hold+copy",
            "LOG",
            "log meter",
            "none",
            "allow",
        ] {
            assert_eq!(word(bad), None, "{bad}");
        }
    }

    fn rule(protocol: u32, decision: Decision) -> Rule {
        Rule::new(Region::whole().with(4, Range::one(protocol)), decision)
    }

    #[test]
    fn a_book_is_edited_and_refuses() {
        let mut book = Book::open(Kind::Verdicts);
        assert_eq!(book.drop(0), Err(Refusal::NoSuchPosition));
        for protocol in 0..4 {
            book.push(rule(protocol, 2)).unwrap();
        }
        let order = |book: &Book| book.rules().iter().map(|r| r.region.0[4].low).collect::<Vec<_>>();
        book.shift(0, 3).unwrap();
        assert_eq!(order(&book), [1, 2, 3, 0]);
        book.shift(3, 1).unwrap();
        assert_eq!(order(&book), [1, 0, 2, 3]);
        assert_eq!(book.shift(4, 0), Err(Refusal::NoSuchPosition));
        assert_eq!(book.shift(0, 4), Err(Refusal::NoSuchPosition));
        assert_eq!(book.drop(1), Ok(rule(0, 2)));
        assert_eq!(book.recast(3, 9), Err(Refusal::NoSuchPosition));
        assert_eq!(book.recast(2, 1), Err(Refusal::BadDecision));
        assert_eq!(book.recast(2, 3), Err(Refusal::BadDecision));
        book.recast(2, 0).unwrap();
        assert_eq!(book.rules()[2], rule(3, 0));

        let reversed = Rule::new(Region::whole().with(1, Range::new(2, 1)), 1);
        assert_eq!(book.add(4, reversed), Err(Refusal::NoSuchPosition));
        assert_eq!(book.add(3, reversed), Err(Refusal::Reversed));
        assert_eq!(book.add(3, rule(9, 1)), Err(Refusal::BadDecision));
        while book.rules().len() < MAX_RULES {
            book.add(0, rule(9, 2)).unwrap();
        }
        assert_eq!(book.add(99, reversed), Err(Refusal::BookFull));
    }

    #[test]
    fn layers_decide() {
        let book = |decision| {
            let mut book = Book::open(Kind::Verdicts);
            book.push(rule(6, decision)).unwrap();
            Source::from(book)
        };
        let (six, seven) = ([0, 0, 0, 0, 6], [0, 0, 0, 0, 7]);
        let of = |blend, a, b| Source::pair(blend, book(a), book(b));
        assert_eq!(of(Blend::Over, 0, 2).decide(&six), 0);
        assert_eq!(of(Blend::Over, 2, 0).decide(&seven), 1);
        assert_eq!(of(Blend::Meet, 2, 0).decide(&six), 0);
        assert_eq!(of(Blend::Join, 0, 2).decide(&six), 2);
        let inside = Region::whole().with(4, Range::new(0, 6));
        assert_eq!(Source::part(inside, book(2)).unwrap().decide(&six), 2);
        let outside = Region::whole().with(4, Range::new(7, 9));
        assert_eq!(Source::part(outside, book(2)).unwrap().decide(&six), 1);
        let reversed = Region::whole().with(4, Range::new(9, 7));
        assert_eq!(Source::part(reversed, book(2)).err(), Some(Refusal::Reversed));
    }
}
