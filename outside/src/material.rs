//! Random material: rules of several shapes, books, layered sources, packets, texts and damage.

use crate::model::{Blend, Book, Decision, Kind, Packet, Range, Region, Row, Rule, Source, FIELDS, TOPS};
use crate::rng::Rng;
use crate::text::print_line;

/// What random rules look like.
#[derive(Clone, Copy, Debug, PartialEq, Eq)]
pub enum Shape {
    /// As a list for a real network would be written.
    Real,
    /// Each range whole, one value or any.
    Boxes,
    /// Each region inside the one before it or around it.
    Nested,
    /// Ranges with ends among very few values, so that many of them coincide or abut.
    Few,
    /// Only the last two fields are narrowed.
    Ports,
}

pub const SHAPES: [Shape; 5] = [Shape::Real, Shape::Boxes, Shape::Nested, Shape::Few, Shape::Ports];

pub fn kind(rng: &mut Rng) -> Kind {
    rng.pick(&[Kind::Verdicts, Kind::Marks])
}

/// A decision that is not silent. Few marks appear, so that decisions coincide.
pub fn decision(rng: &mut Rng, kind: Kind) -> Decision {
    match kind {
        Kind::Verdicts => rng.pick(&[0, 2]),
        Kind::Marks => rng.pick(&[1, 1, 2, 3, 4, 9, 15]),
    }
}

/// Any number from 0 to the field's largest, small, large and middling ones alike.
pub fn value(rng: &mut Rng, field: usize) -> u32 {
    let top = TOPS[field];
    match rng.below(4) {
        0 => rng.between(0, 3),
        1 => top - rng.between(0, 3),
        _ => rng.between(0, top),
    }
}

fn ordered(a: u32, b: u32) -> Range {
    Range::new(a.min(b), a.max(b))
}

fn any_range(rng: &mut Rng, field: usize) -> Range {
    match rng.below(4) {
        0 => Range::whole(field),
        1 => Range::one(value(rng, field)),
        _ => ordered(value(rng, field), value(rng, field)),
    }
}

fn few_range(rng: &mut Rng, field: usize) -> Range {
    if rng.once_in(3) {
        return Range::whole(field);
    }
    let top = TOPS[field];
    let ends = [0, 1, 2, 3, top - 1, top];
    ordered(rng.pick(&ends), rng.pick(&ends))
}

fn address_range(rng: &mut Rng) -> Range {
    let net = 0x0a00_0000 | rng.between(0, 2) << 16 | rng.between(0, 3) << 8;
    match rng.below(5) {
        0 | 1 => Range::new(net, net | 255),
        2 | 3 => Range::one(net | rng.between(1, 12)),
        _ => Range::whole(0),
    }
}

fn real_region(rng: &mut Rng) -> Region {
    let source_port = if rng.once_in(6) { Range::new(1024, 65_535) } else { Range::whole(1) };
    let port = match rng.below(5) {
        0 => Range::whole(3),
        1 => Range::new(5000, 5999),
        2 => Range::new(17, 80),
        _ => Range::one(rng.pick(&[22, 25, 53, 80, 443, 502, 5514])),
    };
    let protocol = if rng.once_in(4) { Range::whole(4) } else { Range::one(rng.pick(&[1, 6, 6, 6, 17, 17])) };
    Region([address_range(rng), source_port, address_range(rng), port, protocol])
}

/// A region inside the given one, narrower on one or two fields.
fn inside(rng: &mut Rng, mut outer: Region) -> Region {
    for _ in 0..=rng.below(2) {
        let field = rng.below(FIELDS);
        let Range { low, high } = outer.0[field];
        // Sometimes only one end moves, and by little.
        outer.0[field] = match rng.below(3) {
            0 if low < high => Range::new(low + 1, high),
            1 if low < high => Range::new(low, high - 1),
            _ => ordered(rng.between(low, high), rng.between(low, high)),
        };
    }
    outer
}

fn ports_region(rng: &mut Rng) -> Region {
    let port = ordered(rng.between(10, 90), rng.between(10, 90));
    let protocol = if rng.once_in(2) { Range::whole(4) } else { ordered(rng.between(0, 20), rng.between(0, 20)) };
    Region::whole().with(3, port).with(4, protocol)
}

pub fn region(rng: &mut Rng, shape: Shape) -> Region {
    match shape {
        Shape::Real => real_region(rng),
        Shape::Boxes => Region(std::array::from_fn(|field| any_range(rng, field))),
        Shape::Nested => inside(rng, Region::whole()),
        Shape::Few => Region(std::array::from_fn(|field| few_range(rng, field))),
        Shape::Ports => ports_region(rng),
    }
}

pub fn rules(rng: &mut Rng, kind: Kind, shape: Shape, count: usize) -> Vec<Rule> {
    let mut regions: Vec<Region> = Vec::with_capacity(count);
    for _ in 0..count {
        let next = match (shape, regions.last()) {
            (Shape::Nested, Some(&last)) => inside(rng, last),
            _ => region(rng, shape),
        };
        regions.push(next);
    }
    // Nested regions matter only when the inner ones come first.
    if shape == Shape::Nested && !rng.once_in(4) {
        regions.reverse();
    }
    regions.into_iter().map(|region| Rule::new(region, decision(rng, kind))).collect()
}

pub fn book(rng: &mut Rng, kind: Kind, shape: Shape, count: usize) -> Book {
    let mut book = Book::open(kind);
    for rule in rules(rng, kind, shape, count) {
        book.push(rule).expect("the material is good and not more than 64 rules");
    }
    book
}

/// A book whose table has exactly so many rows, from 1 to 1,220.
pub fn with_rows(rng: &mut Rng, kind: Kind, rows: usize) -> Book {
    let mut book = Book::open(kind);
    let mut push = |region, decision| book.push(Rule::new(region, decision)).expect("at most 64 rules");
    // A stair: rule i begins at its own source address and has a protocol of its own. The addresses before
    // the stair have one row, those at its i-th step 2i + 1: with n steps these are (n + 1) squared.
    let steps = (0..).find(|n| (n + 2) * (n + 2) > rows).expect("some square is above");
    let start = rng.between(1000, 2_000_000_000);
    for i in 0..steps as u32 {
        let region = Region::whole().with(0, Range::new(start + i, u32::MAX)).with(4, Range::one(2 * i + 1));
        push(region, decision(rng, kind));
    }
    // One address before the stair brings the rows that are wanting. In the middle it parts the addresses
    // before the stair in two, which is one row more; with n protocols apart it has 2n + 1 rows of its own,
    // or 2n if the first of them is 0.
    let wanting = (rows - (steps + 1) * (steps + 1)) as u32;
    let address = |value| Region::whole().with(0, Range::one(value));
    match wanting {
        0 => {}
        1 => push(address(0), decision(rng, kind)),
        2 => push(address(500), decision(rng, kind)),
        _ => {
            let first = 1 - wanting % 2;
            for i in 0..(wanting - 1) / 2 {
                push(address(500).with(4, Range::one(first + 2 * i)), decision(rng, kind));
            }
        }
    }
    book
}

/// A source with the given number of layers over books of up to `rules` rules each.
pub fn source(rng: &mut Rng, kind: Kind, shape: Shape, rules: usize, layers: usize) -> Source {
    if layers == 0 {
        let count = rng.below(rules + 1);
        return book(rng, kind, shape, count).into();
    }
    if rng.once_in(3) {
        let inner = source(rng, kind, shape, rules, layers - 1);
        return Source::part(region(rng, shape), inner).expect("the material has no reversed range");
    }
    let left = rng.below(layers);
    let blend = rng.pick(&[Blend::Over, Blend::Meet, Blend::Join]);
    let first = source(rng, kind, shape, rules, left);
    let second = source(rng, kind, shape, rules, layers - 1 - left);
    Source::pair(blend, first, second)
}

/// A packet at or near the ends of the regions' ranges, or anywhere.
pub fn packet(rng: &mut Rng, regions: &[Region]) -> Packet {
    if regions.is_empty() {
        return std::array::from_fn(|field| value(rng, field));
    }
    // Half of the packets keep to one region, except perhaps on one field.
    let home = rng.once_in(2).then(|| rng.pick(regions));
    let stray = rng.below(2 * FIELDS);
    std::array::from_fn(|field| match home {
        Some(region) if field != stray => {
            let Range { low, high } = region.0[field];
            let inside = rng.between(low, high);
            rng.pick(&[low, high, inside])
        }
        _ if rng.once_in(5) => value(rng, field),
        _ => {
            let Range { low, high } = rng.pick(regions).0[field];
            rng.pick(&[low.saturating_sub(1), low, high, high.saturating_add(1).min(TOPS[field])])
        }
    })
}

/// Lines of rules, with or without comments and empty lines between them and with or without the last line feed.
pub fn text(rng: &mut Rng, kind: Kind, rules: &[Rule]) -> Vec<u8> {
    let skipped = ["", "#", "# a note", "# allow * * * * *", "#deny all ~!"];
    let airy = rng.once_in(2);
    let mut text = String::new();
    for rule in rules {
        while airy && rng.once_in(5) {
            text.push_str(rng.pick(&skipped));
            text.push('\n');
        }
        text.push_str(&print_line(kind, rule));
        text.push('\n');
    }
    if rng.once_in(3) {
        text.pop();
    }
    text.into_bytes()
}

/// Words that are often wrong where a range or a decision is wanted.
const WORDS: [&str; 46] = [
    "",
    "#",
    "-",
    "*",
    "**",
    "*-*",
    "*-1",
    "1-*",
    "0",
    "00",
    "01",
    "007",
    "1-",
    "-1",
    "1--2",
    "1-2-3",
    "2-1",
    "9-10",
    "10-9",
    "255",
    "256",
    "65535",
    "65536",
    "70000-1",
    "4294967295",
    "4294967296",
    "4294967297",
    "18446744073709551617",
    "99999999999999999999999999999999999999",
    "+1",
    "1,2",
    "0x1",
    "1.0",
    "1/",
    ":",
    "tcp",
    "1.2.3",
    "1.2.3.4.5",
    ".2.3.4",
    "1.2.3.00",
    "1.2.3.4-",
    "1.2.3.4-1.2.3.3",
    "1.2.3.4-1.2.3.5-1.2.3.6",
    "none",
    "log+hold",
    "hold+log",
];

/// Puts another word in place of one word of a text.
pub fn swap_word(rng: &mut Rng, text: &mut Vec<u8>) {
    let is_gap = |byte: u8| byte == b' ' || byte == b'\n';
    if text.is_empty() {
        return;
    }
    let place = rng.below(text.len());
    let start = text[..place].iter().rposition(|&byte| is_gap(byte)).map_or(0, |gap| gap + 1);
    let end = text[place..].iter().position(|&byte| is_gap(byte)).map_or(text.len(), |gap| place + gap);
    text.splice(start..end, rng.pick(&WORDS).bytes());
}

/// Changes one to three bytes of a text: overwritten, taken out, doubled, or put in.
pub fn spoil(rng: &mut Rng, text: &mut Vec<u8>) {
    let telling = b" \n*-.0#+9a\r\t\0\x7f\x80";
    for _ in 0..=rng.below(3) {
        if text.is_empty() {
            text.push(rng.pick(telling));
            continue;
        }
        let place = rng.below(text.len());
        match rng.below(5) {
            0 => text[place] = rng.pick(telling),
            1 => text[place] = rng.below(256) as u8,
            2 => drop(text.remove(place)),
            3 => text.insert(place, text[place]),
            _ => text.insert(place, rng.pick(telling)),
        }
    }
}

/// A nested list of some rows with few decisions, mostly not reduced.
pub fn nested_rows(rng: &mut Rng, kind: Kind) -> Vec<Row> {
    let mut rows = Vec::new();
    // How many fields are cut at all, so that some lists are wide and some deep.
    let fields = 1 + rng.below(3);
    let cut: Vec<usize> = (0..fields).map(|_| rng.below(FIELDS)).collect();
    nest(rng, kind, &cut, 0, Region::whole(), &mut rows);
    rows
}

fn nest(rng: &mut Rng, kind: Kind, cut: &[usize], field: usize, region: Region, rows: &mut Vec<Row>) {
    if field == FIELDS {
        let decisions = if kind == Kind::Marks { [0, 5, 5] } else { [1, 2, 2] };
        rows.push(Row::new(region, rng.pick(&decisions)));
        return;
    }
    let mut low = 0;
    loop {
        let last = !cut.contains(&field) || rng.once_in(2);
        let high = if last { TOPS[field] } else { value(rng, field).max(low) };
        nest(rng, kind, cut, field + 1, region.with(field, Range::new(low, high)), rows);
        if high == TOPS[field] {
            return;
        }
        low = high + 1;
    }
}

/// Changes rows so that they are mostly no longer nested.
pub fn disturb(rng: &mut Rng, rows: &mut Vec<Row>) {
    let place = rng.below(rows.len());
    match rng.below(6) {
        0 => drop(rows.pop()),
        1 => drop(rows.remove(place)),
        2 => rows.insert(place, rows[place]),
        3 => rows.swap(0, place),
        _ => {
            let field = rng.below(FIELDS);
            let range = &mut rows[place].region.0[field];
            let end = if rng.once_in(2) { &mut range.low } else { &mut range.high };
            *end = match rng.below(3) {
                0 => end.saturating_sub(1),
                1 => end.saturating_add(1).min(TOPS[field]),
                _ => value(rng, field),
            };
        }
    }
    if rows.is_empty() {
        rows.push(Row::new(Region::whole().with(rng.below(FIELDS), Range::one(0)), 2));
    }
}

#[cfg(test)]
mod tests {
    use super::*;
    use crate::text::read;

    #[test]
    fn texts_are_read_back_as_their_rules() {
        let mut rng = Rng::new(11);
        for round in 0..300 {
            let kind = kind(&mut rng);
            let shape = SHAPES[round % SHAPES.len()];
            let rules = rules(&mut rng, kind, shape, round % 20);
            let text = text(&mut rng, kind, &rules);
            let placed = read(kind, &text).finish().expect("the material is good");
            let back: Vec<Rule> = placed.iter().map(|placed| placed.rule).collect();
            assert_eq!(back, rules);
        }
    }
}
