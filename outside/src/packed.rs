//! Packed tables: writing a source's table into blocks of bytes, and opening such bytes again.

use std::fmt;

use crate::model::{Kind, Packet, Range, Refusal, Region, Row, Source, FIELDS, TOPS};
use crate::table::{self, Forest, Tree};

pub const BLOCK: usize = 512;
pub const ROWS_A_BLOCK: usize = 18;
pub const ROW: usize = 28;
pub const MAX_BLOCKS: usize = 64;

/// The most bytes of a packed table.
pub const MAX_BYTES: usize = MAX_BLOCKS * BLOCK;

/// Where the rows of a block begin, and where its check does.
pub const ROWS_AT: usize = 4;
pub const CHECK_AT: usize = 508;

/// The bytes of a value of each field.
const WIDTHS: [usize; FIELDS] = [4, 2, 4, 2, 1];

/// The packed bytes of a source's table; refused with 5 if it has too many rows.
pub fn pack(source: &Source) -> Result<Vec<u8>, Refusal> {
    Ok(pack_rows(source.kind(), &table::rows(source)?))
}

/// Packs into the given bytes and answers the number of rows. Refused with 5, and nothing is written, if the
/// table has too many rows or more blocks than the bytes have whole ones. Later bytes stay untouched.
pub fn pack_into(source: &Source, bytes: &mut [u8]) -> Result<usize, Refusal> {
    let rows = table::rows(source)?;
    let packed = pack_rows(source.kind(), &rows);
    let room = bytes.get_mut(..packed.len()).ok_or(Refusal::TooManyRows)?;
    room.copy_from_slice(&packed);
    Ok(rows.len())
}

/// The blocks of any rows, nested or not.
pub fn pack_rows(kind: Kind, rows: &[Row]) -> Vec<u8> {
    let mut bytes = Vec::new();
    for (number, rows) in rows.chunks(ROWS_A_BLOCK).enumerate() {
        let mut block = Vec::with_capacity(BLOCK);
        block.extend_from_slice(&(rows.len() as u16).to_be_bytes());
        block.extend_from_slice(&(number as u16).to_be_bytes());
        for row in rows {
            pack_row(kind, row, &mut block);
        }
        block.resize(CHECK_AT, 0);
        block.extend_from_slice(&check(&block).to_be_bytes());
        bytes.extend_from_slice(&block);
    }
    bytes
}

fn pack_row(kind: Kind, row: &Row, block: &mut Vec<u8>) {
    for (range, width) in row.region.0.iter().zip(WIDTHS) {
        for end in [range.low, range.high] {
            block.extend_from_slice(&end.to_be_bytes()[4 - width..]);
        }
    }
    block.push(row.decision);
    block.push(kind.number());
}

/// The sum of each byte times its place, places counted from 1.
pub fn check(bytes: &[u8]) -> u32 {
    (1..).zip(bytes).map(|(place, &byte): (u32, _)| place * u32::from(byte)).sum()
}

/// Writes the right check into a block whose other bytes were changed.
pub fn mend(block: &mut [u8]) {
    let sum = check(&block[..CHECK_AT]);
    block[CHECK_AT..].copy_from_slice(&sum.to_be_bytes());
}

/// Why bytes are not opened, and the place: a block's or a row's number, as the refusal says.
#[derive(Clone, Copy, Debug, PartialEq, Eq)]
pub struct Damage {
    pub refusal: Refusal,
    pub place: usize,
}

impl fmt::Display for Damage {
    fn fmt(&self, out: &mut fmt::Formatter<'_>) -> fmt::Result {
        write!(out, "{} place {}", self.refusal, self.place)
    }
}

/// The source that decides by the rows of packed bytes.
pub fn open(kind: Kind, bytes: &[u8]) -> Result<Source, Damage> {
    let damage = |refusal, place| Damage { refusal, place };
    if bytes.is_empty() || !bytes.len().is_multiple_of(BLOCK) || bytes.len() > MAX_BYTES {
        return Err(damage(Refusal::BadLength, 0));
    }
    let last = bytes.len() / BLOCK - 1;
    let mut rows = Vec::new();
    for (number, block) in bytes.chunks(BLOCK).enumerate() {
        let (body, sum) = block.split_at(CHECK_AT);
        if check(body).to_be_bytes() != sum {
            return Err(damage(Refusal::BadCheck, number));
        }
        let count = number_of(&body[0..2]) as usize;
        let count_is_right = if number == last { (1..=ROWS_A_BLOCK).contains(&count) } else { count == ROWS_A_BLOCK };
        let number_is_right = number_of(&body[2..4]) as usize == number;
        let unused = body.get(ROWS_AT + count * ROW..).unwrap_or(&[]);
        if !count_is_right || !number_is_right || unused.iter().any(|&byte| byte != 0) {
            return Err(damage(Refusal::BadFrame, number));
        }
        for bytes in body[ROWS_AT..].chunks(ROW).take(count) {
            let row = unpack_row(bytes);
            if bytes[ROW - 1] != kind.number() || !kind.has(row.decision) {
                return Err(damage(Refusal::ForeignRow, rows.len()));
            }
            rows.push(row);
        }
    }
    if let Some(place) = not_nested(&rows) {
        return Err(damage(Refusal::NotNested, place));
    }
    if let Some(place) = not_reduced(&rows) {
        return Err(damage(Refusal::NotReduced, place));
    }
    Ok(Source::Table(kind, rows))
}

/// The call of the bench rig: the verdict of a packet by packed bytes, or 100 and the refusal of opening them.
pub fn rig(bytes: &[u8], packet: &Packet) -> u32 {
    match open(Kind::Verdicts, bytes) {
        Ok(source) => u32::from(source.decide(packet)),
        Err(damage) => 100 + u32::from(damage.refusal.number()),
    }
}

fn number_of(bytes: &[u8]) -> u32 {
    bytes.iter().fold(0, |sum, &byte| sum << 8 | u32::from(byte))
}

fn unpack_row(mut bytes: &[u8]) -> Row {
    let mut next = |width: usize| {
        let (end, rest) = bytes.split_at(width);
        bytes = rest;
        number_of(end)
    };
    let ranges = WIDTHS.map(|width| Range::new(next(width), next(width)));
    Row::new(Region(ranges), next(1) as u8)
}

/// The first row where the rows so far begin no nested list, or the count of rows if the list ends short.
fn not_nested(rows: &[Row]) -> Option<usize> {
    // What the next row must begin with: the open ranges of the row before on the fields before the deepest
    // one that is not at its end, the value behind it on that field, and 0 on all later ones.
    let mut open: Vec<Range> = Vec::new();
    let mut start = Some(0);
    for (place, row) in rows.iter().enumerate() {
        let ranges = &row.region.0;
        let field = open.len();
        let lows = |field: usize, low: u32| ranges[field].low == low && !ranges[field].is_reversed();
        let begins = start.is_some_and(|low| {
            ranges[..field] == open && lows(field, low) && (field + 1..FIELDS).all(|later| lows(later, 0))
        });
        if !begins {
            return Some(place);
        }
        let deepest = (0..FIELDS).rev().find(|&field| ranges[field].high < TOPS[field]);
        open = ranges[..deepest.unwrap_or(0)].to_vec();
        start = deepest.map(|field| ranges[field].high + 1);
    }
    start.map(|_| rows.len())
}

/// The lowest row of a nested list that starts a range alike its left neighbour.
fn not_reduced(rows: &[Row]) -> Option<usize> {
    let mut lowest = None;
    tree_of(&mut Forest::new(), 0, 0, rows, &mut lowest);
    lowest
}

/// The tree of nested rows that share their ranges before `field`; the first of them is row number `place`.
fn tree_of(forest: &mut Forest, field: usize, place: usize, rows: &[Row], lowest: &mut Option<usize>) -> Tree {
    if field == FIELDS {
        return forest.leaf(rows[0].decision);
    }
    let mut ranges: Vec<(u32, Tree)> = Vec::new();
    let mut start = place;
    for group in rows.chunk_by(|a, b| a.region.0[field] == b.region.0[field]) {
        let tree = tree_of(forest, field + 1, start, group, lowest);
        if ranges.last().is_some_and(|&(_, left)| left == tree) {
            *lowest = Some(lowest.map_or(start, |known| known.min(start)));
        }
        ranges.push((group[0].region.0[field].high, tree));
        start += group.len();
    }
    forest.branch(ranges)
}

#[cfg(test)]
mod tests {
    use super::*;
    use crate::brute;
    use crate::material::{self, SHAPES};
    use crate::model::Book;
    use crate::rng::Rng;

    fn refused(refusal: Refusal, place: usize) -> Option<Damage> {
        Some(Damage { refusal, place })
    }

    fn outcome(bytes: &[u8]) -> Option<Damage> {
        open(Kind::Verdicts, bytes).err()
    }

    #[test]
    fn the_empty_book_packs_to_one_row() {
        let bytes = pack(&Book::open(Kind::Verdicts).into()).unwrap();
        assert_eq!(bytes.len(), BLOCK);
        assert_eq!(bytes[..8], [0, 1, 0, 0, 0, 0, 0, 0]);
        assert_eq!(number_of(&bytes[CHECK_AT..]), 63_305);
    }

    #[test]
    fn packing_keeps_within_its_bytes() {
        let mut rng = Rng::new(5);
        for (rows, blocks) in [(1, 1), (18, 1), (19, 2), (36, 2), (37, 3), (1152, 64)] {
            let source = Source::from(material::with_rows(&mut rng, Kind::Marks, rows));
            let packed = pack(&source).unwrap();
            assert_eq!(packed.len(), blocks * BLOCK);
            let mut bytes = vec![7; packed.len() + 600];
            assert_eq!(pack_into(&source, &mut bytes), Ok(rows));
            assert_eq!(bytes[..packed.len()], packed);
            assert!(bytes[packed.len()..].iter().all(|&byte| byte == 7));
            let mut short = vec![7; packed.len() - 1];
            assert_eq!(pack_into(&source, &mut short), Err(Refusal::TooManyRows));
            assert!(short.iter().all(|&byte| byte == 7));
        }
    }

    #[test]
    fn what_is_packed_is_opened() {
        let mut rng = Rng::new(6);
        for round in 0..300 {
            let kind = material::kind(&mut rng);
            let source = material::source(&mut rng, kind, SHAPES[round % SHAPES.len()], 8, round % 3);
            let Ok(bytes) = pack(&source) else { continue };
            let opened = open(kind, &bytes).expect("packed bytes are opened");
            let regions = source.regions();
            for _ in 0..50 {
                let packet = material::packet(&mut rng, &regions);
                assert_eq!(opened.decide(&packet), source.decide(&packet));
                if kind == Kind::Verdicts {
                    assert_eq!(rig(&bytes, &packet), u32::from(source.decide(&packet)));
                }
            }
            assert_eq!(pack(&opened).unwrap(), bytes);
            let other = if kind == Kind::Marks { Kind::Verdicts } else { Kind::Marks };
            assert_eq!(open(other, &bytes).err(), refused(Refusal::ForeignRow, 0));
        }
    }

    #[test]
    fn lengths_are_checked_first() {
        for length in [0, 1, 511, 513, 512 * 65, 512 * 64 + 1] {
            assert_eq!(outcome(&vec![0xff; length]), refused(Refusal::BadLength, 0), "{length}");
        }
        assert_eq!(outcome(&vec![0xff; 512 * 64]), refused(Refusal::BadCheck, 0));
        assert_eq!(rig(&[], &[0; FIELDS]), 111);
    }

    /// Three blocks, the last with two rows.
    fn three_blocks() -> Vec<u8> {
        let mut rng = Rng::new(7);
        pack(&material::with_rows(&mut rng, Kind::Verdicts, 38).into()).unwrap()
    }

    #[test]
    fn blocks_are_checked_one_by_one() {
        let good = three_blocks();
        for number in 0..3 {
            let block = number * BLOCK..(number + 1) * BLOCK;
            for place in [0, 1, 2, 3, 4, 31, 300, 507, 508, 511] {
                let mut bytes = good.clone();
                bytes[block.start + place] ^= 1;
                assert_eq!(outcome(&bytes), refused(Refusal::BadCheck, number), "{number} {place}");
            }
            let last_bytes = [(ROWS_AT + 2 * ROW, 1), (CHECK_AT - 1, 1)];
            let unused = if number == 2 { &last_bytes[..] } else { &[] };
            for &(place, value) in [(0, 1), (1, 0), (1, 19), (2, 1), (3, 9)].iter().chain(unused) {
                let mut bytes = good.clone();
                bytes[block.start + place] = value;
                mend(&mut bytes[block.clone()]);
                assert_eq!(outcome(&bytes), refused(Refusal::BadFrame, number), "{number} {place}");
            }
            let rows = if number == 2 { 2 } else { ROWS_A_BLOCK };
            for row in [0, rows / 2, rows - 1] {
                for (place, value) in [(26, 3), (26, 255), (27, 2), (27, 0)] {
                    let mut bytes = good.clone();
                    bytes[block.start + ROWS_AT + row * ROW + place] = value;
                    mend(&mut bytes[block.clone()]);
                    let expected = refused(Refusal::ForeignRow, number * ROWS_A_BLOCK + row);
                    assert_eq!(outcome(&bytes), expected, "{number} {row} {place}");
                }
            }
        }
    }

    #[test]
    fn an_earlier_block_goes_before_a_later_one() {
        let mut bytes = three_blocks();
        bytes[ROWS_AT + 3 * ROW + 26] = 9;
        mend(&mut bytes[..BLOCK]);
        bytes[BLOCK + CHECK_AT] ^= 1;
        assert_eq!(outcome(&bytes), refused(Refusal::ForeignRow, 3));
        bytes[2] = 1;
        assert_eq!(outcome(&bytes), refused(Refusal::BadCheck, 0));
        mend(&mut bytes[..BLOCK]);
        assert_eq!(outcome(&bytes), refused(Refusal::BadFrame, 0));
    }

    #[test]
    fn lists_that_are_not_nested_or_not_reduced_are_placed() {
        let mut rng = Rng::new(8);
        let mut met = [0; 3];
        for round in 0..3000 {
            let kind = material::kind(&mut rng);
            let mut rows = material::nested_rows(&mut rng, kind);
            if round % 2 == 0 {
                material::disturb(&mut rng, &mut rows);
            }
            let expected = match brute::first_not_nested(&rows) {
                Some(place) => refused(Refusal::NotNested, place),
                None => brute::first_alike(kind, &rows).and_then(|place| refused(Refusal::NotReduced, place)),
            };
            assert_eq!(open(kind, &pack_rows(kind, &rows)).err(), expected, "round {round}: {rows:?}");
            met[expected.map_or(0, |damage| damage.refusal as usize - 14)] += 1;
        }
        assert!(met.iter().all(|&times| times > 200), "{met:?}");
    }

    #[test]
    fn a_full_list_may_end_short() {
        let mut rng = Rng::new(9);
        let mut rows = table::rows(&material::with_rows(&mut rng, Kind::Verdicts, 1152).into()).unwrap();
        let last = rows.last_mut().unwrap();
        last.region.0[4].high = 254;
        assert_eq!(outcome(&pack_rows(Kind::Verdicts, &rows)), refused(Refusal::NotNested, 1152));
    }
}
