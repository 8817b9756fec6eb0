//! Ways to damage a packed table, so that opening it meets every refusal at many places.
//!
//! First rows are changed and packed, which gives them right counts, numbers and checks; then bytes are changed, and all
//! changes that are meant to go further than the check make it right again.

use std::ops;

use crate::model::{Kind, Range, Row, FIELDS, TOPS};
use crate::packed::{mend, pack_rows, BLOCK, CHECK_AT, MAX_BYTES, ROW, ROWS_AT, ROWS_A_BLOCK};
use crate::rng::Rng;

/// A change of nested rows.
#[derive(Clone, Copy, Debug, PartialEq, Eq)]
pub enum OfRows {
    /// A range that ends before it begins.
    Reversed,
    /// A range that begins too late or ends too early, in all its rows.
    Gap,
    /// A range that begins too early or ends too late, in all its rows.
    Overlap,
    /// The first range of a field does not begin at 0.
    FirstRow,
    /// The last range of a field does not end at the largest value.
    LastRow,
    /// Rows are wanting at the end.
    EndsShort,
    /// A row follows where the list has ended.
    GoesOn,
    Twice,
    Missing,
    RowsSwapped,
    /// Two neighbouring ranges with all their rows.
    RangesSwapped,
    /// One end in one row.
    OneEnd,
    /// A range without any value stands before a good one and ends right before it begins.
    EmptyRange,
    /// A range is written as two alike ones.
    Halves,
    /// The same, and the left, the right or each of the two is cut once more inside.
    LeftCut,
    RightCut,
    BothCut,
    /// One row gets another decision of the kind, the silent one or its neighbour's more often.
    Recast,
    /// Halves of which the right one has another decision in one row.
    NearlyAlike,
}

impl OfRows {
    pub const ALL: [OfRows; 19] = [
        OfRows::Reversed,
        OfRows::Gap,
        OfRows::Overlap,
        OfRows::FirstRow,
        OfRows::LastRow,
        OfRows::EndsShort,
        OfRows::GoesOn,
        OfRows::Twice,
        OfRows::Missing,
        OfRows::RowsSwapped,
        OfRows::RangesSwapped,
        OfRows::OneEnd,
        OfRows::EmptyRange,
        OfRows::Halves,
        OfRows::LeftCut,
        OfRows::RightCut,
        OfRows::BothCut,
        OfRows::Recast,
        OfRows::NearlyAlike,
    ];

    /// Those that leave the rows nested and deciding as before.
    pub const ALIKE: [OfRows; 4] = [OfRows::Halves, OfRows::LeftCut, OfRows::RightCut, OfRows::BothCut];

    /// Changes the rows, of which there is at least one; false, if this cannot be done to them.
    pub fn change(self, rng: &mut Rng, kind: Kind, rows: &mut Vec<Row>) -> bool {
        let (place, last, field) = (rng.below(rows.len()), rows.len() - 1, rng.below(FIELDS));
        match self {
            OfRows::Reversed => reverse(rng, &mut rows[place].region.0[field]),
            OfRows::Gap => return gap(rng, rows),
            OfRows::Overlap => return overlap(rng, rows),
            OfRows::FirstRow => return first_row(rng, rows, field),
            OfRows::LastRow => return last_row(rng, rows, field),
            OfRows::GoesOn => rows.push(rows[place]),
            OfRows::Twice => rows.insert(place, rows[place]),
            OfRows::EndsShort | OfRows::Missing | OfRows::RowsSwapped if last == 0 => return false,
            OfRows::EndsShort => rows.truncate(1 + rng.below(last)),
            OfRows::Missing => drop(rows.remove(rng.below(last))),
            OfRows::RowsSwapped => rows.swap(place, (place + 1 + rng.below(last)) % (last + 1)),
            OfRows::RangesSwapped => {
                let Some((_, this, next)) = neighbours(rng, rows) else { return false };
                rows[this.start..next.end].rotate_left(this.len());
            }
            OfRows::OneEnd => one_end(rng, &mut rows[place], field),
            OfRows::EmptyRange => {
                let Some((field, _, next)) = neighbours(rng, rows) else { return false };
                let mut empty = rows[next.start];
                reverse_behind(&mut empty.region.0[field]);
                rows.insert(next.start, empty);
            }
            OfRows::Halves => return halves(rng, rows, field, false, false).is_some(),
            OfRows::LeftCut => return halves(rng, rows, field, true, false).is_some(),
            OfRows::RightCut => return halves(rng, rows, field, false, true).is_some(),
            OfRows::BothCut => return halves(rng, rows, field, true, true).is_some(),
            OfRows::Recast => recast(rng, kind, rows, place),
            OfRows::NearlyAlike => {
                let Some(right) = halves(rng, rows, field, false, false) else { return false };
                let place = right.start + rng.below(right.len());
                recast(rng, kind, rows, place);
            }
        }
        true
    }
}

/// The rows around a place that share its ranges up to a field, that field's range too.
fn group(rows: &[Row], place: usize, field: usize) -> ops::Range<usize> {
    let same = |row: &Row| row.region.0[..=field] == rows[place].region.0[..=field];
    let start = rows[..place].iter().rposition(|row| !same(row)).map_or(0, |before| before + 1);
    let end = rows[place..].iter().position(|row| !same(row)).map_or(rows.len(), |behind| place + behind);
    start..end
}

/// A field and two ranges on it that follow one another under the same earlier ranges, each by its rows.
fn neighbours(rng: &mut Rng, rows: &[Row]) -> Option<(usize, ops::Range<usize>, ops::Range<usize>)> {
    let mut found = Vec::new();
    for place in 1..rows.len() {
        let (left, right) = (&rows[place - 1].region, &rows[place].region);
        found.extend((0..FIELDS).find(|&field| left.0[field] != right.0[field]).map(|field| (place, field)));
    }
    if found.is_empty() {
        return None;
    }
    let (place, field) = rng.pick(&found);
    Some((field, group(rows, place - 1, field), group(rows, place, field)))
}

/// Moves the low or the high end of a range in all its rows.
fn move_end(rows: &mut [Row], field: usize, is_low: bool, to: u32) {
    for row in rows {
        let range = &mut row.region.0[field];
        *(if is_low { &mut range.low } else { &mut range.high }) = to;
    }
}

fn reverse(rng: &mut Rng, range: &mut Range) {
    if range.low == range.high || (range.low > 0 && rng.once_in(2)) {
        reverse_behind(range);
    } else {
        *range = Range::new(range.high, range.low);
    }
}

/// Lets a range end right before it begins; the low end stays, unless it is 0.
fn reverse_behind(range: &mut Range) {
    let low = range.low.max(1);
    *range = Range::new(low, low - 1);
}

fn gap(rng: &mut Rng, rows: &mut [Row]) -> bool {
    let Some((field, this, next)) = neighbours(rng, rows) else { return false };
    let (left, right) = (rows[this.start].region.0[field], rows[next.start].region.0[field]);
    if right.low < right.high && rng.once_in(2) {
        let low = rng.between(right.low + 1, right.high);
        move_end(&mut rows[next], field, true, rng.pick(&[right.low + 1, low]));
    } else if left.low < left.high {
        let high = rng.between(left.low, left.high - 1);
        move_end(&mut rows[this], field, false, rng.pick(&[left.high - 1, high]));
    } else {
        return false;
    }
    true
}

fn overlap(rng: &mut Rng, rows: &mut [Row]) -> bool {
    let Some((field, this, next)) = neighbours(rng, rows) else { return false };
    let (left, right) = (rows[this.start].region.0[field], rows[next.start].region.0[field]);
    if right.low > 0 && rng.once_in(2) {
        let low = rng.between(0, right.low - 1);
        move_end(&mut rows[next], field, true, rng.pick(&[right.low - 1, low]));
    } else if left.high < TOPS[field] {
        let high = rng.between(left.high + 1, TOPS[field]);
        move_end(&mut rows[this], field, false, rng.pick(&[left.high + 1, high]));
    } else {
        return false;
    }
    true
}

fn first_row(rng: &mut Rng, rows: &mut [Row], field: usize) -> bool {
    let Range { low, high } = rows[0].region.0[field];
    if low == high {
        return false;
    }
    let first = group(rows, 0, field);
    let low = rng.between(low + 1, high);
    move_end(&mut rows[first], field, true, rng.pick(&[1, low]));
    true
}

fn last_row(rng: &mut Rng, rows: &mut [Row], field: usize) -> bool {
    let Range { low, high } = rows[rows.len() - 1].region.0[field];
    if low == high {
        return false;
    }
    let last = group(rows, rows.len() - 1, field);
    let middle = rng.between(low, high - 1);
    move_end(&mut rows[last], field, false, rng.pick(&[high - 1, middle]));
    true
}

fn one_end(rng: &mut Rng, row: &mut Row, field: usize) {
    let top = TOPS[field];
    let Range { low, high } = row.region.0[field];
    let is_low = rng.once_in(2);
    let old = if is_low { low } else { high };
    let any = rng.between(0, top);
    let choices = [old.saturating_sub(1), old.saturating_add(1).min(top), any, 0, top];
    let other: Vec<u32> = choices.into_iter().filter(|&value| value != old).collect();
    move_end(std::slice::from_mut(row), field, is_low, rng.pick(&other));
}

fn recast(rng: &mut Rng, kind: Kind, rows: &mut [Row], place: usize) {
    let neighbour = rows[place.saturating_sub(1)].decision;
    let any = rng.below(kind.count() as usize) as u8;
    let choices = [kind.silent(), neighbour, any, 0, kind.count() - 1];
    let other: Vec<u8> = choices.into_iter().filter(|&decision| decision != rows[place].decision).collect();
    rows[place].decision = rng.pick(&other);
}

/// Writes a range of a field as two alike ones; then cuts once more inside the left one, the right one or both. Answers
/// the rows of the right one. Any row's range may be the one, if it has more than one value.
pub fn halves(rng: &mut Rng, rows: &mut Vec<Row>, field: usize, left: bool, right: bool) -> Option<ops::Range<usize>> {
    let mut halved = rows.clone();
    let whole = 0..rows.len();
    let (first, mut second) = halve_one(rng, &mut halved, whole, &[field])?;
    let later: Vec<usize> = (field + 1..FIELDS).collect();
    if right {
        let (_, inner) = halve_one(rng, &mut halved, second.clone(), &later)?;
        second.end += inner.len();
    }
    if left {
        let (_, inner) = halve_one(rng, &mut halved, first, &later)?;
        second = second.start + inner.len()..second.end + inner.len();
    }
    *rows = halved;
    Some(second)
}

/// Writes one range as two alike ones, on one of the given fields and among the rows of a part; answers the rows of both.
fn halve_one(
    rng: &mut Rng,
    rows: &mut Vec<Row>,
    part: ops::Range<usize>,
    fields: &[usize],
) -> Option<(ops::Range<usize>, ops::Range<usize>)> {
    let wide = |&(place, field): &(usize, usize)| {
        let Range { low, high } = rows[place].region.0[field];
        low < high
    };
    let choices: Vec<(usize, usize)> =
        part.flat_map(|place| fields.iter().map(move |&field| (place, field))).filter(wide).collect();
    if choices.is_empty() {
        return None;
    }
    let (place, field) = rng.pick(&choices);
    let Range { low, high } = rows[place].region.0[field];
    let any = rng.between(low, high - 1);
    let middle = rng.pick(&[low, any, high - 1]);
    let left = group(rows, place, field);
    let right = left.end..left.end + left.len();
    let copy = rows[left.clone()].to_vec();
    rows.splice(left.end..left.end, copy);
    move_end(&mut rows[left.clone()], field, false, middle);
    move_end(&mut rows[right.clone()], field, true, middle + 1);
    Some((left, right))
}

/// A change of packed bytes.
#[derive(Clone, Copy, Debug, PartialEq, Eq)]
pub enum OfBytes {
    NoByte,
    /// The length is no multiple of a block's.
    PartBlock,
    /// More than 64 blocks.
    TooLong,
    BlockLost,
    BlockTwice,
    /// A block without rows, otherwise right, stands behind all others or alone.
    EmptyBlock,
    /// Two blocks change places, their numbers with them or not.
    BlocksSwapped,
    /// A byte before the check; the check stays.
    BodyByte,
    /// A byte of the check.
    CheckByte,
    /// Two bytes, so that the check stays right.
    Balanced,
    /// From here on the check is made right again.
    Count,
    Number,
    Unused,
    KindByte,
    Decision,
    AnyByte,
}

impl OfBytes {
    pub const ALL: [OfBytes; 16] = [
        OfBytes::NoByte,
        OfBytes::PartBlock,
        OfBytes::TooLong,
        OfBytes::BlockLost,
        OfBytes::BlockTwice,
        OfBytes::EmptyBlock,
        OfBytes::BlocksSwapped,
        OfBytes::BodyByte,
        OfBytes::CheckByte,
        OfBytes::Balanced,
        OfBytes::Count,
        OfBytes::Number,
        OfBytes::Unused,
        OfBytes::KindByte,
        OfBytes::Decision,
        OfBytes::AnyByte,
    ];

    /// Changes the bytes; false, if this cannot be done to them.
    pub fn change(self, rng: &mut Rng, kind: Kind, bytes: &mut Vec<u8>) -> bool {
        let blocks = bytes.len() / BLOCK;
        if blocks == 0 {
            return false;
        }
        let chosen = rng.below(blocks);
        match self {
            OfBytes::NoByte => bytes.clear(),
            OfBytes::PartBlock if rng.once_in(2) => bytes.truncate(bytes.len() - 1 - rng.below(BLOCK - 1)),
            OfBytes::PartBlock => bytes.resize(bytes.len() + 1 + rng.below(BLOCK - 1), 0),
            OfBytes::TooLong => {
                let length = MAX_BYTES + rng.pick(&[1, BLOCK - 1, BLOCK, 2 * BLOCK]);
                *bytes = bytes.iter().copied().cycle().take(length).collect();
            }
            OfBytes::BlockLost | OfBytes::BlocksSwapped if blocks == 1 => return false,
            OfBytes::BlockLost => drop(bytes.drain(chosen * BLOCK..(chosen + 1) * BLOCK)),
            OfBytes::BlockTwice => bytes.extend_from_within(chosen * BLOCK..(chosen + 1) * BLOCK),
            OfBytes::EmptyBlock => {
                bytes.truncate(rng.pick(&[0, blocks]) * BLOCK);
                bytes.extend_from_slice(&empty_block(bytes.len() / BLOCK));
            }
            OfBytes::BlocksSwapped => swap_blocks(rng, bytes, chosen),
            _ => return self.change_block(rng, kind, &mut bytes[chosen * BLOCK..(chosen + 1) * BLOCK]),
        }
        true
    }

    /// Changes one block.
    fn change_block(self, rng: &mut Rng, kind: Kind, block: &mut [u8]) -> bool {
        let count = usize::from(u16::from_be_bytes([block[0], block[1]])).clamp(1, ROWS_A_BLOCK);
        let any = rng.below(count);
        let row = ROWS_AT + rng.pick(&[0, any, count - 1]) * ROW;
        let body = rng.below(CHECK_AT);
        match self {
            OfBytes::BodyByte => block[body] ^= 1 << rng.below(8),
            OfBytes::CheckByte => block[CHECK_AT + rng.below(4)] ^= 1 << rng.below(8),
            OfBytes::Balanced => return balance(rng, block),
            OfBytes::Count => {
                let wrong = [0, count - 1, count + 1, 1, 17, 18, 19, 255, count + 256, 65_535];
                put_other(rng, &mut block[..2], &wrong);
            }
            OfBytes::Number => put_other(rng, &mut block[2..4], &[0, 1, 2, 3, 63, 64, 256, 257, 65_535]),
            OfBytes::Unused if count == ROWS_A_BLOCK => return false,
            OfBytes::Unused => {
                let first = ROWS_AT + count * ROW;
                let any = first + rng.below(CHECK_AT - first);
                block[rng.pick(&[first, any, CHECK_AT - 1])] = 1 + rng.below(255) as u8;
            }
            OfBytes::KindByte => put_other(rng, &mut block[row + 27..row + 28], &[0, 1, 2, 3, 255]),
            OfBytes::Decision => {
                let most = usize::from(kind.count());
                put_other(rng, &mut block[row + 26..row + 27], &[most, most + 1, 128, 255]);
            }
            _ => block[body] ^= 1 + rng.below(255) as u8,
        }
        if !matches!(self, OfBytes::BodyByte | OfBytes::CheckByte) {
            mend(block);
        }
        true
    }
}

/// Puts one of the numbers that is not there yet, big-endian.
fn put_other(rng: &mut Rng, place: &mut [u8], numbers: &[usize]) {
    let ends: Vec<[u8; 8]> = numbers.iter().map(|number| number.to_be_bytes()).collect();
    let others: Vec<&[u8]> =
        ends.iter().map(|bytes| &bytes[8 - place.len()..]).filter(|&bytes| bytes != &*place).collect();
    place.copy_from_slice(rng.pick(&others));
}

/// Changes two bytes of a block and keeps the sum of each byte times its place, places counted from 1.
fn balance(rng: &mut Rng, block: &mut [u8]) -> bool {
    for _ in 0..200 {
        let place = 1 + rng.below(CHECK_AT / 2);
        let (one, other) = (place - 1, 2 * place - 1);
        if block[one] <= 253 && block[other] >= 1 {
            block[one] += 2;
            block[other] -= 1;
            return true;
        }
    }
    false
}

/// A block without rows, with the right number and check.
pub fn empty_block(number: usize) -> [u8; BLOCK] {
    let mut block = [0; BLOCK];
    block[2..4].copy_from_slice(&(number as u16).to_be_bytes());
    mend(&mut block);
    block
}

/// A part of a block at the end stays where it is.
fn swap_blocks(rng: &mut Rng, bytes: &mut [u8], chosen: usize) {
    let mut blocks: Vec<Vec<u8>> = bytes.chunks_exact(BLOCK).map(<[u8]>::to_vec).collect();
    let count = blocks.len();
    blocks.swap(chosen, (chosen + 1 + rng.below(count - 1)) % count);
    if rng.once_in(2) {
        for (number, block) in blocks.iter_mut().enumerate() {
            block[2..4].copy_from_slice(&(number as u16).to_be_bytes());
            mend(block);
        }
    }
    bytes[..count * BLOCK].copy_from_slice(&blocks.concat());
}

/// Packed rows with one damage, or with several at once.
pub fn damaged(rng: &mut Rng, kind: Kind, rows: &[Row]) -> Vec<u8> {
    let (of_rows, of_bytes) = match rng.below(8) {
        0..=3 => (1, 0),
        4 | 5 => (0, 1),
        6 => (1, 1),
        _ => (rng.below(3), 1 + rng.below(3)),
    };
    let mut rows = rows.to_vec();
    for _ in 0..of_rows {
        // Alike neighbours are met only behind all other checks, so they come more often.
        let ways = if rng.once_in(3) { &OfRows::ALIKE[..] } else { &OfRows::ALL[..] };
        if !rng.pick(ways).change(rng, kind, &mut rows) {
            OfRows::OneEnd.change(rng, kind, &mut rows);
        }
    }
    let mut bytes = pack_rows(kind, &rows);
    for _ in 0..of_bytes {
        let way = rng.pick(&OfBytes::ALL);
        // Long bytes take long, so they come seldom.
        if way != OfBytes::TooLong || rng.once_in(20) {
            way.change(rng, kind, &mut bytes);
        }
    }
    bytes
}

#[cfg(test)]
mod tests {
    use super::*;
    use crate::brute;
    use crate::material::{self, SHAPES};
    use crate::model::Refusal;
    use crate::packed::{open, Damage};
    use crate::table;

    /// A table of so few rows that brute force can look at it.
    fn small_table(rng: &mut Rng, kind: Kind, round: usize) -> Vec<Row> {
        loop {
            let count = rng.below(4);
            let source = material::book(rng, kind, SHAPES[round % SHAPES.len()], count).into();
            match table::rows(&source) {
                Ok(rows) if rows.len() <= 30 => return rows,
                _ => {}
            }
        }
    }

    #[test]
    fn changed_rows_meet_the_refusal_that_is_meant() {
        let mut rng = Rng::new(21);
        let mut met = [0; OfRows::ALL.len()];
        for round in 0..3000 {
            let kind = material::kind(&mut rng);
            let mut rows = small_table(&mut rng, kind, round);
            let way = OfRows::ALL[round % OfRows::ALL.len()];
            if !way.change(&mut rng, kind, &mut rows) {
                continue;
            }
            met[round % OfRows::ALL.len()] += 1;
            let answer = open(kind, &pack_rows(kind, &rows)).err();
            let expected = match brute::first_not_nested(&rows) {
                Some(place) => Some(Damage { refusal: Refusal::NotNested, place }),
                None => brute::first_alike(kind, &rows).map(|place| Damage { refusal: Refusal::NotReduced, place }),
            };
            assert_eq!(answer, expected, "{way:?}: {rows:?}");
            match way {
                OfRows::Recast | OfRows::NearlyAlike => {}
                way if OfRows::ALIKE.contains(&way) => {
                    assert_eq!(answer.map(|damage| damage.refusal), Some(Refusal::NotReduced), "{way:?}")
                }
                _ => assert_eq!(answer.map(|damage| damage.refusal), Some(Refusal::NotNested), "{way:?}"),
            }
        }
        assert!(met.iter().all(|&times| times > 50), "{met:?}");
    }

    #[test]
    fn halves_are_alike_though_the_right_one_is_cut_again() {
        let mut rng = Rng::new(22);
        for field in 0..FIELDS - 1 {
            for round in 0..100 {
                let mut rows = small_table(&mut rng, Kind::Marks, round);
                let Some(right) = halves(&mut rng, &mut rows, field, false, true) else { continue };
                let expected = Damage { refusal: Refusal::NotReduced, place: right.start };
                assert_eq!(open(Kind::Marks, &pack_rows(Kind::Marks, &rows)).err(), Some(expected));
                let left = right.start - group(&rows, right.start - 1, field).start;
                assert_ne!(left, right.len(), "the two are written alike");
            }
        }
    }

    #[test]
    fn changed_bytes_meet_the_refusal_that_is_meant() {
        let mut rng = Rng::new(23);
        let mut met = [0; OfBytes::ALL.len()];
        for round in 0..3000 {
            let kind = material::kind(&mut rng);
            let count = 1 + rng.below(60);
            let rows = table::rows(&material::with_rows(&mut rng, kind, count).into()).unwrap();
            let mut bytes = pack_rows(kind, &rows);
            let way = OfBytes::ALL[round % OfBytes::ALL.len()];
            if !way.change(&mut rng, kind, &mut bytes) {
                continue;
            }
            met[round % OfBytes::ALL.len()] += 1;
            let number = open(kind, &bytes).err().map_or(0, |damage| damage.refusal.number());
            let meant: &[u8] = match way {
                OfBytes::NoByte | OfBytes::PartBlock | OfBytes::TooLong => &[11],
                OfBytes::BodyByte | OfBytes::CheckByte => &[12],
                OfBytes::Number | OfBytes::Unused | OfBytes::BlockTwice | OfBytes::EmptyBlock => &[13],
                OfBytes::Count => &[13, 14],
                OfBytes::KindByte | OfBytes::Decision => &[14],
                OfBytes::BlockLost | OfBytes::BlocksSwapped => &[13, 15],
                _ => &[0, 13, 14, 15, 16],
            };
            assert!(meant.contains(&number), "{way:?}: {number}");
        }
        assert!(met.iter().all(|&times| times > 50), "{met:?}");
    }

    #[test]
    fn damaged_tables_meet_every_refusal() {
        let mut rng = Rng::new(24);
        let mut met = [0; 17];
        for round in 0..3000 {
            let kind = material::kind(&mut rng);
            let rows = small_table(&mut rng, kind, round);
            let bytes = damaged(&mut rng, kind, &rows);
            met[open(kind, &bytes).err().map_or(0, |damage| damage.refusal as usize)] += 1;
        }
        assert!(met[11..].iter().all(|&times| times > 100) && met[0] > 100, "{met:?}");
    }
}
