//! Random cases of every call.

use crate::case::{Case, Edit};
use crate::material::{self, SHAPES};
use crate::model::{Blend, Book, Decision, Kind, Packet, Range, Region, Rule, FIELDS};
use crate::packed::{mend, open, pack_rows, BLOCK, ROW, ROWS_AT, ROWS_A_BLOCK};
use crate::rng::Rng;
use crate::table;
use crate::text::read;

/// How long a random text may be, so that its digits stay below 2,000.
const LONGEST: usize = 990;

/// A random book's text, not too long.
fn text(rng: &mut Rng, kind: Kind, most: usize) -> Vec<u8> {
    let shape = rng.pick(&SHAPES);
    let mut count = rng.below(most + 1);
    loop {
        let rules = material::rules(rng, kind, shape, count);
        let text = material::text(rng, kind, &rules);
        if text.len() <= LONGEST {
            return text;
        }
        count /= 2;
    }
}

/// Two texts of which the second is often a changed copy of the first.
fn two_texts(rng: &mut Rng, kind: Kind) -> (Vec<u8>, Vec<u8>) {
    let first = text(rng, kind, 6);
    if rng.once_in(2) {
        return (first, text(rng, kind, 6));
    }
    let mut lines: Vec<&[u8]> = first.split(|&byte| byte == b'\n').collect();
    let (i, j) = (rng.below(lines.len()), rng.below(lines.len()));
    match rng.below(3) {
        0 => lines.swap(i, j),
        1 => drop(lines.remove(i)),
        _ => {}
    }
    let second = lines.join(&b'\n');
    if rng.once_in(2) {
        (first, second)
    } else {
        (second, first)
    }
}

fn any_packet(rng: &mut Rng, kind: Kind, texts: &[&[u8]]) -> Packet {
    let regions: Vec<Region> =
        texts.iter().flat_map(|text| read(kind, text).placed).map(|placed| placed.rule.region).collect();
    material::packet(rng, &regions)
}

/// One case of a call.
pub fn at_random(rng: &mut Rng, call: &str) -> Case {
    let kind = material::kind(rng);
    match call {
        "read" | "rows" | "findings" | "decide" | "part" => of_one_text(rng, kind, call),
        "over" | "meet" | "join" | "disputes" | "compare" | "winner" => of_two_texts(rng, kind, call),
        "edit" => Case::Edit(kind, edits(rng, kind)),
        _ => of_packed(rng, kind, call),
    }
}

fn of_one_text(rng: &mut Rng, kind: Kind, call: &str) -> Case {
    match call {
        "read" => {
            let mut text = text(rng, kind, 12);
            match rng.below(4) {
                0 => {}
                1 => material::spoil(rng, &mut text),
                _ => material::swap_word(rng, &mut text),
            }
            Case::Read(kind, text)
        }
        "rows" => {
            let mut text = text(rng, kind, 12);
            if rng.once_in(8) {
                material::spoil(rng, &mut text);
            }
            Case::Rows(kind, text)
        }
        "findings" => Case::Findings(kind, text(rng, kind, 12), rng.pick(&[0, 5, 20, 2016])),
        "decide" => {
            let text = text(rng, kind, 12);
            let packet = any_packet(rng, kind, &[&text]);
            Case::Decide(kind, text, packet)
        }
        _ => {
            let region = any_region(rng);
            Case::Part(kind, text(rng, kind, 8), region)
        }
    }
}

fn of_two_texts(rng: &mut Rng, kind: Kind, call: &str) -> Case {
    let kind = if call == "disputes" { Kind::Verdicts } else { kind };
    let (mut first, mut second) = two_texts(rng, kind);
    match call {
        "over" => Case::Layer(Blend::Over, kind, first, second),
        "meet" => Case::Layer(Blend::Meet, kind, first, second),
        "join" => Case::Layer(Blend::Join, kind, first, second),
        "disputes" => Case::Disputes(first, second),
        "compare" => Case::Compare(kind, first, second),
        _ => {
            let packet = any_packet(rng, kind, &[&first, &second]);
            if rng.once_in(6) {
                material::spoil(rng, &mut first);
            }
            if rng.once_in(6) {
                material::spoil(rng, &mut second);
            }
            Case::Winner(kind, first, second, packet)
        }
    }
}

fn of_packed(rng: &mut Rng, kind: Kind, call: &str) -> Case {
    match call {
        "pack" => Case::Pack(kind, text(rng, kind, 5), 512 * rng.below(8) + rng.pick(&[0, 1, 511])),
        "open" => Case::Open(kind, damaged(rng, kind)),
        "repack" => Case::Repack(kind, damaged(rng, kind)),
        "opened" => {
            let (bytes, packet) = damaged_and_packet(rng, kind);
            Case::Opened(kind, bytes, packet)
        }
        _ => {
            let (bytes, packet) = damaged_and_packet(rng, Kind::Verdicts);
            Case::Rig(bytes, packet)
        }
    }
}

/// A region of any shape, sometimes with a reversed range.
fn any_region(rng: &mut Rng) -> Region {
    let shape = rng.pick(&SHAPES);
    let mut region = material::region(rng, shape);
    if rng.once_in(8) {
        let range = &mut region.0[rng.below(FIELDS)];
        *range = Range::new(range.high, range.low);
    }
    region
}

/// Packed bytes of at most four blocks, some good, some with rows that are no table, some with changed bytes.
fn damaged(rng: &mut Rng, kind: Kind) -> Vec<u8> {
    let mut rows = loop {
        let rows = if rng.once_in(2) {
            material::nested_rows(rng, kind)
        } else {
            let shape = rng.pick(&SHAPES);
            let count = rng.below(4);
            table::rows(&material::book(rng, kind, shape, count).into()).unwrap_or_default()
        };
        if (1..=72).contains(&rows.len()) {
            break rows;
        }
    };
    if rng.once_in(2) {
        material::disturb(rng, &mut rows);
    }
    let mut bytes = pack_rows(kind, &rows);
    match rng.below(6) {
        0 => {
            let place = rng.below(bytes.len());
            bytes[place] ^= 1 << rng.below(8);
        }
        1 => {
            // Any byte, or one that counts or numbers, or a row's decision or kind.
            let row = ROWS_AT + rng.below(ROWS_A_BLOCK) * ROW;
            let telling = rng.pick(&[0, 1, 2, 3, row + 26, row + 27]);
            let block = rng.below(bytes.len() / BLOCK) * BLOCK;
            let any = rng.below(bytes.len());
            let place = rng.pick(&[any, block + telling, block + telling]);
            bytes[place] = rng.pick(&[0, 1, 2, 3, 16, 17, 18, 255]);
            bytes.chunks_mut(BLOCK).for_each(mend);
        }
        2 if rng.once_in(3) => bytes.truncate(rng.below(bytes.len())),
        _ => {}
    }
    bytes
}

/// The same, and a packet about the ends of its ranges, if it can be opened.
fn damaged_and_packet(rng: &mut Rng, kind: Kind) -> (Vec<u8>, Packet) {
    let bytes = damaged(rng, kind);
    let packet = match open(kind, &bytes) {
        Ok(source) => material::packet(rng, &source.regions()),
        Err(_) => material::packet(rng, &[]),
    };
    (bytes, packet)
}

/// Mostly a decision that a rule may have.
fn any_decision(rng: &mut Rng, kind: Kind) -> Decision {
    if rng.once_in(6) {
        rng.pick(&[0, 1, 3, 16, 255])
    } else {
        material::decision(rng, kind)
    }
}

/// Calls on a book, mostly at positions that will do.
fn edits(rng: &mut Rng, kind: Kind) -> Vec<Edit> {
    let mut book = Book::open(kind);
    (0..rng.below(16))
        .map(|_| {
            let length = book.rules().len();
            let mut position = || if rng.once_in(8) { length + rng.below(3) } else { rng.below(length.max(1)) };
            let (p, q) = (position(), position());
            match rng.below(7) {
                0 => {
                    let _ = book.drop(p);
                    Edit::Drop(p)
                }
                1 => Edit::Shift(p, q),
                2 => Edit::Recast(p, any_decision(rng, kind)),
                _ => {
                    let rule = Rule::new(any_region(rng), any_decision(rng, kind));
                    let _ = book.add(p, rule);
                    Edit::Add(p, rule)
                }
            }
        })
        .collect()
}
