//! Hand-made cases of all calls on packed tables, few enough for a gate: packing with its limits, good tables, every way
//! to damage one, two faults at once in every order, and the largest bytes.

use crate::by_hand::{by_hand, text_of};
use crate::case::Case;
use crate::damage::{halves, OfBytes, OfRows};
use crate::material;
use crate::model::{Book, Kind, Packet, Row, FIELDS, MAX_RULES, TOPS};
use crate::packed::{mend, pack_rows, BLOCK, CHECK_AT, MAX_BLOCKS, ROW, ROWS_AT, ROWS_A_BLOCK};
use crate::rng::Rng;
use crate::table::{self, MAX_ROWS};
use crate::text::read_book;

const KINDS: [Kind; 2] = [Kind::Verdicts, Kind::Marks];

/// A list that cuts every field, so that its table has 11 rows.
const VERDICT_BOX: &str = "allow 10.0.0.0-10.0.0.255 1024-65000 10.1.0.5-10.1.0.9 80-443 6-17\n";
const MARKS_BOX: &str = "log+hold 10.0.0.0-10.0.0.255 1024-65000 10.1.0.5-10.1.0.9 80-443 6-17\n";
const TWO_MARKS: &str = "meter * * * 502 6\nlog+meter+copy+hold * * 192.168.20.5-192.168.20.6 * 6\ncopy * * * 502 *\n";

/// All of them, in a fixed order.
pub fn packed_by_hand() -> Vec<(String, Case)> {
    let mut cases = by_hand("pack");
    packs(&mut cases);
    good_tables(&mut cases);
    cases.extend(by_hand("open").into_iter().filter(|(_, case)| case.to_string().len() < 8 * BLOCK));
    every_way(&mut cases);
    alike_at_each_field(&mut cases);
    two_faults(&mut cases);
    lengths(&mut cases);
    largest(&mut cases);
    cases
}

fn book_with_rows(kind: Kind, rows: usize) -> Book {
    material::with_rows(&mut Rng::new(rows as u64), kind, rows)
}

fn rows_of(book: Book) -> Vec<Row> {
    table::rows(&book.into()).expect("there are not too many rows")
}

fn packs(cases: &mut Vec<(String, Case)>) {
    let mut pack = |name: &str, kind, text: &[u8], room| {
        cases.push((format!("pack {name}"), Case::Pack(kind, text.to_vec(), room)));
    };
    pack("no rule of marks", Kind::Marks, b"", 512);
    pack("marks", Kind::Marks, TWO_MARKS.as_bytes(), 1536);
    pack("marks, a block too few", Kind::Marks, TWO_MARKS.as_bytes(), 511);
    pack("a box", Kind::Verdicts, VERDICT_BOX.as_bytes(), 512);
    pack("a box of marks", Kind::Marks, MARKS_BOX.as_bytes(), 1000);
    for (rows, room) in [(18, 512), (19, 1023), (19, 1024)] {
        pack(
            &format!("{rows} rows of marks into {room}"),
            Kind::Marks,
            &text_of(&book_with_rows(Kind::Marks, rows)),
            room,
        );
    }
    pack("1,153 rows of marks", Kind::Marks, &text_of(&book_with_rows(Kind::Marks, MAX_ROWS + 1)), 65_536);
    pack("a word of the other kind, and no room", Kind::Marks, VERDICT_BOX.as_bytes(), 0);
    pack("an address too large", Kind::Verdicts, b"allow * * 10.0.0.256 * 6", 512);
    pack("a reversed range of marks", Kind::Marks, b"log * * * * *\nlog * * * 9-8 *", 512);
    pack("65 rules", Kind::Verdicts, "deny * * * * *\n".repeat(MAX_RULES + 1).as_bytes(), 512);
}

/// Packets at the ends of a table's rows; the third lies in a row of decision 0, if there is one.
fn packets(rows: &[Row]) -> [Packet; 3] {
    let middle = rows[rows.len() / 2].region.0;
    let denied = rows.iter().rfind(|row| row.decision == 0).unwrap_or(&rows[rows.len() / 2]).region.0;
    [middle.map(|range| range.low), middle.map(|range| range.high), denied.map(|range| range.high)]
}

fn good_tables(cases: &mut Vec<(String, Case)>) {
    for kind in KINDS {
        let text = if kind == Kind::Marks { TWO_MARKS } else { VERDICT_BOX };
        let mut books = vec![read_book(kind, text.as_bytes()).expect("the text is good")];
        books.extend([1, 18, 19, 37].map(|rows| book_with_rows(kind, rows)));
        for rows in books.into_iter().map(rows_of) {
            let bytes = pack_rows(kind, &rows);
            let name = |call: &str| format!("{call}, {} good rows of kind {}", rows.len(), kind.number());
            let [low, high, denied] = packets(&rows);
            cases.push((name("open"), Case::Open(kind, bytes.clone())));
            cases.push((name("repack"), Case::Repack(kind, bytes.clone())));
            cases.push((name("opened"), Case::Opened(kind, bytes.clone(), low)));
            cases.push((name("opened"), Case::Opened(kind, bytes.clone(), high)));
            // The rig call knows no marks; one case is enough to show it.
            let rigs = match kind {
                Kind::Verdicts => vec![low, denied],
                Kind::Marks if rows.len() == 1 => vec![low],
                Kind::Marks => vec![],
            };
            cases.extend(rigs.into_iter().map(|packet| (name("rig"), Case::Rig(bytes.clone(), packet))));
        }
    }
}

/// One of the calls that open bytes; the rig's has verdicts only.
fn opening(turn: usize, kind: Kind, bytes: Vec<u8>, packet: Packet) -> Case {
    match turn % 4 {
        0 => Case::Open(kind, bytes),
        2 => Case::Repack(kind, bytes),
        3 if kind == Kind::Verdicts => Case::Rig(bytes, packet),
        _ => Case::Opened(kind, bytes, packet),
    }
}

/// Every way to damage a table, in tables of one block and of two. A way that fails on a table is tried on the next.
fn every_way(cases: &mut Vec<(String, Case)>) {
    for kind in KINDS {
        let mut rng = Rng::new(u64::from(kind.number()));
        let next = |rng: &mut Rng, turn: usize| rows_of(book_with_rows(kind, [9, 19][turn % 2] + rng.below(9)));
        for (turn, way) in OfRows::ALL.into_iter().enumerate() {
            let mut rows = next(&mut rng, turn);
            while !way.change(&mut rng, kind, &mut rows) {
                rows = next(&mut rng, turn);
            }
            let case = opening(turn / 2, kind, pack_rows(kind, &rows), packets(&rows)[0]);
            cases.push((format!("{way:?} of kind {}", kind.number()), case));
        }
        let ways = OfBytes::ALL.into_iter().filter(|&way| way != OfBytes::TooLong);
        for (turn, way) in ways.enumerate() {
            let rows = next(&mut rng, 1);
            let mut bytes = pack_rows(kind, &rows);
            while !way.change(&mut rng, kind, &mut bytes) {}
            let case = opening(turn, kind, bytes, packets(&rows)[0]);
            cases.push((format!("{way:?} of kind {}", kind.number()), case));
        }
    }
}

/// A range written as two alike ones at each field, the two cut further or not.
fn alike_at_each_field(cases: &mut Vec<(String, Case)>) {
    for kind in KINDS {
        let mut rng = Rng::new(50 + u64::from(kind.number()));
        let text = if kind == Kind::Marks { MARKS_BOX } else { VERDICT_BOX };
        for field in 0..FIELDS {
            let cuts = [(false, false), (false, true), (true, false), (true, true)];
            for (left, right) in cuts.into_iter().take(if kind == Kind::Marks { 2 } else { 4 }) {
                let mut rows = rows_of(read_book(kind, text.as_bytes()).expect("the text is good"));
                if halves(&mut rng, &mut rows, field, left, right).is_some() {
                    let name = format!("alike on field {field}, left cut {left}, right cut {right}");
                    // Mostly open, since it alone tells the place for every kind.
                    let turn = if left == right { field } else { 0 };
                    cases.push((name, opening(turn, kind, pack_rows(kind, &rows), packets(&rows)[0])));
                }
            }
        }
    }
}

/// A fault in a table of 38 rows: three blocks, the last with two rows.
#[derive(Clone, Copy, Debug)]
enum Fault {
    /// The check of a block.
    Check(usize),
    /// The number of a block.
    Number(usize),
    /// The kind of a row.
    Kind(usize),
    /// The decision of a row.
    Decision(usize),
    /// A row that begins too late on the last field.
    Gap(usize),
    /// A row with its left neighbour's decision, where the two differ on the last field only.
    Alike(usize),
}

/// All pairs of faults: which is told shows the order of checks.
fn two_faults(cases: &mut Vec<(String, Case)>) {
    let faults = [
        Fault::Check(1),
        Fault::Check(2),
        Fault::Number(1),
        Fault::Kind(17),
        Fault::Decision(18),
        Fault::Gap(6),
        Fault::Alike(30),
    ];
    let good = rows_of(book_with_rows(Kind::Verdicts, 38));
    for (i, &first) in faults.iter().enumerate() {
        for (j, &second) in faults.iter().enumerate().skip(i + 1) {
            let bytes = with_faults(&good, &[first, second]);
            let case = opening(3 * (i + j), Kind::Verdicts, bytes, packets(&good)[0]);
            cases.push((format!("{first:?} and {second:?}"), case));
        }
    }
}

fn with_faults(rows: &[Row], faults: &[Fault]) -> Vec<u8> {
    let mut rows = rows.to_vec();
    for fault in faults {
        match *fault {
            Fault::Gap(row) => rows[row].region.0[FIELDS - 1].low += 1,
            Fault::Alike(row) => rows[row].decision = rows[row - 1].decision,
            _ => {}
        }
    }
    let mut bytes = pack_rows(Kind::Verdicts, &rows);
    let in_row = |row: usize, place: usize| row / ROWS_A_BLOCK * BLOCK + ROWS_AT + row % ROWS_A_BLOCK * ROW + place;
    for fault in faults {
        match *fault {
            Fault::Number(block) => bytes[block * BLOCK + 3] = 7,
            Fault::Kind(row) => bytes[in_row(row, 27)] = 2,
            Fault::Decision(row) => bytes[in_row(row, 26)] = 3,
            _ => {}
        }
    }
    bytes.chunks_mut(BLOCK).for_each(mend);
    for fault in faults {
        if let Fault::Check(block) = *fault {
            bytes[block * BLOCK + CHECK_AT + 3] ^= 1;
        }
    }
    bytes
}

fn lengths(cases: &mut Vec<(String, Case)>) {
    for length in [0, 513] {
        for turn in 1..4 {
            let case = opening(turn, KINDS[(turn + 1) % 2], vec![0; length], [0; FIELDS]);
            cases.push((format!("{}, {length} bytes", case.call()), case));
        }
    }
}

fn largest(cases: &mut Vec<(String, Case)>) {
    let rows = rows_of(book_with_rows(Kind::Verdicts, MAX_ROWS));
    let bytes = pack_rows(Kind::Verdicts, &rows);
    let longer = [&bytes[..], &bytes[..BLOCK]].concat();
    assert_eq!(longer.len(), (MAX_BLOCKS + 1) * BLOCK);
    cases.push(("opened, 64 full blocks".to_string(), Case::Opened(Kind::Verdicts, bytes, TOPS)));
    cases.push(("open, 65 blocks".to_string(), Case::Open(Kind::Verdicts, longer)));
}

#[cfg(test)]
mod tests {
    use super::*;

    #[test]
    fn there_are_enough_for_a_gate_and_not_too_many() {
        let cases = packed_by_hand();
        assert!((150..=250).contains(&cases.len()), "{}", cases.len());
        let lines: Vec<String> = cases.iter().map(|(_, case)| case.to_string()).collect();
        let long = lines.iter().filter(|line| line.len() > 8 * BLOCK).count();
        let (asked, answered): (usize, usize) =
            (lines.iter().map(String::len).sum(), cases.iter().map(|(_, case)| case.answer().len()).sum());
        assert!(long <= 6 && asked + answered < 700_000, "{long} {asked} {answered}");
    }

    #[test]
    fn every_call_kind_and_answer_is_met() {
        let cases = packed_by_hand();
        for start in ["pack 1", "pack 2", "open 1", "open 2", "opened 1", "opened 2", "repack 1", "repack 2", "rig 0"] {
            assert!(cases.iter().any(|(_, case)| case.to_string().starts_with(start)), "{start}");
        }
        let answers: Vec<(&str, String)> = cases.iter().map(|(_, case)| (case.call(), case.answer())).collect();
        for call in ["open", "opened", "repack"] {
            for number in 11..=16 {
                let start = format!("refused {number} ");
                let met = answers.iter().any(|(other, answer)| *other == call && answer.starts_with(&start));
                assert!(met, "{call} {start}");
            }
        }
        for answer in ["decision 0", "decision 1", "decision 2", "answer 0", "answer 1", "answer 2", "answer 111"] {
            assert!(answers.iter().any(|(_, other)| other.trim() == answer), "{answer}");
        }
        for number in 112..=116 {
            assert!(answers.iter().any(|(_, other)| *other == format!("answer {number}\n")), "{number}");
        }
    }

    #[test]
    fn of_two_faults_the_one_of_the_earlier_check_is_told() {
        let mut cases = Vec::new();
        two_faults(&mut cases);
        let answer = |name: &str| {
            let (_, case) = cases.iter().find(|(other, _)| other == name).expect("there is such a pair");
            let (Case::Open(_, bytes) | Case::Opened(_, bytes, _) | Case::Repack(_, bytes) | Case::Rig(bytes, _)) =
                case
            else {
                unreachable!("all of them open bytes")
            };
            Case::Open(Kind::Verdicts, bytes.clone()).answer()
        };
        assert_eq!(answer("Check(1) and Check(2)"), "refused 12 place 1\n");
        assert_eq!(answer("Check(1) and Number(1)"), "refused 12 place 1\n");
        assert_eq!(answer("Check(2) and Number(1)"), "refused 13 place 1\n");
        assert_eq!(answer("Check(1) and Kind(17)"), "refused 14 place 17\n");
        assert_eq!(answer("Check(1) and Decision(18)"), "refused 12 place 1\n");
        assert_eq!(answer("Number(1) and Kind(17)"), "refused 14 place 17\n");
        assert_eq!(answer("Number(1) and Decision(18)"), "refused 13 place 1\n");
        assert_eq!(answer("Check(2) and Gap(6)"), "refused 12 place 2\n");
        assert_eq!(answer("Decision(18) and Gap(6)"), "refused 14 place 18\n");
        assert_eq!(answer("Gap(6) and Alike(30)"), "refused 15 place 6\n");
        assert_eq!(answer("Check(2) and Alike(30)"), "refused 12 place 2\n");
    }
}
