//! Hand-made cases of every call.

use crate::case::{Case, Edit};
use crate::damage::empty_block;
use crate::material;
use crate::model::{Blend, Book, Kind, Packet, Range, Region, Rule, FIELDS, MAX_RULES};
use crate::packed::{mend, pack_rows, BLOCK, CHECK_AT, ROW, ROWS_AT, ROWS_A_BLOCK};
use crate::rng::Rng;
use crate::table::{self, MAX_ROWS};
use crate::text::print_line;
use crate::texts;

const VERDICTS: Kind = Kind::Verdicts;
const MARKS: Kind = Kind::Marks;

/// Rule lines of verdicts.
const TUG_FIRST: &str = "# Harbour tug, first edition.
allow 192.168.10.0-192.168.10.255 * 192.168.20.5 17-21 6
allow 192.168.10.0-192.168.10.255 * 192.168.20.5 22-80 6
deny * * 192.168.20.5 * 6

allow 192.168.10.7 * 192.168.20.6 502 6
deny * * 192.168.20.6 * *
";
const TUG_SECOND: &str = "# Harbour tug, second edition.
allow 192.168.10.7 * 192.168.20.6 502 6
deny * * 192.168.20.6 * *
allow 192.168.10.0-192.168.10.255 * 192.168.20.5 17-80 6
deny * * 192.168.20.5 * 6";
const YARD: &str = "allow 10.1.0.0-10.1.0.255 * 10.2.0.9 5000-5999 17\n";
const OURS: &str = "deny 10.1.0.0-10.1.0.255 * 10.2.0.9 5514 17\n";
const ALL: &str = "allow * * * * *\n";
const ALL_BUT_22: &str = "deny * * * 22 *\nallow * * * * *\n";
const LOW_PORTS: &str = "allow * * 0.0.0.1-0.0.0.3 1-3 *\n";
const HIGH_PORTS: &str = "allow * * 0.0.0.2-0.0.0.4 2-4 *\n";
const FOUR: &str = "allow * * * 17-80 *\ndeny * * * 22 *\nallow * * * 20-30 *\ndeny * * * * *\n";

/// The cases of a call in a fixed order, each with a few words on what it shows.
pub fn by_hand(call: &str) -> Vec<(String, Case)> {
    match call {
        "read" => texts::all().into_iter().map(|text| (text.name, Case::Read(text.kind, text.text))).collect(),
        "rows" => rows_by_hand(),
        "over" => layers_by_hand(Blend::Over),
        "meet" => layers_by_hand(Blend::Meet),
        "join" => layers_by_hand(Blend::Join),
        "part" => parts_by_hand(),
        "disputes" => disputes_by_hand(),
        "decide" => decides_by_hand(),
        "compare" => compares_by_hand(),
        "winner" => winners_by_hand(),
        "findings" => findings_by_hand(),
        "pack" => packs_by_hand(),
        "open" => damage_by_hand(),
        "opened" => with_packets(|bytes, packet| Case::Opened(VERDICTS, bytes, packet)),
        "repack" => with_packets(|bytes, _| Case::Repack(VERDICTS, bytes)),
        "rig" => with_packets(Case::Rig),
        "edit" => edits_by_hand(),
        _ => Vec::new(),
    }
}

fn named(name: &str, case: Case) -> (String, Case) {
    (name.to_string(), case)
}

/// The text of a book.
pub fn text_of(book: &Book) -> Vec<u8> {
    let lines = book.rules().iter().map(|rule| print_line(book.kind(), rule) + "\n");
    lines.collect::<String>().into_bytes()
}

/// The text of a book whose table has so many rows.
fn text_with_rows(kind: Kind, rows: usize) -> Vec<u8> {
    text_of(&material::with_rows(&mut Rng::new(rows as u64), kind, rows))
}

/// 64 boxes, each inside the next: far more rows than are given.
fn onion() -> Vec<u8> {
    let ring = |i: u32| Region::whole().0.map(|whole| Range::new(whole.low + 64 - i, whole.high - 64 + i));
    let rules = (0..64).map(|i| Rule::new(Region(ring(i)), if i % 2 == 0 { 2 } else { 0 }));
    rules.map(|rule| print_line(VERDICTS, &rule) + "\n").collect::<String>().into_bytes()
}

fn rows_by_hand() -> Vec<(String, Case)> {
    let rows = |name: &str, text: &str| named(name, Case::Rows(VERDICTS, text.into()));
    let mut cases = vec![
        rows("no rule", ""),
        rows("only a comment", "# nothing"),
        rows("everything", ALL),
        rows("one protocol", "allow * * * * 6"),
        rows("the first protocol", "deny * * * * 0"),
        rows("the last protocol", "deny * * * * 255"),
        rows("all but the first and the last", "deny * * * * 1-254"),
        rows("two ranges that abut", "allow * * * 17-21 *\nallow * * * 22-80 *"),
        rows("two ranges that abut and differ", "allow * * * 17-21 *\ndeny * * * 22-80 *"),
        rows("two ranges with a gap of one", "allow * * * 17-21 *\nallow * * * 23-80 *"),
        rows("a rule that is shadowed", "allow * * * 17-80 *\ndeny * * * 22 *"),
        rows("a rule inside another", "deny * * * 22 *\nallow * * * 17-80 *"),
        rows(
            "both halves of an axis",
            "allow 0.0.0.0-127.255.255.255 * * * *\nallow 128.0.0.0-255.255.255.255 * * * *",
        ),
        rows("neighbours alike on the next field, not on the last", "allow 0.0.0.0 1 * * *\nallow 0.0.0.1 1 * * 6\n"),
        rows(
            "neighbours alike though written apart",
            "allow 0.0.0.0 * * 1-9 *\nallow 0.0.0.1 * * 1-4 *\nallow 0.0.0.1 * * 5-9 *\n",
        ),
        rows("one packet", "allow 1.2.3.4 5 6.7.8.9 10 11\n"),
        rows("the first packet", "allow 0.0.0.0 0 0.0.0.0 0 0\n"),
        rows("the last packet", "deny 255.255.255.255 65535 255.255.255.255 65535 255\n"),
        rows("all but the last packet", "deny 255.255.255.255 65535 255.255.255.255 65535 255\nallow * * * * *\n"),
        rows("two boxes that cross", "allow * * 0.0.0.1-0.0.0.3 1-3 *\nallow * * 0.0.0.2-0.0.0.4 2-4 *\n"),
        rows("the tug, first edition", TUG_FIRST),
        rows("the tug, second edition", TUG_SECOND),
        rows("the pilot boat, the yard's list on top", &format!("{YARD}{OURS}")),
        rows("the pilot boat, our list on top", &format!("{OURS}{YARD}")),
        rows("four rules on ports", FOUR),
        named(
            "marks",
            Case::Rows(MARKS, b"log * * * 1-2 6\nmeter+hold * * * 2 *\nlog+meter+copy+hold * * * 3 0".to_vec()),
        ),
    ];
    for count in [2, 18, 19, 100] {
        cases.push((format!("{count} rows"), Case::Rows(VERDICTS, text_with_rows(VERDICTS, count))));
    }
    for kind in [VERDICTS, MARKS] {
        for count in [MAX_ROWS - 1, MAX_ROWS, MAX_ROWS + 1] {
            cases.push((
                format!("{count} rows of kind {}", kind.number()),
                Case::Rows(kind, text_with_rows(kind, count)),
            ));
        }
    }
    cases.push(named("64 boxes, each inside the next", Case::Rows(VERDICTS, onion())));
    for text in ["deny * * * * *\n\t", "deny * *\n", "drop * * * * *\n", "deny * * 10.0.0.256 * 6", "deny * 2-1 * * *"]
    {
        cases.push(rows("a text that is refused", text));
    }
    cases.push(named("a text with 65 rules", Case::Rows(VERDICTS, ALL.repeat(MAX_RULES + 1).into_bytes())));
    cases.push(named("a text of 16,385 bytes", Case::Rows(VERDICTS, vec![b'\n'; 16_385])));
    cases
}

fn layers_by_hand(blend: Blend) -> Vec<(String, Case)> {
    let of = |name: &str, kind, first: &str, second: &str| {
        named(name, Case::Layer(blend, kind, first.into(), second.into()))
    };
    vec![
        of("nothing and nothing", VERDICTS, "", ""),
        of("nothing and everything", VERDICTS, "", ALL),
        of("everything and nothing", VERDICTS, ALL, ""),
        of("all and all but port 22", VERDICTS, ALL, ALL_BUT_22),
        of("all but port 22 and all", VERDICTS, ALL_BUT_22, ALL),
        of("two boxes that cross", VERDICTS, LOW_PORTS, HIGH_PORTS),
        of("our list and the yard's", VERDICTS, OURS, YARD),
        of("the yard's list and ours", VERDICTS, YARD, OURS),
        of("both editions of the tug", VERDICTS, TUG_FIRST, TUG_SECOND),
        of("marks", MARKS, "log+copy * * * 1-5 *\n", "copy+hold * * * 3-9 *\n"),
    ]
}

fn parts_by_hand() -> Vec<(String, Case)> {
    let part = |name: &str, text: &str, region| named(name, Case::Part(VERDICTS, text.into(), region));
    let whole = Region::whole();
    vec![
        part("the whole of a list", FOUR, whole),
        part("one port", FOUR, whole.with(3, Range::one(22))),
        part("some ports", FOUR, whole.with(3, Range::new(0, 21))),
        part("the last address", FOUR, whole.with(0, Range::one(u32::MAX))),
        part("a part of nothing", "", whole.with(1, Range::new(3, 4))),
        part("a reversed range", FOUR, whole.with(4, Range::new(4, 3))),
        part("two reversed ranges", FOUR, whole.with(0, Range::new(1, 0)).with(4, Range::new(4, 3))),
    ]
}

fn disputes_by_hand() -> Vec<(String, Case)> {
    let of = |name: &str, first: &str, second: &str| named(name, Case::Disputes(first.into(), second.into()));
    vec![
        of("none between a list and itself", FOUR, FOUR),
        of("none with an empty list", FOUR, ""),
        of("the pilot boat", OURS, YARD),
        of("the pilot boat the other way round", YARD, OURS),
        of("all and all but port 22", ALL, ALL_BUT_22),
        of("no dispute between the editions of the tug", TUG_FIRST, TUG_SECOND),
        of("everything", ALL, "deny * * * * *"),
    ]
}

fn decides_by_hand() -> Vec<(String, Case)> {
    let of = |name: &str, kind, text: &str, packet| named(name, Case::Decide(kind, text.into(), packet));
    let last = [u32::MAX, 65_535, u32::MAX, 65_535, 255];
    vec![
        of("no rule", VERDICTS, "", [0; FIELDS]),
        of("the last packet", VERDICTS, ALL, last),
        of("below a range", VERDICTS, FOUR, [0, 0, 0, 16, 0]),
        of("the low end of a range", VERDICTS, FOUR, [0, 0, 0, 17, 0]),
        of("the high end of a range", VERDICTS, FOUR, [0, 0, 0, 80, 0]),
        of("above a range", VERDICTS, FOUR, [0, 0, 0, 81, 0]),
        of("the first of two rules", VERDICTS, ALL_BUT_22, [0, 0, 0, 22, 0]),
        of("neighbours in all fields but one", VERDICTS, "deny 0.0.0.1 1 0.0.0.1 1 1", [1, 1, 1, 1, 2]),
        of("marks", MARKS, "log+copy * * * 1-5 *\nhold * * * * *", [0, 0, 0, 5, 0]),
    ]
}

fn compares_by_hand() -> Vec<(String, Case)> {
    let of =
        |name: &str, kind, first: &str, second: &str| named(name, Case::Compare(kind, first.into(), second.into()));
    vec![
        of("all against all but port 22", VERDICTS, ALL, ALL_BUT_22),
        of("all but port 22 against all", VERDICTS, ALL_BUT_22, ALL),
        of("nothing against nothing", VERDICTS, "", ""),
        of("nothing against everything", VERDICTS, "", ALL),
        of("everything against nothing", VERDICTS, ALL, ""),
        of("first edition against second", VERDICTS, TUG_FIRST, TUG_SECOND),
        of("second edition against first", VERDICTS, TUG_SECOND, TUG_FIRST),
        of("our list against the yard's", VERDICTS, OURS, YARD),
        of("the yard's list against ours", VERDICTS, YARD, OURS),
        of(
            "they differ on the last packet only",
            VERDICTS,
            ALL,
            "deny 255.255.255.255 65535 255.255.255.255 65535 255\nallow * * * * *\n",
        ),
        of("marks that are not below each other", MARKS, "log * * * * 6\n", "meter * * * * *\n"),
        of("marks that are", MARKS, "log * * * * 6\n", "log+meter * * * * *\n"),
    ]
}

fn winners_by_hand() -> Vec<(String, Case)> {
    let of = |name: &str, first: &str, second: &str, packet: Packet| {
        named(name, Case::Winner(VERDICTS, first.into(), second.into(), packet))
    };
    let logger = [0x0a01_0007, 9, 0x0a02_0009, 5514, 17];
    let status = [0x0a01_0007, 9, 0x0a02_0009, 5515, 17];
    vec![
        of("our list on top, the logger", OURS, YARD, logger),
        of("the yard's list on top, the logger", YARD, OURS, logger),
        of("our list on top, another port", OURS, YARD, status),
        of("neither decides", OURS, YARD, [0; FIELDS]),
        of("no text", "", "", [0; FIELDS]),
        of(
            "the second of four rules",
            "deny * * * 1 *\n\n# x\nallow * * * 2 *\ndeny * * * 2 *\n",
            ALL,
            [0, 0, 0, 2, 0],
        ),
        of("a last line without line feed", "", "# x\nallow * * * * *", [1, 2, 3, 4, 5]),
        of("a fault in the first text", "x", ALL, [0; FIELDS]),
        of(
            "a fault in the second text, behind the line that would win",
            ALL,
            "deny * * * * *\ndeny * 2-1 * * *\n",
            [0; FIELDS],
        ),
        of("faults in both texts", "deny * * * * 256\n", "\0", [0; FIELDS]),
    ]
}

fn findings_by_hand() -> Vec<(String, Case)> {
    let of = |name: &str, text: &str, room| named(name, Case::Findings(VERDICTS, text.into(), room));
    let same = "allow * * * * 6\n";
    vec![
        of("none in an empty book", "", 0),
        of("four rules, five findings", FOUR, 2016),
        of("room for exactly five", FOUR, 5),
        of("room for one too few", FOUR, 4),
        of("a correlated pair", "allow * * * 10-20 *\ndeny * * * 15-30 *\n", 9),
        of("a pair that only overlaps", "allow * * * 10-20 *\nallow * * * 15-30 *\n", 9),
        of("a pair apart", "allow * * * 10-20 *\ndeny * * * 21-30 *\n", 9),
        of("equal regions, equal decisions", "allow * * * 1 *\nallow * * * 1 *\n", 9),
        of("equal regions, other decisions", "allow * * * 1 *\ndeny * * * 1 *\n", 9),
        of("64 rules alike: 2,016 findings", &same.repeat(64), 2016),
        of("64 rules alike, room for one too few", &same.repeat(64), 2015),
    ]
}

fn packs_by_hand() -> Vec<(String, Case)> {
    let of = |name: &str, text: &[u8], room| named(name, Case::Pack(VERDICTS, text.to_vec(), room));
    let mut cases = vec![
        of("the empty book", b"", 512),
        of("two ranges that abut", b"allow * * * 17-21 *\nallow * * * 22-80 *", 1024),
        of("no room at all", b"", 0),
        of("room for a block less one byte", b"", 511),
    ];
    for (rows, room) in [(18, 512), (18, 1023), (19, 1023), (19, 1024), (36, 1024), (37, 1535), (37, 2000)] {
        cases.push(of(&format!("{rows} rows into {room} bytes"), &text_with_rows(VERDICTS, rows), room));
    }
    let full = text_with_rows(VERDICTS, MAX_ROWS);
    cases.push(of("1,152 rows into 64 blocks", &full, 32_768));
    cases.push(of("1,152 rows into 64 blocks less one byte", &full, 32_767));
    cases.push(of("1,153 rows", &text_with_rows(VERDICTS, MAX_ROWS + 1), 40_000));
    cases
}

/// The packed bytes of a table of 38 rows: three blocks, the last with two rows.
fn three_blocks() -> Vec<u8> {
    let book = material::with_rows(&mut Rng::new(38), VERDICTS, 38);
    pack_rows(VERDICTS, &table::rows(&book.into()).expect("38 rows are not too many"))
}

fn damage_by_hand() -> Vec<(String, Case)> {
    let good = three_blocks();
    let open = |name: &str, bytes: &[u8]| named(name, Case::Open(VERDICTS, bytes.to_vec()));
    let mut cases = vec![
        open("three good blocks", &good),
        named("three good blocks of the other kind", Case::Open(MARKS, good.clone())),
        open("no byte", &[]),
        open("one byte", &[0]),
        open("a block less one byte", &good[..511]),
        open("a block and one byte", &good[..513]),
        open("only the first two blocks", &good[..1024]),
        open("65 blocks", &[0; 65 * BLOCK]),
    ];
    cases.extend(changed_bytes(&good));
    let eighteen =
        table::rows(&material::with_rows(&mut Rng::new(18), VERDICTS, 18).into()).expect("18 are not too many");
    cases.push(open("the second block twice", &[&good[..2 * BLOCK], &good[BLOCK..]].concat()));
    cases.push(open("one block without rows", &empty_block(0)));
    cases.push(open(
        "a block without rows behind a full one",
        &[&pack_rows(VERDICTS, &eighteen), &empty_block(1)[..]].concat(),
    ));
    cases.extend(listed_rows());
    let full = material::with_rows(&mut Rng::new(1), VERDICTS, MAX_ROWS);
    let mut rows = table::rows(&full.into()).expect("1,152 rows are not too many");
    cases.push(open("64 full blocks", &pack_rows(VERDICTS, &rows)));
    rows[MAX_ROWS - 1].region.0[4].high = 254;
    cases.push(open("64 full blocks that end short", &pack_rows(VERDICTS, &rows)));
    cases
}

/// Three good blocks with some bytes changed.
fn changed_bytes(good: &[u8]) -> Vec<(String, Case)> {
    // Each change is a name, places with their new bytes, and whether the check is made right again.
    let change = |name: &str, changes: &[(usize, u8)], mended: bool| {
        let mut bytes = good.to_vec();
        for &(place, byte) in changes {
            bytes[place] = byte;
        }
        if mended {
            bytes.chunks_mut(BLOCK).for_each(mend);
        }
        named(name, Case::Open(VERDICTS, bytes))
    };
    let in_row = |row: usize, place: usize| row / ROWS_A_BLOCK * BLOCK + ROWS_AT + row % ROWS_A_BLOCK * ROW + place;
    let flipped = |place: usize| (place, good[place] ^ 1);
    vec![
        change("the first byte", &[flipped(0)], false),
        change("the last byte of the first check", &[flipped(BLOCK - 1)], false),
        change("a row's byte in the second block", &[flipped(BLOCK + 100)], false),
        change("the last byte of all", &[flipped(3 * BLOCK - 1)], false),
        change("an unused byte of the last block, check wrong", &[(2 * BLOCK + CHECK_AT - 1, 9)], false),
        change("count 17 in the first block", &[(1, 17)], true),
        change("count 274 in the second block", &[(BLOCK, 1)], true),
        change("count 0 in the last block", &[(2 * BLOCK + 1, 0)], true),
        change("count 1 in the last block, so its second row is unused", &[(2 * BLOCK + 1, 1)], true),
        change("count 19 in the last block", &[(2 * BLOCK + 1, 19)], true),
        change("count 65,535 in the last block", &[(2 * BLOCK, 255), (2 * BLOCK + 1, 255)], true),
        change("number 1 in the first block", &[(3, 1)], true),
        change("number 0 in the last block", &[(2 * BLOCK + 3, 0)], true),
        change("number 258 in the last block", &[(2 * BLOCK + 2, 1)], true),
        change("the first unused byte", &[(in_row(38, 0), 1)], true),
        change("the last unused byte", &[(2 * BLOCK + CHECK_AT - 1, 1)], true),
        change("kind 2 in row 0", &[(in_row(0, 27), 2)], true),
        change("kind 0 in row 17", &[(in_row(17, 27), 0)], true),
        change("decision 3 in row 18", &[(in_row(18, 26), 3)], true),
        change("decision 255 in the last row", &[(in_row(37, 26), 255)], true),
        change("two foreign rows", &[(in_row(30, 26), 7), (in_row(20, 27), 7)], true),
        change("a foreign row in block 0 and a wrong number in block 1", &[(in_row(3, 26), 7), (BLOCK + 3, 7)], true),
        change("row 0 begins at source address 1", &[(in_row(0, 3), 1)], true),
        change("row 0 ends before it begins", &[(in_row(0, 26 - 2), 1), (in_row(0, 26 - 1), 0)], true),
        change("the last row ends short", &[(in_row(37, 25), 254)], true),
        change("row 18 has another low protocol", &[flipped(in_row(18, 24))], true),
        change("row 5 and its left neighbour have one decision", &[(in_row(5, 26), good[in_row(4, 26)])], true),
    ]
}

/// Short lists of rows, packed as they stand.
fn listed_rows() -> Vec<(String, Case)> {
    let rows = |name: &str, rows: &[(Region, u8)]| {
        let rows: Vec<Rule> = rows.iter().map(|&(region, decision)| Rule::new(region, decision)).collect();
        named(name, Case::Open(VERDICTS, pack_rows(VERDICTS, &rows)))
    };
    let whole = Region::whole();
    let cut = |field: usize, low, high| whole.with(field, Range::new(low, high));
    vec![
        rows("one whole row", &[(whole, 1)]),
        rows("one whole row twice", &[(whole, 1), (whole, 1)]),
        rows("a gap", &[(cut(4, 0, 5), 1), (cut(4, 7, 255), 2)]),
        rows("an overlap", &[(cut(4, 0, 5), 1), (cut(4, 5, 255), 2)]),
        rows("a range that ends right before it begins", &[(cut(4, 0, 5), 1), (cut(4, 6, 5), 2)]),
        rows("an empty range between two", &[(cut(4, 0, 5), 1), (cut(4, 6, 5), 2), (cut(4, 6, 255), 2)]),
        rows("two parts alike", &[(cut(4, 0, 5), 1), (cut(4, 6, 255), 1)]),
        rows("two parts alike on the first field", &[(cut(0, 0, 5), 1), (cut(0, 6, u32::MAX), 1)]),
        rows(
            "alike, though the right part is cut once more",
            &[
                (cut(1, 0, 9), 2),
                (cut(1, 10, 65_535).with(3, Range::new(0, 7)), 2),
                (cut(1, 10, 65_535).with(3, Range::new(8, 65_535)), 2),
            ],
        ),
        rows(
            "an earlier field goes on before the later one has ended",
            &[(cut(0, 0, 5).with(4, Range::new(0, 9)), 1), (cut(0, 6, u32::MAX), 2)],
        ),
        rows(
            "an earlier field's high end changes before the later one has ended",
            &[(cut(3, 0, 5).with(4, Range::new(0, 9)), 1), (cut(3, 0, 6).with(4, Range::new(10, 255)), 2)],
        ),
        rows(
            "an earlier field's low end changes before the later one has ended",
            &[(cut(0, 0, 5).with(4, Range::new(0, 9)), 1), (cut(0, 1, 5).with(4, Range::new(10, 255)), 2)],
        ),
        rows(
            "a later field that does not begin at 0",
            &[(cut(0, 0, 5), 1), (cut(0, 6, u32::MAX).with(4, Range::new(1, 255)), 2)],
        ),
    ]
}

/// Some of the cases of opening, with a packet each, as cases of another call.
fn with_packets(case: impl Fn(Vec<u8>, Packet) -> Case) -> Vec<(String, Case)> {
    let packets = [[0; FIELDS], [u32::MAX, 65_535, u32::MAX, 65_535, 255], [500, 1, 2, 3, 3]];
    let opened = damage_by_hand().into_iter().filter_map(|(name, case)| match case {
        Case::Open(Kind::Verdicts, bytes) if bytes.len() <= 3 * BLOCK => Some((name, bytes)),
        _ => None,
    });
    opened.zip(packets.into_iter().cycle()).map(|((name, bytes), packet)| (name, case(bytes, packet))).collect()
}

fn edits_by_hand() -> Vec<(String, Case)> {
    let rule = |protocol: u32, decision| Rule::new(Region::whole().with(4, Range::one(protocol)), decision);
    let reversed = |decision| Rule::new(Region::whole().with(1, Range::new(2, 1)), decision);
    let some: Vec<Edit> = (0..4).map(|i| Edit::Add(i as usize, rule(i, 2))).collect();
    let then = |edits: &[Edit]| [&some[..], edits].concat();
    let full: Vec<Edit> = (0..MAX_RULES).map(|i| Edit::Add(0, rule(i as u32, 2))).collect();
    let of = |name: &str, edits: &[Edit]| named(name, Case::Edit(VERDICTS, edits.to_vec()));
    vec![
        of("no call", &[]),
        of("calls on an empty book", &[Edit::Drop(0), Edit::Shift(0, 0), Edit::Recast(0, 2), Edit::Add(1, rule(1, 2))]),
        of(
            "add at the front, in the middle and at the end",
            &then(&[Edit::Add(0, rule(9, 0)), Edit::Add(2, rule(8, 0)), Edit::Add(6, rule(7, 0))]),
        ),
        of(
            "drop the first, a middle one and the last",
            &then(&[Edit::Drop(0), Edit::Drop(1), Edit::Drop(1), Edit::Drop(1)]),
        ),
        of("shift forth", &then(&[Edit::Shift(0, 3), Edit::Shift(1, 2)])),
        of("shift back", &then(&[Edit::Shift(3, 0), Edit::Shift(2, 1)])),
        of("shift in place", &then(&[Edit::Shift(2, 2)])),
        of("shift from and to no rule", &then(&[Edit::Shift(4, 0), Edit::Shift(0, 4), Edit::Shift(9, 9)])),
        of("recast", &then(&[Edit::Recast(0, 0), Edit::Recast(3, 0), Edit::Recast(3, 2)])),
        of(
            "recast refused",
            &then(&[
                Edit::Recast(4, 2),
                Edit::Recast(4, 1),
                Edit::Recast(0, 1),
                Edit::Recast(0, 3),
                Edit::Recast(0, 255),
            ]),
        ),
        of(
            "add refused",
            &then(&[
                Edit::Add(5, reversed(1)),
                Edit::Add(4, reversed(1)),
                Edit::Add(4, rule(0, 1)),
                Edit::Add(4, rule(0, 3)),
            ]),
        ),
        of(
            "add to a full book",
            &[
                &full[..],
                &[Edit::Add(99, reversed(1)), Edit::Drop(63), Edit::Add(99, reversed(1)), Edit::Add(63, rule(9, 0))],
            ]
            .concat(),
        ),
    ]
}
