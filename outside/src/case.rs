//! Test cases: one line of text each, and the answer that is expected to it.
//!
//! A case line is a call's name and its arguments, separated by single spaces. Bytes are written in lowercase
//! hexadecimal digits, no bytes as `-`; packets and ranges as plain decimal numbers. An answer of several
//! lines ends with a line `end`. The README lists all forms.

use std::fmt;
use std::fmt::Write as _;

use crate::compare::{compare, Witness};
use crate::lists::{disputes, findings, winner, Which};
use crate::model::{Blend, Book, Decision, Kind, Packet, Range, Refusal, Region, Row, Rule, Source, FIELDS, TOPS};
use crate::packed::{open, pack_into, rig, BLOCK, MAX_BYTES, ROWS_A_BLOCK};
use crate::table;
use crate::text::{print_line, print_packet, print_rows, read, read_book, Fault};

#[derive(Clone, Debug, PartialEq, Eq)]
pub enum Case {
    /// Read a text.
    Read(Kind, Vec<u8>),
    /// The rows of a text's book.
    Rows(Kind, Vec<u8>),
    /// The rows of a layer over two texts' books.
    Layer(Blend, Kind, Vec<u8>, Vec<u8>),
    /// The rows of a part of a text's book.
    Part(Kind, Vec<u8>, Region),
    /// Where two texts' books contradict one another.
    Disputes(Vec<u8>, Vec<u8>),
    /// The decision of a packet.
    Decide(Kind, Vec<u8>, Packet),
    /// The first text's book against the second's.
    Compare(Kind, Vec<u8>, Vec<u8>),
    /// The line that decides a packet.
    Winner(Kind, Vec<u8>, Vec<u8>, Packet),
    /// The findings of a text's book, in a list with room for so many.
    Findings(Kind, Vec<u8>, usize),
    /// The table of a text's book, packed into so many bytes.
    Pack(Kind, Vec<u8>, usize),
    /// Open packed bytes.
    Open(Kind, Vec<u8>),
    /// Open packed bytes and decide a packet by them.
    Opened(Kind, Vec<u8>, Packet),
    /// Open packed bytes and pack again what they hold, into as many bytes as a packed table may have.
    Repack(Kind, Vec<u8>),
    /// Decide a packet on packed bytes.
    Rig(Vec<u8>, Packet),
    /// Calls on a book that is empty at first.
    Edit(Kind, Vec<Edit>),
}

/// A call on a book.
#[derive(Clone, Copy, Debug, PartialEq, Eq)]
pub enum Edit {
    Add(usize, Rule),
    Drop(usize),
    Shift(usize, usize),
    Recast(usize, Decision),
}

impl Case {
    pub fn call(&self) -> &'static str {
        match self {
            Case::Read(..) => "read",
            Case::Rows(..) => "rows",
            Case::Layer(Blend::Over, ..) => "over",
            Case::Layer(Blend::Meet, ..) => "meet",
            Case::Layer(Blend::Join, ..) => "join",
            Case::Layer(Blend::Clash, ..) => "clash",
            Case::Part(..) => "part",
            Case::Disputes(..) => "disputes",
            Case::Decide(..) => "decide",
            Case::Compare(..) => "compare",
            Case::Winner(..) => "winner",
            Case::Findings(..) => "findings",
            Case::Pack(..) => "pack",
            Case::Open(..) => "open",
            Case::Opened(..) => "opened",
            Case::Repack(..) => "repack",
            Case::Rig(..) => "rig",
            Case::Edit(..) => "edit",
        }
    }

    /// The expected answer, each line with its line feed.
    pub fn answer(&self) -> String {
        match self {
            Case::Read(kind, text) => answer_read(*kind, text),
            Case::Rows(kind, text) => {
                ended(with_book(*kind, text, |book| answer_rows("rows", *kind, table::rows(&book.into()))))
            }
            Case::Layer(blend, kind, first, second) => ended(with_both(*kind, first, second, |first, second| {
                answer_rows("rows", *kind, table::rows(&Source::pair(*blend, first, second)))
            })),
            Case::Part(kind, text, region) => ended(with_book(*kind, text, |book| {
                let rows = Source::part(*region, book.into()).and_then(|part| table::rows(&part));
                answer_rows("rows", *kind, rows)
            })),
            Case::Disputes(first, second) => ended(with_both(Kind::Verdicts, first, second, |first, second| {
                answer_rows("disputes", Kind::Verdicts, disputes(&first, &second))
            })),
            Case::Decide(kind, text, packet) => with_book(*kind, text, |book| answer_decision(&book.into(), packet)),
            Case::Compare(kind, first, second) => {
                with_both(*kind, first, second, |first, second| answer_compare(&first, &second))
            }
            Case::Winner(kind, first, second, packet) => answer_winner(*kind, first, second, packet),
            Case::Findings(kind, text, room) => ended(with_book(*kind, text, |book| answer_findings(&book, *room))),
            Case::Pack(kind, text, room) => ended(with_book(*kind, text, |book| answer_pack(&book.into(), *room))),
            Case::Open(kind, bytes) => {
                with_opened(*kind, bytes, |source| format!("opened {}\n", source.regions().len()))
            }
            Case::Opened(kind, bytes, packet) => with_opened(*kind, bytes, |source| answer_decision(&source, packet)),
            Case::Repack(kind, bytes) => ended(with_opened(*kind, bytes, |source| answer_pack(&source, MAX_BYTES))),
            Case::Rig(bytes, packet) => format!("answer {}\n", rig(bytes, packet)),
            Case::Edit(kind, edits) => ended(answer_edits(*kind, edits)),
        }
    }

    /// The case that a line describes.
    pub fn parse(line: &str) -> Result<Case, String> {
        let mut words = Words(line.split(' '));
        let case = words.case()?;
        match words.0.next() {
            None => Ok(case),
            Some(word) => Err(format!("one word too many: {word}")),
        }
    }
}

fn ended(answer: String) -> String {
    answer + "end\n"
}

fn refused_text(which: Which, fault: &Fault) -> String {
    format!("text {} {fault}\n", which as u8)
}

/// A refusal that has no place in a text.
fn refused(refusal: Refusal) -> String {
    format!("{refusal} layer 0 line 0 column 0\n")
}

fn with_book(kind: Kind, text: &[u8], answer: impl Fn(Book) -> String) -> String {
    match read_book(kind, text) {
        Ok(book) => answer(book),
        Err(fault) => format!("{fault}\n"),
    }
}

fn with_opened(kind: Kind, bytes: &[u8], answer: impl Fn(Source) -> String) -> String {
    match open(kind, bytes) {
        Ok(source) => answer(source),
        Err(damage) => format!("{damage}\n"),
    }
}

fn with_both(kind: Kind, first: &[u8], second: &[u8], answer: impl Fn(Source, Source) -> String) -> String {
    match (read_book(kind, first), read_book(kind, second)) {
        (Ok(first), Ok(second)) => answer(first.into(), second.into()),
        (Err(fault), _) => refused_text(Which::First, &fault),
        (_, Err(fault)) => refused_text(Which::Second, &fault),
    }
}

fn answer_read(kind: Kind, text: &[u8]) -> String {
    let reading = read(kind, text);
    let held = reading.placed.len();
    match reading.fault {
        None => format!("taken {held}\n"),
        Some(fault) => format!("{fault} after {held}\n"),
    }
}

fn answer_rows(title: &str, kind: Kind, rows: Result<Vec<Row>, Refusal>) -> String {
    match rows {
        Ok(rows) => print_rows(title, kind, &rows),
        Err(refusal) => refused(refusal),
    }
}

fn answer_decision(source: &Source, packet: &Packet) -> String {
    format!("decision {}\n", source.decide(packet))
}

fn answer_winner(kind: Kind, first: &[u8], second: &[u8], packet: &Packet) -> String {
    match winner(kind, first, second, packet) {
        Ok(None) => "none\n".to_string(),
        Ok(Some((which, placed))) => format!("text {} line {} {}\n", which as u8, placed.number, hex(placed.line)),
        Err((which, fault)) => refused_text(which, &fault),
    }
}

fn answer_compare(first: &Source, second: &Source) -> String {
    match compare(first, second) {
        None => "below\n".to_string(),
        Some(Witness { packet, first, second }) => format!("fails {} {first} {second}\n", print_packet(&packet)),
    }
}

fn answer_findings(book: &Book, room: usize) -> String {
    let found = findings(book);
    if found.len() > room {
        return refused(Refusal::TooManyRows);
    }
    let mut out = format!("findings {}\n", found.len());
    for (i, j, finding) in found {
        let _ = writeln!(out, "{i} {j} {}", finding as u8);
    }
    out
}

fn answer_pack(source: &Source, room: usize) -> String {
    let mut bytes = vec![0; room];
    match pack_into(source, &mut bytes) {
        Err(refusal) => refused(refusal),
        Ok(rows) => {
            let mut out = format!("packed {rows}\n");
            for block in bytes.chunks_exact(BLOCK).take(rows.div_ceil(ROWS_A_BLOCK)) {
                let _ = writeln!(out, "block {}", hex(block));
            }
            out
        }
    }
}

fn answer_edits(kind: Kind, edits: &[Edit]) -> String {
    let mut book = Book::open(kind);
    let mut out = String::new();
    for edit in edits {
        let outcome = match *edit {
            Edit::Add(position, rule) => book.add(position, rule).map(|()| None),
            Edit::Drop(position) => book.drop(position).map(Some),
            Edit::Shift(from, to) => book.shift(from, to).map(|()| None),
            Edit::Recast(position, decision) => book.recast(position, decision).map(|()| None),
        };
        let _ = match outcome {
            Ok(None) => writeln!(out, "taken"),
            Ok(Some(rule)) => writeln!(out, "dropped {}", print_line(kind, &rule)),
            Err(refusal) => writeln!(out, "{refusal}"),
        };
    }
    out + &print_rows("rules", kind, book.rules())
}

/// Lowercase hexadecimal digits; `-` for no bytes.
pub fn hex(bytes: &[u8]) -> String {
    if bytes.is_empty() {
        return "-".to_string();
    }
    let mut out = String::with_capacity(2 * bytes.len());
    for byte in bytes {
        let _ = write!(out, "{byte:02x}");
    }
    out
}

fn unhex(word: &str) -> Result<Vec<u8>, String> {
    if word == "-" {
        return Ok(Vec::new());
    }
    let digit = |byte: u8| match byte {
        b'0'..=b'9' => Ok(byte - b'0'),
        b'a'..=b'f' => Ok(byte - b'a' + 10),
        _ => Err(format!("no hexadecimal digit: {}", byte as char)),
    };
    if word.is_empty() || !word.len().is_multiple_of(2) {
        return Err("hexadecimal digits come in pairs".to_string());
    }
    word.as_bytes().chunks(2).map(|pair| Ok(digit(pair[0])? << 4 | digit(pair[1])?)).collect()
}

fn print_region(region: &Region) -> String {
    region.0.map(|range| format!("{} {}", range.low, range.high)).join(" ")
}

impl fmt::Display for Edit {
    fn fmt(&self, out: &mut fmt::Formatter<'_>) -> fmt::Result {
        match self {
            Edit::Add(position, rule) => {
                write!(out, "add {position} {} {}", rule.decision, print_region(&rule.region))
            }
            Edit::Drop(position) => write!(out, "drop {position}"),
            Edit::Shift(from, to) => write!(out, "shift {from} {to}"),
            Edit::Recast(position, decision) => write!(out, "recast {position} {decision}"),
        }
    }
}

impl fmt::Display for Case {
    fn fmt(&self, out: &mut fmt::Formatter<'_>) -> fmt::Result {
        write!(out, "{}", self.call())?;
        match self {
            Case::Read(kind, bytes) | Case::Rows(kind, bytes) | Case::Open(kind, bytes) | Case::Repack(kind, bytes) => {
                write!(out, " {} {}", kind.number(), hex(bytes))
            }
            Case::Layer(_, kind, first, second) | Case::Compare(kind, first, second) => {
                write!(out, " {} {} {}", kind.number(), hex(first), hex(second))
            }
            Case::Part(kind, text, region) => {
                write!(out, " {} {} {}", kind.number(), hex(text), print_region(region))
            }
            Case::Disputes(first, second) => write!(out, " {} {}", hex(first), hex(second)),
            Case::Decide(kind, bytes, packet) | Case::Opened(kind, bytes, packet) => {
                write!(out, " {} {} {}", kind.number(), hex(bytes), print_packet(packet))
            }
            Case::Winner(kind, first, second, packet) => {
                let packet = print_packet(packet);
                write!(out, " {} {} {} {packet}", kind.number(), hex(first), hex(second))
            }
            Case::Findings(kind, text, room) | Case::Pack(kind, text, room) => {
                write!(out, " {} {} {room}", kind.number(), hex(text))
            }
            Case::Rig(bytes, packet) => write!(out, " {} {}", hex(bytes), print_packet(packet)),
            Case::Edit(kind, edits) => {
                write!(out, " {}", kind.number())?;
                edits.iter().try_for_each(|edit| write!(out, " {edit}"))
            }
        }
    }
}

/// The words of a case line that are not yet read.
struct Words<'a>(std::str::Split<'a, char>);

impl Words<'_> {
    fn case(&mut self) -> Result<Case, String> {
        Ok(match self.word()? {
            "read" => Case::Read(self.kind()?, self.bytes()?),
            "rows" => Case::Rows(self.kind()?, self.bytes()?),
            "over" => Case::Layer(Blend::Over, self.kind()?, self.bytes()?, self.bytes()?),
            "meet" => Case::Layer(Blend::Meet, self.kind()?, self.bytes()?, self.bytes()?),
            "join" => Case::Layer(Blend::Join, self.kind()?, self.bytes()?, self.bytes()?),
            "clash" => Case::Layer(Blend::Clash, self.kind()?, self.bytes()?, self.bytes()?),
            "part" => Case::Part(self.kind()?, self.bytes()?, self.region()?),
            "disputes" => Case::Disputes(self.bytes()?, self.bytes()?),
            "decide" => Case::Decide(self.kind()?, self.bytes()?, self.packet()?),
            "compare" => Case::Compare(self.kind()?, self.bytes()?, self.bytes()?),
            "winner" => Case::Winner(self.kind()?, self.bytes()?, self.bytes()?, self.packet()?),
            "findings" => Case::Findings(self.kind()?, self.bytes()?, self.number()?),
            "pack" => Case::Pack(self.kind()?, self.bytes()?, self.number()?),
            "open" => Case::Open(self.kind()?, self.bytes()?),
            "opened" => Case::Opened(self.kind()?, self.bytes()?, self.packet()?),
            "repack" => Case::Repack(self.kind()?, self.bytes()?),
            "rig" => Case::Rig(self.bytes()?, self.packet()?),
            "edit" => {
                let kind = self.kind()?;
                let mut edits = Vec::new();
                while let Some(name) = self.0.next() {
                    edits.push(self.edit(name)?);
                }
                Case::Edit(kind, edits)
            }
            other => return Err(format!("no such call: {other}")),
        })
    }

    fn edit(&mut self, name: &str) -> Result<Edit, String> {
        Ok(match name {
            "add" => {
                let (position, decision) = (self.number()?, self.number()?);
                Edit::Add(position, Rule::new(self.region()?, decision))
            }
            "drop" => Edit::Drop(self.number()?),
            "shift" => Edit::Shift(self.number()?, self.number()?),
            "recast" => Edit::Recast(self.number()?, self.number()?),
            other => return Err(format!("no such call on a book: {other}")),
        })
    }

    fn word(&mut self) -> Result<&str, String> {
        self.0.next().ok_or_else(|| "a word is wanting".to_string())
    }

    fn number<T: std::str::FromStr>(&mut self) -> Result<T, String> {
        let word = self.word()?;
        word.parse().map_err(|_| format!("no number, or too large: {word}"))
    }

    fn kind(&mut self) -> Result<Kind, String> {
        Kind::from_number(self.number()?).ok_or_else(|| "the kind is 1 or 2".to_string())
    }

    fn bytes(&mut self) -> Result<Vec<u8>, String> {
        unhex(self.word()?)
    }

    fn value(&mut self, field: usize) -> Result<u32, String> {
        match self.number()? {
            value if value <= TOPS[field] => Ok(value),
            value => Err(format!("{value} is above the field's largest value")),
        }
    }

    fn packet(&mut self) -> Result<Packet, String> {
        let mut packet = [0; FIELDS];
        for (field, value) in packet.iter_mut().enumerate() {
            *value = self.value(field)?;
        }
        Ok(packet)
    }

    fn region(&mut self) -> Result<Region, String> {
        let mut region = Region::whole();
        for field in 0..FIELDS {
            region.0[field] = Range::new(self.value(field)?, self.value(field)?);
        }
        Ok(region)
    }
}
