//! Rule text: reading it into rules or a fault, and printing rules and rows in line form.

use std::fmt;

use crate::model::{Book, Kind, Packet, Range, Refusal, Region, Row, Rule, FIELDS, MAX_RULES, TOPS};

/// The most bytes a rule text has.
pub const MAX_TEXT: usize = 16_384;

/// The layers of reading, each with the number that a fault tells.
#[derive(Clone, Copy, Debug, PartialEq, Eq)]
pub enum Layer {
    Letters = 1,
    Words = 2,
    Line = 3,
    Book = 4,
}

/// Why a text is refused, and where. Line and column count from 1.
#[derive(Clone, Copy, Debug, PartialEq, Eq)]
pub struct Fault {
    pub refusal: Refusal,
    pub layer: Layer,
    pub line: usize,
    pub column: usize,
}

impl fmt::Display for Fault {
    fn fmt(&self, out: &mut fmt::Formatter<'_>) -> fmt::Result {
        let Fault { refusal, layer, line, column } = self;
        write!(out, "{refusal} layer {} line {line} column {column}", *layer as u8)
    }
}

/// A rule that was read, with the line it stands in.
#[derive(Clone, Debug, PartialEq, Eq)]
pub struct Placed<'a> {
    pub rule: Rule,
    /// The line's number, from 1.
    pub number: usize,
    /// The line without its line feed.
    pub line: &'a [u8],
}

/// What reading a text comes to: the rules of the lines before the fault, or of all lines.
#[derive(Clone, Debug, PartialEq, Eq)]
pub struct Reading<'a> {
    pub placed: Vec<Placed<'a>>,
    pub fault: Option<Fault>,
}

impl<'a> Reading<'a> {
    /// The rules, or the fault if there is one.
    pub fn finish(self) -> Result<Vec<Placed<'a>>, Fault> {
        match self.fault {
            Some(fault) => Err(fault),
            None => Ok(self.placed),
        }
    }
}

/// The book of a text.
pub fn read_book(kind: Kind, text: &[u8]) -> Result<Book, Fault> {
    let mut book = Book::open(kind);
    for placed in read(kind, text).finish()? {
        book.push(placed.rule).expect("the rules that were read are good and not more than 64");
    }
    Ok(book)
}

/// A fault within one line.
struct Flaw {
    refusal: Refusal,
    layer: Layer,
    column: usize,
}

pub fn read(kind: Kind, text: &[u8]) -> Reading<'_> {
    let mut placed = Vec::new();
    if text.len() > MAX_TEXT {
        let fault = Fault { refusal: Refusal::TextTooLong, layer: Layer::Book, line: 0, column: 0 };
        return Reading { placed, fault: Some(fault) };
    }
    for (index, line) in lines(text).enumerate() {
        let number = index + 1;
        let outcome = read_line(kind, line).and_then(|rule| match rule {
            Some(_) if placed.len() == MAX_RULES => {
                Err(Flaw { refusal: Refusal::BookFull, layer: Layer::Book, column: 1 })
            }
            rule => Ok(rule),
        });
        match outcome {
            Ok(Some(rule)) => placed.push(Placed { rule, number, line }),
            Ok(None) => {}
            Err(Flaw { refusal, layer, column }) => {
                let fault = Fault { refusal, layer, line: number, column };
                return Reading { placed, fault: Some(fault) };
            }
        }
    }
    Reading { placed, fault: None }
}

/// The lines of a text without their line feeds. A line feed at the very end makes no further line.
fn lines(text: &[u8]) -> impl Iterator<Item = &[u8]> {
    text.split_inclusive(|&byte| byte == b'\n').map(|line| line.strip_suffix(b"\n").unwrap_or(line))
}

/// The rule of a line, or none if the line is to be skipped.
fn read_line(kind: Kind, line: &[u8]) -> Result<Option<Rule>, Flaw> {
    if let Some(index) = line.iter().position(|byte| !(32..=126).contains(byte)) {
        return Err(Flaw { refusal: Refusal::BadLetter, layer: Layer::Letters, column: index + 1 });
    }
    if line.is_empty() || line[0] == b'#' {
        return Ok(None);
    }

    let (words, columns) = split(line)?;
    let decision =
        kind.read(words[0]).ok_or(Flaw { refusal: Refusal::UnknownDecision, layer: Layer::Line, column: 1 })?;
    let mut region = Region::whole();
    for field in 0..FIELDS {
        let flaw = |refusal| Flaw { refusal, layer: Layer::Words, column: columns[field + 1] };
        let range = read_range(field, words[field + 1]).ok_or(flaw(Refusal::Malformed))?;
        if range.is_reversed() {
            return Err(flaw(Refusal::Reversed));
        }
        region.0[field] = range;
    }
    Ok(Some(Rule::new(region, decision)))
}

const WORDS: usize = FIELDS + 1;

/// The six words of a line and their columns.
fn split(line: &[u8]) -> Result<([&[u8]; WORDS], [usize; WORDS]), Flaw> {
    let flaw = |column| Flaw { refusal: Refusal::BadWordCount, layer: Layer::Line, column };
    let mut words = [&line[..0]; WORDS];
    let mut columns = [0; WORDS];
    let mut column = 1;
    let mut count = 0;
    for word in line.split(|&byte| byte == b' ') {
        if word.is_empty() || count == WORDS {
            return Err(flaw(column));
        }
        words[count] = word;
        columns[count] = column;
        column += word.len() + 1;
        count += 1;
    }
    if count < WORDS {
        return Err(flaw(line.len() + 1));
    }
    Ok((words, columns))
}

/// The range that a word names, reversed or not; none if the word is malformed.
pub fn read_range(field: usize, word: &[u8]) -> Option<Range> {
    if word == b"*" {
        return Some(Range::whole(field));
    }
    let values: Vec<Option<u32>> = word.split(|&byte| byte == b'-').map(|value| read_value(field, value)).collect();
    match values[..] {
        [Some(value)] => Some(Range::one(value)),
        [Some(low), Some(high)] => Some(Range::new(low, high)),
        _ => None,
    }
}

fn is_address(field: usize) -> bool {
    TOPS[field] == u32::MAX
}

/// A value of a field as rule text writes it.
pub fn read_value(field: usize, word: &[u8]) -> Option<u32> {
    if !is_address(field) {
        return read_number(word, TOPS[field]);
    }
    let parts: Vec<&[u8]> = word.split(|&byte| byte == b'.').collect();
    if parts.len() != 4 {
        return None;
    }
    parts.into_iter().try_fold(0, |sum, part| Some(sum << 8 | read_number(part, 255)?))
}

/// A decimal number up to `top`, without a leading 0.
fn read_number(word: &[u8], top: u32) -> Option<u32> {
    if word.is_empty() || word.len() > 1 && word[0] == b'0' {
        return None;
    }
    let mut number: u64 = 0;
    for &byte in word {
        if !byte.is_ascii_digit() {
            return None;
        }
        number = number * 10 + u64::from(byte - b'0');
        // Above the top it stays so with every further digit, even if a later byte is no digit.
        if number > u64::from(top) {
            return None;
        }
    }
    u32::try_from(number).ok()
}

/// A value of a field in the form of rule text.
pub fn print_value(field: usize, value: u32) -> String {
    if is_address(field) {
        let [a, b, c, d] = value.to_be_bytes();
        format!("{a}.{b}.{c}.{d}")
    } else {
        value.to_string()
    }
}

/// A range word: `*` for a whole range, a single value alone.
pub fn print_range(field: usize, range: Range) -> String {
    if range == Range::whole(field) {
        "*".to_string()
    } else if range.low == range.high {
        print_value(field, range.low)
    } else {
        format!("{}-{}", print_value(field, range.low), print_value(field, range.high))
    }
}

/// A rule or a row in line form, without a line feed.
pub fn print_line(kind: Kind, row: &Row) -> String {
    let mut line = kind.word(row.decision);
    for field in 0..FIELDS {
        line.push(' ');
        line.push_str(&print_range(field, row.region.0[field]));
    }
    line
}

/// The number of rows under a title, then the rows in line form, each line with its line feed.
pub fn print_rows(title: &str, kind: Kind, rows: &[Row]) -> String {
    let mut out = format!("{title} {}\n", rows.len());
    for row in rows {
        out.push_str(&print_line(kind, row));
        out.push('\n');
    }
    out
}

/// A packet as five plain numbers.
pub fn print_packet(packet: &Packet) -> String {
    packet.map(|value| value.to_string()).join(" ")
}

#[cfg(test)]
mod tests {
    use super::*;
    use std::collections::HashMap;

    fn fault_of(text: &[u8]) -> String {
        let reading = read(Kind::Verdicts, text);
        let held = reading.placed.len();
        match reading.fault {
            None => format!("taken {held}"),
            Some(fault) => format!("{fault} after {held}"),
        }
    }

    #[test]
    fn the_examples_of_the_rules() {
        assert_eq!(fault_of(b"allow 10.0.0.0-10.0.0.255 * 10.1.0.5 443 6"), "taken 1");
        assert_eq!(fault_of(b"allow * *"), "refused 8 layer 3 line 1 column 10 after 0");
        assert_eq!(fault_of(b"allow * * 10.0.0.256 * 6"), "refused 10 layer 2 line 1 column 11 after 0");
        assert_eq!(fault_of(b" # indented"), "refused 8 layer 3 line 1 column 1 after 0");
        assert_eq!(fault_of(b"   "), "refused 8 layer 3 line 1 column 1 after 0");
        for word in ["-", "1-", "1--2", "1-2-3", "*-1", "01", "256"] {
            let text = format!("allow * * * * {word}");
            assert_eq!(fault_of(text.as_bytes()), "refused 10 layer 2 line 1 column 15 after 0", "{word}");
        }
        assert_eq!(fault_of(b"allow * 65536 * * *"), "refused 10 layer 2 line 1 column 9 after 0");
        assert_eq!(fault_of(b"allow 1.2.3 * * * *"), "refused 10 layer 2 line 1 column 7 after 0");
    }

    #[test]
    fn lines_end_and_are_skipped() {
        assert_eq!(fault_of(b""), "taken 0");
        assert_eq!(fault_of(b"\n"), "taken 0");
        assert_eq!(fault_of(b"\n\n#\n# x"), "taken 0");
        assert_eq!(fault_of(b"\n#\nallow * * * * *\n\ndeny * * * * *"), "taken 2");
        assert_eq!(fault_of(b"allow * * * * *\n\n \n"), "refused 8 layer 3 line 3 column 1 after 1");
        assert_eq!(fault_of(b"allow * * * * *\r\n"), "refused 7 layer 1 line 1 column 16 after 0");
        assert_eq!(fault_of(b"allow * * * * *\n#\r"), "refused 7 layer 1 line 2 column 2 after 1");
    }

    #[test]
    fn word_counts_are_placed() {
        assert_eq!(fault_of(b"allow * * * * * *"), "refused 8 layer 3 line 1 column 17 after 0");
        assert_eq!(fault_of(b"allow * * * * * * "), "refused 8 layer 3 line 1 column 17 after 0");
        assert_eq!(fault_of(b"allow * * * * * "), "refused 8 layer 3 line 1 column 17 after 0");
        assert_eq!(fault_of(b"allow  * * * * * *"), "refused 8 layer 3 line 1 column 7 after 0");
        assert_eq!(fault_of(b"allow * * * * "), "refused 8 layer 3 line 1 column 15 after 0");
        assert_eq!(fault_of(b"x"), "refused 8 layer 3 line 1 column 2 after 0");
    }

    #[test]
    fn faults_keep_their_order() {
        assert_eq!(fault_of(b"x * * * *\x01"), "refused 7 layer 1 line 1 column 10 after 0");
        assert_eq!(fault_of(b"x 1 * * * *"), "refused 9 layer 3 line 1 column 1 after 0");
        assert_eq!(fault_of(b"none * * * * *"), "refused 9 layer 3 line 1 column 1 after 0");
        assert_eq!(fault_of(b"deny * 2-1 x * *"), "refused 3 layer 2 line 1 column 8 after 0");
        assert_eq!(fault_of(b"deny * 2-01 * * *"), "refused 10 layer 2 line 1 column 8 after 0");
        assert_eq!(fault_of(b"deny * 2-2 * * *"), "taken 1");
    }

    #[test]
    fn numbers_never_wrap() {
        for number in ["256", "4294967302", "18446744073709551622", "340282366920938463463374607431768211462"] {
            assert_eq!(read_number(number.as_bytes(), 255), None);
        }
        assert_eq!(read_number(b"4294967295", u32::MAX), Some(u32::MAX));
        assert_eq!(read_value(0, b"255.255.255.255"), Some(u32::MAX));
        assert_eq!(read_value(0, b"1.2.3.4"), Some(0x0102_0304));
    }

    /// All words of up to so many of the given letters.
    fn words(letters: &[u8], longest: usize) -> Vec<Vec<u8>> {
        let mut all = vec![Vec::new()];
        let mut from = 0;
        for _ in 0..longest {
            let to = all.len();
            for i in from..to {
                all.extend(letters.iter().map(|&letter| [&all[i][..], &[letter]].concat()).collect::<Vec<_>>());
            }
            from = to;
        }
        all
    }

    #[test]
    fn range_words_are_those_that_can_be_written() {
        let mut protocols = HashMap::from([("*".to_string(), Range::whole(4))]);
        for low in 0..=255 {
            protocols.insert(low.to_string(), Range::one(low));
            for high in 0..=255 {
                protocols.insert(format!("{low}-{high}"), Range::new(low, high));
            }
        }
        for word in words(b"0125-*.+", 5) {
            let expected = protocols.get(std::str::from_utf8(&word).unwrap());
            assert_eq!(read_range(4, &word).as_ref(), expected, "{word:?}");
        }

        let numbers = [0, 1, 2, 10, 11, 12, 20, 21, 22];
        let mut addresses = HashMap::from([("*".to_string(), Range::whole(0))]);
        for a in numbers {
            for b in numbers {
                for c in numbers {
                    for d in numbers {
                        let value = ((a * 256 + b) * 256 + c) * 256 + d;
                        addresses.insert(format!("{a}.{b}.{c}.{d}"), Range::one(value));
                    }
                }
            }
        }
        for word in words(b"012.-", 8) {
            let expected = addresses.get(std::str::from_utf8(&word).unwrap());
            assert_eq!(read_range(0, &word).as_ref(), expected, "{word:?}");
        }
    }

    #[test]
    fn word_counts_are_those_of_the_rules() {
        for line in words(b"a ", 14) {
            let all: Vec<&[u8]> = line.split(|&byte| byte == b' ').collect();
            let column = |index: usize| all[..index].iter().map(|word| word.len() + 1).sum::<usize>() + 1;
            let faulty = (0..all.len()).find(|&index| all[index].is_empty() || index == 6);
            let expected = match faulty {
                Some(index) => Some(column(index)),
                None if all.len() < 6 => Some(line.len() + 1),
                None => None,
            };
            assert_eq!(split(&line).err().map(|flaw| flaw.column), expected, "{line:?}");
        }
    }

    #[test]
    fn limits_of_size() {
        let mut text = b"deny * * * * *\n".repeat(64);
        assert_eq!(fault_of(&text), "taken 64");
        text.extend_from_slice(b"deny * * * * *");
        assert_eq!(fault_of(&text), "refused 1 layer 4 line 65 column 1 after 64");
        text.extend_from_slice(b" *");
        assert_eq!(fault_of(&text), "refused 8 layer 3 line 65 column 16 after 64");
        assert_eq!(fault_of(&[b'\n'; MAX_TEXT]), "taken 0");
        assert_eq!(fault_of(&[b'\n'; MAX_TEXT + 1]), "refused 6 layer 4 line 0 column 0 after 0");
    }

    #[test]
    fn what_is_printed_is_read_back() {
        let region = Region([
            Range::new(0, 0x0a00_00ff),
            Range::one(0),
            Range::one(u32::MAX),
            Range::new(1, 65_535),
            Range::whole(4),
        ]);
        for kind in [Kind::Verdicts, Kind::Marks] {
            for decision in (0..kind.count()).filter(|&d| d != kind.silent()) {
                let rule = Rule::new(region, decision);
                let line = print_line(kind, &rule);
                let placed = read(kind, line.as_bytes()).finish().unwrap();
                assert_eq!(placed, [Placed { rule, number: 1, line: line.as_bytes() }]);
            }
        }
        let line = print_line(Kind::Verdicts, &Rule::new(region, 1));
        assert_eq!(line, "none 0.0.0.0-10.0.0.255 0 255.255.255.255 1-65535 *");
    }
}
